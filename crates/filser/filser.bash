# Completion of filser's arguments, for bash.

# Whether the word at a place is a file or a folder of the host.
_filser_is_path() {
    case $1 in
        convert | export | salvage) [ "$2" -eq 2 ] || [ "$2" -eq 3 ] ;;
        import) [ "$2" -eq 2 ] || [ "$2" -ge 4 ] ;;
        *) [ "$2" -eq 2 ] ;;
    esac
}

_filser() {
    local word=${COMP_WORDS[COMP_CWORD]} command=${COMP_WORDS[1]-}
    if [ "$COMP_CWORD" -eq 1 ]; then
        mapfile -t COMPREPLY < <(compgen -W 'init run calls wire put get delete import export salvage list check convert migrate help -h --help -V --version' -- "$word")
        return
    fi
    local options='--form --help'
    case $command in
        init) options='--layout --form --help' ;;
        run | calls) options='--date --minute --form --help' ;;
        list) options='--tsv --form --help' ;;
        put) options='--words --bytes --new --date --minute --form --help' ;;
        get) options='--words --bytes --date --minute --form --help' ;;
        import) options='--text --bytes --words --shorten --dates --date --minute --form --help' ;;
        export) options='--text --bytes --words --list --form --help' ;;
        salvage) options='--text --bytes --words --list --named --all --form --help' ;;
        help) options=--help ;;
    esac
    if [[ $word == -* ]]; then
        mapfile -t COMPREPLY < <(compgen -W "$options" -- "$word")
    elif [ "$command" = help ]; then
        mapfile -t COMPREPLY < <(compgen -W 'init run calls wire put get delete import export salvage list check convert migrate' -- "$word")
    elif _filser_is_path "$command" "$COMP_CWORD"; then
        compopt -o filenames
        mapfile -t COMPREPLY < <(compgen -f -- "$word")
    fi
}
complete -F _filser filser
