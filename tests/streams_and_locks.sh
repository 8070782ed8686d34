#!/bin/sh
# Starts the program in ways in which it isn't meant to be started: with standard streams that are closed or lead to the
# image, with another process on the image, on files that aren't images, and with no space left for a new image. No
# image may be spoiled. Compares what is printed, the standard error, the exit status and the image's bytes.
#
# usage: tests/streams_and_locks.sh PROGRAM
set -eu
unset CDPATH

if [ $# -ne 1 ] || [ ! -f "$1" ] || [ ! -x "$1" ]; then
    echo "usage: tests/streams_and_locks.sh PROGRAM" >&2
    exit 2
fi
program=$(cd "$(dirname "$1")" && pwd)/$(basename "$1")
room=$(mktemp -d)
trap 'rm -rf "$room"' EXIT
trap 'exit 1' HUP INT TERM
cd "$room"
failed=0
closed='filser: standard input or output: it is closed'
fault='?Device fault'

# judge NAME WANTED: this run ended with this status, and the image is as it was.
judge() {
    well=ok
    cmp -s A.IMG before || well='the image has changed'
    cmp -s out wanted-out || well="it printed something else: $(cat out)"
    cmp -s err wanted-err || well="it told something else: $(cat err)"
    [ "$status" -eq "$2" ] || well="it ended with status $status, and not $2"
    [ "$well" = ok ] || failed=1
    cp before A.IMG
    echo "$1: $well"
}

# want FILE [LINE ..]: these lines must be in the file.
want() {
    file=wanted-$1
    shift
    : >"$file"
    for line in "$@"; do
        printf '%s\n' "$line" >>"$file"
    done
}

# fresh: nothing was printed or reported yet.
fresh() {
    status=0
    : >out
    : >err
}

"$program" init A.IMG 64
printf 'LOGIN [10,20]\nMAKDIR [10,20]\n' | "$program" run A.IMG >out
cp A.IMG before

for kind in run calls; do
    if [ $kind = run ]; then
        printf 'LOGIN [10,20]\nDIRECTORY\n' >input
        first='Job 1 [10,20]' second='No files [10,20]'
    else
        printf '1 LOGIN 10,20 1000\n1 RESET\n' >input
        first=DONE second=DONE
    fi

    want out "$first" "$second"
    want err
    fresh
    "$program" $kind A.IMG <input >out 2>err || status=$?
    judge "$kind" 0
    fresh
    "$program" $kind A.IMG <input >out 2>&- || status=$?
    judge "$kind without a standard error" 0
    ln -s A.IMG LINK.IMG
    fresh
    "$program" $kind LINK.IMG <input >out 2>err || status=$?
    judge "$kind on a link to the image" 0
    rm LINK.IMG

    want out
    want err "$closed"
    fresh
    "$program" $kind A.IMG <input >&- 2>err || status=$?
    judge "$kind without an output" 4
    fresh
    "$program" $kind A.IMG <&- >out 2>err || status=$?
    judge "$kind without an input" 4
    want err
    fresh
    "$program" $kind A.IMG <&- >&- 2>&- || status=$?
    judge "$kind without any stream" 4

    want err 'filser: A.IMG: the standard output of this run'
    fresh
    "$program" $kind A.IMG <input >>A.IMG 2>err || status=$?
    judge "$kind that prints behind the image" 4
    fresh
    "$program" $kind A.IMG <input 1<>A.IMG 2>err || status=$?
    judge "$kind that prints into the image" 4
    want err
    fresh
    "$program" $kind A.IMG <input >out 2>>A.IMG || status=$?
    judge "$kind that tells into the image" 4
    want out "$fault"
    want err 'filser: A.IMG: the standard input of this run'
    fresh
    "$program" $kind A.IMG <A.IMG >out 2>err || status=$?
    judge "$kind that reads its image" 4

    want err 'filser: FOLDER: Is a directory (os error 21)'
    mkdir FOLDER
    fresh
    "$program" $kind FOLDER <input >out 2>err || status=$?
    judge "$kind on a directory" 4
    rmdir FOLDER
    want err 'filser: PIPE: Illegal seek (os error 29)'
    mkfifo PIPE
    fresh
    "$program" $kind PIPE <input >out 2>err || status=$?
    judge "$kind on a pipe" 4
    rm PIPE
    want err 'filser: LINK.IMG: No such file or directory (os error 2)'
    ln -s NONE.IMG LINK.IMG
    fresh
    "$program" $kind LINK.IMG <input >out 2>err || status=$?
    judge "$kind on a link to nothing" 4
    rm LINK.IMG
    want err 'filser: /dev/null: Invalid argument (os error 22)' \
        'filser: /dev/null: after a device fault let the host drop its cache (restart it) before the next start'
    fresh
    "$program" $kind /dev/null <input >out 2>err || status=$?
    judge "$kind on a device without blocks" 4
done

# await FILE: waits until another process has printed something into the file.
await() {
    tries=0
    while [ $tries -lt 100 ] && [ ! -s "$1" ]; do
        tries=$((tries + 1))
        sleep 0.1
    done
}

# Another process has the image: it is served from a pipe.
mkfifo pipe
: >first
"$program" run A.IMG <pipe >first &
exec 3>pipe
printf 'LOGIN [10,20]\n' >&3
await first
want out "$fault"
want err 'filser: A.IMG: in use by another process'
fresh
"$program" run A.IMG <input >out 2>err || status=$?
judge 'run beside another process' 4
fresh
"$program" calls A.IMG <input >out 2>err || status=$?
judge 'calls beside another process' 4
exec 3>&-
status=0
wait $! || status=$?
cp first out
want out 'Job 1 [10,20]'
want err
: >err
judge 'the other process' 0

# The image is truncated while it is open: it isn't written then.
fresh
"$program" run A.IMG <pipe >out 2>err &
exec 3>pipe
printf 'LOGIN [1,2]\n' >&3
await out
head -c 1024 before >A.IMG
printf 'MAKDIR [10,21]\n' >&3
exec 3>&-
status=0
wait $! || status=$?
cp before A.IMG
want out 'Job 1 [1,2]' "$fault"
want err 'filser: A.IMG: the image has another length than at the start' \
    'filser: A.IMG: after a device fault let the host drop its cache (restart it) before the next start'
judge 'an image that is cut short' 4

# A new image.
want out
want err "$closed"
fresh
"$program" init B.IMG 64 <input >&- 2>err || status=$?
judge 'init without an output' 4
fresh
"$program" init B.IMG 64 <&- >out 2>err || status=$?
judge 'init without an input' 4
[ ! -e B.IMG ] || failed=1
want err
fresh
"$program" init B.IMG 64 <input >out 2>&- || status=$?
judge 'init without a standard error' 0
[ "$(wc -c <B.IMG)" -eq 65536 ] || failed=1
want out '?Image exists'
want err 'filser: A.IMG: File exists (os error 17)'
fresh
"$program" init A.IMG 64 <input >out 2>err || status=$?
judge 'init of an image that is there' 3
want out "$fault"
want err 'filser: C.IMG: File too large (os error 27)'
fresh
(
    trap '' XFSZ
    ulimit -f 32
    "$program" init C.IMG 64 <input >out 2>err
) || status=$?
judge 'init where files are not so long' 4
[ ! -e C.IMG ] || failed=1

exit $failed
