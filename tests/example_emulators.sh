#!/bin/sh
# Runs the emulators of examples/, each on a new image, and compares what they print. Without a C compiler only those in
# Python are run. If SIMH is installed, its PDP-10 runs the programs of examples/simh.
#
# usage: tests/example_emulators.sh PROGRAM
set -eu
unset CDPATH

if [ $# -ne 1 ] || [ ! -f "$1" ] || [ ! -x "$1" ]; then
    echo "usage: tests/example_emulators.sh PROGRAM" >&2
    exit 2
fi
program=$(cd "$(dirname "$1")" && pwd)/$(basename "$1")
examples=$(cd "$(dirname "$0")/../examples" && pwd)
room=$(mktemp -d)
trap 'rm -rf "$room"' EXIT
trap 'exit 1' HUP INT TERM
failed=0

# judge NAME: it printed what it had to.
judge() {
    if diff -u "$room/wanted" "$room/out"; then
        echo "$1: ok"
    else
        echo "$1: it printed something else"
        failed=1
    fi
}

"$program" init "$room/A.IMG" 64
printf 'DONE\n1 2 777777777777\nSTOPPED 020017\n' >"$room/wanted"
python3 "$examples/emulator.py" "$program" "$room/A.IMG" >"$room/out" || failed=1
judge emulator.py

"$program" init "$room/P.IMG" 64 --layout 2
"$program" init "$room/C.IMG" 64 --layout 2
cat >"$room/uuos" <<END
OPEN: go on 2
ENTER: go on 2
OUT: go on 1
CLOSE: go on 1
LOOKUP: go on 2
IN: go on 1
RELEAS: go on 1
IN: the program stops, NO CHANNEL
TTCALL: not the service's
1 2 777777777777
END
cp "$room/uuos" "$room/wanted"
python3 "$examples/uuo.py" "$program" "$room/P.IMG" >"$room/out" || failed=1
judge uuo.py

if command -v cc >/dev/null; then
    client=$examples/../clients/c
    cc -std=c99 -Wall -Wextra -Werror -I "$client" -o "$room/uuo" "$examples/uuo.c" "$client/filser.c"
    "$room/uuo" "$program" "$room/C.IMG" >"$room/out" || failed=1
    judge uuo.c

    cc -Wall -Wextra -Werror -o "$room/emulator" "$examples/emulator.c"
    printf '1 LOGIN 10,20 1000: DONE\n1 EXA 121: VALUE 000000000140\n' >"$room/wanted"
    "$room/emulator" "$program" "$room/A.IMG" >"$room/out" || failed=1
    judge emulator.c
fi

timeout -k 5 120 python3 "$examples/simh/run.py" "$program" || { echo 'simh: it failed'; failed=1; }

exit $failed
