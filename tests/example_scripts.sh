#!/bin/sh
# Runs the call scripts and sessions of examples/, each on a new image of 64 blocks, and compares their output and exit
# status with what is stored with them.
#
# usage: tests/example_scripts.sh PROGRAM
set -eu
unset CDPATH

if [ $# -ne 1 ] || [ ! -f "$1" ] || [ ! -x "$1" ]; then
    echo "usage: tests/example_scripts.sh PROGRAM" >&2
    exit 2
fi
program=$(cd "$(dirname "$1")" && pwd)/$(basename "$1")
examples=$(cd "$(dirname "$0")/../examples" && pwd)
room=$(mktemp -d)
trap 'rm -rf "$room"' EXIT
trap 'exit 1' HUP INT TERM
failed=0

# new NAME: the image of the example NAME.
new() {
    image=$room/$1.IMG
    if ! "$program" init "$image" 64; then
        echo "$1: no image was made"
        exit 1
    fi
}

# try NAME COMMAND KIND STATUS: the input NAME.KIND, served by `filser COMMAND`, must end with this status.
try() {
    status=0 well=ok
    "$program" "$2" "$image" <"$examples/$1.$3" >"$room/out" || status=$?
    if ! diff -u "$examples/$1.$3.out" "$room/out"; then
        well='it printed something else' failed=1
    fi
    if [ "$status" -ne "$4" ]; then
        well="it ended with status $status, and not $4" failed=1
    fi
    echo "$1.$3: $well"
}

new first-file
try first-file calls calls 0
try first-file run lines 0

new reader-across-supersede
try reader-across-supersede calls calls 1

new full-disk
try full-disk calls calls 1
try full-disk run lines 0

exit $failed
