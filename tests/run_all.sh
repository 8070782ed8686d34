#!/bin/sh
# Runs every test of the built program that belongs to the gate, one after the other, and stops at the first that fails.
#
# usage: tests/run_all.sh PROGRAM
set -eu
unset CDPATH

if [ $# -ne 1 ] || [ ! -f "$1" ] || [ ! -x "$1" ]; then
    echo "usage: tests/run_all.sh PROGRAM" >&2
    exit 2
fi
program=$(cd "$(dirname "$1")" && pwd)/$(basename "$1")
cd "$(dirname "$0")"

./example_scripts.sh "$program"
./example_emulators.sh "$program"
./example_service.py "$program"
./streams_and_locks.sh "$program"
./put_get_list_convert.py "$program"
./imported_files.py "$program"
./exported_files.py "$program"
./salvage.py "$program"
./clients.py "$program"
./clients_faults.py "$program"
./relay.py "$program"
./hostile_inputs.py "$program" 2000
./hostile_starts.py "$program"
./model_rows.py
./against_model.py "$program"
./both_forms.py "$program"
./format.py "$program"
./low_memory.py "$program"
./no_false_memory.py "$program"
./refused_allocations.py "$program"
./refusals_and_faults.py "$program"
./untouched_images.py "$program"
./host_faults.py "$program"
./syncs_of_each_call.py "$program"
./calls_of_a_start.py "$program"
