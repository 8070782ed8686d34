#!/usr/bin/env python3
"""Compares the answers to scripts of four jobs with a model of the file machine.

usage: tests/against_model.py PROGRAM [COUNT]

The model is model/machine.py, and model/players.py decides what the jobs do. The volumes are small enough to be full at
times, and the quotas of their directories are small too. They have layout 1 or 2, which they were made in or migrated
to, and the calls are made at a moment that fits. For each of COUNT seeds (20 if not given), the same in every run, the
four jobs take turns in three ways: one job after the other, in turn, and at random. Each reply, each word that a job
examines, the room that is left, and each directory and each file at the end must be the model's.
"""

import os
import sys
import tempfile

from model.players import dated, make, moment_of, run, script, wrong_files

ORDERS = ["apart", "in turn", "at random"]


def serve(program, folder, seed, order):
    """Returns what isn't the model's when the program serves a script, and how many lines it had."""
    blocks = [64, 96, 160][seed % 3]
    layout, moment = moment_of(seed)
    lines, wanted, machine = script(seed, order, blocks, layout, moment)
    make(program, folder, blocks, seed)
    text, _ = run(program, folder, ["calls", "J.IMG", *dated(moment)], "\n".join(lines + [""]).encode())
    found = text.decode("latin-1").split("\n")
    wrong = []
    for place, (line, want) in enumerate(zip(lines, wanted)):
        got = found[place] if place < len(found) else "nothing"
        if got != want:
            wrong.append(f"line {place + 1}, {line}: {got} and not {want}")
            break
    text, _ = run(program, folder, ["check", "J.IMG"])
    if text != f"Volume of {blocks} blocks, room {machine.room()}\n".encode():
        wrong.append(f"check prints {text!r}, and the model has room {machine.room()}")
    return wrong + wrong_files(program, folder, machine), len(lines)


def main():
    if len(sys.argv) not in (2, 3) or not os.access(sys.argv[1], os.X_OK):
        print("usage: tests/against_model.py PROGRAM [COUNT]", file=sys.stderr)
        return 2
    program, count = os.path.abspath(sys.argv[1]), int(sys.argv[2]) if len(sys.argv) == 3 else 20
    failed = lines = 0
    with tempfile.TemporaryDirectory() as folder:
        for seed in range(count):
            for order in ORDERS:
                wrong, length = serve(program, folder, seed, order)
                lines += length
                failed += bool(wrong)
                for what in wrong:
                    print(f"seed {seed}, {order}: {what}")
    print(f"against_model: {3 * count - failed} scripts as they should be, {failed} not; {lines} lines")
    return 1 if failed else 0


if __name__ == "__main__":
    sys.exit(main())
