#!/usr/bin/env python3
"""Counts the system calls of a start: python3 tests/calls_of_a_start.py PROGRAM.

No contract says in which order a start reads the files of an image, and a start that reads them by name is right, and
slow. A start on an image whose files are in another order than their names takes at most twice as many calls as one on
an image on which they are in order, and 20 more; by name it would take two calls for each file. The counting is that of
benchmarks/starts.py. Without strace, or if it may not trace, the script says SKIPPED and succeeds."""

import os
import shutil
import subprocess
import sys
import tempfile

HERE = os.path.dirname(os.path.abspath(__file__))
sys.path.insert(0, os.path.join(HERE, "..", "benchmarks"))
sys.dont_write_bytecode = True

from starts import Maker  # noqa: E402  (the folder has to be in the path first)

FILES, BLOCKS = 300, 4096


def may_trace():
    """Returns whether strace is installed and may trace."""
    if not shutil.which("strace"):
        return False
    return subprocess.run(["strace", "-o", "/dev/null", "true"], capture_output=True, check=False).returncode == 0


def main():
    if len(sys.argv) != 2 or not os.access(sys.argv[1], os.X_OK):
        print("usage: python3 tests/calls_of_a_start.py PROGRAM", file=sys.stderr)
        return 2
    if not may_trace():
        print("calls_of_a_start: SKIPPED, there is no strace that may trace (apt-get install strace)")
        return 0
    counts = []
    with tempfile.TemporaryDirectory(dir="/dev/shm" if os.path.isdir("/dev/shm") else None) as folder:
        maker = Maker(os.path.abspath(sys.argv[1]), folder)
        for again in (False, True):
            maker.make(BLOCKS, [(FILES, 1)], again)
            counts.append(maker.count()[0])
    in_order, in_no_order = counts
    good = 0 < in_no_order <= 2 * in_order + 20
    print(f"calls_of_a_start: {FILES} files, {in_order} calls in order, {in_no_order} in no order"
          + ("" if good else ": too many"))
    return 0 if good else 1


if __name__ == "__main__":
    sys.exit(main())
