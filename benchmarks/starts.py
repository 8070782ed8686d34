#!/usr/bin/env python3
"""Counts the system calls and the instructions of a start, and the reads of other runs.

usage: benchmarks/starts.py PROGRAM

Makes an image for each line of the table, in a new folder, and counts the calls that a start (`check`) makes on it, by
strace, seeks and the sync included, the blocks that they read, and the program's instructions, by valgrind. In the
second image the files were written again in random order, so that they are in another order than their names in the
directory. A second table has the reads of runs on an image with a file of 1 MiB and one of 64 blocks, that of their
start included. This isn't part of the gate.
"""
import os
import random
import re
import subprocess
import sys
import tempfile

sys.path.insert(0, os.path.dirname(os.path.abspath(__file__)))
sys.dont_write_bytecode = True

from speed import cost  # noqa: E402  (the folder has to be in the path first)

TRACER = ["strace", "-f", "-y", "-s", "0", "-e", "trace=read,pread64,lseek,fdatasync", "-o", "trace"]
CALL = re.compile(r"\d+ +(\w+)\(\d+<([^>]*)>.* = (\d+)")
BLOCK = 640  # characters, five to each of the 128 words of a block
ROWS = [
    ("1,000 files of one block", 8192, [(1000, 1)], False),
    ("the same, written again in no order", 8192, [(1000, 1)], True),
    ("300 files of 3 blocks", 8192, [(300, 3)], False),
    ("200 files of 20 blocks", 8192, [(200, 20)], False),
    ("100 files of 50 blocks", 8192, [(100, 50)], False),
    ("60 files of 100 blocks", 8192, [(60, 100)], False),
    ("a file of 10 MiB and fifty of 1 MiB", 131072, [(1, 10240), (50, 1024)], False),
]
RUNS = [
    ("only logs in", []),
    ("types the file of 1 MiB", ["TYPE F00000.TXT"]),
    ("types it twice", ["TYPE F00000.TXT"] * 2),
    ("copies it", ["COPY COPY.TXT=F00000.TXT"]),
    ("types the file of 64 blocks 50 times", ["TYPE F10000.TXT"] * 50),
]


class Maker:
    """Makes images with a program."""

    def __init__(self, program, folder):
        self.program = program
        self.folder = folder

    def run(self, *words, given=b""):
        """Runs the program, which must serve all of its input."""
        done = subprocess.run([self.program, *words], input=given, capture_output=True, cwd=self.folder, check=False)
        if done.returncode != 0:
            sys.exit(f"{words} ended with {done.returncode}: {done.stdout[-200:]!r} {done.stderr[-200:]!r}")

    def make(self, blocks, groups, again):
        """Makes an image with this many files of this many blocks for each group, each written again in random order if
        requested."""
        image = os.path.join(self.folder, "RUN.IMG")
        if os.path.exists(image):
            os.remove(image)
        self.run("init", "RUN.IMG", str(blocks))
        self.run("run", "RUN.IMG", given=b"LOGIN [10,20]\nMAKDIR [10,20]\n")
        names = []
        for group, (files, length) in enumerate(groups):
            first, *others = [f"F{group}{number:04}.TXT" for number in range(files)]
            self.run("put", "RUN.IMG", "10,20", first, given=b"FIVES" * (length * BLOCK // 5))
            self.copy(first, others)
            names += [first, *others]
        if again:
            random.Random(1).shuffle(names)
            self.copy(names[-1], names[:-1])

    def copy(self, first, others):
        """Copies one file to others."""
        lines = "".join(f"COPY {other}={first}\n" for other in others)
        self.run("run", "RUN.IMG", given=b"LOGIN [10,20]\n" + lines.encode())

    def count(self, *words, given=b"", only=""):
        """Returns how many system calls a run makes on the image, of one kind if it is named, and how many blocks they
        read."""
        words = words or ("check",)
        subprocess.run([*TRACER, self.program, *words, "RUN.IMG"], input=given, stdout=subprocess.DEVNULL,
                       cwd=self.folder, check=True)
        calls = size = 0
        with open(os.path.join(self.folder, "trace"), encoding="utf-8") as lines:
            for line in lines:
                found = CALL.match(line)
                if found and found[2].endswith("/RUN.IMG"):
                    calls += only in found[1]
                    size += int(found[3]) if "read" in found[1] else 0
        return calls, size // 1024


def main():
    if len(sys.argv) != 2 or not os.access(sys.argv[1], os.X_OK):
        print("usage: benchmarks/starts.py PROGRAM", file=sys.stderr)
        return 2
    with tempfile.TemporaryDirectory(dir="/dev/shm" if os.path.isdir("/dev/shm") else None) as folder:
        maker = Maker(os.path.abspath(sys.argv[1]), folder)
        print("| an image with | calls | blocks read | thousands of instructions |\n|---|---|---|---|")
        for what, blocks, groups, again in ROWS:
            maker.make(blocks, groups, again)
            calls, read = maker.count()
            work = cost([maker.program, "check", os.path.join(folder, "RUN.IMG")])
            print(f"| {what} | {calls:,} | {read:,} | {round(work / 1000):,} |", flush=True)
        print("\n| a run that | reads |\n|---|---|")
        for what, lines in RUNS:
            maker.make(8192, [(1, 1024), (1, 64)], False)
            given = "".join(f"{line}\n" for line in ["LOGIN [10,20]", *lines]).encode()
            print(f"| {what} | {maker.count('run', given=given, only='read')[0]:,} |", flush=True)
    return 0


if __name__ == "__main__":
    sys.exit(main())
