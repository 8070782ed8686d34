#!/usr/bin/env python3
"""Measures what words cost on their way to and from an image.

usage: benchmarks/speed.py PROGRAM

Makes a volume of 131,072 blocks in a new folder (below /dev/shm if there is one, so that a sync costs nothing), with a
file of 10 MiB and fifty of 1 MiB. The table has what a run takes, in total and for each word of the image (eight
bytes):

  a start       recovers the volume, and reads all that files reach
  OUT           supersedes a file by one OUT of 1016 blocks, besides a start
  put 1 MiB     supersedes a file of 1 MiB by words on standard input, besides a start
  get 10 MiB    reads a file of 10 MiB as words, besides a start
  type 10 MiB   reads the same as text, five characters to a word

The unit is instructions of the program, counted by valgrind: the same number in each run, even on a busy machine. A
plain copy takes one for each word. The system's work isn't included, so the last column has the processor's time, the
system's included, as a multiple of what a plain read of as many bytes takes (dd, a MiB at a time): the least of fifteen
runs of each, which is still rough on a busy machine. This isn't part of the gate.
"""
import os
import re
import subprocess
import sys
import tempfile

MIB = 1 << 20
# F2.DAT of [1,2] is superseded in dump mode, by all but the first words of the largest core.
SUPERSEDE = b"""1 LOGIN 1,2 400000
1 DEP 200 17
1 DEP 201 446353000000
1 DEP 202 0
1 OPEN 3 200
1 DEP 300 462200000000
1 DEP 301 444164000000
1 DEP 302 0
1 DEP 303 0
1 ENTER 3 300
1 DEP 400 402000000777
1 DEP 401 0
1 OUT 3 400
1 CLOSE 3 0
"""
COUNTER = ["valgrind", "--tool=cachegrind", "--cache-sim=no", "--cachegrind-out-file=/dev/null"]
COUNTED = re.compile(rb"I\s+refs:\s+([0-9,]+)")


def cost(words, data=os.devnull):
    """Returns the instructions of a run, which must be served."""
    with open(data, "rb") as given:
        done = subprocess.run(COUNTER + words, stdin=given, stdout=subprocess.DEVNULL, stderr=subprocess.PIPE,
                              check=False)
    if done.returncode != 0:
        sys.exit(f"{words} ended with {done.returncode}")
    return int(COUNTED.search(done.stderr)[1].replace(b",", b""))


def seconds(words, data=os.devnull):
    """Returns the processor's time of a run, including the system's: the least of fifteen."""
    least = None
    for _turn in range(15):
        with open(data, "rb") as given:
            child = subprocess.Popen(words, stdin=given, stdout=subprocess.DEVNULL)
        _number, status, used = os.wait4(child.pid, 0)
        child.returncode = os.waitstatus_to_exitcode(status)
        if child.returncode != 0:
            sys.exit(f"{words} ended with {child.returncode}")
        taken = used.ru_utime + used.ru_stime
        least = taken if least is None else min(least, taken)
    return least


def words_of(count):
    """Returns this many words, as a file of words has them: each is text of five characters."""
    word = int.from_bytes(b"\0\0\0\0\0", "big")
    for letter in b"WORD\n":
        word = word << 7 | letter
    return (word << 1).to_bytes(8, "big") * count


def main():
    if len(sys.argv) != 2 or not os.access(sys.argv[1], os.X_OK):
        print("usage: benchmarks/speed.py PROGRAM", file=sys.stderr)
        return 2
    program = os.path.abspath(sys.argv[1])
    place = "/dev/shm" if os.access("/dev/shm", os.W_OK) else None
    with tempfile.TemporaryDirectory(dir=place) as folder:
        os.chdir(folder)
        for name, size in (("ONE", MIB), ("TEN", 10 * MIB)):
            with open(name, "wb") as file:
                file.write(words_of(size // 8))
        with open("OUT", "wb") as file:
            file.write(SUPERSEDE)
        subprocess.run([program, "init", "IMAGE", "131072"], check=True)
        lines = b"1 LOGIN 1,2 1000\n1 DEP 300 000001000002\n1 DEP 301 0\n1 MAKDIR 300\n"
        subprocess.run([program, "calls", "IMAGE"], input=lines, stdout=subprocess.DEVNULL, check=True)
        for name, data in [("TEN.DAT", "TEN")] + [(f"F{number}.DAT", "ONE") for number in range(50)]:
            with open(data, "rb") as given:
                subprocess.run([program, "put", "IMAGE", "1,2", name, "--words"], stdin=given,
                               stdout=subprocess.DEVNULL, check=True)
        runs = [
            ("a start", 60, [program, "check", "IMAGE"], os.devnull),
            ("OUT of 1016 blocks", 1016 / 1024, [program, "calls", "IMAGE"], "OUT"),
            ("put 1 MiB", 1, [program, "put", "IMAGE", "1,2", "F1.DAT", "--words"], "ONE"),
            ("get 10 MiB", 10, [program, "get", "IMAGE", "1,2", "TEN.DAT", "--words"], os.devnull),
            ("type 10 MiB", 10, [program, "get", "IMAGE", "1,2", "TEN.DAT"], os.devnull),
        ]
        # A plain read of as many bytes as an image has for the files, for each MiB.
        plain = seconds(["dd", "if=IMAGE", "of=/dev/null", "bs=1M", "count=60", "status=none"]) / 60
        start = (0, 0)
        print("| what | thousands of instructions | for each word | in plain reads |\n|---|---|---|---|")
        for what, size, words, data in runs:
            counted, timed = cost(words, data) - start[0], seconds(words, data) - start[1]
            each, reads = counted / (size * MIB // 8), timed / (plain * size)
            print(f"| {what} | {counted // 1000:,} | {each:.1f} | {reads:.1f} |", flush=True)
            if start == (0, 0):
                start = (counted, timed)
    return 0


if __name__ == "__main__":
    sys.exit(main())
