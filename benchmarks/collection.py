#!/usr/bin/env python3
"""Measures what a file of a collection costs, compared with one that a session copies.

usage: benchmarks/collection.py PROGRAM [COUNT [FOLDER]]

COUNT files (1,000) of 500 characters each are stored on a volume of 8192 blocks in three ways: by one `import`, by one
session that copies a file of that size as often, and by one `export` back to the host. The table has what a file takes:
instructions of the program, counted by valgrind (the same number in each run; memory that is zeroed counts by the
byte), and these and the time of the run as multiples of what a COPY takes. A start and the end of the run are included.
Times are the least of eleven runs that take turns, and rough on a busy machine. The folder for all of it is made in
FOLDER, or else below /dev/shm if there is one, where a sync costs nothing. This isn't part of the gate.
"""
import os
import re
import subprocess
import sys
import tempfile
import time

TURNS = 11
COUNTER = ["valgrind", "--tool=cachegrind", "--cache-sim=no", "--cachegrind-out-file=/dev/null"]
COUNTED = re.compile(rb"I\s+refs:\s+([0-9,]+)")
TEXT = b"A LINE OF FIFTY CHARACTERS, TEN OF WHICH A FILE HAS\n"[:50] * 10


def run(words, folder, given=b"", counter=()):
    """Does a run that must be served; returns what it reports on the standard error."""
    done = subprocess.run([*counter, *words], input=given, stdout=subprocess.DEVNULL, stderr=subprocess.PIPE, cwd=folder,
                          check=False)
    if done.returncode != 0:
        sys.exit(f"{words[:4]} ended with {done.returncode}")
    return done.stderr


def cost(words, folder, given=b""):
    """Returns the instructions of a run."""
    return int(COUNTED.search(run(words, folder, given, COUNTER))[1].replace(b",", b""))


def make_images(program, folder, name):
    """Two empty volumes, one of them with a file to copy."""
    for image in ("IMPORT.IMG", "COPY.IMG"):
        path = os.path.join(folder, image)
        if os.path.exists(path):
            os.remove(path)
        run([program, "init", image, "8192"], folder)
    run([program, "import", "COPY.IMG", "10,20", name], folder)


def seconds(words, folder, given=b""):
    """Returns the time of a run."""
    begun = time.monotonic()
    run(words, folder, given)
    return time.monotonic() - begun


def main():
    program = os.path.abspath(sys.argv[1])
    count = int(sys.argv[2]) if len(sys.argv) > 2 else 1000
    place = sys.argv[3] if len(sys.argv) > 3 else "/dev/shm" if os.path.isdir("/dev/shm") else None
    with tempfile.TemporaryDirectory(dir=place) as folder:
        names = [f"F{number:04}.TXT" for number in range(count)]
        for name in names:
            with open(os.path.join(folder, name), "wb") as file:
                file.write(TEXT)
        copies = "".join(f"COPY G{name[1:]}={names[0]}\n" for name in names).encode()
        ways = {
            "COPY": ([program, "run", "COPY.IMG"], b"LOGIN [10,20]\n" + copies),
            "import": ([program, "import", "IMPORT.IMG", "10,20", *names], b""),
            "export": ([program, "export", "IMPORT.IMG", "out"], b""),
        }
        make_images(program, folder, names[0])
        taken = {way: cost(words, folder, given) for way, (words, given) in ways.items()}
        times = {way: [] for way in ways}
        for turn in range(TURNS):
            make_images(program, folder, names[0])
            for way, (words, given) in ways.items():
                own = [f"out{turn}" if word == "out" else word for word in words]
                times[way].append(seconds(own, folder, given))
    print(f"{'':8}{'instructions a file':>21}{'to a COPY':>12}{'in time':>10}")
    for way, instructions in taken.items():
        ratios = instructions / taken["COPY"], min(times[way]) / min(times["COPY"])
        print(f"{way:8}{instructions // count:>21,}{ratios[0]:>12.2f}{ratios[1]:>10.2f}")


if __name__ == "__main__":
    main()
