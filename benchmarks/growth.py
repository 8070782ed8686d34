#!/usr/bin/env python3
"""Measures what a call costs as a directory or a volume grows.

usage: benchmarks/growth.py PROGRAM [LARGEST] [--time]

Makes images in a folder of its own (below /dev/shm if there is one, so that a sync costs nothing) with 100, 1,000, 10,000
and 40,000 empty files (up to LARGEST), all in one directory and spread over 100 directories. For each of them a line of
the first table gives what a start takes, and what each LOOKUP, create, supersede and list of all directories takes
besides, with its ratio to the line of 100 files. A second table has the start of volumes of 64 to 131,072 blocks, empty
and full. The unit is thousands of instructions of the program, counted by valgrind: the same number in each run, even on
a busy machine. With --time, or if there is no valgrind, it is microseconds of a processor, the least of nine runs. The
system's work is part of the time, but not of the instructions. This is no part of the gate.
"""
import os
import pathlib
import re
import resource
import shutil
import subprocess
import sys
import tempfile

COUNTS = (100, 1000, 10000, 40000)
COUNTER = ["valgrind", "--tool=cachegrind", "--cache-sim=no", "--cachegrind-out-file=/dev/null"]
COUNTED = re.compile(rb"I\s+refs:\s+([0-9,]+)")
LETTERS = "ABCDEFGHIJKLMNOPQRSTUVWXYZ0123456789"
COLUMNS = ("start", "LOOKUP", "create", "supersede", "DIRECTORY")


def is_counted():
    """Returns whether instructions are counted, not the time."""
    return "--time" not in sys.argv and shutil.which(COUNTER[0]) is not None


CALLS = 400 if is_counted() else 1600  # how many of a call are measured


def used():
    """Returns the microseconds of processor time that the children have used so far."""
    times = resource.getrusage(resource.RUSAGE_CHILDREN)
    return (times.ru_utime + times.ru_stime) * 1e6


def run(program, words, lines):
    """Runs the program over these lines, which it must serve."""
    given = "".join(line + "\n" for line in lines).encode()
    done = subprocess.run([*program, *words], input=given, capture_output=True)
    if done.returncode != 0:
        sys.exit(f"{words} ended with {done.returncode}: {done.stdout[-200:]!r} {done.stderr[-200:]!r}")
    return done


def cost(program, words, lines):
    """Returns what a run takes: thousands of its instructions, or microseconds."""
    if is_counted():
        counted = COUNTED.search(run(COUNTER + program, words, lines).stderr)
        return int(counted[1].replace(b",", b"")) / 1000
    before = used()
    run(program, words, lines)
    return used() - before


def sixbit(text):
    """Returns the word of a name, in octal."""
    word = 0
    for letter in text.ljust(6):
        word = word * 64 + ord(letter) - 32
    return f"{word:012o}"


def name(number):
    """Returns a name of six letters and digits, in an order that no directory has."""
    number = number * 7919 % 60466176
    letters = ""
    for _ in range(5):
        letters += LETTERS[number % 36]
        number //= 36
    return "F" + letters


class Image:
    """A volume with this many files, spread over this many directories."""

    def __init__(self, program, path, files, owners):
        self.program = program
        self.path = path
        self.files = files
        self.owners = owners

    def owner(self, number):
        return f"{number % self.owners + 1:o}".rjust(6, "0") + "000005"

    def ready(self):
        """Logs job 1 in as [1,2], and opens channel 1 in dump mode."""
        return ["1 LOGIN 1,2 1000", "1 DEP 200 17", "1 DEP 201 446353000000", "1 OPEN 1 200"]

    def named(self, number):
        """Puts the four words of a file's name at 300."""
        return [
            f"1 DEP 300 {sixbit(name(number))}",
            "1 DEP 301 0",
            "1 DEP 302 0",
            f"1 DEP 303 {self.owner(number)}",
        ]

    def enter(self, number):
        return self.named(number) + ["1 ENTER 1 300", "1 CLOSE 1 0"]

    def make(self):
        """Makes the image with its directories and files."""
        blocks = min(131072, max(512, self.files + self.files // 20 + 4 * self.owners + 4 * CALLS + 200))
        if os.path.exists(self.path):
            os.remove(self.path)
        run(self.program, ["init", self.path, str(blocks)], [])
        lines = self.ready()
        for number in range(self.owners):
            lines += [f"1 DEP 300 {self.owner(number)}", "1 DEP 301 0", "1 MAKDIR 300"]
        for number in range(self.files):
            lines += self.enter(number)
        run(self.program, ["calls", self.path], lines)

    def measure(self, words, lines):
        """Returns what a run over a copy of the image takes."""
        image = pathlib.Path(self.path).read_bytes()
        copy = self.path + ".copy"
        costs = []
        for _ in range(1 if is_counted() else 9):
            pathlib.Path(copy).write_bytes(image)
            costs.append(cost(self.program, [words, copy], lines))
        os.remove(copy)
        return min(costs)

    def table_line(self):
        """Returns what a start takes, and the additional cost of each call."""
        start = self.measure("calls", [])
        there = [number * 37 % self.files for number in range(CALLS)]
        named = [line for number in there for line in self.named(number)]
        words = self.measure("calls", self.ready() + named)
        close = ["1 CLOSE 1 0"]
        lookups = [line for number in there for line in self.named(number) + ["1 LOOKUP 1 300"] + close]
        fresh = [line for number in range(CALLS) for line in self.enter(self.files + number)]
        again = [line for number in there for line in self.enter(number)]
        lists = ["LOGIN [1,2]"] + [f"DIRECTORY [{number + 1:o},5]" for number in range(self.owners)]
        each = [(self.measure("calls", self.ready() + lines) - words) / CALLS for lines in (lookups, fresh, again)]
        return [start, *each, self.measure("run", lists) - start]


def print_line(title, line, first):
    """Prints what each took, followed by its multiple of the first line's value."""
    cells = [f"{taken:12.1f} {taken / base:6.2f}x" for taken, base in zip(line, first)]
    print(f"{title:>16}" + "".join(cells), flush=True)


def grow(program, folder, owners, counts):
    """The table of growth for files in so many directories."""
    print(f"files in {owners} director{'y' if owners == 1 else 'ies'}")
    print(" " * 16 + "".join(f"{column:>12}        " for column in COLUMNS))
    first = None
    for files in counts:
        image = Image(program, os.path.join(folder, "GROWTH.IMG"), files, owners)
        image.make()
        line = image.table_line()
        first = first or line
        print_line(f"{files} files", line, first)


def fill(program, path, blocks):
    """Fills a volume with files of up to 16,384 blocks of words."""
    run(program, ["init", path, str(blocks)], [])
    run(program, ["run", path], ["LOGIN [10,20]", "MAKDIR [10,20]"])
    left = blocks
    for number in range(blocks):
        room = int(run(program, ["check", path], []).stdout.split()[-1])
        left = min(16384, room * 126 // 127 - 3)
        if left < 1:
            return
        body = b"\0\0\0\1\2\3\4\5" * (128 * left)
        put = [*program, "put", path, "10,20", name(number), "--words"]
        done = subprocess.run(put, input=body, capture_output=True)
        if done.returncode != 0:
            sys.exit(f"put ended with {done.returncode}: {done.stdout!r}")


def volumes(program, folder):
    """What a start takes on volumes of several sizes, empty and full."""
    print("a start")
    path = os.path.join(folder, "VOLUME.IMG")
    for blocks in (64, 512, 4608, 32768, 131072):
        costs = []
        for full in (False, True):
            if os.path.exists(path):
                os.remove(path)
            if full:
                fill(program, path, blocks)
            else:
                run(program, ["init", path, str(blocks)], [])
            costs.append(cost(program, ["calls", path], []))
        print(f"{blocks:>10} blocks: empty {costs[0]:10.1f}, full {costs[1]:10.1f}", flush=True)


def main():
    words = [word for word in sys.argv[1:] if word != "--time"]
    if len(words) not in (1, 2):
        sys.exit(__doc__)
    program = [os.path.abspath(words[0])]
    largest = int(words[1]) if len(words) == 2 else COUNTS[-1]
    counts = [count for count in COUNTS if count <= largest]
    memory = "/dev/shm" if os.path.isdir("/dev/shm") else None
    counter = "thousands of instructions" if is_counted() else "microseconds of a processor"
    print(f"{counter}, and times the first line")
    with tempfile.TemporaryDirectory(dir=memory) as folder:
        for owners in (1, 100):
            grow(program, folder, owners, counts)
        volumes(program, folder)


main()
