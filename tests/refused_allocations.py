#!/usr/bin/env python3
"""Refuses each allocation of a run in turn, and tests that the call which needed it can be made again.

usage: tests/refused_allocations.py PROGRAM

The runs are worked rows: a version that is dropped or published, an update, a directory that grows and shrinks, a file
that is written by a ring, and a session with `put` before it. For each row and each allocation that the run makes there
is a run in which this one is refused. If a call is answered NOMEMORY, the run is made once more with that call made
twice: then every other reply, and the files and the room at the end, have to be those of a run in which nothing was
refused. If the program ends for lack of memory, the image is as the replies before that left it. Allocations are
counted and refused by tests/refused_allocations.c; without a C compiler or a dynamic C library the test says SKIPPED.
Prints a line for each failed check, and one line at the end.
"""

import os
import shutil
import subprocess
import sys
import tempfile

HERE = os.path.dirname(os.path.abspath(__file__))
LIMIT = 60
DSK, TXT = 0o446353000000, 0o647064000000
FOO, HELLO = 0o465757000000, b"HELLO\r\n"
NO_MEMORY = {"NOMEMORY", "?No memory"}


def deposits(address, *words):
    """Returns the lines that put words into the core of job 1, each with its reply."""
    return [(f"1 DEP {address + place:o} {word:o}", "DONE") for place, word in enumerate(words)]


def calls(*lines):
    """Returns calls of job 1 that are done."""
    return [(f"1 {line}", "DONE") for line in lines]


def file_words(name=FOO, address=0o300):
    """Returns the lines that put the four words of a file into the core."""
    return deposits(address, name, TXT, 0, 0)


def size_is(word, device=0o200, address=0o300):
    """Returns the lines that look FOO.TXT up on a new channel, which is opened by the words at `device`, and read its
    size."""
    return [*file_words(FOO, address), *calls(f"OPEN 4 {device:o}", f"LOOKUP 4 {address:o}"),
            (f"1 EXA {address + 3:o}", f"VALUE {word}")]


# Job 1 of [10,20] with channel 3 open in dump mode, and a list at 400 that moves the 128 words from 1000.
READY = [("1 LOGIN 10,20 4000", "DONE"), *deposits(0o200, 0o17, DSK, 0), *calls("OPEN 3 200"),
         *deposits(0o400, 0o777600000777, 0)]
# FOO.TXT of 24 blocks, and then 21 blocks of another one: the 22nd finds no room.
TWENTY_FOUR = [*READY, *file_words(), *calls("ENTER 3 300"), *calls("OUT 3 400") * 24, *calls("CLOSE 3 0"),
               *file_words(), *calls("ENTER 3 300"), *calls("OUT 3 400") * 21, ("1 OUT 3 400", "STOPPED 040017")]
# FOO.TXT of 300 words, of which ten from the 129th one on are updated.
THREE_HUNDRED = [*READY, *deposits(0o1000, *range(1, 11)), *file_words(), *calls("ENTER 3 300"),
                 *calls("OUT 3 400") * 2, *deposits(0o400, 0o777724000777), *calls("OUT 3 400", "CLOSE 3 0"),
                 *file_words(), *calls("LOOKUP 3 300"), *file_words(), *calls("ENTER 3 300", "USETO 3 2"),
                 *deposits(0o400, 0o777766000777), *calls("OUT 3 400", "CLOSE 3 0")]
NAMES = [0o414100000000 + (number // 26 << 30) + (number % 26 << 24) for number in range(43)]
# 43 empty files, of which the first one is deleted: 42 fit a block of the directory.
MANY = [*READY]
for it in NAMES:
    MANY += [*file_words(it), *calls("ENTER 3 300", "CLOSE 3 0")]
MANY += [*file_words(NAMES[0]), *calls("LOOKUP 3 300"), *deposits(0o300, 0, 0, 0, 0), *calls("RENAME 3 300")]
# A file of two words by a ring with its header at 1000; its buffers are below.
RING = [("1 LOGIN 10,20 2000", "DONE"), *deposits(0o1200, 0, DSK, 0o001000000000), *calls("OPEN 3 1200"),
        *file_words(FOO, 0o1300), *calls("ENTER 3 1300", "OUT 3 0"), ("1 EXA 1000", "VALUE 000000000141"),
        ("1 EXA 1001", "VALUE 000700000142"), ("1 EXA 1002", "VALUE 000000001200"),
        *deposits(0o143, 0o442131446236, 0o064240000000),
        *deposits(0o1001, 0o260700000144), *calls("CLOSE 3 0"), ("1 EXA 1000", "VALUE 400000000141"),
        ("1 EXA 1002", "VALUE 000000000000")]

# Each row: its lines with their replies, the room at the end, and how many files there are then.
ROWS = [
    ("a version is dropped", [*TWENTY_FOUR, *calls("CLOSE 3 40"), *size_is("772000000000")], 22, 1),
    ("a version is published", [*TWENTY_FOUR, *calls("CLOSE 3 0"), *size_is("772600000000")], 25, 1),
    ("a file is updated", [*THREE_HUNDRED, *size_is("777324000000")], 43, 1),
    ("a directory grows and shrinks", MANY, 5, 42),
    ("a file by a ring", [*RING, *size_is("777776000000", 0o1200, 0o1300)], 45, 1),
]
# The lines of a session on the image with FOO.TXT of 4-Jan-1975, with what each prints.
SESSION = [
    ("LOGIN [10,20]", ["Job 1 [10,20]"]), ("COPY BAR.TXT=FOO.TXT", ["OK"]),
    ("DIRECTORY", ["BAR    TXT     1  <057>   1-Jan-1964", "FOO    TXT     1  <057>   4-Jan-1975",
                   "Total 2 blocks in 2 files [10,20]"]),
    ("DELETE FOO.TXT", ["OK"]), ("DELETE FOO.TXT", ["?File not found"]),
]


class Runs:
    """Runs of the program, each with one allocation refused."""

    def __init__(self, program, folder):
        self.program, self.folder = program, folder
        self.library = os.path.join(folder, "refused.so")
        self.count = self.failed = self.made = 0

    def path(self, name):
        return os.path.join(self.folder, name)

    def judge(self, good, what):
        """Counts a check, and reports what is wrong."""
        self.count += 1
        if not good:
            self.failed += 1
            print(f"refused_allocations: {what}")

    def run(self, words, given=b"", refused=None):
        """Returns the lines that a run prints, and its status; a number refuses that allocation, 0 none."""
        env = dict(os.environ)
        if refused is not None:
            env |= {"LD_PRELOAD": self.library, "REFUSED": str(refused), "COUNTED": self.path("COUNT")}
        done = subprocess.run([self.program, *words], input=given, stdout=subprocess.PIPE, stderr=subprocess.DEVNULL,
                              cwd=self.folder, env=env, check=False, timeout=LIMIT)
        return done.stdout.decode("latin-1").splitlines(), done.returncode

    def allocations(self):
        """Returns how many allocations the last such run made."""
        try:
            with open(self.path("COUNT"), encoding="utf-8") as text:
                return int(text.read())
        except FileNotFoundError:
            return 0

    def has(self, left):
        """Returns whether the image that a run worked on has these bytes, or else these files."""
        with open(self.path("TRY.IMG"), "rb") as tried, open(self.path("LEFT.IMG"), "rb") as wanted:
            return tried.read() == wanted.read() or self.files("TRY.IMG") == left

    def keep(self):
        """Keeps the image that a run worked on as the one that others have to leave, and returns its files."""
        shutil.copy(self.path("TRY.IMG"), self.path("LEFT.IMG"))
        return self.files("LEFT.IMG")

    def files(self, image):
        """Returns the files of an image with their words, and what `check` prints."""
        lines, _ = self.run(["list", image, "--tsv"])
        names = [".".join(it for it in line.split("\t")[1:3] if it) for line in lines]
        words = [self.run(["get", image, "10,20", name, "--words"]) for name in names if name != "."]
        return lines, words, self.run(["check", image])

    def refuse_each(self, name, image, words, steps, left):
        """Makes a run once for each of its allocations, which is refused. `steps` has lines and what they print, and
        `left` what there has to be at the end."""
        number = 0
        while True:
            shutil.copy(self.path(image), self.path("TRY.IMG"))
            text = [line for line, _ in steps]
            lines, status = self.run(words, joined(text), number)
            whole = self.allocations() if number == 0 else whole
            at = place_of_refusal(lines, steps)
            if status == 3:
                self.judge(lines == ["?No memory"], f"{name}, {number}: {lines[:3]}, status 3")
            elif at is not None:
                # the same once more, with the call that was refused made twice
                shutil.copy(self.path(image), self.path("TRY.IMG"))
                lines, status = self.run(words, joined(text[:at] + text[at:at + 1] + text[at:]), number)
                self.judge(lines.pop(printed_before(steps, at)) in NO_MEMORY, f"{name}, {number}: another refusal")
                self.made += 1
            wanted = printed(steps)
            if status in (3, 4):
                self.judge(status == 3 or lines == wanted[:len(lines)],
                           f"{name}, {number}: {difference(lines, wanted)}")
                self.judge(self.run(["check", "TRY.IMG"])[1] == 0, f"{name}, {number}: refused at the next start")
            else:
                self.judge(lines == wanted, f"{name}, {number}: {difference(lines, wanted)}")
                self.judge(self.has(left), f"{name}, {number}: other files")
            number += 1
            if number > whole:
                return


def joined(lines):
    """Returns the bytes of lines."""
    return "".join(f"{line}\n" for line in lines).encode()


def printed(steps):
    """Returns all lines that these steps print."""
    return [it for _, out in steps for it in out]


def difference(lines, wanted):
    """Returns the first place at which lines differ from those that are wanted."""
    at = next((at for at, pair in enumerate(zip(lines, wanted)) if pair[0] != pair[1]), min(len(lines), len(wanted)))
    return f"line {at} of {len(lines)} is {lines[at:at + 1]} and not {wanted[at:at + 1]} of {len(wanted)}"


def printed_before(steps, at):
    """Returns how many lines the steps before this one print."""
    return len(printed(steps[:at]))


def place_of_refusal(lines, steps):
    """Returns the step that was refused for lack of memory, if there is one."""
    first = next((place for place, line in enumerate(lines) if line in NO_MEMORY), None)
    return None if first is None else next(at for at in range(len(steps)) if printed_before(steps, at) == first)


def main():
    if len(sys.argv) != 2 or not os.access(sys.argv[1], os.X_OK):
        print("usage: tests/refused_allocations.py PROGRAM", file=sys.stderr)
        return 2
    with tempfile.TemporaryDirectory() as folder:
        runs = Runs(os.path.abspath(sys.argv[1]), folder)
        source = os.path.join(HERE, "refused_allocations.c")
        compiler = shutil.which("cc")
        if not compiler or subprocess.run([compiler, "-shared", "-fPIC", "-O1", "-o", runs.library, source],
                                          check=False).returncode != 0:
            print("refused_allocations: SKIPPED, there is no C compiler")
            return 0
        runs.run(["init", "A.IMG", "64"])
        runs.run(["run", "A.IMG"], b"LOGIN [10,20]\nMAKDIR [10,20]\n")
        runs.run(["check", "A.IMG"], refused=0)
        if runs.allocations() == 0:
            print("refused_allocations: SKIPPED, the program's allocations can't be counted")
            return 0
        for name, steps, room, files in ROWS:
            steps = [(line, [reply]) for line, reply in steps]
            shutil.copy(runs.path("A.IMG"), runs.path("TRY.IMG"))
            lines, status = runs.run(["calls", "TRY.IMG"], joined(line for line, _ in steps))
            runs.judge(lines == printed(steps), f"{name}: {difference(lines, printed(steps))}, status {status}")
            left = runs.keep()
            runs.judge(left[2] == ([f"Volume of 64 blocks, room {room}"], 0), f"{name}: {left[2]}")
            runs.judge(len(left[1]) == files, f"{name}: {len(left[1])} files")
            runs.refuse_each(name, "A.IMG", ["calls", "TRY.IMG"], steps, left)
        put_and_session(runs)
        print(f"refused_allocations: {runs.count} checks, {runs.made} calls made again, {runs.failed} failed")
    return 1 if runs.failed else 0


def put_and_session(runs):
    """Refuses each allocation of a `put`, which is then made again, and of a session on what it leaves."""
    put = ["put", "TRY.IMG", "10,20", "FOO.TXT", "--date", "4095"]
    shutil.copy(runs.path("A.IMG"), runs.path("TRY.IMG"))
    runs.judge(runs.run(put, HELLO, 0) == (["OK"], 0), "put")
    whole, left = runs.allocations(), runs.keep()
    shutil.copy(runs.path("TRY.IMG"), runs.path("FOO.IMG"))
    for number in range(1, whole + 1):
        shutil.copy(runs.path("A.IMG"), runs.path("TRY.IMG"))
        lines, status = runs.run(put, HELLO, number)
        runs.judge((lines, status) in ((["OK"], 0), (["?No memory"], 1), ([], 4), (["?No memory"], 3)),
                   f"put, {number}: {lines}, status {status}")
        if lines != ["OK"]:
            runs.judge(runs.run(put, HELLO) == (["OK"], 0), f"put, {number}: not done when it was made again")
            runs.made += 1
        runs.judge(runs.has(left), f"put, {number}: other files")
    shutil.copy(runs.path("FOO.IMG"), runs.path("TRY.IMG"))
    lines, status = runs.run(["run", "TRY.IMG"], joined(line for line, _ in SESSION))
    runs.judge((lines, status) == (printed(SESSION), 1), f"session: {lines}, status {status}")
    runs.refuse_each("session", "FOO.IMG", ["run", "TRY.IMG"], SESSION, runs.keep())


if __name__ == "__main__":
    sys.exit(main())
