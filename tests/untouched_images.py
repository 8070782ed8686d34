#!/usr/bin/env python3
"""Tests that the program changes no byte that it should not change.

usage: tests/untouched_images.py PROGRAM

Every subcommand is run to its end with ample memory. Subcommands that only read, images that a start refuses, `init`
over an existing file, `migrate` of an image of layout 2, and `convert` of an image leave the bytes of each file
unchanged; `convert` prints the number of blocks and makes an image with the same files. An image that may only be read
can be read. Prints a line for each failed check, and one line at the end.
"""

import os
import subprocess
import sys
import tempfile

BLOCK = {1: 1024, 2: 576}
LIMIT = 60
NOBODY = 65534
HELLO = b"HELLO\r\n"
LISTED = b"HELLO  TXT     1  <057>   1-Jan-1964\nTotal 1 blocks in 1 files [10,20]\n"


class Runs:
    """Runs of the program in one folder."""

    def __init__(self, program, folder):
        self.program = program
        self.folder = folder
        self.count = 0
        self.failed = 0

    def path(self, name):
        """Returns where a file of the folder is."""
        return os.path.join(self.folder, name)

    def files(self):
        """Returns the bytes of each file of the folder."""
        found = {}
        for name in sorted(os.listdir(self.folder)):
            if os.path.isfile(self.path(name)):
                with open(self.path(name), "rb") as file:
                    found[name] = file.read()
        return found

    def write(self, name, data):
        """Makes a file."""
        with open(self.path(name), "wb") as file:
            file.write(data)

    def judge(self, good, what):
        """Counts, and prints what is wrong."""
        self.count += 1
        if not good:
            self.failed += 1
            print(what)

    def run(self, words, status, printed, data=b"", before=None):
        """Runs the program, whose status and output must be these; an output of None may be anything. `before` is done
        in its process first."""
        done = subprocess.run([self.program, *words], input=data, capture_output=True, cwd=self.folder, check=False,
                              timeout=LIMIT, preexec_fn=before)
        shown = " ".join(words)
        self.judge(done.returncode == status, f"{shown}: status {done.returncode} and not {status}: {done.stderr!r}")
        self.judge(printed is None or done.stdout == printed, f"{shown}: {done.stdout!r} and not {printed!r}")
        return done.stdout

    def leaves(self, words, status, printed, data=b"", before=None):
        """Checks the same for a run that leaves all files unchanged, and makes none."""
        was = self.files()
        stdout = self.run(words, status, printed, data, before)
        self.judge(self.files() == was, f"{' '.join(words)}: a file has changed")
        return stdout


def whole_runs(runs, form):
    """Tests every subcommand on an image of a form. That of form 2 has layout 2."""
    image = f"FORM{form}.IMG"
    named = ["--form", str(form)]
    runs.run(["init", *named, "--layout", str(form), image, "64"], 0, b"")
    size = os.path.getsize(runs.path(image))
    runs.judge(size == 64 * BLOCK[form], f"init: {size} bytes in form {form}")
    runs.leaves(["check", *named, image], 0, b"Volume of 64 blocks, room 48\n")
    runs.leaves(["list", *named, image], 0, b"")
    runs.run(["run", *named, image], 0, b"Job 1 [10,20]\nOK\n", b"LOGIN [10,20]\nMAKDIR [10,20]\n")
    runs.run(["put", *named, image, "10,20", "HELLO.TXT"], 0, b"OK\n", HELLO)
    runs.run(["calls", *named, image], 0, b"DONE\nDONE\nDONE\n",
             b"1 LOGIN 1,2 1000\n1 DEP 200 000010000021\n1 MAKDIR 200\n")
    runs.leaves(["get", *named, image, "10,20", "HELLO.TXT"], 0, HELLO)
    runs.leaves(["list", *named, image, "10,20"], 0, LISTED)
    runs.leaves(["list", "--tsv", *named, image], 0, None)
    runs.leaves(["check", *named, image], 0, None)
    runs.leaves(["run", *named, image], 0, b"Job 1 [10,20]\n" + LISTED + HELLO,
                b"LOGIN [10,20]\nDIRECTORY\nTYPE HELLO.TXT\n")
    runs.leaves(["calls", *named, image], 0, b"DONE\nVALUE 000000000000\n", b"1 LOGIN 10,20 1000\n1 EXA 200\n")
    if form == 2:
        runs.leaves(["migrate", *named, image], 0, b"Layout 2\n")
    return image


def conversions(runs, image, form):
    """Tests that a conversion leaves the existing image unchanged, and that its copy has the same files."""
    copy = f"COPY{form}.IMG"
    before = runs.files()
    runs.run(["convert", "--form", str(form), image, copy], 0, b"Converted 64 blocks\n")
    after = runs.files()
    made = after.pop(copy, b"")
    runs.judge(after == before, f"convert {image}: another file has changed")
    other = 3 - form
    runs.judge(len(made) == 64 * BLOCK[other], f"convert {image}: {len(made)} bytes")
    runs.leaves(["get", "--form", str(other), copy, "10,20", "HELLO.TXT"], 0, HELLO)
    for words in (["list"], ["list", "--tsv"], ["check"]):
        old = runs.leaves([*words, "--form", str(form), image], 0, None)
        runs.leaves([*words, "--form", str(other), copy], 0, old)
    # a name that is taken
    runs.leaves(["convert", "--form", str(form), image, copy], 3, b"?Image exists\n")
    runs.leaves(["convert", "--form", str(form), image, image], 3, b"?Image exists\n")


def taken_names(runs):
    """Tests that a new image isn't made if something is there."""
    runs.write("NOTES.TXT", b"not an image\n")
    runs.write("EMPTY.TXT", b"")
    os.mkdir(runs.path("FOLDER"))
    for name in ("FORM1.IMG", "FORM2.IMG", "NOTES.TXT", "EMPTY.TXT", "FOLDER"):
        runs.leaves(["init", name, "64"], 3, b"?Image exists\n")
    runs.judge(os.listdir(runs.path("FOLDER")) == [], "init: something is in the folder")


def spoiled(image):
    """Yields images that a start refuses, made from a good one in form 1, and the line with which each is refused."""
    both = bytearray(image)
    for block in (1, 2):
        both[block * 1024 + 8 : block * 1024 + 16] = (7).to_bytes(8, "big")
    yield "VERSION.IMG", bytes(both), b"?Bad home blocks\n"
    zeroed = bytearray(image)
    zeroed[1024 : 3 * 1024] = bytes(2048)
    yield "ZEROED.IMG", bytes(zeroed), b"?Not a volume\n"
    yield "SHORT.IMG", image[:-1], b"?Not a volume\n"
    yield "NOTHING.IMG", b"", b"?Not a volume\n"
    wrong = bytearray(image)
    wrong[14 * 1024 : 15 * 1024] = bytes(1024)
    yield "TABLE.IMG", bytes(wrong), b"?Bad table block 14\n"


def refusals(runs):
    """Tests that an image that is refused stays as it was, whatever was to be done with it."""
    with open(runs.path("FORM1.IMG"), "rb") as file:
        image = file.read()
    tasks = [(["run"], []), (["calls"], []), (["wire"], []), (["put"], ["10,20", "A.TXT"]),
             (["get"], ["10,20", "HELLO.TXT"]), (["list"], []), (["check"], []), (["migrate"], []),
             (["convert"], ["NEW.IMG"])]
    for name, data, refusal in spoiled(image):
        runs.write(name, data)
        for words, rest in tasks:
            runs.leaves([*words, name, *rest], 3, refusal, b"LOGIN [10,20]\n")


def as_another():
    """Makes this process run as a user who may do with a file what everybody may."""
    if os.getuid() == 0:
        os.setgroups([])
        os.setgid(NOBODY)
        os.setuid(NOBODY)


def without_leave_to_write(runs):
    """Tests that an image that may only be read can be read, and that nothing else is done with it."""
    os.chmod(runs.folder, 0o755)
    os.chmod(runs.path("FORM1.IMG"), 0o444)
    for words, printed in ((["get", "FORM1.IMG", "10,20", "HELLO.TXT"], HELLO),
                           (["list", "FORM1.IMG", "10,20"], LISTED), (["list", "--tsv", "FORM1.IMG"], None),
                           (["check", "FORM1.IMG"], None)):
        runs.leaves(words, 0, printed, before=as_another)
    for words in (["run", "FORM1.IMG"], ["calls", "FORM1.IMG"], ["wire", "FORM1.IMG"],
                  ["put", "FORM1.IMG", "10,20", "A.TXT"]):
        runs.leaves(words, 4, b"?Device fault\n", HELLO, as_another)


def main():
    if len(sys.argv) != 2 or not os.access(sys.argv[1], os.X_OK):
        print("usage: tests/untouched_images.py PROGRAM", file=sys.stderr)
        return 2
    with tempfile.TemporaryDirectory() as folder:
        runs = Runs(os.path.abspath(sys.argv[1]), folder)
        runs.leaves([], 0, b"Job 1 [10,20]\n", b"LOGIN [10,20]\n")
        for form in (1, 2):
            conversions(runs, whole_runs(runs, form), form)
        taken_names(runs)
        refusals(runs)
        without_leave_to_write(runs)
    print(f"untouched_images: {runs.count - runs.failed} as they should be, {runs.failed} not")
    return 1 if runs.failed else 0


if __name__ == "__main__":
    sys.exit(main())
