#!/usr/bin/env python3
"""Plays the worked rows of crates/scenarios/stdin over images of both forms.

usage: tests/both_forms.py PROGRAM

Each row begins with the image that its lines describe, once in form 1 and once in form 2. Its session lines go through
`filser run`, and its calls through `filser calls`. Both forms must print the same, and end with the same status and the
same words in each block; a row that has only sessions must print what the row wants. The top of crates/scenarios/stdin
says what its lines mean. Then images of several sizes and of both layouts are converted there and back, one of them by
processes that are interrupted. Prints a line for each failed check, and one line at the end.
"""

import os
import re
import signal
import subprocess
import sys
import tempfile
import time

WORDS = 128
TITLE = re.compile(r"(ROW|STOPS|FAULTS|PART) (.*)")
WRITTEN = {
    1: "465154634562 1 100 1 11 17",
    2: "465154634562 1 100 1 11 17",
    14: "777777400000",
    15: "0 1 000010000020 775000000000 20",
    16: "0 1 465757000000 647064000000 21",
    17: "625142000000 465757000000 647064000000 057000007777 000010000020 2 1 0 0 0 0 0 0 0 0 0 000001000022",
    18: "442131446236 064240000000",
}


def rows_of(path):
    """Returns the kind of each row that is played, its title, and its lines; of several alternatives the first one."""
    parts, rows = {}, []
    with open(path, encoding="ascii") as file:
        for line in file.read().split("\n"):
            title = TITLE.fullmatch(line)
            if title:
                lines = parts[title.group(2)] = []
                if title.group(1) != "PART":
                    rows.append((title.group(1), title.group(2), lines))
            elif line.startswith("@"):
                lines += parts[line[1:]]
            elif parts:
                lines.append(re.split(r" ~\d+", line)[0])
    return rows


def words_of(text):
    """Returns the words of a block: those that are spelled in octal, and zeros after them."""
    words = [int(word, 8) for word in text.split()]
    return words + [0] * (WORDS - len(words))


def calls_of(line):
    """Returns the calls that a line stands for."""
    if " TIMES " in line:
        times, events = line.split(" TIMES ")
        turns = [events.replace("%", f"{turn + 1:o}") for turn in range(int(times))]
        return [call for turn in turns for event in turn.split(" ; ") for call in calls_of(event)]
    fields = line.split(" = ")[0].split()
    job, call, places = fields[0], "".join(fields[1:2]), fields[2:]
    if call in ("DEPS", "EXAS"):
        start = int(places[0], 8)
        words = places[1:] if call == "DEPS" else [""] * len(places[1:])
        return [f"{job} {call[:3]} {start + at:o} {word}".strip() for at, word in enumerate(words)]
    if call in ("FILL", "HAS"):
        start, count, first = int(places[0], 8), int(places[1]), int(places[2])
        step = int(places[3]) if len(places) > 3 else 1
        words = [f" {first + at * step:o}" if call == "FILL" else "" for at in range(count)]
        return [f"{job} {'DEP' if call == 'FILL' else 'EXA'} {start + at:o}{word}" for at, word in enumerate(words)]
    return [" ".join(fields)]


class Run:
    """A session, with what it must print, and the calls after it, at one moment."""

    def __init__(self, moment):
        self.moment = moment
        self.session = []
        self.wanted = []
        self.calls = []


class Row:
    """A row: the words of each block of its disk, and its runs."""

    def __init__(self, kind, title, lines):
        self.title = title
        self.serves = kind == "ROW"
        self.blocks = []
        self.changed = set()
        self.is_damaged = False
        self.runs = [Run(("0", "0"))]
        for line in lines:
            self.add(line)

    def add(self, line):
        if line.startswith("> "):
            if self.runs[-1].wanted:
                self.runs.append(Run(self.runs[-1].moment))
            self.runs[-1].session.append(line[2:])
        elif line.startswith("| "):
            self.runs[-1].wanted.append(line[2:])
        else:
            self.step(line.split("#")[0].strip())

    def step(self, line):
        fields = line.split() or [""]
        if fields[0] in ("VOLUME", "WRITTEN", "RAW"):
            self.blocks = [words_of("") for _ in range(int(fields[1]))]
            self.is_volume, self.changed = fields[0] == "VOLUME", set()
            self.serves = self.serves and len(fields) == 2
            if fields[0] == "WRITTEN":
                for block, text in WRITTEN.items():
                    self.blocks[block] = words_of(text)
        elif fields[0] == "BLOCK":
            self.blocks[int(fields[1])] = words_of(" ".join(fields[2:]))
            self.changed.add(int(fields[1]))
        elif fields[0] == "ALL":
            self.blocks[int(fields[1])] = [int(fields[2], 8)] * WORDS
            self.changed.add(int(fields[1]))
        elif fields[0] == "DAMAGE":
            self.is_damaged = True
        elif fields[0] == "AT":
            self.runs.append(Run((fields[1], fields[2])))
        elif fields[0] == "RESTART":
            self.runs.append(Run(self.runs[-1].moment))
        elif fields[0].isdigit() and len(fields) > 1:
            self.runs[-1].calls += calls_of(line)

    def is_session(self):
        """Returns whether it has only sessions, over a disk that doesn't fail."""
        return self.serves and not any(run.calls for run in self.runs)


def text_of(lines):
    """Returns the bytes of lines of a session: `\\r` at the end stands for a carriage return, `\\c` for no line
    feed."""
    text = ""
    for line in lines:
        text += line[:-2] if line.endswith("\\c") else line.replace("\\r", "\r") + "\n"
    return text.encode()


def plain(words):
    """Returns the bytes of words in form 1."""
    return b"".join(word.to_bytes(8, "big") for word in words)


def packed(data):
    """Returns the bytes of form 2 for those of form 1."""
    words = [int.from_bytes(data[at : at + 8], "big") for at in range(0, len(data), 8)]
    return b"".join((first << 36 | second).to_bytes(9, "big") for first, second in zip(words[::2], words[1::2]))


class Tries:
    """Runs of the program in their own folder."""

    def __init__(self, program, folder):
        self.program = program
        self.folder = folder
        self.count = 0
        self.failed = 0

    def path(self, name):
        return os.path.join(self.folder, name)

    def read(self, name):
        with open(self.path(name), "rb") as file:
            return file.read()

    def write(self, name, data):
        with open(self.path(name), "wb") as file:
            file.write(data)

    def run(self, words, data=b""):
        """Returns what a run prints, and its status."""
        done = subprocess.run([self.program, *words], input=data, capture_output=True, cwd=self.folder, check=False)
        return done.stdout, done.returncode

    def expect(self, good, what):
        """Counts a check, and reports what is wrong."""
        self.count += 1
        if not good:
            self.failed += 1
            print(what)

    def both(self, command, run, data):
        """Returns what both forms print, which must be the same."""
        moment = ["--date", run.moment[0], "--minute", run.moment[1]]
        one = self.run([command, "ONE.IMG", *moment], data)
        two = self.run([command, "TWO.IMG", *moment, "--form", "2"], data)
        return one, one == two

    def change(self, block, data):
        """Gives a block of both images these words, spelled in form 1."""
        for name, data in (("ONE.IMG", data), ("TWO.IMG", packed(data))):
            with open(self.path(name), "r+b") as file:
                file.seek(block * len(data))
                file.write(data)

    def row(self, row):
        """Plays a row over both forms."""
        if row.is_volume:
            for name, form in (("ONE.IMG", "1"), ("TWO.IMG", "2")):
                if os.path.exists(self.path(name)):
                    os.remove(self.path(name))
                self.run(["init", name, str(len(row.blocks)), "--form", form])
            for block in row.changed:
                self.change(block, plain(row.blocks[block]))
        else:
            image = b"".join(plain(words) for words in row.blocks)
            self.write("ONE.IMG", image)
            self.write("TWO.IMG", packed(image))
        for run in row.runs:
            if run.session:
                (printed, _), same = self.both("run", run, text_of(run.session))
                self.expect(same, f"{row.title}: a session prints another text in form 2")
                if row.is_session():
                    self.expect(printed == text_of(run.wanted), f"{row.title}: {printed!r}")
            if run.calls:
                _, same = self.both("calls", run, text_of(run.calls))
                self.expect(same, f"{row.title}: calls are answered otherwise in form 2")
        self.expect(packed(self.read("ONE.IMG")) == self.read("TWO.IMG"), f"{row.title}: the images differ")

    def size(self, blocks, data=b"HELLO\r\n" * 2000, layout=1):
        """Converts an image of this many blocks with a file of these bytes in it there and back."""
        for name in ("A.IMG", "B.IMG", "C.IMG"):
            if os.path.exists(self.path(name)):
                os.remove(self.path(name))
        self.run(["init", "A.IMG", str(blocks), "--layout", str(layout)])
        self.run(["run", "A.IMG"], b"LOGIN [10,20]\nMAKDIR [10,20]\n")
        self.run(["put", "A.IMG", "10,20", "FOO.TXT"], data)
        done = (f"Converted {blocks} blocks\n".encode(), 0)
        self.expect(self.run(["convert", "A.IMG", "B.IMG"]) == done, f"{blocks} blocks: not converted")
        self.expect(os.path.getsize(self.path("B.IMG")) == 576 * blocks, f"{blocks} blocks: of another size")
        self.expect(self.run(["convert", "B.IMG", "C.IMG", "--form", "2"]) == done, f"{blocks} blocks: not converted back")
        self.expect(self.read("A.IMG")[1024:] == self.read("C.IMG")[1024:], f"{blocks} blocks: other bytes come back")

    def interrupted(self):
        """Converts an image that a file fills, by processes that are interrupted, each one later. The existing image
        stays. The new one isn't a volume, or has all blocks except the home copies."""
        self.size(16384, b"HELLO\r\n" * 1490000)
        before, whole = self.read("A.IMG"), self.read("B.IMG")
        for number in range(100):
            with subprocess.Popen([self.program, "convert", "A.IMG", "D.IMG"], cwd=self.folder, stdout=subprocess.PIPE,
                                  stderr=subprocess.PIPE) as process:
                time.sleep(0.01 * (number + 1))
                process.send_signal(signal.SIGINT)
                process.communicate()
            if process.returncode == 0:
                break
            self.expect(process.returncode == -signal.SIGINT, f"interrupted: status {process.returncode}")
            if os.path.exists(self.path("D.IMG")):
                _, status = self.run(["check", "D.IMG", "--form", "2"])
                data = self.read("D.IMG")
                self.expect(status == 3 or status == 0 and data[3 * 576 :] == whole[3 * 576 :], f"interrupted: {status}")
                os.remove(self.path("D.IMG"))
        self.expect(self.read("A.IMG") == before, "interrupted: the image that is there has changed")


def main():
    if len(sys.argv) != 2 or not os.access(sys.argv[1], os.X_OK):
        print("usage: python3 tests/both_forms.py PROGRAM", file=sys.stderr)
        return 2
    here = os.path.dirname(os.path.abspath(__file__))
    rows = [Row(*row) for row in rows_of(os.path.join(here, "..", "crates", "scenarios", "stdin"))]
    rows = [row for row in rows if row.blocks and not row.is_damaged]
    with tempfile.TemporaryDirectory() as folder:
        tries = Tries(os.path.abspath(sys.argv[1]), folder)
        for row in rows:
            tries.row(row)
        for blocks, layout in ((64, 1), (64, 2), (65, 1), (4608, 2), (4609, 1), (10000, 2), (131072, 1)):
            tries.size(blocks, layout=layout)
        tries.interrupted()
    print(f"both_forms: {len(rows)} rows, {tries.count - tries.failed} as they should be, {tries.failed} not")
    return 1 if tries.failed else 0


if __name__ == "__main__":
    sys.exit(main())
