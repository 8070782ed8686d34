#!/usr/bin/env python3
"""Plays the worked rows of crates/scenarios/stdin on the model, so that model and rows check each other.

usage: tests/model_rows.py [WORD]

The model is model/machine.py; no program is used. The top of crates/scenarios/stdin says what the lines of a row mean.
A row is played with each of its alternatives. Of a row that is stopped, 0, 1, .. of its events are played before the
start that follows. The model has no blocks, so a row whose disk is spoiled or fails is skipped, and so is one with
lines of a session other than LOGIN, MAKDIR and QUOTA. With WORD, only rows with this word in their titles are played.

Prints a line for each answer that is not the row's, and one line at the end.
"""

import os
import re
import sys

from model.machine import File, Machine, halves

TITLE = re.compile(r"(ROW|STOPS|FAULTS|PART) (.*)")
STARTS = ("ROW", "STOPS", "FAULTS")
HOME = re.compile(r"BLOCK [12] 465154634562 ([12]) ([0-7]+) 1 11 17")
DISK = ("RAW", "BLOCK", "ALL", "DAMAGE", "REFUSED")
FOO = ((0o10, 0o20), 0o465757000000, 0o647064)
FOO_WORDS = [0o442131446236, 0o064240000000]
OWNER = r"\[([0-7]{1,6}),([0-7]{1,6})\]"
COMMANDS = {
    "LOGIN": re.compile(rf"LOGIN +{OWNER}"),
    "MAKDIR": re.compile(rf"MAKDIR +{OWNER}(?:<([0-7]{{1,3}})>)?"),
    "QUOTA": re.compile(rf"QUOTA +{OWNER} ([0-9]{{1,6}})"),
}
TEXTS = {
    "DONE": "OK", "REFUSED 1": "?No such directory", "REFUSED 2": "?Protection failure", "NOJOB": "?Not logged in",
    "REFUSED 4": "?File name already exists", "REFUSED 5": "?Illegal sequence", "REFUSED 14": "?No room",
    "DATE": "?Date out of range",
}
MOST_QUOTA = 262143


class Skipped(Exception):
    """A row that the model can't play."""


class Stop(Exception):
    """Raised after the events before a stop were played."""


def rows_of(path):
    """Returns the kind of each row that is played, its title, and its lines."""
    parts, rows = {}, []
    with open(path, encoding="ascii") as file:
        for line in file.read().split("\n"):
            title = TITLE.fullmatch(line)
            if title:
                lines = parts[title.group(2)] = []
                if title.group(1) in STARTS:
                    rows.append((title.group(1), title.group(2), lines))
            elif line.startswith("@"):
                lines += parts[line[1:]]
            elif parts:
                lines.append(line)
    return rows


def alternatives(lines):
    """Returns the numbers from which a line has another step."""
    return [int(number) for line in lines for number in re.findall(r" ~(\d+)", line)]


def step(line, alternative):
    """Returns the step of a line: of several alternatives, the last one with a number up to this."""
    chosen, *others = re.split(r" ~(?=\d)", line)
    for other in others:
        number, _, text = other.partition(" ")
        if int(number) <= alternative:
            chosen = text
    return chosen


class Session:
    """The lines of a session, which job 1 types."""

    def __init__(self, machine):
        self.machine, self.has_job = machine, False

    def line(self, text):
        """Returns what a line prints."""
        word = text.split(" ")[0]
        if word not in COMMANDS and re.fullmatch(r"[A-Z]+", word):
            raise Skipped
        found = COMMANDS.get(word, TITLE).fullmatch(text)
        owner = tuple(int(half, 8) for half in found.groups()[:2]) if found else (0, 0)
        if 0 in owner or word == "QUOTA" and int(found.group(3)) > MOST_QUOTA:
            return "?Command error"
        if word == "LOGIN":
            self.machine.login(1, owner, 0o10000)
            self.has_job = True
            return f"Job 1 [{owner[0]:o},{owner[1]:o}]"
        if not self.has_job:
            return "?Not logged in"
        second = int(found.group(3)) << 18 if word == "QUOTA" else int(found.group(3) or "0", 8) << 27
        self.machine.jobs[1].core[0o200:0o202] = [owner[0] << 18 | owner[1], second]
        return TEXTS[self.machine.line(f"1 {word} 200")]

    def end(self):
        self.machine.line("1 RESET")


class Play:
    """A row that is played with one of its alternatives, up to this many events before its first RESTART."""

    def __init__(self, title, alternative, most):
        self.title, self.alternative, self.most = title, alternative, most
        self.machine, self.wrong, self.events = None, [], 0
        self.asked, self.wanted = [], []

    def expect(self, line, wanted, found):
        if self.most is not None and self.events == self.most:
            raise Stop
        self.events += 1
        got = found()
        if got != wanted:
            self.wrong.append(f"{self.title} ({self.alternative}): {line}: {got} and not {wanted}")

    def talk(self):
        """Plays the session whose lines were read, if there is one."""
        if self.asked:
            self.expect("a session", "\n".join(self.wanted), self.printed)
        self.asked, self.wanted = [], []

    def printed(self):
        session = Session(self.machine)
        asked = [line.removesuffix("\\r").removesuffix("\\c").upper() for line in self.asked]
        lines = [session.line(line) for line in asked if line]
        session.end()
        return "\n".join(lines)

    def play(self, lines):
        for line in lines:
            line = step(line, self.alternative)
            if line.startswith("> "):
                if self.wanted:
                    self.talk()
                self.asked.append(line[2:])
            elif line.startswith("| "):
                self.wanted.append(line[2:])
            else:
                self.talk()
                self.step(line.split("#")[0].strip())
        self.talk()

    def step(self, line):
        home = HOME.fullmatch(line)
        if home and self.machine and int(home.group(2), 8) == self.machine.blocks:
            self.machine.layout = int(home.group(1))
            return
        if line.startswith(DISK):
            raise Skipped
        times, is_many, events = line.partition(" TIMES ")
        for turn in range(int(times)) if is_many else [None]:
            for event in (events.replace("%", f"{turn + 1:o}").split(" ; ") if is_many else [line]):
                self.event(event)

    def event(self, line):
        event, _, wanted = line.partition(" = ")
        fields = event.split() or [""]
        if fields[0] in ("VOLUME", "WRITTEN"):
            self.begin(fields)
        elif fields[0] == "AT":
            self.machine.moment = (int(fields[1]), int(fields[2]))
        elif fields[0] in ("ROOM", "BLOCKS"):
            found = self.machine.room if fields[0] == "ROOM" else lambda: self.machine.blocks
            self.expect(event, event, lambda: f"{fields[0]} {found()}")
        elif fields[0] == "CHARGE":
            self.expect(event, wanted, lambda: self.charge(fields[1]))
        elif fields[0] in ("LEFT", "COST"):
            pass  # these are of blocks
        elif fields[0].isdigit():
            self.calls(fields, wanted or "DONE")
        elif fields[0]:
            raise Skipped

    def begin(self, fields):
        if len(fields) > 2 or self.machine:
            raise Skipped
        self.machine = Machine(int(fields[1]))
        if fields[0] == "WRITTEN":
            ppn, name, extension = FOO
            files = {(name, extension): File(0o057, 0, (4095, 0), FOO_WORDS)}
            self.machine.directories[ppn] = (0o775, files)

    def charge(self, text):
        """Returns the quota of a directory and what counts against it."""
        ppn = tuple(int(half, 8) for half in text.strip("[]").split(","))
        if ppn not in self.machine.directories:
            return "None"
        return f"{self.machine.quotas.get(ppn, 0)} {self.machine.charge(ppn)}"

    def calls(self, fields, wanted):
        """Returns the calls that a line stands for."""
        job, call, places = fields[0], fields[1], fields[2:]
        if call in ("DEPS", "EXAS"):
            words = [int(word, 8) for word in places[1:]]
        elif call in ("FILL", "HAS"):
            jump = int(places[3]) if len(places) > 3 else 1
            words = [(int(places[2]) + at * jump) % (1 << 32) for at in range(int(places[1]))]
        else:
            self.call(" ".join(fields), wanted)
            return
        for at, word in enumerate(words):
            address = f"{int(places[0], 8) + at:o}"
            if call in ("DEPS", "FILL"):
                self.call(f"{job} DEP {address} {word:o}", "DONE")
            else:
                self.call(f"{job} EXA {address}", f"VALUE {word:012o}")

    def call(self, line, wanted):
        if wanted == "SYNTAX":
            raise Skipped
        self.expect(line, wanted, lambda: self.machine.line(line))

    def restart(self):
        """Starts the service again: the files are those that are published, and nobody has logged in."""
        self.talk()
        self.machine.jobs, self.most = {}, None


def played(title, lines, alternative, most=None):
    """Returns what isn't the row's, and how many events come before its first restart."""
    play, events = Play(title, alternative, most), 0
    parts = [[]]
    for line in lines:
        if line == "RESTART":
            parts.append([])
        else:
            parts[-1].append(line)
    for number, part in enumerate(parts):
        if number:
            play.restart()
        try:
            play.play(part)
        except Stop:
            play.asked = []
        if number == 0:
            events = play.events
    return play.wrong, events


def row(kind, title, lines):
    """Returns what isn't a row's, however it is played."""
    if kind == "ROW":
        numbers = range(max(alternatives(lines), default=0) + 1)
        return [what for number in numbers for what in played(title, lines, number)[0]]
    wrong, events = played(title, lines, 1 << 30)
    return wrong + [what for number in range(events) for what in played(title, lines, number, number)[0]]


def main():
    if len(sys.argv) > 2:
        print("usage: tests/model_rows.py [WORD]", file=sys.stderr)
        return 2
    word = sys.argv[1] if len(sys.argv) == 2 else ""
    here = os.path.dirname(os.path.abspath(__file__))
    good = failed = skipped = 0
    for kind, title, lines in rows_of(os.path.join(here, "..", "crates", "scenarios", "stdin")):
        if word not in title:
            continue
        try:
            wrong = row(kind, title, lines)
        except Skipped:
            skipped += 1
            continue
        good, failed = good + (not wrong), failed + bool(wrong)
        for what in wrong[:3]:
            print(what)
    print(f"model_rows: {good} rows as they should be, {failed} not, {skipped} skipped")
    return 1 if failed or not good else 0


if __name__ == "__main__":
    sys.exit(main())
