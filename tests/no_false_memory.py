#!/usr/bin/env python3
"""Tests that nothing lacks memory where there is enough of it: a service that always says so would keep every promise.

usage: tests/no_false_memory.py PROGRAM

Each kind of call is made once, with ample memory, and has to be answered as it is when it is done: by a script of calls
and over the wire; so are each line of a session and each command. The kinds are listed here. One that the sources or
the help have and a list lacks, or the other way round, is a failed check. Prints a line for each failed check, and one
line at the end.
"""

import os
import re
import subprocess
import sys
import tempfile

HERE = os.path.dirname(os.path.abspath(__file__))
sys.path.insert(0, os.path.join(HERE, "..", "clients", "python"))
sys.dont_write_bytecode = True

from filser import Code, Kind, Service  # noqa: E402  (the folder has to be in the path first)

LIMIT = 60
WORDS = 0o4000
DSK, FOO, BAR, TXT = 0o446353000000, 0o465757000000, 0o426162000000, 0o647064000000
OWN, OTHER = 0o000010000020, 0o000010000021
# A list that moves the 128 words from 2400, the words of a block.
AREA = [0o777600002377, 0]
FILE, LIST, CHANNEL, BLOCK = 0o2100, 0o2200, 0o2300, 0o2000

# What puts words into the core, as an address and these, or makes a call: its kind, and its numbers.
CALLS = [
    (BLOCK, [OWN, 0o775000000000]), ("MakeDir", BLOCK),
    (BLOCK, [OWN, 0o000144000000]), ("Quota", BLOCK),
    (CHANNEL, [0o17, DSK, 0]), ("Open", 1, CHANNEL),
    (FILE, [FOO, TXT, 0, OWN]), ("Enter", 1, FILE),
    (LIST, AREA), ("Out", 1, LIST), ("Useto", 1, 3), ("Out", 1, LIST), ("Close", 1, 0),
    (FILE, [FOO, TXT, 0, OWN]), ("Lookup", 1, FILE), ("Useti", 1, 2), ("In", 1, LIST), ("Getsts", 1),
    # an update that is dropped
    (FILE, [FOO, TXT, 0, OWN]), ("Enter", 1, FILE), ("Out", 1, LIST), ("Close", 1, 0o40),
    (FILE, [FOO, TXT, 0, OWN]), ("Lookup", 1, FILE), (FILE, [BAR, TXT, 0, OWN]), ("Rename", 1, FILE), ("Releas", 1),
    # rings
    (CHANNEL, [0, DSK, 0o003000003010]), ("Open", 2, CHANNEL), ("Outbuf", 2, 2), ("Inbuf", 2, 2),
    (FILE, [FOO, TXT, 0, OWN]), ("Enter", 2, FILE), ("Out", 2, 0), ("Close", 2, 0),
    (FILE, [BAR, TXT, 0, OWN]), ("Lookup", 2, FILE), ("In", 2, 0),
    # a deletion, and a directory without files
    (FILE, [0, 0, 0, 0]), ("Rename", 2, FILE),
    (BLOCK, [OTHER, 0]), ("MakeDir", BLOCK), ("DeleteDir", BLOCK),
    ("Reset",),
]
NAMES = {"MakeDir": "MAKDIR", "DeleteDir": "REMDIR"}

# The lines of a session, by their kinds, with the beginning of each answer's last line.
LINES = [
    ("Login", "LOGIN [1,2]", "Job 1 "), ("MakeDir", "MAKDIR [10,21]", "OK"), ("Quota", "QUOTA [10,21] 40", "OK"),
    ("Copy", "COPY A.TXT[10,21]=FOO.TXT[10,20]", "OK"), ("Rename", "RENAME B.TXT[10,21]=A.TXT[10,21]", "OK"),
    ("Protect", "PROTECT B.TXT[10,21]<55>", "OK"), ("TypeOut", "TYPE B.TXT[10,21]", "HELLO"),
    ("Directory", "DIRECTORY [10,21]", "Total 1 "), ("Delete", "DELETE B.TXT[10,21]", "OK"),
]

# The commands, in an order in which each succeeds.
COMMANDS = [
    ("init", ["A.IMG", "64"]), ("migrate", ["A.IMG"]), ("run", ["A.IMG"]), ("put", ["A.IMG", "10,20", "FOO.TXT"]),
    ("get", ["A.IMG", "10,20", "FOO.TXT"]), ("list", ["A.IMG"]), ("list", ["A.IMG", "10,20"]), ("check", ["A.IMG"]),
    ("calls", ["A.IMG"]), ("wire", ["A.IMG"]), ("import", ["A.IMG", "10,20", "host.txt"]), ("export", ["A.IMG", "out"]),
    ("salvage", ["A.IMG", "saved"]), ("convert", ["A.IMG", "B.IMG"]), ("delete", ["A.IMG", "10,20", "FOO.TXT"]),
]
GIVEN = {"run": b"LOGIN [10,20]\nMAKDIR [10,20]\n", "put": b"HELLO\r\n", "calls": b"1 LOGIN 1,2 2000\n"}


class Checks:
    """Counts checks, and reports those that fail."""

    def __init__(self):
        self.count = self.failed = 0

    def judge(self, good, what):
        self.count += 1
        if not good:
            self.failed += 1
            print(f"no_false_memory: {what}")

    def same(self, what, listed, found):
        self.judge(set(listed) == set(found), f"{what}: listed {sorted(listed)}, found {sorted(found)}")


def variants(path, name):
    """Returns the names of the variants of an enum in a source file."""
    with open(os.path.join(HERE, "..", "crates", path), encoding="utf-8") as text:
        body = re.search(rf"pub enum {name} \{{\n(.*?)\n\}}", text.read(), re.S)[1]
    return re.findall(r"^    (\w+)", body, re.M)


def run(program, folder, words, given=b""):
    """Returns what a run prints, and its status."""
    done = subprocess.run([program, *words], input=given, stdout=subprocess.PIPE, cwd=folder, check=False,
                          timeout=LIMIT)
    return done.stdout, done.returncode


def script_of(steps):
    """Returns the lines of a script that makes these calls."""
    lines = [f"1 LOGIN 1,2 {WORDS:o}"]
    for first, *rest in steps:
        if isinstance(first, int):
            lines += [f"1 DEP {first + place:o} {word:o}" for place, word in enumerate(rest[0])]
        else:
            lines.append(" ".join(["1", NAMES.get(first, first.upper()), *(f"{number:o}" for number in rest)]))
    return [*lines, "1 EXA 2400"]


def by_a_script(checks, program, folder):
    """Makes each call by a script."""
    lines = script_of(CALLS)
    out, status = run(program, folder, ["calls", "C.IMG"], "".join(f"{line}\n" for line in lines).encode())
    replies = out.decode().splitlines()
    checks.judge(len(replies) == len(lines) and status == 0, f"calls: {len(replies)} replies, status {status}")
    for line, reply in zip(lines, replies):
        checks.judge(reply.split()[0] in ("DONE", "VALUE"), f"{line}: {reply}")


def by_the_wire(checks, program, folder):
    """Makes each call over the wire."""
    with Service(program, os.path.join(folder, "W.IMG")) as service:
        checks.judge(service.login(1, 1, 2, WORDS).kind == Kind.DONE, "wire: LOGIN")
        for first, *rest in CALLS:
            if isinstance(first, int):
                answer = service.deposit(1, first, rest[0])
            else:
                code = Code[NAMES.get(first, first.upper())]
                channel = rest[:-1] if code not in (Code.GETSTS, Code.RELEAS) else rest
                number = rest[-1:] if code not in (Code.GETSTS, Code.RELEAS) else []
                answer = service.call(1, code, *(channel or [0]), *number)
            checks.judge(answer.kind in (Kind.DONE, Kind.VALUE), f"wire: {first}: {answer.kind.name}")
        checks.judge(service.examine(1, 0o2400, 128).kind == Kind.DONE, "wire: EXAMINE")
        checks.judge(service.room() > 0, "wire: ROOM")


def by_lines(checks, program, folder):
    """Serves each line of a session."""
    text = "".join(f"{line}\n" for _, line, _ in LINES)
    out, status = run(program, folder, ["run", "S.IMG"], text.encode())
    left = iter(out.decode().splitlines())
    for _, line, wanted in LINES:
        checks.judge(any(it.startswith(wanted) for it in left), f"{line}: no answer {wanted!r} in {out!r}")
    checks.judge(status == 0, f"lines: status {status}")


def by_commands(checks, program, folder):
    """Runs each command."""
    with open(os.path.join(folder, "host.txt"), "wb") as file:
        file.write(b"HELLO\r\n")
    for command, words in [("", []), *COMMANDS]:
        given = GIVEN.get(command, b"LOGIN [10,20]\n" if not command else b"")
        out, status = run(program, folder, [*([command] if command else []), *words], given)
        checks.judge(status == 0 and b"emory" not in out, f"{command} {words}: status {status}, {out[:200]!r}")


def main():
    if len(sys.argv) != 2 or not os.access(sys.argv[1], os.X_OK):
        print("usage: tests/no_false_memory.py PROGRAM", file=sys.stderr)
        return 2
    program, checks = os.path.abspath(sys.argv[1]), Checks()
    help_text = subprocess.run([program, "--help"], capture_output=True, check=False, timeout=LIMIT).stdout.decode()
    listed = re.search(r"Commands:\n(.*?)\n\n", help_text, re.S)[1]
    checks.same("calls", {step[0] for step in CALLS if isinstance(step[0], str)},
                variants("spec_machine/src/call.rt", "Call"))
    checks.same("lines", {kind for kind, _, _ in LINES}, variants("spec_language/src/command.rt", "Command"))
    checks.same("commands", {command for command, _ in COMMANDS} | {"help"}, re.findall(r"^  (\w+)", listed, re.M))
    with tempfile.TemporaryDirectory() as folder:
        for name in ("C.IMG", "W.IMG", "S.IMG"):
            run(program, folder, ["init", name, "64", "--layout", "2"])
        run(program, folder, ["run", "S.IMG"], b"LOGIN [10,20]\nMAKDIR [10,20]\n")
        run(program, folder, ["put", "S.IMG", "10,20", "FOO.TXT"], b"HELLO\r\n")
        for part in (by_a_script, by_the_wire, by_lines, by_commands):
            part(checks, program, folder)
    print(f"no_false_memory: {checks.count} checks, {checks.failed} failed")
    return 1 if checks.failed else 0


if __name__ == "__main__":
    sys.exit(main())
