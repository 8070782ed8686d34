#!/usr/bin/env python3
"""Runs three programs of PDP-10 machine code on SIMH's `pdp10`, with their files on an image that filser serves.

usage: examples/simh/run.py PROGRAM

The programs are in programs.py. README.md in this folder explains how the simulator hands over their UUOs.
"""

import os
import pty
import re
import shutil
import subprocess
import sys
import tempfile
import termios

HERE = os.path.dirname(os.path.abspath(__file__))
sys.path.insert(0, os.path.join(HERE, "..", "..", "clients", "python"))

from filser import Code, Kind, Service, halves
from programs import COPY, LINE, LINES, RING, SQUARE, words_of

CORE = 0o4000
MOST_UUOS = 1000

# The page after the programs' memory is the user process table. A UUO puts its word, with the effective address in the
# right half, into word 424 of it and the address of the next instruction into word 425, and continues at the address
# that one of the words 430 to 437 has, by the mode and the traps. Here all of these lead to a HALT.
TABLE = 0o10000
UUO_WORD, UUO_NEXT, NEW_PC = TABLE + 0o424, TABLE + 0o425, TABLE + 0o430
HANDLER = 0o20000
HALT = 0o254200000000


class Simulator:
    """A process of `pdp10` at a pseudo terminal: while the machine runs, the simulator reads what is typed there as the
    machine's console. So nothing may be typed then."""

    GROUP = 64  # commands that are typed at once: a terminal doesn't hold more than 4096 characters

    def __init__(self):
        terminal, other = pty.openpty()
        modes = termios.tcgetattr(other)
        modes[3] &= ~termios.ECHO
        termios.tcsetattr(other, termios.TCSANOW, modes)
        self.process = subprocess.Popen(["pdp10"], stdin=other, stdout=other, stderr=other)
        os.close(other)
        self.input, self.output = os.fdopen(os.dup(terminal), "w"), os.fdopen(terminal)
        self.deposit({NEW_PC + place: HANDLER for place in range(8)})
        self.deposit({HANDLER: HALT | HANDLER})
        self.ask([f"deposit UBR {TABLE // 512:o}"])

    def type(self, commands, last):
        """Types commands, and returns the lines that are printed up to one with this text."""
        self.input.write("".join(f"{command}\n" for command in commands))
        self.input.flush()
        lines = [self.output.readline()]
        while last not in lines[-1]:
            lines.append(self.output.readline())
        return lines

    def ask(self, commands):
        """Returns the lines that are printed for commands."""
        lines = []
        for place in range(0, len(commands), self.GROUP):
            lines += self.type([*commands[place : place + self.GROUP], "echo ready"], "ready")
        return lines

    def deposit(self, words):
        """Puts words at their addresses. Those below 20 are accumulators."""
        self.ask([f"deposit {address:o} {word:o}" for address, word in words.items()])

    def examine(self, first, last):
        """Returns the words from one address to another."""
        found = (re.search(r"[0-7]+:\t([0-7]+)$", line.strip()) for line in self.ask([f"examine {first:o}-{last:o}"]))
        return [int(word[1], 8) for word in found if word]

    def run(self, place):
        """Runs from a place until the machine stops, and returns where a HALT has stopped it."""
        self.ask([f"deposit PC {place:o}"])
        stopped = re.search(r"HALT instruction, PC: ([0-7]+)", self.type(["cont"], ", PC: ")[-1])
        return int(stopped[1], 8) if stopped else None

    def quit(self):
        """Ends the process."""
        self.input.write("quit\n")
        self.input.close()
        self.process.wait()
        self.output.close()


def do_uuo(simulator, service):
    """Does the UUO that the machine has reached: its word, and the service's outcome."""
    word, following = simulator.examine(UUO_WORD, UUO_NEXT)
    pc, before = (following & 0o777777) - 1, simulator.examine(0, CORE - 1)
    accumulators, memory = before[:16], before[:]
    outcome = service.uuo(1, word, word & 0o777777, accumulators, memory, pc)
    after = accumulators + memory[16:]
    simulator.deposit({place: new for place, (old, new) in enumerate(zip(before, after)) if old != new})
    return word, pc, outcome


def run_program(service, program):
    """Runs a program up to its EXIT, and prints how many UUOs it has made."""
    simulator = Simulator()
    words = words_of(program)
    simulator.deposit(words)
    place = words[0o120] & 0o777777  # the right half of .JBSA is where it starts
    try:
        for uuos in range(1, MOST_UUOS):
            stopped = simulator.run(place)
            if stopped != HANDLER:
                raise RuntimeError(f"the program has stopped at {stopped and oct(stopped)}")
            word, pc, outcome = do_uuo(simulator, service)
            if outcome.advance == 0 or outcome.kind not in (Kind.DONE, Kind.VALUE, Kind.REFUSED, Kind.STOPPED):
                raise RuntimeError(f"{pc:o}: {word:012o} is answered {outcome.kind.name}")
            if word == 0o047000000012:  # EXIT
                return uuos
            place = pc + outcome.advance
        raise RuntimeError("the program doesn't end")
    finally:
        simulator.quit()


def check(program, image, name, options, wanted):
    """Compares a file of the image with its expected contents."""
    found = subprocess.run([program, "get", image, "10,20", name, *options], capture_output=True, check=True).stdout
    print(f"{name}: {len(found)} bytes, " + ("as it should be" if found == wanted else "NOT as it should be"))
    return found == wanted


def main(program):
    text = LINE.encode() * LINES
    squares = b"".join((number * number).to_bytes(8, "big") for number in range(80))
    with tempfile.TemporaryDirectory() as folder:
        image = os.path.join(folder, "SIMH.IMG")
        subprocess.run([program, "init", image, "64"], check=True)
        with Service(program, image) as service:
            service.login(1, 0o10, 0o20, CORE)
            service.deposit(1, 0o200, [halves(0o10, 0o20), 0])
            service.call(1, Code.MAKDIR, 0, 0o200)
            for name, code in (("SQUARE", SQUARE), ("RING", RING), ("COPY", COPY)):
                print(f"{name}: {run_program(service, code)} UUOs")
        good = [check(program, image, "SQUARE.DAT", ["--words"], squares), check(program, image, "FOX.TXT", [], text),
                check(program, image, "COPY.TXT", [], text)]
    return 0 if all(good) else 1


if __name__ == "__main__":
    if len(sys.argv) != 2:
        sys.exit("usage: examples/simh/run.py PROGRAM")
    if not shutil.which("pdp10"):
        print("pdp10 isn't installed, so nothing is run: it is in Debian's package simh")
        sys.exit(0)
    sys.exit(main(os.path.abspath(sys.argv[1])))
