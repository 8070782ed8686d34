#!/usr/bin/env python3
"""The disk of an emulator: filser serves the calls of its jobs over two pipes, one line per call and one per reply.

usage: emulator.py PROGRAM IMAGE

Job 1 writes a file of three words to its directory [10,20], and reads it back. All numbers of the lines are octal.
"""
import subprocess
import sys


class Disk:
    """A process of filser that has an image to itself until it is closed."""

    def __init__(self, program, image):
        self.process = subprocess.Popen(
            [program, "calls", image], stdin=subprocess.PIPE, stdout=subprocess.PIPE, text=True, bufsize=1
        )

    def ask(self, line):
        """Returns the reply to a line: `DONE`, `VALUE` and a word, or why the call isn't done."""
        self.process.stdin.write(line + "\n")
        self.process.stdin.flush()
        return self.process.stdout.readline().rstrip("\n")

    def do(self, line):
        """Sends a line that must be done."""
        reply = self.ask(line)
        if reply != "DONE":
            raise RuntimeError(f"{line}: {reply}")

    def deposit(self, job, address, words):
        """Puts words into the core that filser has for a job, where calls find their arguments."""
        for place, word in enumerate(words):
            self.do(f"{job} DEP {address + place:o} {word:o}")

    def examine(self, job, address):
        """Returns a word of that core."""
        kind, word = self.ask(f"{job} EXA {address:o}").split()
        if kind != "VALUE":
            raise RuntimeError(f"address {address:o}: {kind}")
        return int(word, 8)

    def close(self):
        """Ends the process; what was answered is on the disk."""
        self.process.stdin.close()
        self.process.wait()


def sixbit(text):
    """Returns up to six characters as a word, six bits each, from the left."""
    word = 0
    for character in text.ljust(6):
        word = word * 64 + ord(character) - 32
    return word


def area(address, count):
    """Returns a command list of dump mode: this many words from an address, and its end."""
    return [(2**18 - count) % 2**18 * 2**18 + address - 1, 0]


def main(program, image):
    disk = Disk(program, image)
    disk.do("1 LOGIN 10,20 10000")
    disk.deposit(1, 0o300, [0o10 * 2**18 + 0o20, 0])
    print(disk.ask("1 MAKDIR 300"))

    disk.deposit(1, 0o200, [0o17, sixbit("DSK"), 0])  # dump mode, the disk, no buffers
    disk.do("1 OPEN 1 200")
    disk.deposit(1, 0o300, [sixbit("FOO"), sixbit("DAT"), 0, 0])
    disk.do("1 ENTER 1 300")
    disk.deposit(1, 0o400, area(0o1000, 3))
    disk.deposit(1, 0o1000, [1, 2, 0o777777777777])
    disk.do("1 OUT 1 400")
    disk.do("1 CLOSE 1 0")  # the file is there now, whatever happens

    disk.deposit(1, 0o303, [0])  # a directory's name may be there, and zero means the job's own
    disk.do("1 LOOKUP 1 300")  # and now the file's length is
    disk.deposit(1, 0o400, area(0o2000, 128))
    disk.do("1 IN 1 400")
    print(*(f"{disk.examine(1, 0o2000 + place):o}" for place in range(3)))
    print(disk.ask("1 IN 1 400"))  # the file has no more words
    disk.close()


if __name__ == "__main__":
    if len(sys.argv) != 3:
        sys.exit("usage: emulator.py PROGRAM IMAGE")
    main(sys.argv[1], sys.argv[2])
