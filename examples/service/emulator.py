#!/usr/bin/env python3
"""An emulator at a relay: does UUOs of a machine that reads a text file, and prints the text.

usage: emulator.py PROGRAM IMAGE PROJECT,PROGRAMMER NAME EXTENSION

PROGRAM and IMAGE are `filser` and an image, or `filser-relay` and the socket of a relay. The file is one of [10,20].
"""
import os
import sys

sys.path.insert(0, os.path.join(os.path.dirname(os.path.realpath(__file__)), "..", "..", "clients", "python"))

from filser import Kind, Service, halves, iowd, sixbit  # noqa: E402

OPEN, IN, LOOKUP, RELEAS = 0o50, 0o56, 0o76, 0o71
CORE_WORDS, CHANNEL, AREA = 0o2000, 1, 0o1000


def main(program, image, ppn, name, extension):
    accumulators, memory = [0] * 16, [0] * CORE_WORDS
    memory[0o200:0o203] = [0o17, sixbit("DSK"), 0]  # dump mode
    memory[0o300:0o304] = [sixbit(name), sixbit(extension), 0, halves(0o10, 0o20)]
    memory[0o400:0o402] = [iowd(128, AREA), 0]
    with Service(program, image) as service:
        answer = service.login(1, *(int(half, 8) for half in ppn.split(",")), CORE_WORDS)
        print("LOGIN", answer.kind.name)
        for operation, address in ((OPEN, 0o200), (LOOKUP, 0o300), (IN, 0o400), (RELEAS, 0)):
            if answer.kind == Kind.DONE:
                answer = service.uuo(1, operation << 27 | CHANNEL << 23, address, accumulators, memory)
                print(f"UUO {operation:o} {answer.kind.name}, the machine goes on {answer.advance} words after it")
    text = (memory[AREA + place] >> shift & 127 for place in range(128) for shift in range(29, 0, -7))
    print("".join(chr(it) for it in text if it), end="")


if __name__ == "__main__":
    if len(sys.argv) != 6:
        sys.exit("usage: emulator.py PROGRAM IMAGE PROJECT,PROGRAMMER NAME EXTENSION")
    main(*sys.argv[1:])
