#!/usr/bin/env python3
"""UUOs of a machine by the client in Python, as an emulator does them; uuo.c does the same in C.

usage: uuo.py PROGRAM IMAGE

The machine has the words of a program that writes a file in dump mode and reads it back. Numbers are octal. The image
has layout 2, since layout 1 has no dates of today.
"""
import os
import sys
from array import array

FOLDER = os.path.dirname(os.path.realpath(__file__))
sys.path.insert(0, os.path.join(FOLDER, "..", "clients", "python"))

from filser import Code, Compare, Next, Service, halves, iowd, now, sixbit  # noqa: E402

SIZE = 0o10000
UUOS = [("OPEN", 0o50, 0o200), ("ENTER", 0o77, 0o210), ("OUT", 0o57, 0o220), ("CLOSE", 0o70, 0),
        ("LOOKUP", 0o76, 0o210), ("IN", 0o56, 0o222), ("RELEAS", 0o71, 0), ("IN", 0o56, 0o222), ("TTCALL", 0o51, 0)]


def main(program, image):
    accumulators, memory = array("Q", bytes(8 * 16)), array("Q", bytes(8 * SIZE))
    memory[0o200:0o203] = array("Q", [0o17, sixbit("DSK"), 0])  # dump mode, the disk, no buffers
    memory[0o210:0o214] = array("Q", [sixbit("FOO"), sixbit("DAT"), 0, 0])
    memory[0o220:0o224] = array("Q", [iowd(3, 0o1000), 0, iowd(3, 0o2000), 0])
    memory[0o1000:0o1003] = array("Q", [1, 2, 0o777777777777])
    with Service(program, image) as service:
        service.login(1, 0o10, 0o20, SIZE, accumulators, memory, Compare.TOUCHED)
        service.deposit(1, 0o300, [halves(0o10, 0o20), 0])
        service.call(1, Code.MAKDIR, 0, 0o300)
        for name, operation, address in UUOS:
            if name == "LOOKUP":  # the program clears what ENTER has put there
                memory[0o211:0o214] = array("Q", [sixbit("DAT"), 0, 0])
                service.touched(1, 0o211, 3)
            outcome = service.uuo(1, operation << 27 | 1 << 23 | address, address, date=now()[0], minute=now()[1])
            if outcome.next is Next.NOT_MINE:
                print(f"{name}: not the service's")
            elif outcome.next is Next.STOP:
                print(f"{name}: the program stops, {outcome.kind.name.replace('_', ' ')}")
            else:
                print(f"{name}: go on {outcome.advance}")
    print(*(f"{word:o}" for word in memory[0o2000:0o2003]))


if __name__ == "__main__":
    if len(sys.argv) != 3:
        sys.exit("usage: uuo.py PROGRAM IMAGE")
    main(*sys.argv[1:])
