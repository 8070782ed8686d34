#!/usr/bin/env python3
"""Measures what a UUO costs over the wire, and as lines of a call script.

usage: benchmarks/wire.py PROGRAM

A job writes a file by a ring: each OUT gets the 128 words of its buffer and the header's three before the call, and
after it the emulator needs the words that the call has changed. Over the wire these are a DEPOSIT for each of the two
areas, and the CALL, whose answer returns 136 words. As lines they are a DEP for each word, the OUT, and an EXA for each
of the 136 words, which the emulator has to know by itself.

The table has what an OUT costs in either way: bytes in and out, the program's instructions, counted by valgrind (the
same number in each run, even on a busy machine), and its reads and writes of the two pipes, counted by strace, with one
write for each OUT. The cost of a start is subtracted. This isn't part of the gate.
"""
import os
import re
import subprocess
import sys
import tempfile

sys.path.insert(0, os.path.join(os.path.dirname(os.path.abspath(__file__)), "..", "clients", "python"))
from filser import halves, order, sixbit  # noqa: E402

OUTS = 40
OPEN_WORDS = [0, sixbit("DSK"), halves(0o60, 0)]
NAME_WORDS = [sixbit("FOO"), 0, 0, 0]
BUFFERS = [0o141, 0o344]  # the rings of a job begin at 140, and the second word of a buffer names it
COUNTER = ["valgrind", "--tool=cachegrind", "--cache-sim=no", "--cachegrind-out-file=/dev/null"]
COUNTED = re.compile(rb"I\s+refs:\s+([0-9,]+)")


def changed(place):
    """Returns the areas that the OUT of this buffer may change: the header, two words of it, and the next buffer."""
    return [(0o60, 3), (BUFFERS[place], 2), (BUFFERS[1 - place] - 1, 0o203)]


def wire_opening():
    """Returns the orders that come before the first OUT of a buffer."""
    words = [order(1, job=1, number=0o1000, words=[halves(0o10, 0o20)]),
             order(2, job=1, number=0o200, words=[halves(0o10, 0o20), 0]), order(4, 1, 1, 0, 0o200),
             order(2, job=1, number=0o200, words=OPEN_WORDS), order(4, 0o50, 1, 1, 0o200),
             order(2, job=1, number=0o210, words=NAME_WORDS), order(4, 0o77, 1, 1, 0o210), order(4, 0o57, 1, 1)]
    return b"".join(words)


def wire_out(number):
    """Returns the orders of one OUT."""
    first = BUFFERS[number % 2]
    return (order(2, job=1, number=first + 2, words=[number] * 128)
            + order(2, job=1, number=0o61, words=[halves(0o010700, first + 1 + 128), 0]) + order(4, 0o57, 1, 1))


def line_of(address, word):
    return f"1 DEP {address:o} {word:o}\n"


def script_opening():
    """Returns the lines that come before the first OUT of a buffer."""
    def block(words):
        return "".join(line_of(0o200 + place, word) for place, word in enumerate(words))
    return ("1 LOGIN 10,20 1000\n" + block([halves(0o10, 0o20), 0]) + "1 MAKDIR 200\n" + block(OPEN_WORDS)
            + "1 OPEN 1 200\n" + block(NAME_WORDS) + "1 ENTER 1 200\n1 OUT 1 0\n").encode()


def script_out(number):
    """Returns the lines of one OUT."""
    first = BUFFERS[number % 2]
    lines = [line_of(first + 2 + place, number) for place in range(128)]
    lines += [line_of(0o61, halves(0o010700, first + 1 + 128)), line_of(0o62, 0), "1 OUT 1 0\n"]
    for address, count in changed(number % 2):
        lines += [f"1 EXA {place:o}\n" for place in range(address, address + count)]
    return "".join(lines).encode()


def new_image(program, folder):
    image = os.path.join(folder, "W.IMG")
    if os.path.exists(image):
        os.remove(image)
    subprocess.run([program, "init", image, "1000"], check=True)
    return image


def instructions(program, folder, command, data):
    """Returns the program's instructions for this input, and the bytes that it prints."""
    done = subprocess.run(COUNTER + [program, command, new_image(program, folder)], input=data, capture_output=True,
                          check=True)
    return int(COUNTED.search(done.stderr)[1].replace(b",", b"")), len(done.stdout)


def calls(program, folder, command, opening, parts):
    """Returns the reads and writes of the pipes, if each part is written by one write and answered before the next."""
    trace = os.path.join(folder, "trace")
    words = ["strace", "-y", "-e", "trace=read,write", "-o", trace, program, command, new_image(program, folder)]
    with subprocess.Popen(words, stdin=subprocess.PIPE, stdout=subprocess.PIPE, bufsize=0) as process:
        for part, size in [opening] + parts:
            os.write(process.stdin.fileno(), part)
            while size > 0:
                size -= len(os.read(process.stdout.fileno(), 1 << 16))
        process.stdin.close()
    with open(trace, encoding="latin-1") as lines:
        return sum(1 for line in lines if re.match(r"(read\(0<|write\(1<)", line))


def measure(program, folder, command, opening, out):
    """Returns what one OUT costs: bytes in, bytes out, instructions, and reads and writes."""
    parts = [out(number) for number in range(OUTS)]
    before, told = instructions(program, folder, command, opening)
    after, all_told = instructions(program, folder, command, opening + b"".join(parts))
    size = (all_told - told) // OUTS
    sized = [(part, size) for part in parts]
    few = calls(program, folder, command, (opening, told), [])
    many = calls(program, folder, command, (opening, told), sized)
    return [len(parts[0]), size, (after - before) // OUTS, (many - few) / OUTS]


def main():
    program = os.path.abspath(sys.argv[1])
    with tempfile.TemporaryDirectory() as folder:
        wire = measure(program, folder, "wire", wire_opening(), wire_out)
        lines = measure(program, folder, "calls", script_opening(), script_out)
    print("an OUT of 128 words\twire\tcalls\tcalls / wire")
    for name, one, other in zip(["bytes in", "bytes out", "instructions", "reads and writes"], wire, lines):
        print(f"{name}\t{one:g}\t{other:g}\t{other / one:.1f}")


if __name__ == "__main__":
    main()
