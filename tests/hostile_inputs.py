#!/usr/bin/env python3
"""Serves images that were spoiled on purpose, and random inputs.

usage: tests/hostile_inputs.py PROGRAM [COUNT]

Spoiled images: an image of a few files gets one to three of its words changed, in places that have a meaning, in form 1
and in form 2. Each start ends, and says that the image is a volume, or why not. A refused image keeps its bytes, except
for a commit that recovery finishes. Each file of a served image is read; the image is filled to its last block and
emptied, and is then still a volume.

Inputs: random bytes, and lines that were cut and joined at random, on images of both layouts in turn. Each line is
answered, and a line without a meaning changes nothing.

COUNT images and COUNT inputs (200 if not given), the same in every run. The last line says how many passed.
"""

import os
import random
import re
import subprocess
import sys
import tempfile

BLOCK = 1024
LIMIT = 60
VOLUME = re.compile(r"Volume of \d+ blocks, room (-?\d+)\n")
REFUSED = re.compile(
    r"\?(Not a volume|Bad home blocks|Bad log|Bad directory block \d+|Bad retrieval block \d+|Bad data block \d+"
    r"|Bad table block \d+|Block \d+ reached twice)\n"
)
FILE = re.compile(r"^([A-Z0-9]{1,6}) *([A-Z0-9]{0,3}) +\d+  <[0-7]{3}>")
OWNER = re.compile(r"^(?:Total \d+ blocks in \d+ files|No files) (\[[0-7]+,[0-7]+\])$")
LETTERS = "ABCDEFGHIJKLMNOPQRSTUVWXYZ"


class Program:
    """Runs of the program in their own folder."""

    def __init__(self, program, folder):
        self.program = program
        self.folder = folder
        self.count = 0
        self.failed = 0

    def run(self, words, data=b""):
        """Returns what a run prints, and its status."""
        done = subprocess.run(
            [self.program, *words], input=data, capture_output=True, cwd=self.folder, check=False, timeout=LIMIT
        )
        return done.stdout.decode("latin-1"), done.returncode

    def path(self, name):
        return os.path.join(self.folder, name)

    def read(self, name):
        with open(self.path(name), "rb") as file:
            return file.read()

    def write(self, name, data):
        with open(self.path(name), "wb") as file:
            file.write(data)

    def expect(self, good, what):
        """Counts a check, and reports what is wrong."""
        self.count += 1
        if not good:
            self.failed += 1
            print(what)
        return good


def names(count):
    """Returns this many names of files that the images don't have."""
    return [f"Z{LETTERS[n // 26]}{LETTERS[n % 26]}" for n in range(count)]


def taken(program):
    """Returns the bytes of the image that was made, which is removed."""
    image = program.read("G.IMG")
    os.remove(program.path("G.IMG"))
    return image


def small_image(program, layout):
    """Returns 64 blocks with three directories and seven files, one of them without words. In layout 2 two have late
    dates, and two directories have quotas."""
    late = ["--date", "4096"] if layout == 2 else []
    program.run(["init", "G.IMG", "64", "--layout", str(layout)])
    program.run(["run", "G.IMG"], b"LOGIN [10,20]\nMAKDIR [10,20]\nMAKDIR [11,5]<377>\nMAKDIR [11,7]\n")
    for number, size in enumerate([0, 5, 640, 641, 3000]):
        program.run(["put", "G.IMG", "10,20", f"F{number}.TXT"], b"A" * size)
    program.run(["put", "--words", "G.IMG", "11,5", "W", *late], bytes(8 * 300))
    program.run(["put", "G.IMG", "11,5", "FOO", *late], b"HELLO\r\n")
    if layout == 2:
        program.run(["run", "G.IMG"], b"LOGIN [1,2]\nQUOTA [11,5] 8\nQUOTA [11,7] 262143\n")
    return taken(program)


def large_image(program):
    """Returns 512 blocks with a file in so many pieces that its pointers don't fit its prime block."""
    program.run(["init", "G.IMG", "512"])
    lines = ["LOGIN [10,20]", "MAKDIR [10,20]"]
    program.run(["run", "G.IMG"], "\n".join(lines + [""]).encode())
    program.run(["put", "G.IMG", "10,20", "A"], b"B")
    lines = ["LOGIN [10,20]"] + [f"COPY {name}=A" for name in names(235)]
    lines += [f"DELETE {name}" for name in names(235)[::2]]
    program.run(["run", "G.IMG"], "\n".join(lines + [""]).encode())
    program.run(["put", "G.IMG", "10,20", "BIG"], b"C" * (640 * 126))
    return taken(program)


def structure(image):
    """Returns the places of an image whose words have a meaning: block and place of each word that isn't zero, except
    in blocks that are full of text, and the words after them."""
    places = []
    for block in range(1, len(image) // BLOCK):
        words = [image[block * BLOCK + 8 * place : block * BLOCK + 8 * place + 8] for place in range(128)]
        filled = [place for place, word in enumerate(words) if any(word)]
        if len(filled) < 128 or len(set(words)) > 1:
            places += [(block, place) for place in filled]
            places += [(block, (filled[-1] + 1) % 128)] if filled else []
    return places


def spoiled(image, places, chance):
    """Returns a copy of an image with one to three words changed, or a block damaged."""
    image = bytearray(image)
    if chance.random() < 0.1:
        for place in range(128):
            image[3 * BLOCK + 8 * place : 3 * BLOCK + 8 * place + 8] = (0o252525252525).to_bytes(8, "big")
    for _ in range(chance.choice([1, 1, 1, 2, 2, 3])):
        block, place = chance.choice(places)
        at = block * BLOCK + 8 * place
        word = int.from_bytes(image[at : at + 8], "big")
        other_block, other_place = chance.choice(places)
        other = other_block * BLOCK + 8 * other_place
        new = chance.choice([
            0,
            word + 1,
            word - 1,
            word ^ (1 << chance.randrange(36)),
            word ^ (1 << chance.randrange(18)),
            word + (1 << 18),
            word - (1 << 18),
            int.from_bytes(image[other : other + 8], "big"),
            chance.randrange(1 << 36),
            chance.randrange(1 << 10),
            word | 1 << 40,
        ])
        image[at : at + 8] = (new % (1 << 41)).to_bytes(8, "big")
    return bytes(image)


def packed(image):
    """Returns the same image in form 2, or nothing if a block of it is damaged, for which form 2 has no bytes."""
    words = [int.from_bytes(image[at : at + 8], "big") for at in range(0, len(image), 8)]
    if any(word >> 36 for word in words):
        return None
    return b"".join((first << 36 | second).to_bytes(9, "big") for first, second in zip(words[::2], words[1::2]))


def is_open(image):
    """Returns whether the gate is open, so that a start may finish a commit."""
    return image[3 * BLOCK : 4 * BLOCK] == (0o252525252525).to_bytes(8, "big") * 128


def lists(text):
    """Returns each directory that is listed, with the names of its files that a line can spell."""
    found, files = [], []
    for line in text.split("\n"):
        owner = OWNER.match(line)
        file = FILE.match(line)
        if owner:
            found.append((owner.group(1), files))
            files = []
        elif file:
            files.append(file.group(1) + ("." + file.group(2) if file.group(2) else ""))
    return found


def use(program, what, blocks):
    """Reads each file of an image that is served, fills the image, empties it, and checks it."""
    text, status = program.run(["list", "T.IMG"])
    if not program.expect(status == 0, f"{what}: list has status {status}"):
        return
    owners = lists(text)
    lines = ["LOGIN [1,2]"] + [f"TYPE {file}{owner}" for owner, files in owners for file in files]
    if owners and any(files for _, files in owners):
        owner, files = next(found for found in owners if found[1])
        lines += [f"COPY {name}[{owner[1:-1]}]={files[0]}{owner}" for name in names(blocks)]
        made = [(owner, names(blocks))]
    else:
        made = []
    text, status = program.run(["run", "T.IMG"], "\n".join(lines + [""]).encode())
    program.expect(status in (0, 1) and "?Device" not in text, f"{what}: reading and filling has status {status}")
    if made:
        program.expect("?No room\n" in text, f"{what}: the volume wasn't filled")
    lines = ["LOGIN [1,2]"] + [f"DELETE {file}{owner}" for owner, files in owners + made for file in files]
    text, status = program.run(["run", "T.IMG"], "\n".join(lines + [""]).encode())
    program.expect(status in (0, 1) and "?Device" not in text, f"{what}: emptying has status {status}")
    text, status = program.run(["check", "T.IMG"])
    program.expect(status == 0 and VOLUME.fullmatch(text), f"{what}: then it is {text!r}, status {status}")


def same_in_form_2(program, what, image, outcome):
    """Starts an image in form 2 as well: the result is the same, and so is what is left of it."""
    data = packed(image)
    if data:
        program.write("P.IMG", data)
        program.expect(program.run(["check", "P.IMG", "--form", "2"]) == outcome, f"{what}: otherwise in form 2")
        program.expect(program.read("P.IMG") == packed(program.read("T.IMG")), f"{what}: another image in form 2")


def images(program, count):
    """Tests spoiled images: they are served, or refused."""
    served = 0
    kinds = [(small_image(program, 1), 64), (small_image(program, 2), 64), (large_image(program), 512)]
    kinds = [(image, blocks, structure(image)) for image, blocks in kinds]
    for number in range(count):
        image, blocks, places = kinds[number % 2 if number % 10 else 2]
        chance = random.Random(number)
        what = f"image {number}"
        spoiled_image = spoiled(image, places, chance)
        program.write("T.IMG", spoiled_image)
        try:
            text, status = program.run(["check", "T.IMG"])
            same_in_form_2(program, what, spoiled_image, (text, status))
            if status == 0 and program.expect(VOLUME.fullmatch(text), f"{what}: {text!r}"):
                served += 1
                use(program, what, blocks)
            elif program.expect(status == 3 and REFUSED.fullmatch(text), f"{what}: {text!r}, status {status}"):
                if not is_open(spoiled_image):
                    program.expect(program.read("T.IMG") == spoiled_image, f"{what}: refused, and changed")
        except subprocess.TimeoutExpired:
            program.expect(False, f"{what}: no end")
    return served


GOOD = [
    "LOGIN [10,20]", "DIRECTORY", "DIRECTORY [11,5]", "COPY N.A=F1.TXT", "RENAME M=N.A", "TYPE F1.TXT", "DELETE M",
    "PROTECT F2.TXT<155>", "MAKDIR [1,7]<377>", "COPY F1.TXT[10,20]=FOO[11,5]", "LOGIN [1,2]", "QUOTA [10,20] 9",
    "QUOTA [11,5] 000000", "COPY FOO[11,5]=F0.TXT[10,20]",
]
CALLS = [
    "1 LOGIN 10,20 1000", "1 DEP 200 17", "1 DEP 201 446353000000", "1 OPEN 1 200", "1 DEP 300 463163000000",
    "1 LOOKUP 1 300", "1 IN 1 400", "1 EXA 300", "1 GETSTS 1", "1 USETI 1 2", "1 CLOSE 1 0", "1 RESET", "2 OPEN 3 20",
    "1 ENTER 1 300", "1 OUT 1 400", "1 RELEAS 1", "4 LOGIN 1,2 1000", "4 DEP 300 10000020", "4 QUOTA 300",
    "1 QUOTA 300",
]


def spliced(lines, chance):
    """Returns lines that were cut and joined at random, with some unchanged lines in between."""
    made = []
    for _ in range(chance.randrange(1, 12)):
        one, other = chance.choice(lines), chance.choice(lines)
        cut, behind = chance.randrange(len(one) + 1), chance.randrange(len(other) + 1)
        made.append(chance.choice([one, one[:cut] + other[behind:], one[:cut], other[behind:], one * chance.randrange(30)]))
    return "\n".join(made).encode() + chance.choice([b"\n", b"", b"\r\n"])


def noise(chance):
    """Returns bytes of all kinds, and lines of 255 and of 256 of them."""
    data = bytes(chance.choice([10, 32, chance.randrange(256)]) for _ in range(chance.randrange(400)))
    return data + chance.choice([b"", b"\n" + b"X" * 255 + b"\n", b"\n" + b"X" * 256 + b"\r\n"])


def said(data):
    """Returns how many lines there are: an empty one isn't a line, and a carriage return before a line feed is
    dropped."""
    lines = data.split(b"\n")
    lines = [line[:-1] if line.endswith(b"\r") and number + 1 < len(lines) else line for number, line in enumerate(lines)]
    return sum(1 for line in lines if line)


def inputs(program, count):
    """Tests random inputs, as sessions and as call scripts."""
    kinds = [small_image(program, 1), small_image(program, 2)]
    for number in range(count):
        chance, image = random.Random(1000000 + number), kinds[number % 2]
        data = noise(chance)
        program.write("T.IMG", image)
        text, status = program.run(["calls", "T.IMG"], data)
        program.expect(text.count("\n") == said(data) and status in (0, 1), f"noise {number}: {text[:80]!r}, {status}")
        text, status = program.run(["run", "T.IMG"], data)
        program.expect(text == "?Command error\n" * said(data), f"noise {number}: {text[:80]!r}, status {status}")
        program.expect(program.read("T.IMG") == image, f"noise {number}: the image has changed")
        data = spliced(CALLS, chance)
        text, status = program.run(["calls", "T.IMG"], data)
        program.expect(text.count("\n") == said(data) and status in (0, 1), f"script {number}: {text[:80]!r}, {status}")
        text, status = program.run(["run", "T.IMG"], spliced(GOOD, chance))
        program.expect(status in (0, 1), f"session {number}: status {status}")
        text, status = program.run(["check", "T.IMG"])
        program.expect(status == 0, f"input {number}: then it is {text!r}")


def main():
    if len(sys.argv) not in (2, 3) or not os.access(sys.argv[1], os.X_OK):
        print("usage: tests/hostile_inputs.py PROGRAM [COUNT]", file=sys.stderr)
        return 2
    count = int(sys.argv[2]) if len(sys.argv) == 3 else 200
    with tempfile.TemporaryDirectory() as folder:
        program = Program(os.path.abspath(sys.argv[1]), folder)
        served = images(program, count)
        inputs(program, count)
    print(f"hostile_inputs: {program.count - program.failed} as they should be, {program.failed} not; "
          f"{served} of {count} spoiled images were served")
    return 1 if program.failed else 0


if __name__ == "__main__":
    sys.exit(main())
