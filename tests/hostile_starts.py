#!/usr/bin/env python3
"""Starts on images that were made to stall one, and on a file whose every block is a run of its own.

usage: tests/hostile_starts.py PROGRAM [LARGEST]

Each shape is made at four sizes, each twice the one before, up to images of LARGEST blocks (4096 if not given):

- one prime block: a directory with a block for each block of the disk, all of whose names lead to one prime block;
- a loop: the same chain, whose last block leads back to its first;
- twin names: the same chain, whose last name is that of the first block;
- one directory: a master directory of the same length, all of whose entries lead to one directory;
- short runs: a file of a quarter of the disk's blocks, no two of them neighbours; a start, and a get;
- one chain: a quarter of the blocks are a master directory, all of whose directories have the same chain; `salvage`;
- one extension: a quarter of the blocks are prime blocks, all of whose files go on in the same 128 extensions;
  `salvage`, with the directory and without the master directory;
- all blocks: a quarter of the blocks are prime blocks, each of which names half of the blocks; `salvage`, with the
  directory and without the master directory.

A refusal has to be the one that the image deserves. A start on n blocks takes at most 7,000 * n * log n instructions
(log to base 2; a block has up to 42 entries), a salvage 70,000 of these, and twice the size at most 2.4 times as many;
of all blocks 4.2 times, since files grow with the image, up to 16,384 blocks.
They are counted by valgrind, which gives the same number in each run; without valgrind only the sizes are tried. A
salvage prints the same with three times the image and 16 MiB of memory. The last line says how many passed.
"""

import math
import os
import re
import resource
import shutil
import subprocess
import sys
import tempfile

BLOCK = 1024
ENTRIES = 42
FIRST_POINTER = 16
PRIME_POINTERS, MORE_POINTERS = 112, 126
EXTENSIONS = 128
# The first block of the table of an image of up to 4608 blocks, which has one.
TABLE = 14
STEPS = 2.4
SQUARE = 4.2
MOST = 7000
# A survey has a line for each entry of the directories.
SURVEYED = 70000
COUNTER = ["valgrind", "--tool=cachegrind", "--cache-sim=no", "--cachegrind-out-file=/dev/null"]
COUNTED = re.compile(rb"I\s+refs:\s+([0-9,]+)")
PROTECTION = 0o775 << 27
OWNER = (0o10 << 18) + 0o20


class Image:
    """An image with the directory [10,20], as words."""

    def __init__(self, program, path, blocks):
        self.program = program
        self.path = path
        self.blocks = blocks
        self.run("init", path, str(blocks))
        self.run("run", path, lines=b"LOGIN [10,20]\nMAKDIR [10,20]\n")
        self.load()
        self.master = self.word(1, 5)
        self.directory = self.word(self.master, 4)

    def load(self):
        with open(self.path, "rb") as file:
            self.data = bytearray(file.read())

    def run(self, *words, lines=b"", counter=()):
        """A run of the program."""
        return subprocess.run(
            [*counter, *self.program, *words], input=lines, capture_output=True, check=False, timeout=600
        )

    def word(self, block, place):
        at = block * BLOCK + 8 * place
        return int.from_bytes(self.data[at : at + 8], "big")

    def put(self, block, words):
        """Gives a block these words, and zeros after them."""
        data = b"".join(word.to_bytes(8, "big") for word in words)
        self.data[block * BLOCK : (block + 1) * BLOCK] = data.ljust(BLOCK, b"\0")

    def chain(self, first, entry, last_leads_to=0):
        """Makes a chain of every block from the first, except the last block of the disk. Returns its blocks."""
        chain = [first, *range(self.directory + 1, self.blocks - 1)]
        self.link(chain, entry, last_leads_to)
        return chain

    def link(self, chain, entry, last_leads_to=0):
        """Makes a chain of these blocks."""
        for place, block in enumerate(chain):
            following = chain[place + 1] if place + 1 < len(chain) else last_leads_to
            words = [following, ENTRIES]
            for number in range(place * ENTRIES, (place + 1) * ENTRIES):
                words += entry(number)
            self.put(block, words)

    def save(self):
        with open(self.path, "wb") as file:
            file.write(self.data)


def scattered(number):
    """Returns a number of 18 bits for each, not in order, and none twice."""
    return (number * 7919 + 1) % (1 << 18)


def name(number):
    """Returns a name for each number, not in order."""
    return (0o414141 + (number >> 18) << 18) + scattered(number)


def leads_to(prime):
    return lambda number: [name(number), 0, prime]


def one_prime_block(image):
    prime = image.blocks - 1
    image.chain(image.directory, leads_to(prime))
    return f"?Bad retrieval block {prime}\n"


def a_loop(image):
    image.chain(image.directory, leads_to(image.blocks - 1), last_leads_to=image.directory)
    return f"?Block {image.directory} reached twice\n"


def twin_names(image):
    entry = leads_to(image.blocks - 1)
    chain = image.chain(image.directory, entry)
    last = chain[-1]
    words = [image.word(last, place) for place in range(2 + 3 * ENTRIES)]
    words[-3:] = entry(0)
    image.put(last, words)
    return f"?Bad directory block {last}\n"


def begins_in(first):
    return lambda number: [((number >> 17) + 2 << 18) + scattered(number % (1 << 17)) + 1, PROTECTION, first]


def one_chain(image):
    """Makes a quarter of the blocks a master directory, all of whose directories have the same chain, of half the
    blocks."""
    quarter, half = image.blocks // 4, image.blocks // 2
    image.link([image.master, *range(image.directory + 1, image.directory + quarter)], begins_in(half))
    image.link(list(range(half, image.blocks - 1)), leads_to(image.blocks - 1))


class Primes:
    """Prime blocks in the second quarter of an image, whose directory names them all."""

    def __init__(self, image):
        self.image = image
        image.run("put", image.path, "10,20", "A", lines=b"A")
        image.load()
        prime = image.word(image.directory, 4)
        self.like = [image.word(prime, place) for place in range(FIRST_POINTER)]
        self.blocks = range(image.blocks // 4, image.blocks // 2)

    def name_all(self, pointers, blocks, extension=0):
        """Gives each the same pointers, which are to this many blocks with those of its extensions."""
        second = self.image.directory + 1
        chain = [self.image.directory, *range(second, second + len(self.blocks) // ENTRIES)]
        names = iter(self.blocks)
        for number, block in enumerate(self.blocks):
            words = [*self.like, *pointers]
            words[1], words[2] = name(number), words[2] & 0o777777
            words[5:8] = [128 * blocks, len(pointers), extension]
            self.image.put(block, words)
        for place, block in enumerate(chain):
            entries = [[name(place * ENTRIES + i), 0, prime] for i, prime in zip(range(ENTRIES), names)]
            following = chain[place + 1] if place + 1 < len(chain) else 0
            self.image.put(block, [following, len(entries), *sum(entries, [])])


def pointers_to(first, count):
    """Returns pointers to this many blocks, no two of them neighbours, from one in the second half of the disk."""
    return [(1 << 18) + first + 2 * i for i in range(count)]


def one_extension(image):
    """Makes files that all go on in the same extensions."""
    primes = Primes(image)
    chain = range(image.blocks - EXTENSIONS, image.blocks)
    room = (image.blocks // 2 - EXTENSIONS) // 2
    some = pointers_to(image.blocks // 2, room)
    pointers = [some[i % room] for i in range(PRIME_POINTERS + EXTENSIONS * MORE_POINTERS)]
    for i, block in enumerate(chain):
        more = pointers[PRIME_POINTERS + i * MORE_POINTERS :][:MORE_POINTERS]
        image.put(block, [(0o706242 << 18) + len(more), chain[i + 1] if i + 1 < len(chain) else 0, *more])
    primes.name_all(pointers[:PRIME_POINTERS], len(pointers), chain[0])


def all_blocks(image):
    """Makes files that all have the second half of the disk."""
    half = image.blocks // 2
    Primes(image).name_all([(half << 18) + half], half)


def unnamed(shape):
    """Returns the shape with a master directory of zeros and a damaged table, so that each block is searched."""

    def made(image):
        shape(image)
        image.put(image.master, [])
        image.put(TABLE, [1 << 36])

    return made


def one_directory(image):
    image.chain(image.master, begins_in(image.directory))
    return f"?Block {image.directory} reached twice\n"


# The shapes that are surveyed, what is said of each, and the most that twice the size may cost. Files of half of the
# blocks cost a product, until a file has its 16,384 blocks.
SURVEYS = [
    ("one chain", one_chain, b"reached twice", STEPS),
    ("one extension", one_extension, b"reached five times", STEPS),
    ("one extension without a directory", unnamed(one_extension), b"reached twice", STEPS),
    ("all blocks", all_blocks, b"reached five times", SQUARE),
    ("all blocks without a directory", unnamed(all_blocks), b"reached five times", SQUARE),
]


def short_runs(image):
    """Makes a file of a quarter of the blocks besides files of one block each. Returns its contents."""
    count = image.blocks // 4
    names = [f"F{number:04o}" for number in range(2 * count)]
    lines = ["LOGIN [10,20]"] + [f"COPY {name}=A" for name in names]
    image.run("put", image.path, "10,20", "A", lines=b"A")
    image.run("run", image.path, lines="\n".join(lines + [""]).encode())
    lines = ["LOGIN [10,20]"] + [f"DELETE {name}" for name in names[::2]]
    image.run("run", image.path, lines="\n".join(lines + [""]).encode())
    text = b"B" * (640 * count // 2)
    image.run("put", image.path, "10,20", "BIG", lines=text)
    return text


class Counts:
    """Counts of checks that passed and failed."""

    def __init__(self):
        self.count = 0
        self.failed = 0
        self.counter = COUNTER if shutil.which(COUNTER[0]) else ()
        if not self.counter:
            print("SKIPPED: no valgrind, so that nothing is counted")

    def expect(self, good, what):
        self.count += 1
        if not good:
            self.failed += 1
            print(what)

    def cost(self, image, words, wanted, what):
        """Returns the instructions of a run, which must print what is wanted; 0 if nothing counts them."""
        done = image.run(*words, counter=self.counter)
        self.expect(done.stdout == wanted, f"{what}: printed {done.stdout[:80]!r}, not {wanted[:80]!r}")
        counted = COUNTED.search(done.stderr)
        return int(counted[1].replace(b",", b"")) if counted else 0

    def survey(self, image, words, size, text):
        """Returns the instructions of a survey, which must find faults, within the memory that it may take."""
        done = image.run(*words, counter=self.counter)
        told = done.returncode == 1 and text in done.stdout
        self.expect(told, f"a survey of {size} blocks: {done.stdout[:80]!r}")
        counted = COUNTED.search(done.stderr)
        most = 3 * BLOCK * size + (16 << 20)
        again = subprocess.run([*image.program, *words], capture_output=True, check=False, timeout=600,
                               preexec_fn=lambda: resource.setrlimit(resource.RLIMIT_DATA, (most, most)))
        self.expect(again.stdout == done.stdout, f"a survey of {size} blocks takes more memory: {again.stdout[-80:]!r}")
        return int(counted[1].replace(b",", b"")) if counted else 0

    def growth(self, what, sizes, costs, most=MOST, steps=STEPS):
        """Checks that the costs are within the bound, and that each is at most this many times the one before."""
        for size, cost in zip(sizes, costs):
            self.expect(cost <= most * size * math.log2(size), f"{what}, {size} blocks: {cost} instructions")
        ratios = [after / before for before, after in zip(costs, costs[1:]) if before]
        print(f"{what}: " + ", ".join(f"{cost / 1e6:.1f}" for cost in costs) + " million instructions")
        for ratio in ratios:
            self.expect(ratio <= steps, f"{what}: twice the size takes {ratio:.2f} times the instructions")


def main():
    if len(sys.argv) not in (2, 3):
        sys.exit("usage: tests/hostile_starts.py PROGRAM [LARGEST]")
    program = [os.path.abspath(sys.argv[1])]
    largest = int(sys.argv[2]) if len(sys.argv) == 3 else 4096
    sizes = [largest // 8, largest // 4, largest // 2, largest]
    counts = Counts()
    with tempfile.TemporaryDirectory(dir="/dev/shm" if os.path.isdir("/dev/shm") else None) as folder:
        path = os.path.join(folder, "A.IMG")
        for shape in (one_prime_block, a_loop, twin_names, one_directory):
            what, costs = shape.__name__.replace("_", " "), []
            for size in sizes:
                image = Image(program, path, size)
                wanted = shape(image).encode()
                image.save()
                costs.append(counts.cost(image, ["list", path], wanted, f"{what}, {size} blocks"))
                os.remove(path)
            counts.growth(what, sizes, costs)
        starts, gets = [], []
        for size in sizes:
            image = Image(program, path, size)
            text = short_runs(image)
            starts.append(counts.cost(image, ["run", path], b"", f"short runs, {size} blocks"))
            gets.append(counts.cost(image, ["get", path, "10,20", "BIG"], text, f"get of short runs, {size} blocks"))
            os.remove(path)
        counts.growth("short runs, a start", sizes, starts)
        counts.growth("short runs, a get", sizes, gets)
        for what, shape, text, steps in SURVEYS:
            costs = []
            for size in sizes:
                image = Image(program, path, size)
                shape(image)
                image.save()
                words = ["salvage", path, os.path.join(folder, "out"), "--list"]
                costs.append(counts.survey(image, words, size, text))
                os.remove(path)
            counts.growth(f"{what}, a salvage", sizes, costs, SURVEYED, steps)
    print(f"{counts.count - counts.failed} of {counts.count} as they should be")
    return 1 if counts.failed else 0


if __name__ == "__main__":
    sys.exit(main())
