#!/usr/bin/env python3
"""Reads an image as docs/FORMAT.md describes it: a second reader, which uses only what that page says.

usage: tests/format_reader.py IMAGE

Prints a line with tabs for each directory (owner, protection, quota), and one for each file (owner, name, extension,
protection, mode, date, minute, number of words). It writes nothing to the image, believes what it reads, and refuses
only what it can't read. It uses nothing of this tree; tests/format.py compares it with the program.
"""
import sys
from collections import namedtuple

Directory = namedtuple("Directory", "owner protection quota files blocks")
File = namedtuple("File", "name extension protection mode date minute words pointers ribs")

FILSER, LOG, RIB, XRB = 0o465154634562, 0o545747000000, 0o625142000000, 0o706242
OPEN_GATE = [0o252525252525] * 128


class NotReadable(Exception):
    """What was read isn't an image as the page describes it."""


def halves(word):
    """Returns the left half and the right half of a word."""
    return word >> 18, word & 0o777777


def bits(word, first, last):
    """Returns the number in these bits of a word; bit 0 is the most significant."""
    return word >> 35 - last & (1 << last - first + 1) - 1


def sixbit(word, count):
    """Returns the characters of a word, or of a half, without the blanks at the end."""
    return "".join(chr(0o40 + (word >> 6 * at & 0o77)) for at in reversed(range(count))).rstrip(" ")


def day(date):
    """Returns the year, the month and the day of a date."""
    return date // 372 + 1964, date // 31 % 12 + 1, date % 31 + 1


class Image:
    """The blocks of an image in one of the forms, recovered in memory."""

    def __init__(self, data, form):
        self.data, self.form, self.length = data, form, {1: 1024, 2: 576}[form]
        self.size = len(data) // self.length
        if len(data) % self.length or not 64 <= self.size <= 131072:
            raise NotReadable(f"{len(data)} bytes aren't the blocks of an image of form {form}")
        self.tables = -(-self.size // 4608)
        self.images = self.tables + 8
        self.placed = self.recovered()
        self.layout, self.master = self.home()

    def stored(self, block):
        """Returns the words of a block as the file has them, or None if it is damaged or outside the image."""
        data = self.data[block * self.length : (block + 1) * self.length]
        if self.form == 1:
            words = [int.from_bytes(data[at : at + 8], "big") for at in range(0, len(data), 8)]
        else:
            pairs = [int.from_bytes(data[at : at + 9], "big") for at in range(0, len(data), 9)]
            words = [word for pair in pairs for word in (pair >> 36, pair & (1 << 36) - 1)]
        return words if words and max(words) < 1 << 36 else None

    def recovered(self):
        """Returns the words that an interrupted commit has yet to put, by their blocks."""
        if self.stored(3) != OPEN_GATE:
            return {}
        header, placed = self.stored(4), {}
        if header and header[0] == LOG and 1 <= header[1] <= self.images and not any(header[2 + header[1] :]):
            placed = {block: self.stored(5 + at) for at, block in enumerate(header[2 : 2 + header[1]])}
        allowed = {1, 2, *range(5 + self.images, self.size)}
        if not placed or len(placed) != header[1] or not allowed.issuperset(placed) or None in placed.values():
            raise NotReadable("the log isn't good")
        return placed

    def home(self):
        """Returns the layout and the first block of the master directory."""
        for words in (self.placed.get(block) or self.stored(block) for block in (1, 2)):
            fixed = [FILSER, words[1], self.size, self.tables, self.images, words[5]] if words else []
            space = range(5 + self.images + self.tables, self.size)
            if words and words == fixed + [0] * 122 and words[1] in (1, 2) and words[5] in space:
                return words[1], words[5]
        raise NotReadable(f"there is no home block of form {self.form}")

    def words(self, block):
        """Returns the words of a block after recovery."""
        words = self.placed.get(block) or self.stored(block)
        if words is None:
            raise NotReadable(f"block {block} can't be read")
        return words

    def chain(self, block):
        """Returns the entries of a directory, and the numbers of its blocks."""
        entries, blocks = [], []
        while block:
            words = self.words(block)
            entries += [tuple(words[2 + 3 * at : 5 + 3 * at]) for at in range(min(words[1], 42))]
            blocks.append(block)
            block = words[0]
            if len(blocks) > self.size:
                raise NotReadable("a chain has no end")
        return entries, blocks

    def pointers(self, prime):
        """Returns the pointers of a file, and the numbers of its extended RIBs."""
        words, ribs = self.words(prime), []
        pointers, rib = words[16 : 16 + words[6]], words[7]
        while rib:
            words = self.words(rib)
            kind, count = halves(words[0])
            ribs.append(rib)
            if kind != XRB or len(ribs) > self.size:
                raise NotReadable(f"block {rib} isn't an extended RIB")
            pointers, rib = pointers + words[2 : 2 + count], words[1]
        return [halves(pointer) for pointer in pointers], ribs

    def file(self, prime):
        """Returns the file that a prime block describes."""
        words = self.words(prime)
        if words[0] != RIB:
            raise NotReadable(f"block {prime} isn't a prime block")
        pointers, ribs = self.pointers(prime)
        body = [word for count, first in pointers for at in range(count) for word in self.words(first + at)]
        date = bits(words[2], 18, 20) << 12 | bits(words[3], 24, 35)
        return File(sixbit(words[1], 6), sixbit(halves(words[2])[0], 3), bits(words[3], 0, 8), bits(words[3], 9, 12),
                    date, bits(words[3], 13, 23), body[: words[5]], pointers, ribs)

    def directories(self):
        """Yields each directory, by the number of its owner, with its files by name and extension."""
        for owner, rights, first in sorted(self.chain(self.master)[0]):
            entries, blocks = self.chain(first)
            files = [self.file(prime) for _name, _extension, prime in sorted(entries)]
            yield Directory(owner, bits(rights, 0, 8), bits(rights, 18, 35), files, blocks)


def read_image(data):
    """Returns the image that these bytes are, in whichever form they are one."""
    reasons = []
    for form in (1, 2):
        try:
            return Image(data, form)
        except NotReadable as reason:
            reasons.append(str(reason))
    raise NotReadable("; ".join(reasons))


def main():
    if len(sys.argv) != 2:
        sys.exit("usage: tests/format_reader.py IMAGE")
    with open(sys.argv[1], "rb") as file:
        image = read_image(file.read())
    print(f"form {image.form}, layout {image.layout}, {image.size} blocks")
    for directory in image.directories():
        owner = "{:o},{:o}".format(*halves(directory.owner))
        print(owner, f"{directory.protection:03o}", directory.quota, sep="\t")
        for it in directory.files:
            date = "{:04}-{:02}-{:02}".format(*day(it.date))
            print(owner, it.name, it.extension, f"{it.protection:03o}\t{it.mode:02o}", date, it.minute, len(it.words),
                  sep="\t")


if __name__ == "__main__":
    try:
        main()
    except (NotReadable, OSError) as why:
        sys.exit(f"format_reader: {why}")
