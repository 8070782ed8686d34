#!/usr/bin/env python3
"""Tests what is saved from a damaged image.

usage: tests/salvage.py PROGRAM [COUNT]

An image is damaged block by block, by an independent reader of the layout: what is whole comes out byte for byte, each
fault is reported with the file that it costs, and no byte of the image changes. COUNT images (2000) are spoiled at
random: the program ends with a status of its own, and the status is 0 exactly if a check accepts the image. As many
have only their structure damaged: then each file in its place has the bytes that were put. A search for many files is
made with each of some limits of memory.
Prints a line for each failed check, and one line at the end.
"""

import os
import random
import resource
import shutil
import subprocess
import sys
import tempfile

BLOCK = 1024
LIMIT = 60
PAGE = 4096
AMPLE = 1 << 28
# How many files of a lost directory a search with little memory has to find.
LOST = 1200
DAMAGED = b"\xff" * BLOCK
OPEN_GATE = 0o252525252525
LOG = 0o545747000000


class Image:
    """The blocks of an image of form 1, as lists of words."""

    def __init__(self, path):
        self.path = path
        with open(path, "rb") as file:
            self.data = bytearray(file.read())
        self.size = len(self.data) // BLOCK
        tables = (self.size + 4607) // 4608
        self.table = tables + 8 + 5
        self.space = self.table + tables

    def words(self, block):
        at = block * BLOCK
        return [int.from_bytes(self.data[at + 8 * i:at + 8 * i + 8], "big") for i in range(128)]

    def set_words(self, block, words):
        self.data[block * BLOCK:(block + 1) * BLOCK] = b"".join(word.to_bytes(8, "big") for word in words)

    def damage(self, block):
        self.data[block * BLOCK:(block + 1) * BLOCK] = DAMAGED

    def save(self, path=None):
        with open(path or self.path, "wb") as file:
            file.write(self.data)

    def chain(self, first):
        """Returns the entries of a chain of directory blocks, three words each, and the numbers of its blocks."""
        entries, blocks = [], []
        while first:
            words = self.words(first)
            blocks.append(first)
            entries += [words[2 + 3 * i:5 + 3 * i] for i in range(words[1])]
            first = words[0]
        return entries, blocks

    def directories(self):
        """Returns the first block of each directory, by its PPN."""
        return {entry[0]: entry[2] for entry in self.chain(self.words(1)[5])[0]}

    def files(self, ppn):
        """Returns the prime block of each file of a directory, by its name and extension."""
        return {(entry[0], entry[1] >> 18): entry[2] for entry in self.chain(self.directories()[ppn])[0]}

    def data_blocks(self, prime):
        """Returns the data blocks of a file without extensions."""
        words = self.words(prime)
        pointers = words[16:16 + words[6]]
        return [(word & 0o777777) + i for word in pointers for i in range(word >> 18)]


def sixbit(text):
    """Returns six characters as a word."""
    word = 0
    for character in text.ljust(6):
        word = word * 64 + ord(character) - 32
    return word


def name_of(name, extension):
    return sixbit(name), sixbit(extension) >> 18


PPN = 0o10 << 18 | 0o20
OTHER = 0o10 << 18 | 0o21
TEXT = b"HELLO, WORLD\r\n" * 100
BYTES = bytes(range(256)) * 7
SMALL = b"SMALL"
GIVEN = {"FOO.TXT": TEXT, "DATA.BIN": BYTES, "S": SMALL}
ENCODED = {"FOO.TXT": "text", "DATA.BIN": "bytes", "S": "text"}


class Tries:
    """Runs of the program in their own folder."""

    def __init__(self, program, folder):
        self.program = program
        self.folder = folder
        self.count = 0
        self.failed = 0

    def path(self, *names):
        return os.path.join(self.folder, *names)

    def so(self, what, is_so):
        """Counts a check that must hold."""
        self.count += 1
        if not is_so:
            self.failed += 1
            print(f"salvage: {what}")

    def run(self, words, given=b""):
        return subprocess.run([self.program, *words], input=given, capture_output=True, cwd=self.folder, check=False,
                              timeout=LIMIT)

    def make(self, name, blocks=128, *options):
        """Makes an image with two directories and a few files."""
        for given in (["init", name, str(blocks), *options], ["import", name, "10,20", *self.hosts()],
                      ["import", name, "10,21", self.hosts()[0]]):
            done = self.run(given)
            self.so(f"{given[0]}: {done.stdout!r}", done.returncode == 0)
        return Image(self.path(name))

    def hosts(self):
        """Returns the files of the host that are put."""
        for name, data in GIVEN.items():
            with open(self.path(name), "wb") as file:
                file.write(data)
        return list(GIVEN)

    def salvage(self, what, image, wanted, status, *options, saved=None):
        """Saves what is on an image: these lines are printed, in any order if they are a set, these files come out and
        no others, and the image stays."""
        image.save()
        before = bytes(image.data)
        out = f"out{self.count}"
        done = self.run(["salvage", os.path.basename(image.path), out, *options])
        lines = done.stdout.decode().replace(f"{out}/", "out/").replace(f"{out}:", "out:").splitlines()
        told = set(lines) if isinstance(wanted, set) else lines
        self.so(f"{what}: {lines}, status {done.returncode}", told == wanted and done.returncode == status)
        with open(image.path, "rb") as file:
            self.so(f"{what}: the image changed", file.read() == before)
        found = {}
        for folder, _, names in os.walk(self.path(out)):
            for name in names:
                with open(os.path.join(folder, name), "rb") as file:
                    found[os.path.relpath(os.path.join(folder, name), self.path(out))] = file.read()
        if saved is not None:
            self.so(f"{what}: {sorted(found)} came out", found == saved)


    def salvage_lines(self, what, image):
        """Saves what is on an image, and returns the lines that are printed; status 1, and the image stays."""
        image.save()
        before = bytes(image.data)
        out = f"out{self.count}"
        done = self.run(["salvage", os.path.basename(image.path), out])
        self.so(f"{what}: status {done.returncode}", done.returncode == 1)
        with open(image.path, "rb") as file:
            self.so(f"{what}: the image changed", file.read() == before)
        return done.stdout.decode().replace(f"{out}/", "out/").replace(f"{out}:", "out:").splitlines()


def line(name, owner="10,20", text=None, apart=""):
    return f"out/{apart}{owner}/{name}: {text or ENCODED[name] + ' OK'}"


def numbered(name, prime):
    """Returns the name that a file gets if no directory names it."""
    stem, dot, extension = name.partition(".")
    return f"{stem}%{prime}{dot}{extension}"


def unnamed(image, *places):
    """Returns the lines and the files that come out if no directory names these files, or all, of an image."""
    lines, files = set(), {}
    for place, data in ALL.items():
        if places and place not in places:
            continue
        owner, name = place.split("/")
        stem, _, extension = name.partition(".")
        prime = image.files(PPN if owner == "10,20" else OTHER)[name_of(stem, extension)]
        lines.add(f"out/unnamed/{owner}/{numbered(name, prime)}: {ENCODED[name]} OK")
        files[f"unnamed/{owner}/{numbered(name, prime)}"] = data
    return lines, files


ALL = {f"10,20/{name}": data for name, data in GIVEN.items()} | {"10,21/FOO.TXT": TEXT}
WHOLE = [line("DATA.BIN"), line("FOO.TXT"), line("S"), line("FOO.TXT", "10,21")]


def without(*names):
    return {name: data for name, data in ALL.items() if name not in names}


def whole_image(tries):
    """Tests that an image without faults gives all its files, in both layouts; --list and a PPN select."""
    image = tries.make("A.IMG")
    listed = tries.run(["list", "A.IMG", "10,20"]).stdout
    tries.so(f"the order of the names: {listed!r}", listed.index(b"DATA") < listed.index(b"FOO") < listed.index(b"S  "))
    order = [*sorted(WHOLE[:3], key=lambda text: list(GIVEN).index(text.split("/")[2].split(":")[0])), WHOLE[3]]
    tries.salvage("an image that stands", image, set(order), 0, saved=ALL)
    tries.salvage("one directory", image, {WHOLE[3]}, 0, "10,21", saved={"10,21/FOO.TXT": TEXT})
    paths = {text.split(":")[0] for text in WHOLE}
    tries.salvage("a list", image, paths, 0, "--list", saved={})
    second = tries.make("L.IMG", 128, "--layout", "2")
    tries.salvage("an image of layout 2", second, set(WHOLE), 0, saved=ALL)
    for given in (["init", "P.IMG", "64", "--form", "2"],
                  ["import", "P.IMG", "10,20", tries.hosts()[0], "--form", "2", "--date", "1969-07-20"]):
        tries.so(f"{given[0]} in form 2", tries.run(given).returncode == 0)
    done = tries.run(["salvage", "P.IMG", "packed", "--form", "2"])
    tries.so(f"form 2: {done.stdout!r}", done.stdout == b"packed/10,20/FOO.TXT: text OK\n" and done.returncode == 0)
    tries.run(["init", "Q.IMG", "64", "--layout", "2"])
    tries.run(["import", "Q.IMG", "10,20", tries.hosts()[0], "--date", "1999-12-31", "--minute", "61"])
    tries.run(["salvage", "Q.IMG", "dated"])
    changed = os.stat(tries.path("dated", "10,20", "FOO.TXT")).st_mtime
    tries.so(f"the date of a file: {changed}", changed == 946602060)
    # Nothing that exists is overwritten.
    done = tries.run(["salvage", "Q.IMG", "dated"])
    tries.so(f"again: {done.stdout!r}", done.stdout == b"dated/10,20/FOO.TXT: ?Can't write\n" and done.returncode == 1)


def damaged_blocks(tries):
    """Tests that each damaged block costs its own file, and no other."""
    fresh = tries.make("B.IMG")
    primes = fresh.files(PPN)
    foo = primes[name_of("FOO", "TXT")]
    data = fresh.data_blocks(foo)

    def spoiled(*blocks):
        image = Image(tries.path("B.IMG"))
        image.data = bytearray(fresh.data)
        for block in blocks:
            image.damage(block)
        return image

    others = {text for text in WHOLE if text != line("FOO.TXT")}
    for block in (data[0], data[-1]):
        wanted = others | {line("FOO.TXT", text=f"?Bad data block {block}")}
        tries.salvage("a data block", spoiled(block), wanted, 1, saved=without("10,20/FOO.TXT"))
    wanted = others | {line("FOO.TXT", text=f"?Bad retrieval block {foo}")}
    tries.salvage("a prime block", spoiled(foo), wanted, 1, saved=without("10,20/FOO.TXT"))
    directory = fresh.directories()[PPN]
    lines, files = unnamed(fresh, "10,20/DATA.BIN", "10,20/FOO.TXT", "10,20/S")
    tries.salvage("a directory", spoiled(directory), lines | {WHOLE[3], f"out/10,20: ?Bad directory block {directory}"},
                  1, saved=files | {"10,21/FOO.TXT": TEXT})
    tries.salvage("another directory is asked for", spoiled(directory), {WHOLE[3]}, 0, "10,21",
                  saved={"10,21/FOO.TXT": TEXT})
    master = fresh.words(1)[5]
    lines, files = unnamed(fresh)
    tries.salvage("the master directory", spoiled(master), lines | {f"out: ?Bad directory block {master}"}, 1,
                  saved=files)
    tries.salvage("the first home copy", spoiled(1), set(WHOLE), 0, saved=ALL)
    tries.salvage("both home copies", spoiled(1, 2), lines | {"out: ?Not a volume"}, 1, saved=files)
    tries.salvage("the table", spoiled(fresh.table), set(WHOLE) | {f"out: ?Bad table block {fresh.table}"}, 1, saved=ALL)
    lost = f"out/unnamed/10,20/{numbered('FOO.TXT', foo)}"
    lines = {text for text in lines if not text.startswith(lost)}
    files = {path: found for path, found in files.items() if f"out/{path}" != lost}
    tries.salvage("nearly all of it", spoiled(1, 2, master, directory, data[0]),
                  lines | {"out: ?Not a volume", f"{lost}: ?Bad data block {data[0]}"}, 1, saved=files)
    for command in ("check", "list"):
        done = tries.run([command, "B.IMG"])
        tries.so(f"{command} refuses it: {done.stdout!r}", done.stdout == b"?Not a volume\n" and done.returncode == 3)


def losses_told(tries):
    """Tests that a check that is refused reports on the standard error which files are lost; no other command does."""
    fresh = tries.make("N.IMG")
    primes = fresh.files(PPN)
    foo, small = primes[name_of("FOO", "TXT")], primes[name_of("S", "")]
    data = fresh.data_blocks(foo)
    directory, master = fresh.directories()[PPN], fresh.words(1)[5]

    def tells(refusal, losses, *blocks, command="check"):
        image = Image(tries.path("N.IMG"))
        image.data = bytearray(fresh.data)
        for block in blocks:
            image.damage(block)
        image.save()
        before = bytes(image.data)
        done = tries.run([command, "N.IMG"])
        told = [f"filser: {loss}" for loss in losses]
        tries.so(f"{command}, blocks {blocks} damaged: {done.stdout!r}, {done.stderr!r}, status {done.returncode}",
                 done.stdout.decode() == f"{refusal}\n" and done.stderr.decode().splitlines() == told
                 and done.returncode == 3)
        with open(image.path, "rb") as file:
            tries.so(f"{command} changed the image", file.read() == before)

    tells(f"?Bad data block {data[1]}", [f"FOO.TXT[10,20]: bad data block {data[1]}"], data[1])
    tells(f"?Bad data block {data[1]}", [], data[1], command="list")
    tells(f"?Bad retrieval block {small}", [f"S[10,20]: bad retrieval block {small}"], small)
    tells(f"?Bad directory block {directory}", [f"[10,20]: bad directory block {directory}"], directory)
    tells(f"?Bad directory block {master}", [f"all directories: bad directory block {master}"], master)
    tells(f"?Bad table block {fresh.table}", [], fresh.table)
    tells("?Not a volume", [], 1, 2, data[0])
    unnamed = f"FOO.TXT[10,20], in no directory: bad data block {data[0]}"
    tells(f"?Bad directory block {directory}", [f"[10,20]: bad directory block {directory}", unnamed], directory,
          data[0])
    both = [f"FOO.TXT[10,20]: bad data block {data[0]}", f"S[10,20]: bad retrieval block {small}"]
    image = Image(tries.path("N.IMG"))
    image.data = bytearray(fresh.data)
    image.damage(data[0])
    image.damage(small)
    image.save()
    done = tries.run(["check", "N.IMG"])
    tries.so(f"two files: {done.stderr!r}", sorted(done.stderr.decode().splitlines()) == [f"filser: {loss}" for loss in both])


def tangled_image(tries):
    """Tests that a check reports at most 100 faults, and that it finds them though many directories lead to one chain:
    that is read for the first of them."""
    image = tries.make("T.IMG", 2048)
    chain = list(range(500, 1000))
    for place, block in enumerate(chain):
        following = chain[place + 1] if place + 1 < len(chain) else 0
        names = [sixbit(f"F{42 * place + number:05}") for number in range(42)]
        image.set_words(block, [following, 42, *[word for name in names for word in (name, 0, 499)]])
    master = image.words(1)[5]

    def told(directories):
        """What a check tells with so many directories that lead to the chain."""
        entries = [word for number in range(directories) for word in (PPN + number, 0o775 << 27, chain[0])]
        image.set_words(master, [0, directories, *entries, *[0] * (126 - len(entries))])
        image.save()
        done = tries.run(["check", "T.IMG"])
        tries.so(f"a tangled image: {done.stdout!r}", done.stdout == b"?Bad retrieval block 499\n" and done.returncode == 3)
        return done.stderr.decode().splitlines()

    lines = told(1)
    wanted = [f"filser: F{place:05}[10,20]: bad retrieval block 499" for place in range(100)]
    wanted.append("filser: more is wrong: see filser salvage --list")
    tries.so(f"a hundred faults: {lines[:2]}, {lines[-1:]}", lines == wanted)
    lines = told(42)
    tries.so(f"one chain for all: {lines[:2]}, {lines[-1:]}", lines == wanted)
    done = tries.run(["salvage", "T.IMG", "tangled", "10,61", "--list"])
    tries.so(f"the last of them: {done.stdout!r}",
             done.stdout == f"tangled/10,61: ?Block {chain[0]} reached twice\n".encode() and done.returncode == 1)


def shared_blocks(tries):
    """Tests that a block that is in two files makes both doubtful; one that no directory names costs no file that a
    directory names."""
    fresh = tries.make("C.IMG")
    primes = fresh.files(PPN)
    foo, small = primes[name_of("FOO", "TXT")], primes[name_of("S", "")]
    block = fresh.data_blocks(foo)[0]
    words = fresh.words(small)
    words[16] = 1 << 18 | block
    fresh.set_words(small, words)
    twice = f"?Block {block} reached twice"
    wanted = {line("DATA.BIN"), line("FOO.TXT", text=twice), line("S", text=twice), WHOLE[3],
              line("FOO.TXT", apart="doubtful/"), line("S", apart="doubtful/")}
    tries.salvage("a block of two files", fresh, wanted, 1,
                  saved=without("10,20/FOO.TXT", "10,20/S") | {"doubtful/10,20/FOO.TXT": TEXT,
                                                               "doubtful/10,20/S": TEXT[:5]})
    # The contents of a file aren't taken for a file: here its words are a prime block that claims another file's block.
    image = tries.make("D.IMG")
    other = image.files(OTHER)[name_of("FOO", "TXT")]
    data = image.files(PPN)[name_of("DATA", "BIN")]
    inner = image.data_blocks(data)[0]
    claims = image.words(other)
    claims[1] = sixbit("EVIL")
    image.set_words(inner, claims)
    image.save()
    inside = tries.run(["get", "--words", "D.IMG", "10,20", "DATA.BIN"]).stdout
    tries.so("the image stands", len(inside) == 8 * image.words(data)[5])
    tries.salvage("a file that holds a prime block", image, set(WHOLE[1:]) | {line("DATA.BIN", text="words OK")}, 0,
                  saved=ALL | {"10,20/DATA.BIN": inside})


def deleted_files(tries):
    """Tests that a deleted file isn't found, nor the version that another replaced."""
    image = tries.make("E.IMG")
    tries.run(["delete", "E.IMG", "10,20", "FOO.TXT"])
    tries.run(["put", "E.IMG", "10,20", "S"], b"NEWER")
    image = Image(tries.path("E.IMG"))
    image.damage(image.directories()[PPN])
    fault = {f"out/10,20: ?Bad directory block {Image(tries.path('E.IMG')).directories()[PPN]}"}
    primes = Image(tries.path("E.IMG")).files(PPN)
    data, small = (numbered(name, primes[name_of(*parts)])
                   for name, parts in (("DATA.BIN", ("DATA", "BIN")), ("S", ("S", ""))))
    wanted = {f"out/unnamed/10,20/{data}: bytes OK", f"out/unnamed/10,20/{small}: text OK", WHOLE[3]} | fault
    tries.salvage("deleted files", image, wanted, 1,
                  saved={f"unnamed/10,20/{data}": BYTES, f"unnamed/10,20/{small}": b"NEWER", "10,21/FOO.TXT": TEXT})


def searches(tries):
    """Tests which files come out that no directory names: none with --named, and deleted ones with --all alone."""
    fresh = tries.make("X.IMG")
    tries.run(["delete", "X.IMG", "10,20", "FOO.TXT"])
    image = Image(tries.path("X.IMG"))
    kept, files = set(WHOLE) - {line("FOO.TXT")}, without("10,20/FOO.TXT")
    lines, deleted = unnamed(fresh, "10,20/FOO.TXT")
    tries.salvage("a deleted file", image, kept, 0, saved=files)
    tries.salvage("a deleted file, --named", image, kept, 0, "--named", saved=files)
    tries.salvage("a deleted file, --all", image, kept | lines, 0, "--all", saved=files | deleted)
    tries.salvage("a deleted file, of its directory", image, kept - {WHOLE[3]} | lines, 0, "10,20", "--all",
                  saved=deleted | {place: data for place, data in files.items() if place.startswith("10,20/")})
    tries.salvage("a deleted file, of another directory", image, {WHOLE[3]}, 0, "10,21", "--all",
                  saved={"10,21/FOO.TXT": TEXT})
    paths = {text.split(":")[0] for text in kept | lines}
    tries.salvage("a list of deleted files", image, paths, 0, "--list", "--all", saved={})
    directory = image.directories()[PPN]
    small = image.files(PPN)[name_of("S", "")]
    image.damage(directory)
    told, others = {WHOLE[3], f"out/10,20: ?Bad directory block {directory}"}, {"10,21/FOO.TXT": TEXT}
    tries.salvage("no directory, --named", image, told, 1, "--named", saved=others)
    lines, found = unnamed(fresh, "10,20/DATA.BIN", "10,20/S")
    tries.salvage("no directory", image, told | lines, 1, saved=others | found)
    tries.salvage("no directory, --all", image, told | lines | unnamed(fresh, "10,20/FOO.TXT")[0], 1, "--all",
                  saved=others | found | deleted)
    words = image.words(small)
    image.set_words(small, [*words[:16], 1 << 18 | image.size, *words[17:]])
    tries.salvage("no directory and a bad prime block, --named", image, told, 1, "--named", saved=others)
    image.save()
    done = tries.run(["salvage", "X.IMG", "both", "--named", "--all"])
    tries.so(f"both flags: {done.stdout!r}, {done.stderr!r}, status {done.returncode}",
             done.returncode == 2 and not done.stdout
             and done.stderr == b"?Bad argument\nfilser: --named and --all exclude each other\n")
    tries.so("no folder is made for both flags", not os.path.exists(tries.path("both")))
    for flag in ("--named", "--all"):
        done = tries.run(["export", "X.IMG", "flagged", flag])
        tries.so(f"export {flag}: status {done.returncode}", done.returncode == 2)


def pointers(tries):
    """Tests that a file with a block that isn't its own is doubtful, and that it is written apart."""
    fresh = tries.make("R.IMG")
    primes = fresh.files(PPN)
    small, foo = primes[name_of("S", "")], primes[name_of("FOO", "TXT")]
    master, directory = fresh.words(1)[5], fresh.directories()[OTHER]

    def pointed(block):
        image = Image(tries.path("R.IMG"))
        image.data = bytearray(fresh.data)
        words = image.words(small)
        words[16] = 1 << 18 | block
        image.set_words(small, words)
        return image

    others = {text for text in WHOLE if text != line("S")}
    free = max(n for n in range(fresh.space, fresh.size) if not any(fresh.words(n)))
    for block, fault in ((free, f"?Block {free} is free"), (master, f"?Block {master} reached twice"),
                         (directory, f"?Block {directory} reached twice"), (small, f"?Block {small} reached twice"),
                         (fresh.table, f"?Bad retrieval block {small}"), (fresh.size, f"?Bad retrieval block {small}")):
        image = pointed(block)
        image.save()
        done = tries.run(["salvage", "R.IMG", f"pointed{block}"])
        lines = set(done.stdout.decode().replace(f"pointed{block}", "out").splitlines())
        wanted = others | {line("S", text=fault)}
        if "retrieval" in fault:  # its prime block is found by the search too
            wanted.add(f"out/unnamed/10,20/{numbered('S', small)}: {fault}")
        apart = {text for text in lines if text.startswith("out/doubtful/10,20/S: ")}
        tries.so(f"a pointer to block {block}: {lines}",
                 lines - apart == wanted and len(apart) == ("retrieval" not in fault) and done.returncode == 1)
        tries.so(f"block {block}: the file isn't in its place",
                 not os.path.exists(tries.path(f"pointed{block}", "10,20", "S")))
    # A prime block without its file has a line, though no directory names it.
    image = pointed(fresh.size)
    image.set_words(image.directories()[PPN], [0] * 128)
    lines, files = unnamed(fresh, "10,20/DATA.BIN", "10,20/FOO.TXT")
    lost = f"out/unnamed/10,20/{numbered('S', small)}: ?Bad retrieval block {small}"
    tries.salvage("a prime block without its file", image, lines | {lost, WHOLE[3]}, 1,
                  saved=files | {"10,21/FOO.TXT": TEXT})
    # One that claims all blocks denies none of the others.
    image = Image(tries.path("R.IMG"))
    image.data = bytearray(fresh.data)
    claims = image.words(small)
    blocks = [n for n in range(fresh.space, fresh.size) if n != small]
    claims[5], claims[6] = 128 * len(blocks), 1
    claims[16:18] = [(small - fresh.space) << 18 | fresh.space, (fresh.size - small - 1) << 18 | small + 1]
    claims[6] = 2
    image.set_words(small, claims)
    image.damage(master)
    image.data[master * BLOCK:(master + 1) * BLOCK] = bytes(BLOCK)
    image.save()
    done = tries.run(["salvage", "R.IMG", "claimed"])
    lines = set(done.stdout.decode().replace("claimed", "out").splitlines())
    wanted, _ = unnamed(fresh, "10,20/DATA.BIN", "10,20/FOO.TXT", "10,21/FOO.TXT")
    tries.so(f"a file that claims all blocks: {lines}", wanted <= lines and done.returncode == 1)
    tries.so(f"a prime block of it is {foo}", foo != small)


def old_versions(tries):
    """Tests that an old version doesn't hide today's: without a directory and a table both come out, side by side."""
    image = tries.make("O.IMG")
    old = image.files(PPN)[name_of("S", "")]
    tries.run(["put", "O.IMG", "10,20", "S"], b"NEWER")
    image = Image(tries.path("O.IMG"))
    new, directory = image.files(PPN)[name_of("S", "")], image.directories()[PPN]
    image.damage(directory)
    image.damage(image.table)
    image.save()
    done = tries.run(["salvage", "O.IMG", "old"])
    lines = done.stdout.decode().splitlines()
    for prime, data in ((old, SMALL), (new, b"NEWER")):
        path = tries.path("old", "unnamed", "10,20", numbered("S", prime))
        tries.so(f"version {prime}: {lines}", os.path.exists(path) and open(path, "rb").read() == data)
    tries.so(f"two versions, status {done.returncode}", old != new and done.returncode == 1)


def logs(tries):
    """Tests that what the log still owes counts, and that a log that isn't good is reported."""
    before = tries.make("F.IMG")
    tries.run(["delete", "F.IMG", "10,20", "FOO.TXT"])
    after = Image(tries.path("F.IMG"))
    changed = [n for n in range(before.table, before.size) if before.words(n) != after.words(n)]
    image = Image(tries.path("F.IMG"))
    image.data = bytearray(before.data)
    for i, block in enumerate(changed):
        image.set_words(5 + i, after.words(block))
    image.set_words(4, [LOG, len(changed), *changed, *[0] * (126 - len(changed))])
    image.set_words(3, [OPEN_GATE] * 128)
    tries.salvage("a log that is owed", image, {line("DATA.BIN"), line("S"), WHOLE[3]}, 0,
                  saved=without("10,20/FOO.TXT"))
    image.set_words(4, [LOG, 0, *[0] * 126])
    tries.salvage("a bad log", image, set(WHOLE) | {"out: ?Bad log"}, 1, saved=ALL)
    tries.so("check refuses it", tries.run(["check", "F.IMG"]).stdout == b"?Bad log\n")


def silence(tries):
    """Tests that nothing is reported only of an image that a start accepts: if the table isn't that of the files, if a
    file is in no directory, and if all is lost."""
    fresh = tries.make("S.IMG")
    master, told = fresh.words(1)[5], f"out: ?Bad table block {fresh.table}"

    def changed(block, words):
        image = Image(tries.path("S.IMG"))
        image.data = bytearray(fresh.data)
        image.set_words(block, words)
        return image

    image = changed(fresh.table, [0] * 128)
    tries.salvage("a table of zeros", image, set(WHOLE) | {told}, 1, saved=ALL)
    image.set_words(master, [0] * 128)
    lines, files = unnamed(fresh)
    tries.salvage("a table and a master directory of zeros", image, lines | {told}, 1, saved=files)
    directory = fresh.directories()[OTHER]
    image = changed(directory, [0] * 128)
    lines, files = unnamed(fresh, "10,21/FOO.TXT")
    tries.salvage("a file in no directory", image, set(WHOLE[:3]) | lines | {told}, 1,
                  saved=without("10,21/FOO.TXT") | files)
    table = fresh.words(fresh.table)
    for number in range(fresh.size):
        words = list(table)
        words[number // 36] ^= 1 << 35 - number % 36
        changed(fresh.table, words).save()
        done = tries.run(["salvage", "S.IMG", "list", "--list"])
        lines = done.stdout.decode().splitlines()
        faults = [text for text in lines if "?" in text]
        tries.so(f"bit {number} of the table: {lines}, status {done.returncode}",
                 done.returncode == 1 and len(faults) == 1
                 and (faults[0] == f"list: ?Bad table block {fresh.table}"
                      or faults[0].endswith(f": ?Block {number} is free")))


def lengths(tries):
    """Tests images that were cut, or that have something after their end: the volume has the size that a home copy says,
    and every file whose blocks are there comes out."""
    fresh = tries.make("G.IMG", 200)

    def changed(data):
        image = Image(tries.path("G.IMG"))
        image.data = bytearray(data)
        return image

    def blocks_of(prime):
        return [prime, *fresh.data_blocks(prime)]

    primes = [*fresh.files(PPN).values(), *fresh.files(OTHER).values()]
    last = max(block for prime in primes for block in blocks_of(prime))
    missing = "out: ?Blocks missing at the end: {}"
    for blocks in (199, last + 1):
        lines = set(WHOLE) | {missing.format(200 - blocks)}
        tries.salvage(f"cut to {blocks} blocks", changed(fresh.data[:blocks * BLOCK]), lines, 1, saved=ALL)
    lines = set(WHOLE) | {missing.format(1), "out: ?Bytes after the last block: 1023"}
    tries.salvage("cut by a byte", changed(fresh.data[:-1]), lines, 1, saved=ALL)
    done = tries.run(["check", "G.IMG"])
    tries.so(f"check refuses it: {done.stdout!r}", done.stdout == b"?Not a volume\n" and done.returncode == 3)
    lines = set(WHOLE) | {"out: ?Bytes after the last block: 5"}
    tries.salvage("five bytes more", changed(fresh.data + b"FIVE\n"), lines, 1, saved=ALL)
    lines = set(WHOLE) | {"out: ?Blocks after the end: 3"}
    tries.salvage("three blocks more", changed(fresh.data + bytes(3 * BLOCK)), lines, 1, saved=ALL)
    image = changed(fresh.data + bytes(3 * BLOCK))
    image.damage(1)
    tries.salvage("three blocks more, and one home copy", image, lines, 1, saved=ALL)
    image.damage(2)
    lines, files = unnamed(fresh)
    done = tries.salvage_lines("no home copy, and three blocks more", image)
    tries.so(f"the length decides: {done}", "out: ?Not a volume" in done and lines <= set(done))
    # Two home copies that differ: the one that agrees with the length is believed, as by a start.
    image = changed(fresh.data[:100 * BLOCK])
    words = image.words(2)
    words[2] = 100
    image.set_words(2, words)
    tries.salvage("a copy that agrees with the length", image, set(WHOLE), 0, saved=ALL)
    # A copy that is cut to fewer blocks than any volume has.
    image = changed(fresh.data[:50 * BLOCK])
    kept = {text: place for text, place in zip((line("DATA.BIN"), line("FOO.TXT"), line("S"), line("FOO.TXT", "10,21")),
                                               ("10,20/DATA.BIN", "10,20/FOO.TXT", "10,20/S", "10,21/FOO.TXT"))}
    done = tries.salvage_lines("fifty blocks", image)
    tries.so(f"fifty blocks: {done}", missing.format(150) in done)
    for text, place in kept.items():
        owner, name = place.split("/")
        stem, _, extension = name.partition(".")
        prime = fresh.files(PPN if owner == "10,20" else OTHER)[name_of(stem, extension)]
        tries.so(f"{place} of fifty blocks: {done}", (text in done) == (max(blocks_of(prime)) < 50))
    # In form 2 a block has 576 bytes.
    for given in (["init", "K.IMG", "64", "--form", "2"], ["import", "K.IMG", "10,20", tries.hosts()[0], "--form", "2"]):
        tries.so(f"{given[0]} in form 2", tries.run(given).returncode == 0)
    with open(tries.path("K.IMG"), "ab") as file:
        file.write(bytes(575))
    done = tries.run(["salvage", "K.IMG", "short", "--form", "2"])
    lines = done.stdout.decode().splitlines()
    tries.so(f"a tail in form 2: {lines}", done.returncode == 1 and set(lines)
             == {"short: ?Bytes after the last block: 575", "short/10,20/FOO.TXT: text OK"})


def with_memory(tries, pages, *options):
    """Saves what is on M.IMG, with this many pages of memory. Returns the lines, the status, and the files by their
    names."""
    limit, out = pages * PAGE, "m-out"
    shutil.rmtree(tries.path(out), ignore_errors=True)
    done = subprocess.run([tries.program, "salvage", "M.IMG", out, *options], capture_output=True, cwd=tries.folder,
                          check=False, timeout=LIMIT,
                          preexec_fn=lambda: resource.setrlimit(resource.RLIMIT_DATA, (limit, limit)))
    found = {}
    for folder, _, names in os.walk(tries.path(out)):
        for name in names:
            with open(os.path.join(folder, name), "rb") as file:
                found[os.path.relpath(os.path.join(folder, name), tries.path(out))] = file.read()
    return done.stdout.decode().splitlines(), done.returncode, found


def little_memory(tries):
    """Tests that what directories name is saved if memory runs out in the search for other files."""
    tries.make("M.IMG", 8192)
    names = [f"many/F{number}" for number in range(LOST)]
    os.makedirs(tries.path("many"), exist_ok=True)
    for name in names:
        with open(tries.path(name), "wb") as file:
            file.write(SMALL)
    tries.run(["import", "M.IMG", "10,22", *names])
    image = Image(tries.path("M.IMG"))
    image.damage(image.directories()[0o10 << 18 | 0o22])
    image.save()
    incomplete, none = "?No memory: search incomplete", "?No memory"

    def least(serves):
        low, high = 0, AMPLE // PAGE
        while high - low > 1:
            middle = (low + high) // 2
            low, high = (low, middle) if serves(middle) else (middle, high)
        return high

    some = least(lambda pages: with_memory(tries, pages)[0] not in ([], [none]))
    every = least(lambda pages: not any(none in line for line in with_memory(tries, pages)[0]))
    tries.so(f"memory of a search: {some} to {every} pages", some < every)
    parts = 0
    for pages in sorted({some + (every - some) * step // 12 for step in range(13)}):
        lines, status, found = with_memory(tries, pages)
        is_part = incomplete in lines
        parts += is_part
        placed = {place: data for place, data in found.items() if place.startswith("10,")}
        right = {f"10,20/{name}": data for name, data in GIVEN.items()} | {"10,21/FOO.TXT": TEXT}
        refused = {line.split(": ")[0].removeprefix("m-out/") for line in lines if line.endswith(f": {none}")}
        tries.so(f"{pages} pages: {lines[-2:]}", all(right[place] == data for place, data in placed.items())
                 and set(right) == set(placed) | refused & set(right))
        tries.so(f"{pages} pages: status {status}", status == (4 if is_part or refused else 1))
        others = 0 if is_part else LOST - len(refused - set(right))
        tries.so(f"{pages} pages: the search", len(found) - len(placed) == others)
    tries.so(f"{parts} searches that are incomplete", parts > 0)


def odd_images(tries):
    """Tests images that are empty, or missing."""
    image = tries.make("J.IMG")
    image.data = bytearray(10 * BLOCK)
    tries.salvage("ten blocks", image, ["?Not a volume"], 3, saved={})
    image.data = bytearray(64 * BLOCK)
    tries.salvage("zeros", image, ["out: ?Not a volume", "out: ?Bad table block 14"], 1, saved={})
    done = tries.run(["salvage", "NONE.IMG", "none"])
    tries.so(f"no image: {done.stdout!r}", done.stdout == b"?Device fault\n" and done.returncode == 4)
    tries.so("no folder is made for it", not os.path.exists(tries.path("none")))


def spoiled_images(tries, count):
    """Tests images that are spoiled at random."""
    fresh = tries.make("H.IMG", 64)
    given = set(GIVEN.values())
    chance = random.Random(1964)
    for number in range(count):
        image = Image(tries.path("H.IMG"))
        image.data = bytearray(fresh.data)
        for _ in range(chance.randrange(1, 12)):
            block = chance.choice([1, 2, 3, 4, 14, 15, *range(15, 40)])
            if chance.random() < 0.3:
                image.damage(block)
            elif chance.random() < 0.5:
                image.set_words(block, image.words(chance.randrange(64)))
            else:
                words = image.words(block)
                words[chance.randrange(24)] = chance.choice([0, 1, chance.randrange(64), 1 << 18 | chance.randrange(64)])
                image.set_words(block, words)
        image.save()
        before, out = bytes(image.data), f"spoiled{number}"
        done = tries.run(["salvage", "H.IMG", out])
        tries.so(f"image {number}: status {done.returncode}", done.returncode in (0, 1))
        with open(image.path, "rb") as file:
            tries.so(f"image {number} changed", file.read() == before)
        lines = done.stdout.decode().splitlines()
        tries.so(f"image {number}: each line has its answer",
                 all(text.endswith(" OK") or ": ?" in text for text in lines))
        checked = tries.run(["check", "H.IMG"])
        tries.so(f"image {number}: status {done.returncode}, and {checked.returncode} of a check",
                 (done.returncode == 0) == (checked.returncode == 0))
        if checked.returncode == 0:
            tries.so(f"image {number} stands: {lines}", len(lines) == 4)
    tries.so("files are given", len(given) == 3)


def damaged_structures(tries, count):
    """Tests images of which only the structure is damaged: home copies, table, directories and retrieval blocks are
    zeroed, filled or exchanged, bits of the table and of pointers flipped, and the end cut off or replaced. Each file
    in its place has the bytes that were put, unless a fault is reported that hides whose a block is: of the table, or of
    the retrieval blocks of another file. Something is reported if a file isn't there."""
    chance = random.Random(1971)
    fresh = {name: tries.make(name, 80, *options) for name, options in
             (("U.IMG", ()), ("V.IMG", ("--layout", "2")))}
    for number in range(count):
        name, whole = chance.choice(list(fresh.items()))
        image = Image(tries.path(name))
        image.data = bytearray(whole.data)
        primes = [*whole.files(PPN).values(), *whole.files(OTHER).values()]
        structure = [1, 2, whole.table, whole.words(1)[5], *whole.directories().values(), *primes]
        for _ in range(chance.randrange(1, 4)):
            block, way = chance.choice(structure), chance.randrange(6)
            if way == 0:
                image.set_words(block, [0] * 128)
            elif way == 1:
                image.damage(block)
            elif way == 2:
                other = chance.choice(structure)
                words = image.words(block)
                image.data[block * BLOCK:(block + 1) * BLOCK] = image.data[other * BLOCK:(other + 1) * BLOCK]
                image.set_words(other, words) if max(words) < 1 << 36 else image.damage(other)
            elif way == 5:
                cut = chance.randrange(70 * BLOCK, whole.size * BLOCK)
                image.data = image.data[:cut] + bytes(chance.randrange(2) * chance.randrange(4 * BLOCK))
            elif way == 3 and max(image.words(whole.table)) < 1 << 36:
                words, bit = image.words(whole.table), chance.randrange(whole.size)
                words[bit // 36] ^= 1 << 35 - bit % 36
                image.set_words(whole.table, words)
            else:
                block = chance.choice(primes)
                words = image.words(block)
                if max(words) < 1 << 36:
                    words[16] ^= 1 << chance.randrange(36)
                    image.set_words(block, words)
        image.save()
        out = f"structure{number}"
        done = tries.run(["salvage", name, out])
        lines = done.stdout.decode().splitlines()
        hidden = [text for text in lines if ": ?Bad table block" in text or ": ?Bad retrieval block" in text]
        placed = {}
        for place, data in ALL.items():
            path = tries.path(out, *place.split("/"))
            if os.path.exists(path):
                with open(path, "rb") as file:
                    placed[place] = file.read()
                tries.so(f"structure {number}: {place} in its place, {lines}", placed[place] == data or hidden)
        said = any(": ?" in text for text in lines)
        tries.so(f"structure {number}: {lines}, status {done.returncode}",
                 done.returncode == (1 if said else 0) and (said or len(placed) == len(ALL)))
        checked = tries.run(["check", name])
        tries.so(f"structure {number}: status {done.returncode}, and {checked.returncode} of a check",
                 (done.returncode == 0) == (checked.returncode == 0))


def main():
    program = os.path.abspath(sys.argv[1])
    count = int(sys.argv[2]) if len(sys.argv) > 2 else 2000
    with tempfile.TemporaryDirectory() as folder:
        tries = Tries(program, folder)
        for part in (whole_image, damaged_blocks, losses_told, tangled_image, shared_blocks, pointers, old_versions,
                     deleted_files, searches, logs, silence, lengths, little_memory, odd_images):
            part(tries)
        spoiled_images(tries, count)
        damaged_structures(tries, count)
    print(f"salvage: {tries.count - tries.failed} passed, {tries.failed} failed")
    return 1 if tries.failed else 0


if __name__ == "__main__":
    sys.exit(main())
