#!/usr/bin/env python3
"""Tests that docs/FORMAT.md describes what the program writes: a reader made by that page finds the same files.

usage: tests/format.py PROGRAM [COUNT]

The program makes COUNT images (200 if not given) of both forms and layouts and of many sizes. Random calls make
directories, and in them files of any length and mode; files are superseded, updated, renamed and deleted. Some images
are converted or migrated. Of some the last process is killed at a random moment; of others the last commit is reopened,
as a crash may leave it: the gate open or half written, and the places of the puts old, new or spoiled. Some have a log
that isn't good, or home blocks that aren't valid.

Of each image tests/format_reader.py must find what `list`, `list --tsv` and `export --words` say: all directories, and
for each file owner, name, extension, protection, mode, date, time and words. If one refuses an image, both must. What
is expected are the program's own answers: this tests only that two readers, which share no code, agree. It doesn't test
that the files are the right ones, as other scripts do. Directories have the protections and quotas that they were
given. After a start has recovered an image, the reader finds the same, and a gate of zeros. The volume that the page
draws has its words.

Prints a line for each failed check, and one line at the end.
"""
import concurrent.futures
import os
import pathlib
import random
import re
import shutil
import subprocess
import sys
import tempfile

from format_reader import OPEN_GATE, NotReadable, day, halves, read_image

PAGE = pathlib.Path(__file__).resolve().parent.parent / "docs" / "FORMAT.md"
IMAGES = 200
LIMIT = 60
WORKERS = 4
OWNER = re.compile(r"^(?:Total \d+ blocks in \d+ files|No files) \[([0-7]+,[0-7]+)\]$", re.M)
MODES = (0, 1, 0o10, 0o13, 0o14, 0o17)
SIZES = [64, 65, 80, 100, 150, 200, 300, 500, 700]
LARGE = [4607, 4608, 4609, 9217]
SHORT = [0, 1, 2, 5, 127, 128, 129, 255, 256, 257, 300, 640, 1000]
LONG = [14336, 14337, 131072, 14335, 30464, 30465, 50000]
PIECES = [112, 113, 238, 239, 1, 2, 111, 114, 237, 240]  # a block has 112 pointers, and then one more for each 126
# where a job's core has its words; its rings begin at 140
OPENED, PLACE, HEADER, LIST, POOL, POOLED = 0o600, 0o610, 0o620, 0o630, 0o1000, 0o400
DSK = 0o446353000000


class Tries:
    """Runs of the program in their own folder, and which images failed a check."""

    def __init__(self, program, folder):
        self.program = program
        self.folder = folder
        self.failed = set()
        self.seen = set()

    def path(self, name):
        return os.path.join(self.folder, name)

    def read(self, name):
        with open(self.path(name), "rb") as file:
            return file.read()

    def write(self, name, data):
        with open(self.path(name), "wb") as file:
            file.write(data)

    def run(self, words, given=""):
        """Returns what a run prints, and its status."""
        ran = subprocess.run([self.program, *words], input=given.encode(), capture_output=True, cwd=self.folder,
                             check=False, timeout=LIMIT)
        return ran.stdout.decode(), ran.returncode

    def so(self, name, what, is_so):
        """Reports a check that must hold."""
        if not is_so:
            self.failed.add(name)
            print(f"format: {name}: {what}")


class Script:
    """Calls of a job of [1,2], with random words in its core."""

    def __init__(self, chance):
        self.chance = chance
        self.lines = []
        self.add("LOGIN 1,2 400000")
        self.deposit(OPENED + 1, DSK, 0)
        kinds = (lambda: 0, lambda: 2**36 - 1, lambda: chance.getrandbits(36), lambda: chance.getrandbits(35) << 1)
        self.deposit(POOL, *(chance.choice(kinds)() for _ in range(POOLED)))

    def add(self, *calls):
        self.lines += [f"1 {call}" for call in calls]

    def deposit(self, address, *words):
        self.add(*(f"DEP {address + at:o} {word:o}" for at, word in enumerate(words)))

    def text(self):
        return "\n".join(self.lines) + "\n"

    def open(self, channel, mode=0o17, header=0):
        self.add(f"RELEAS {channel:o}")
        self.deposit(OPENED, mode)
        self.deposit(OPENED + 2, header << 18)
        self.add(f"OPEN {channel:o} {OPENED:o}")

    def ask(self, call, channel, place, attributes=0):
        """Makes a LOOKUP, an ENTER or a RENAME of a place."""
        owner, name, extension = place
        self.deposit(PLACE, name, extension << 18, attributes, owner)
        self.add(f"{call} {channel:o} {PLACE:o}")

    def out(self, channel, count):
        """Puts this many words, out of some areas of the core."""
        at = LIST
        while count:
            part = count if at > LIST + 5 else self.chance.randint(1, count)
            part = min(part, 0o200000)
            self.deposit(at, (2**18 - part) << 18 | POOL + self.chance.randrange(POOLED) - 1)
            at, count = at + 1, count - part
        self.deposit(at, 0)
        self.add(f"OUT {channel:o} {LIST:o}")

    def dump(self, place, count):
        """Writes a file of this many words in dump mode."""
        self.open(1)
        self.ask("ENTER", 1, place, self.chance.choice((0, 0, self.chance.getrandbits(9) << 27)))
        if count:
            self.out(1, count)
        self.add("CLOSE 1 0")

    def ring(self, place, mode, count):
        """Writes a file by a ring of two buffers; each buffer but the last is full, with a few words of it set."""
        self.add("RESET")
        self.open(1, mode, HEADER)
        self.ask("ENTER", 1, place)
        self.add("OUT 1 0")
        for number in range(-(-count // 128)):
            buffer = (0o141, 0o344)[number % 2]
            part = min(128, count - 128 * number)
            self.deposit(buffer + 2, *(self.chance.getrandbits(36) for _ in range(min(part, 3))))
            self.deposit(HEADER + 1, 0o440000 << 18 | buffer + 1 + part)
            self.add("OUT 1 0")
        self.add("CLOSE 1 0")

    def pair(self, places, blocks):
        """Writes two files block by block in turn, so that each has a pointer for each block."""
        for channel, place in enumerate(places, 1):
            self.open(channel)
            self.ask("ENTER", channel, place)
        self.deposit(LIST + 2, (2**18 - 128) << 18 | POOL - 1, 0)
        for turn in range(blocks):
            self.deposit(POOL, turn + 1)
            self.add(f"OUT 1 {LIST + 2:o}", f"OUT 2 {LIST + 2:o}")
        self.add("CLOSE 1 0", "CLOSE 2 0")

    def update(self, place, block, count):
        """Puts words over a file from a block of it, which may be past its end."""
        self.open(1)
        self.ask("LOOKUP", 1, place)
        self.ask("ENTER", 1, place)
        self.add(f"USETO 1 {block:o}")
        self.out(1, count)
        self.add("CLOSE 1 0")

    def move(self, place, new, attributes):
        """Renames a file, or deletes it if the new name is 0."""
        self.open(1)
        self.ask("LOOKUP", 1, place)
        self.ask("RENAME", 1, new, attributes)


def sixbit(text):
    """Returns the number of up to six characters, with blanks after them."""
    return int("".join(f"{ord(letter) - 32:02o}" for letter in text.ljust(6)), 8)


def ppn(owner):
    """Returns how the program spells an owner."""
    return "{:o},{:o}".format(*halves(owner))


def a_name(chance):
    """Returns a name and an extension: letters for the most part, otherwise any that aren't zero."""
    if chance.random() < 0.15:
        return chance.randint(1, 2**36 - 1), chance.choice((0, chance.getrandbits(18)))
    letters = "".join(chance.choices("ABCXYZ019", k=chance.randint(1, 6)))
    return sixbit(letters), sixbit(chance.choice(("", "A", "TX", "BIN", "DAT"))) >> 18


def a_step(script, owners, places):
    """Adds a random change of one file, or of two."""
    chance = script.chance
    kind = chance.choices(("new", "ring", "pair", "again", "update", "move", "delete"), (9, 3, 1, 2, 3, 3, 4))[0]
    place = (chance.choice(owners), *a_name(chance))
    if kind in ("again", "update", "move", "delete") and places:
        place = chance.choice(places)
    if kind == "ring":
        script.ring(place, chance.choice(MODES[:5]), chance.choice((0, 1, 127, 128, 129, 300)))
    elif kind == "pair":
        other = (chance.choice(owners), *a_name(chance))
        script.pair((place, other), chance.choice(PIECES))
        places.append(other)
    elif kind == "update":
        script.update(place, chance.randint(1, 4), chance.choice(SHORT[1:]))
    elif kind == "move":
        new = (chance.choice(owners), *a_name(chance))
        script.move(place, new, chance.getrandbits(9) << 27)
        places.append(new)
    elif kind == "delete":
        script.move(place, (0, 0, 0), 0)
    else:
        script.dump(place, chance.choice(LONG if chance.random() < 0.1 else SHORT))
    places.append(place)


class Made:
    """An image that the program makes, and the directories that it was told to have."""

    def __init__(self, tries, number):
        self.tries = tries
        self.chance = random.Random(number)
        self.name = f"{number}.IMG"
        self.form = 1 + number % 2
        self.layout = 1 + number // 2 % 2
        self.is_large, self.is_crowded = number % 16 == 7, number % 10 == 1
        self.turn = number // 16
        self.size = LARGE[self.turn % len(LARGE)] if self.is_large else self.chance.choice(SIZES)
        self.size = max(self.size, 300) if self.is_crowded else self.size
        self.owners, self.places, self.told = [], [], {}
        self.run("init", str(self.size), "--layout", str(self.layout))

    def run(self, command, *words, given=""):
        """Runs a command on the image."""
        return self.tries.run([command, self.name, *words, "--form", str(self.form)], given)

    def moment(self):
        """Returns the words that give a run a random date and minute."""
        last = 0o7777 if self.layout == 1 else 0o77777
        return ["--date", str(self.chance.randint(0, last)), "--minute", str(self.chance.randint(0, 1439))]

    def directories(self, count):
        """Makes directories, with protections and, in layout 2, some quotas."""
        script = Script(self.chance)
        while len(self.told) < count:
            owner = self.chance.randint(1, 0o777777) << 18 | self.chance.randint(1, 0o777777)
            protection, quota = self.chance.randint(1, 0o777), 0
            script.deposit(PLACE, owner, protection << 27)
            script.add(f"MAKDIR {PLACE:o}")
            if self.layout == 2 and self.chance.random() < 0.5:
                quota = self.chance.randint(1, 0o777777)
                script.deposit(PLACE, owner, quota << 18)
                script.add(f"QUOTA {PLACE:o}")
            self.told[owner] = (protection, quota)
        printed, _ = self.run("calls", given=script.text())
        self.tries.so(self.name, "its directories aren't made", printed == "DONE\n" * len(script.lines))
        self.owners = list(self.told)

    def files(self, count):
        """Makes random changes of files, in one run."""
        script = Script(self.chance)
        for _ in range(count):
            a_step(script, self.owners, self.places)
        self.run("calls", *self.moment(), given=script.text())

    def deep(self):
        """Makes a long file, and two in many pieces, each time of other lengths."""
        script = Script(self.chance)
        places = [(self.owners[0], sixbit(name), 0) for name in ("LONG", "ONE", "TWO")]
        script.dump(places[0], LONG[self.turn % len(LONG)])
        script.pair(places[1:], PIECES[self.turn % len(PIECES)])
        self.run("calls", *self.moment(), given=script.text())

    def crowd(self, count):
        """Makes many short files in one directory, and deletes some."""
        script = Script(self.chance)
        places = [(self.owners[0], *a_name(self.chance)) for _ in range(count)]
        for place in places:
            script.dump(place, self.chance.choice((0, 0, 1)))
        for place in self.chance.sample(places, count // 5):
            script.move(place, (0, 0, 0), 0)
        self.run("calls", *self.moment(), given=script.text())

    def convert(self):
        """Puts a copy in the other form in the place of the image."""
        old = f"OLD{self.name}"
        os.rename(self.tries.path(self.name), self.tries.path(old))
        printed, _ = self.tries.run(["convert", old, self.name, "--form", str(self.form)])
        self.tries.so(self.name, f"converted: {printed}", printed == f"Converted {self.size} blocks\n")
        self.form = 3 - self.form
        os.remove(self.tries.path(old))

    def spoil(self):
        """Spoils the first home block, or both, in which case the image must be refused."""
        data = bytearray(self.tries.read(self.name))
        image = read_image(data)
        both = self.chance.random() < 0.2
        for block in (1, 2) if both else (1,):
            home = stored(self.chance.choice(bad_homes(image)), self.form)
            data[block * image.length : (block + 1) * image.length] = home
        self.tries.seen.add("no valid home block" if both else "a valid second home block")
        self.tries.write(self.name, data)

    def kill(self):
        """Makes random changes by a process that is killed."""
        script = Script(self.chance)
        for _ in range(40):
            a_step(script, self.owners, self.places)
        words = [self.tries.program, "calls", self.name, *self.moment(), "--form", str(self.form)]
        process = subprocess.Popen(words, stdin=subprocess.PIPE, stdout=subprocess.DEVNULL, stderr=subprocess.DEVNULL,
                                   cwd=self.tries.folder)
        try:
            process.communicate(script.text().encode(), timeout=self.chance.uniform(0.002, 0.05))
        except subprocess.TimeoutExpired:
            process.kill()
            process.communicate()

    def commit(self):
        """Makes one change, by one commit."""
        if self.layout == 1 and self.chance.random() < 0.3:
            self.run("migrate")
            self.layout = 2
        else:
            owner = ppn(self.chance.choice(self.owners))
            self.run("put", owner, f"LAST{self.chance.randint(0, 99)}.X", *self.moment(),
                     given="LAST" * self.chance.choice((0, 1, 160, 500)))

    def reopen(self):
        """Makes one change, and leaves the image as a crash during its commit may."""
        before = self.tries.read(self.name)
        layout = self.layout
        self.commit()
        after = read_image(self.tries.read(self.name))
        header, length, chance = after.stored(4), after.length, self.chance
        data, was = bytearray(after.data), chance.choice(("open", "open", "open", "closed", "bad"))
        for block in header[2 : 2 + header[1]]:
            part = slice(block * length, (block + 1) * length)
            data[part] = chance.choice((before[part], after.data[part], chance.randbytes(length)))
            if was == "closed":
                data[part] = before[part]
        data[3 * length : 4 * length] = stored(OPEN_GATE, self.form)
        halfway = stored(OPEN_GATE[: chance.randint(0, 127)], self.form)
        noise = b"\377" * length  # a damaged block in form 1, words of ones in form 2
        if was == "closed":
            data[3 * length : 4 * length] = chance.choice((halfway, noise))
            self.layout = layout
        elif was == "bad" and self.form == 1 and chance.random() < 0.3:
            data[6 * length - 8] = 128  # the top bit of a last word, which damages the block
        elif was == "bad":
            data[4 * length : 5 * length] = stored(chance.choice(bad_headers(after)), self.form)
        self.tries.seen.add(f"a reopened commit, {was}")
        if was == "open" and {1, 2} <= set(header[2 : 2 + header[1]]):
            self.tries.seen.add("home blocks in the log")
        self.tries.write(self.name, data)


def bad_homes(image):
    """Returns home blocks that aren't valid, each for one reason."""
    before_space = 4 + image.images + image.tables
    changes = [(0, 0), (1, 0), (1, 3), (2, image.size + 1), (3, image.tables + 1), (4, image.images - 1),
               (5, before_space), (5, image.size), (6, 1), (127, 1)]
    home = image.stored(1)
    return [home[:at] + [word] + home[at + 1 :] for at, word in changes]


def bad_headers(image):
    """Returns headers of logs that aren't good, each for one reason."""
    log, count, *rest = image.stored(4)
    targets, last = rest[:count], image.size - 1
    too_many = range(last - image.images, last + 1)
    return [[log + 1, count, *targets], [log, 0], [log, len(too_many), *too_many], [log, 2, last, last],
            [log, count, *targets, last], *([log, 1, wrong] for wrong in (0, 3, 4, 5, 4 + image.images, image.size))]


def stored(words, form):
    """Returns the bytes of a block that begins with these words."""
    words = words + [0] * (128 - len(words))
    if form == 1:
        return b"".join(word.to_bytes(8, "big") for word in words)
    return b"".join((first << 36 | second).to_bytes(9, "big") for first, second in zip(words[::2], words[1::2]))


def made(tries, number):
    """Makes an image of a kind that its number gives."""
    image = Made(tries, number)
    chance = image.chance
    least = 1 if image.is_large or image.is_crowded else 0
    image.directories(chance.randint(42, 45) if number % 20 == 3 else max(least, chance.choice((0, 1, 1, 2, 3, 5))))
    if image.owners:
        for _ in range(chance.randint(0, 3)):
            image.files(chance.randint(1, 8))
        if image.is_large:
            image.deep()
        if image.is_crowded:
            image.crowd(chance.choice((42, 43, 60, 90)))
    if number % 10 == 2:
        image.convert()
    if number % 10 == 5:
        image.spoil()
    elif image.owners and number % 5 == 3:
        image.kill()
    elif image.owners and number % 5 in (1, 4):
        image.reopen()
    return image


def listed(directories):
    """Returns the lines that `list --tsv` should print for what the reader found."""
    lines = []
    for directory in directories:
        owner = ppn(directory.owner)
        for it in directory.files:
            date = "{:04}-{:02}-{:02}".format(*day(it.date))
            when = f"{date}\t{it.minute // 60:02}:{it.minute % 60:02}"
            lines.append(f"{owner}\t{it.name}\t{it.extension}\t{it.protection:03o}\t{it.mode:02o}\t{when}\t"
                         f"{len(it.words)}\t{-(-len(it.words) // 128)}\n")
    return "".join(lines)


def exported(directories):
    """Returns what `export --words` should make of what the reader found: bytes by paths."""
    made_of = {}
    for directory in directories:
        for it in directory.files:
            parts = [re.sub(r"[^A-Z0-9]", lambda odd: f"%{ord(odd[0]):02X}", part) for part in (it.name, it.extension)]
            path = f"{ppn(directory.owner)}/" + ".".join(part for part in parts if part)
            made_of[path] = b"".join(word.to_bytes(8, "big") for word in it.words)
    return made_of


def exported_by(image):
    """Returns what the program exports: bytes by paths."""
    folder = pathlib.Path(image.tries.path(f"{image.name}.OUT"))
    image.run("export", folder.name, "--words")
    found = {str(path.relative_to(folder)): path.read_bytes() for path in folder.rglob("*") if path.is_file()}
    shutil.rmtree(folder, ignore_errors=True)
    return found


def compare(tries, image):
    """Tests that the reader finds in an image what the program finds. The reader is first, since a start recovers."""
    try:
        found = read_image(tries.read(image.name))
        directories = list(found.directories())
    except NotReadable as why:
        printed, status = image.run("list")
        tries.so(image.name, f"the reader refuses it, {why}; the program lists {printed[:80]!r}", status == 3)
        tries.seen.add("a refused image")
        return
    tries.so(image.name, f"form {found.form}, layout {found.layout}, {found.size} blocks",
             (found.form, found.layout, found.size) == (image.form, image.layout, image.size))
    printed, status = image.run("list", "--tsv")
    lines = listed(directories)
    tries.so(image.name, f"status {status}, lists\n{printed}and not\n{lines}", (printed, status) == (lines, 0))
    owners = OWNER.findall(image.run("list")[0])
    tries.so(image.name, f"directories {owners}", owners == [ppn(it.owner) for it in directories])
    told = {it.owner: (it.protection, it.quota) for it in directories}
    tries.so(image.name, "protections or quotas of directories", told == image.told)
    wanted, made_of = exported(directories), exported_by(image)
    other = sorted(path for path in wanted.keys() | made_of.keys() if wanted.get(path) != made_of.get(path))
    tries.so(image.name, f"other words: {other}", not other)
    if found.placed:
        again = read_image(tries.read(image.name))
        tries.so(image.name, "a start leaves the gate as zeros", again.stored(3) == [0] * 128)
        tries.so(image.name, "the reader finds other files after a start", list(again.directories()) == directories)
    note(tries, found, directories)


def one(tries, number):
    """Makes an image, and tests what is found in it."""
    try:
        image = made(tries, number)
        compare(tries, image)
        os.remove(tries.path(image.name))
    except NotReadable as why:
        tries.so(f"{number}.IMG", f"the reader refuses it: {why}", False)


def note(tries, found, directories):
    """Notes what an image had, so that the images as a whole can be tested."""
    files = [it for directory in directories for it in directory.files]
    has = {
        f"form {found.form}, layout {found.layout}": True,
        f"{found.tables} table blocks": True,
        "an open gate": bool(found.placed),
        "a master directory of two blocks": len(directories) > 42,
        "a directory of two blocks": any(len(it.blocks) > 1 for it in directories),
        "a quota": any(it.quota for it in directories),
        "a file with no words": any(not it.words for it in files),
        "a file of 1,000 blocks": any(len(it.words) > 127_000 for it in files),
        "two pointers": any(len(it.pointers) == 2 for it in files),
        "112 pointers": any(len(it.pointers) == 112 for it in files),
        "one extended RIB": any(len(it.ribs) == 1 for it in files),
        "two extended RIBs": any(len(it.ribs) == 2 for it in files),
        "a late date": any(it.date > 0o7777 for it in files),
        **{f"mode {mode:o}": any(it.mode == mode for it in files) for mode in MODES},
    }
    tries.seen |= {what for what, is_so in has.items() if is_so}


def all_kinds(tries):
    """Tests that 200 images or more had what they are made to have, so that nothing is left out in silence."""
    wanted = {f"form {form}, layout {layout}" for form in (1, 2) for layout in (1, 2)}
    wanted |= {f"{count} table blocks" for count in (1, 2, 3)} | {f"mode {mode:o}" for mode in MODES}
    wanted |= {f"a reopened commit, {was}" for was in ("open", "closed", "bad")}
    wanted |= {"an open gate", "home blocks in the log", "a refused image", "a valid second home block",
               "no valid home block", "a quota", "a late date", "112 pointers", "a file with no words",
               "a file of 1,000 blocks", "two pointers", "one extended RIB", "two extended RIBs",
               "a directory of two blocks", "a master directory of two blocks"}
    tries.so("all images", f"none has {sorted(wanted - tries.seen)}", wanted <= tries.seen)


def drawn_words(text):
    """Returns the words that the page draws, by block and place, and the blocks that are those of others."""
    words, same, blocks = {}, {}, []
    for line in text.split("\n"):
        found = re.match(r" {4}([ \d,]{5})([ \d]{6})  ((?:[0-7]{12} ?)+)", line)
        copies = re.match(r" {4} *(\d+), (\d+) +the words of block (\d+); those of block (\d+)$", line)
        if copies:
            same |= {int(copies[1]): int(copies[3]), int(copies[2]): int(copies[4])}
        elif found:
            blocks = [int(block) for block in found[1].split(",")] if found[1].strip() else blocks
            for at, word in enumerate(found[3].split()):
                words |= {(block, int(found[2]) + at): int(word, 8) for block in blocks}
    return words, same


def drawing(tries):
    """Tests that the volume of 64 blocks that the page draws is the one that its commands make."""
    tries.run(["init", "V.IMG", "64"])
    tries.run(["run", "V.IMG"], "LOGIN [10,20]\nMAKDIR [10,20]\n")
    moment = ["--date", "1969-07-20", "--minute", "1337"]
    tries.run(["put", "V.IMG", "10,20", "HELLO.TXT", *moment], "HELLO, WORLD\r\n")
    image = read_image(tries.read("V.IMG"))
    drawn, same = drawn_words(PAGE.read_text(encoding="utf-8"))
    for block in range(64):
        wanted = [drawn.get((same.get(block, block), at), 0) for at in range(128)]
        tries.so("the volume that is drawn", f"block {block} has other words", image.stored(block) == wanted)


def main():
    if len(sys.argv) not in (2, 3) or not os.access(sys.argv[1], os.X_OK):
        print("usage: tests/format.py PROGRAM [COUNT]", file=sys.stderr)
        return 2
    count = int(sys.argv[2]) if len(sys.argv) > 2 else IMAGES
    with tempfile.TemporaryDirectory() as folder:
        tries = Tries(os.path.abspath(sys.argv[1]), folder)
        with concurrent.futures.ThreadPoolExecutor(WORKERS) as pool:
            list(pool.map(lambda number: one(tries, number), range(count)))
        good = count - len(tries.failed)
        drawing(tries)
        if count >= IMAGES:
            all_kinds(tries)
    print(f"format: {good} images as they should be, {len(tries.failed)} not")
    return 1 if tries.failed else 0


if __name__ == "__main__":
    sys.exit(main())
