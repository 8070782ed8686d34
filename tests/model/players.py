"""Jobs that write, supersede, update, append to, read, rename and delete the same few files of two directories.

Job 4 gives the directories quotas, and the other jobs try to. They use command lists and rings; now and then a list or
a header is invalid. What a job does next depends on a model of the file machine (machine.py) and on a seed, so it is
the same in every run.
"""

import os
import random
import subprocess

from model.machine import DSK, DUMP, RIGHT, SYSTEM, USE, Machine

EVENTS = 300
OWNER, OTHER = (0o10, 0o20), (0o11, 0o5)
JOBS = {1: OWNER, 2: OWNER, 3: (0o10, 0o30), 4: SYSTEM}


def sixbit(text):
    """Returns up to six characters as a word."""
    word = 0
    for character in text.ljust(6):
        word = word * 64 + ord(character) - 32
    return word


def word_of(halves):
    return halves[0] << 18 | halves[1]


NAMES = [sixbit(name) for name in ("A", "B", "C", "D", "E", "F")]


class Player:
    """A job, and what it does next: by its record and its own chances."""

    def __init__(self, number, machine, seed):
        self.number, self.machine = number, machine
        self.chance = random.Random(f"{seed} {number}")
        self.queue, self.words = [], 0
        self.looks = None

    def line(self):
        while not self.queue:
            if self.looks is not None:
                self.look()
            else:
                self.plan()
        return self.queue.pop(0)

    def say(self, call, *arguments):
        self.queue.append(" ".join([f"{self.number} {call}", *(f"{argument:o}" for argument in arguments)]))

    def deposit(self, address, *words):
        for place, word in enumerate(words):
            self.say("DEP", address + place, word)

    def fresh(self):
        """Returns a word that nobody else writes."""
        self.words += 1
        return self.number << 30 | self.words

    def log_in(self):
        owner = JOBS[self.number]
        self.queue.append(f"{self.number} LOGIN {owner[0]:o},{owner[1]:o} 10000")
        self.say("DEP", 0o121, 0o4000)

    def look(self):
        """Examines some of the words that an IN has moved."""
        for address in self.looks:
            self.say("EXA", address % 0o10000)
        self.looks = None

    def plan(self):
        job = self.machine.jobs.get(self.number)
        if job is None:
            return self.log_in()
        number = self.chance.randrange(2)
        channel = job.channels.get(number)
        if channel is None:
            return self.open(number)
        if self.chance.random() < (0.05 if job.ppn == OWNER else 0.15):
            acts = [self.reset, self.spoil, self.directory, self.directory, self.quota, self.quota]
            return self.chance.choice(acts)(number)
        if channel.output:
            acts = [self.out] * 3 + [self.read] * 2 * bool(channel.input) + [self.useto, self.close, self.close]
        elif channel.input:
            acts = [self.read] * 4 + [self.enter_same] * 2
            acts += [self.useti, self.rename, self.delete, self.close, self.lookup]
        else:
            acts = [self.lookup, self.enter] * 5 + [self.rings, self.rings, self.releas, self.read, self.out]
        return self.chance.choice(acts)(number)

    def open(self, number):
        mode = self.chance.choice([DUMP] * 4 + [0, 1, 0o10, 0o13, 0o14, 2])
        headers = (0o240 + 8 * number, 0o244 + 8 * number)
        self.deposit(0o200 + 4 * number, mode, DSK, word_of(headers))
        self.say("OPEN", number, 0o200 + 4 * number)

    def block(self, number, name, directory=None):
        """Deposits the four words of a name, with a protection for a new file."""
        owner = OWNER if self.number > 2 else (0, 0)
        protection = self.chance.choice([0, 0, 0o047, 0o037, 0o027, 0o017, 0o057])
        self.deposit(0o300 + 4 * number, name, 0, protection << 27, word_of(directory or owner))

    def lookup(self, number):
        self.block(number, self.chance.choice(NAMES), self.chance.choice([None, None, None, OTHER]))
        self.say("LOOKUP", number, 0o300 + 4 * number)

    def enter(self, number):
        self.block(number, self.chance.choice(NAMES), self.chance.choice([None, None, None, OTHER]))
        self.say("ENTER", number, 0o300 + 4 * number)

    def enter_same(self, number):
        (owner, name, _), _, _ = self.machine.jobs[self.number].channels[number].input
        self.block(number, name, owner)
        self.say("ENTER", number, 0o300 + 4 * number)

    def rename(self, number):
        self.block(number, self.chance.choice(NAMES), self.chance.choice([None, OTHER, OTHER]))
        self.say("RENAME", number, 0o300 + 4 * number)

    def delete(self, number):
        self.block(number, 0)
        self.say("RENAME", number, 0o300 + 4 * number)

    def list_at(self, number, address, count):
        """Returns a command list of this many words, in one piece or two."""
        at, first = 0o400 + 8 * number, self.chance.randrange(count) if count > 1 else 0
        pieces = [(address, first), (address + first, count - first)] if first else [(address, count)]
        self.deposit(at, *((1 << 18) - words << 18 | start - 1 for start, words in pieces), 0)
        return at

    def out(self, number):
        channel = self.machine.jobs[self.number].channels[number]
        if channel.mode != DUMP:
            self.fill(channel)
            return self.say("OUT", number, 0)
        count = self.chance.choice([1, 2, 5, 127, 128, 129, 300, 1000])
        for place in {0, count // 2, count - 1}:
            self.say("DEP", 0o1000 + place, self.fresh())
        self.say("OUT", number, self.list_at(number, 0o1000, count))

    def fill(self, channel):
        """Puts words into the current buffer of a ring that is in use."""
        core, header = self.machine.jobs[self.number].core, channel.out_header
        if core[header] & USE or not core[header] & RIGHT:
            return
        buffer, count = core[header] & RIGHT, self.chance.choice([0, 1, 2, 3, 3, 127, 128, 129])
        for place in range(min(count, 3)):
            self.say("DEP", (buffer + 2 + place) % 0o10000, self.fresh())
        self.say("DEP", header + 1, core[header + 1] & ~RIGHT | (buffer + 1 + count) & RIGHT)

    def read(self, number):
        channel = self.machine.jobs[self.number].channels[number]
        if channel.mode != DUMP:
            self.say("IN", number, 0)
            return self.follow(channel)
        count = self.chance.choice([1, 3, 128, 130, 300])
        self.say("IN", number, self.list_at(number, 0o2000, count))
        self.looks = [0o2000, 0o2000 + count // 2, 0o2000 + count - 1, 0o2000 + count]
        return None

    def follow(self, channel):
        """Examines the buffers of a ring, whichever an IN takes."""
        core, header = self.machine.jobs[self.number].core, channel.in_header
        buffer = core[header] & RIGHT
        following = core[buffer] & RIGHT if buffer < len(core) else 0
        self.looks = [header, header + 1, header + 2]
        self.looks += [place + step for place in (buffer, following) if place for step in (-1, 0, 1, 2, 3, 4)]

    def useti(self, number):
        self.say("USETI", number, self.chance.choice([0, 1, 1, 1, 2, 3, 9]))

    def useto(self, number):
        self.say("USETO", number, self.chance.choice([0, 1, 1, 2, 2, 3, 6]))

    def close(self, number):
        channel = self.machine.jobs[self.number].channels[number]
        if channel.output and channel.mode != DUMP:
            self.fill(channel)
        self.say("CLOSE", number, self.chance.choice([0, 0, 0, 0, 1, 2, 2, 0o40, 0o42, 0o41]))
        self.say("GETSTS", number)

    def rings(self, number):
        self.say(self.chance.choice(["INBUF", "OUTBUF"]), number, self.chance.choice([0, 1, 2, 3, 30]))

    def releas(self, number):
        self.say("RELEAS", number)

    def reset(self, _number):
        self.say("RESET")
        self.say("DEP", 0o121, 0o4000)

    def spoil(self, number):
        """Puts any word where one has a meaning."""
        place = self.chance.choice([0o240, 0o241, 0o244, 0o245, 0o121, 0o400, 0o401, 0o4001, 0o4204]) + 8 * number
        word = self.chance.choice([0, 1, USE, USE | 0o4001, 0o201 << 18 | 0o4001, self.chance.randrange(1 << 36)])
        self.say("DEP", place, word)

    def directory(self, _number):
        """Makes or removes the job's own directory, if it may; or one of job 3."""
        owner = self.chance.choice([(0o12, self.number), JOBS[3]])
        self.deposit(0o340, word_of(owner), 0)
        self.say(self.chance.choice(["MAKDIR", "REMDIR"]), 0o340)

    def quota(self, _number):
        """Gives a directory a quota, if the job may give one: often so few blocks that calls are refused because of
        it."""
        owner = self.chance.choice([OWNER, OTHER, JOBS[3]] * 4 + [(0o12, self.number)])
        quota = self.chance.choice([0, self.chance.randrange(11), self.chance.randrange(41)])
        self.deposit(0o350, word_of(owner), word_of((quota, self.chance.choice([0, 0, 0o123456]))))
        self.say("QUOTA", 0o350)
        self.say("EXA", 0o351)


def turns(order, chance):
    """Whose event comes next."""
    if order == "apart":
        return [job for job in JOBS for _ in range(EVENTS)]
    jobs = [job for _ in range(EVENTS) for job in JOBS]
    if order == "at random":
        chance.shuffle(jobs)
    return jobs


def script(seed, order, blocks, layout=1, moment=(0, 0)):
    """Returns the lines of a script, the model's answers, and the model at the end."""
    machine = Machine(blocks, layout, moment)
    lines, wanted, chance = [], [], random.Random(seed)

    def play(line):
        lines.append(line)
        wanted.append(machine.line(line))

    play("4 LOGIN 1,2 1000")
    for owner, protection in ((OWNER, 0), (OTHER, 0o777)):
        play(f"4 DEP 200 {word_of(owner):o}")
        play(f"4 DEP 201 {protection << 27:o}")
        play("4 MAKDIR 200")
        play(f"4 DEP 201 {chance.randrange(41) << 18:o}")
        play("4 QUOTA 200")
    players = {number: Player(number, machine, seed) for number in JOBS}
    players[4].log_in()
    for job in turns(order, chance):
        play(players[job].line())
    for job in JOBS:
        play(f"{job} RESET")
    return lines, wanted, machine


def run(program, folder, words, data=b""):
    """Returns what a run of the program prints, and its status."""
    done = subprocess.run([program, *words], input=data, capture_output=True, cwd=folder, check=False, timeout=60)
    return done.stdout, done.returncode


def moment_of(seed):
    """Returns the layout of a volume, and a moment that fits it."""
    layout = 1 + seed % 2
    return layout, (seed * 1733 % (4096 if layout == 1 else 32768), seed * 97 % 1440)


def dated(moment):
    """Returns the options of a run at this moment."""
    return ["--date", str(moment[0]), "--minute", str(moment[1])]


def make(program, folder, blocks, seed):
    """Makes J.IMG again in the layout of the seed. Half of the volumes of layout 2 are made in it, half are
    migrated."""
    image = os.path.join(folder, "J.IMG")
    if os.path.exists(image):
        os.remove(image)
    layout, _ = moment_of(seed)
    is_migrated = seed % 4 == 1
    run(program, folder, ["init", "J.IMG", str(blocks), "--layout", "1" if is_migrated else str(layout)])
    if is_migrated:
        run(program, folder, ["migrate", "J.IMG"])


def name_of(name):
    return "".join(chr((name >> shift & 63) + 32) for shift in range(30, -1, -6)).strip()


def words_of(image, block):
    """Returns the words of a block of an image of form 1."""
    return [int.from_bytes(image[1024 * block + at : 1024 * block + at + 8], "big") for at in range(0, 1024, 8)]


def wrong_directories(folder, machine):
    """Returns whether the master directory of J.IMG has other directories, protections or quotas than the model."""
    with open(os.path.join(folder, "J.IMG"), "rb") as file:
        image = file.read()
    block, found = words_of(image, 1)[5], {}
    while block:
        words = words_of(image, block)
        found |= {words[2 + 3 * entry]: words[3 + 3 * entry] for entry in range(words[1])}
        block = words[0]
    wanted = {word_of(ppn): protection << 27 | machine.quotas.get(ppn, 0)
              for ppn, (protection, _) in machine.directories.items()}
    return [] if found == wanted else [f"the master directory has {found} and not {wanted}"]


def wrong_files(program, folder, machine):
    """Returns the directories and files that differ at the end."""
    wrong = wrong_directories(folder, machine)
    for owner, (_, files) in machine.directories.items():
        for (name, _), file in files.items():
            who, name = f"{owner[0]:o},{owner[1]:o}", name_of(name)
            text, status = run(program, folder, ["get", "J.IMG", who, name, "--words"])
            if status != 0 or text != b"".join(word.to_bytes(8, "big") for word in file.body):
                wrong.append(f"{name} of [{who}] has {len(text) // 8} words, status {status}")
    return wrong
