"""A model of the file machine, written independently of the program.

It answers each line of a call script, and computes how many blocks are left, and what is charged to a directory. A file
is a list of words; there are no blocks, no table and no log in it. Numbers are octal where the manual's are.
"""

RIGHT = 0o777777
USE = 1 << 35
MODES = (0o0, 0o1, 0o10, 0o13, 0o14, 0o17)
DUMP = 0o17
END, FULL = 0o020000, 0o040000
ERRORS = 0o760000
DSK = 0o446353000000
SYSTEM = (1, 2)
DATA = 128
BUFFER = 0o203
MOST_WORDS = 131072


class Answer(Exception):
    """An answer that ends a call."""


def refused(code):
    raise Answer(f"REFUSED {code:o}")


def address_check():
    raise Answer("ADDRESS")


def halves(word):
    return word >> 18, word & RIGHT


def up(count, size):
    """Returns how many pieces of a size are needed."""
    return -(-count // size)


def cost(words):
    """Returns for how many blocks a version of this many words is booked."""
    blocks = up(words, DATA)
    return blocks + 1 + up(max(0, blocks - 112), 126)


def spliced(body, block, words):
    """Returns a body with these words from a block, and zeros where it had none before."""
    if not words:
        return body
    start = (block - 1) * DATA
    return (body + [0] * max(0, start - len(body)))[:start] + words + body[start + len(words):]


class File:
    """A version, which nothing changes."""

    def __init__(self, protection, mode, moment, body):
        self.protection, self.mode, self.moment, self.body = protection, mode, moment, body

    def attributes(self):
        date, minute = self.moment
        return self.protection << 27 | self.mode << 23 | minute << 12 | date & 0o7777

    def high_date(self):
        """Returns the right half of the word of the extension, in layout 2; dates of layout 1 make it 0."""
        return self.moment[0] >> 12 << 15


class Output:
    """A version that is written."""

    def __init__(self, place, kind, file, following):
        self.place, self.kind, self.file, self.body = place, kind, file, file.body
        self.next, self.kept = following, up(len(file.body), DATA)


class Channel:
    def __init__(self, mode, headers):
        self.mode, self.status = mode, mode
        self.out_header, self.in_header = headers
        self.input = None  # place, file and next block
        self.output = None

    def bytes_in_word(self):
        return 5 if self.mode < 2 else 1

    def pointer(self):
        """Returns a byte pointer with only its size."""
        return (7 if self.mode < 2 else 36) << 24

    def count(self, words):
        return words * self.bytes_in_word()


class Job:
    def __init__(self, ppn, words):
        self.ppn, self.core, self.channels = ppn, [0] * words, {}
        self.core[0o121] = 0o140

    def need(self, address, count):
        """Raises AddressCheck unless this many words are in core."""
        if address + count > len(self.core):
            address_check()

    def is_good(self, core, a):
        return 1 <= a and a + 0o201 < len(core) and core[a] >> 18 & 0o377777 == 0o201

    def good(self, core, a):
        if not self.is_good(core, a):
            address_check()

    def digit(self, protection, owner):
        if self.ppn == SYSTEM:
            return 0
        return protection >> (6 if self.ppn == owner else 3 if self.ppn[0] == owner[0] else 0) & 7


class Machine:
    """Jobs, and directories of files, on a volume of this many blocks in a layout; all calls are made at one moment."""

    def __init__(self, blocks, layout=1, moment=(0, 0)):
        tables = up(blocks, 4608)
        self.free = blocks - (5 + tables + 8 + tables)
        self.directories, self.jobs, self.moment = {}, {}, moment
        self.quotas = {}  # of directories that have one, which is more than 0
        self.blocks, self.layout = blocks, layout

    # Costs.

    def sides(self):
        return [channel for job in self.jobs.values() for channel in job.channels.values()]

    def outputs(self):
        return [channel.output for channel in self.sides() if channel.output]

    def is_claimed(self, place):
        return any(output.place == place for output in self.outputs())

    def pending(self, ppn):
        return sum(1 for output in self.outputs() if output.kind == "create" and output.place[0] == ppn)

    def growth(self, ppn):
        """Returns the additional cost of a directory for one more entry."""
        entries = len(self.directories[ppn][1]) + self.pending(ppn)
        return max(1, up(entries + 1, 42)) - max(1, up(entries, 42))

    def room(self):
        versions = {file for _, files in self.directories.values() for file in files.values()}
        versions |= {channel.input[1] for channel in self.sides() if channel.input}
        booked = max(1, up(len(self.directories), 42)) + sum(cost(len(file.body)) for file in versions)
        for ppn, (_, files) in self.directories.items():
            booked += max(1, up(len(files) + self.pending(ppn), 42))
        return self.free - booked - sum(cost(len(output.body)) for output in self.outputs())

    def charge(self, ppn):
        """Returns the blocks that count against the quota of a directory: its own, those of its files, and those of
        versions that are written in it. A version that is only read, and is no longer a file, isn't among them."""
        _, files = self.directories[ppn]
        own = max(1, up(len(files) + self.pending(ppn), 42))
        written = sum(cost(len(output.body)) for output in self.outputs() if output.place[0] == ppn)
        return own + sum(cost(len(file.body)) for file in files.values()) + written

    def is_over(self, ppn, more):
        """Returns whether this many blocks more exceed what the quota of a directory has left."""
        quota = self.quotas.get(ppn, 0)
        return quota != 0 and more > quota - self.charge(ppn)

    # Events.

    def line(self, text):
        """Returns the answer to a line of a call script."""
        fields = text.split()
        number, call = int(fields[0], 8), fields[1]
        if call == "LOGIN":
            return self.login(number, tuple(int(half, 8) for half in fields[2].split(",")), int(fields[3], 8))
        if self.moment[0] > (4095 if self.layout == 1 else 32767) and call not in ("DEP", "EXA"):
            return "DATE"
        job = self.jobs.get(number)
        if job is None:
            return "NOJOB"
        arguments = [int(field, 8) for field in fields[2:]]
        try:
            return getattr(self, call.lower())(job, *arguments) or "DONE"
        except Answer as answer:
            return str(answer)

    def login(self, number, ppn, words):
        if not 1 <= number <= 64:
            return "NOJOB"
        if not 0o1000 <= words <= 0o400000:
            return "ADDRESS"
        self.jobs[number] = Job(ppn, words)
        return "DONE"

    def dep(self, job, address, word):
        job.need(address, 1)
        job.core[address] = word

    def exa(self, job, address):
        job.need(address, 1)
        return f"VALUE {job.core[address]:012o}"

    def reset(self, job):
        job.channels = {}
        job.core[0o121] = job.core[0o121] & ~RIGHT | 0o140

    def channel(self, job, number):
        if number not in job.channels:
            raise Answer("NOCHANNEL")
        return job.channels[number]

    def stop(self, channel, bits):
        channel.status = channel.status & ~ERRORS | bits
        raise Answer(f"STOPPED {channel.status:06o}")

    def open(self, job, number, a):
        if number > 0o17:
            raise Answer("NOCHANNEL")
        job.need(a, 3)
        mode, headers = job.core[a] & 0o17, halves(job.core[a + 2])
        is_ring = mode in MODES and mode != DUMP
        for header in headers:
            if is_ring and header:
                job.need(header, 3)
        if number in job.channels:
            refused(5)
        if job.core[a + 1] != DSK or mode not in MODES:
            raise Answer(f"STOPPED {0o400000 + mode:06o}")
        channel = job.channels[number] = Channel(mode, headers)
        for header in headers:
            if is_ring and header:
                job.core[header : header + 3] = [USE, channel.pointer(), 0]

    # Rings.

    def ring(self, job, channel, header, count):
        """Returns the core with a ring set up."""
        core = list(job.core)
        base = core[0o121] & RIGHT
        if base + count * BUFFER > len(core):
            address_check()
        for k in range(count):
            a = base + k * BUFFER + 1
            following = base + (k + 1) % count * BUFFER + 1
            core[a - 1], core[a], core[a + 1] = 0, 0o201 << 18 | following, 0
        core[0o121] = job.core[0o121] & ~RIGHT | (base + count * BUFFER)
        core[header : header + 3] = [USE | base + 1, channel.pointer(), 0]
        return core

    def set_up(self, job, number, count, side):
        channel = self.channel(job, number)
        header = getattr(channel, side)
        if channel.mode == DUMP or header == 0:
            refused(5)
        job.core = self.ring(job, channel, header, count or 2)
        channel.status &= ~ERRORS

    def inbuf(self, job, number, count):
        self.set_up(job, number, count, "in_header")

    def outbuf(self, job, number, count):
        self.set_up(job, number, count, "out_header")

    def with_ring(self, job, channel, header):
        """Returns the core after a ring was set up, if it had none."""
        return list(job.core) if job.core[header] & RIGHT else self.ring(job, channel, header, 2)

    def put_pointer(self, core, channel, header, a, words):
        core[header : header + 3] = [a, channel.pointer() | a + 1, channel.count(words)]

    def ring_in(self, job, channel, words_at):
        header = channel.in_header
        old = self.with_ring(job, channel, header)
        a = target = old[header] & RIGHT
        if not old[header] & USE:
            job.good(old, a)
            target = old[a] & RIGHT
        job.good(old, target)
        words = words_at(DATA)
        core = list(old)
        if not old[header] & USE:
            core[a] = old[a] & ~USE
        core[target - 1] = channel.status & ~ERRORS
        core[target + 2 : target + 2 + len(words)] = words
        core[target + 1] = len(words)
        core[target] = old[target] | USE
        self.put_pointer(core, channel, header, target, len(words))
        return core, len(words)

    def last_buffer(self, job, core, channel):
        """Returns the current buffer, and the words that were put into it."""
        header = channel.out_header
        a = core[header] & RIGHT
        job.good(core, a)
        count = (core[header + 1] & RIGHT) - (a + 1)
        if not 0 <= count <= DATA:
            address_check()
        return a, core[a + 2 : a + 2 + count]

    def ring_out(self, job, channel):
        header = channel.out_header
        old = self.with_ring(job, channel, header)
        a = old[header] & RIGHT
        if old[header] & USE:
            job.good(old, a)
            core, target, words = list(old), a, []
        else:
            job.good(old, a)
            target = old[a] & RIGHT
            job.good(old, target)
            _, words = self.last_buffer(job, old, channel)
            self.put(channel, words)
            core = list(old)
            core[a + 1] = len(words)
            core[a] = old[a] & ~USE
        core[target + 2 : target + 2 + DATA] = [0] * DATA
        core[target + 1] = 0
        self.put_pointer(core, channel, header, target, DATA)
        return core

    # Files.

    def place(self, job, e):
        core = job.core
        return (halves(core[e + 3]) if core[e + 3] else job.ppn), core[e], core[e + 1] >> 18

    def coded(self, job, e, act):
        """Serves the request, and leaves the code of a refusal with the extension."""
        try:
            act()
        except Answer as answer:
            if str(answer).startswith("REFUSED"):
                code = int(str(answer).split()[1], 8)
                job.core[e + 1] = job.core[e + 1] & ~RIGHT | code
            raise

    def found(self, job, place):
        """Returns the file at a place that a job may look up, or none; by the directory's protection."""
        ppn, name, extension = place
        protection, files = self.directories.get(ppn) or refused(1)
        if not job.digit(protection, ppn) & 4 and job.ppn != SYSTEM:
            refused(2)
        return files.get((name, extension)) if name else None

    def lookup(self, job, number, e):
        channel = self.channel(job, number)
        job.need(e, 4)
        self.coded(job, e, lambda: self.look_up(job, channel, e))

    def look_up(self, job, channel, e):
        if channel.output:
            refused(5)
        place = self.place(job, e)
        file = self.found(job, place)
        if file is None:
            refused(0)
        if job.digit(file.protection, place[0]) > 5:
            refused(2)
        words = len(file.body)
        count = (1 << 18) - words if 0 < words <= MOST_WORDS else up(words, DATA)
        channel.input = (place, file, 1)
        channel.status &= ~ERRORS
        job.core[e + 1] = job.core[e + 1] & ~RIGHT | file.high_date()
        job.core[e + 2 : e + 4] = [file.attributes(), count << 18]

    def enter(self, job, number, e):
        channel = self.channel(job, number)
        job.need(e, 4)
        self.coded(job, e, lambda: self.begin(job, channel, e))

    def begin(self, job, channel, e):
        place = self.place(job, e)
        ppn, name, extension = place
        if channel.output or channel.input and channel.input[0] != place:
            refused(5)
        protection, files = self.directories.get(ppn) or refused(1)
        if name == 0:
            refused(0)
        acts = 7 if job.ppn == SYSTEM else job.digit(protection, ppn)
        file = files.get((name, extension))
        digit = job.digit(file.protection, ppn) if file else 0
        if channel.input:
            kind, bit, most, price = "update", 4, 4, cost(len(file.body)) if file else 0
        elif file:
            kind, bit, most, price = "supersede", 4, 2, 1
        else:
            kind, bit, most, price = "create", 2, 7, 1 + self.growth(ppn)
        if channel.input and not file:
            refused(0)
        if not acts & bit or digit > most:
            refused(2)
        if self.is_claimed(place):
            refused(3)
        if price > self.room() or self.is_over(ppn, price):
            refused(0o14)
        self.begin_as(job, channel, e, place, kind, file, digit)

    def begin_as(self, job, channel, e, place, kind, file, digit):
        if kind == "update":
            kind = "append" if digit == 4 else kind
            channel.input = (place, file, channel.input[2])
            following = up(len(file.body), DATA) + 1 if kind == "append" else 1
            channel.output = Output(place, kind, file, following)
        else:
            protection = file.protection if file else job.core[e + 2] >> 27 or 0o057
            channel.output = Output(place, kind, File(protection, channel.mode, self.moment, []), 1)
        channel.status &= ~ERRORS
        job.core[e + 1] = job.core[e + 1] & ~RIGHT | channel.output.file.high_date()
        job.core[e + 2] = channel.output.file.attributes()

    def rename(self, job, number, e):
        channel = self.channel(job, number)
        job.need(e, 4)
        self.coded(job, e, lambda: self.move(job, channel, e))

    def move(self, job, channel, e):
        if not channel.input or channel.output:
            refused(5)
        old, new = channel.input[0], self.place(job, e)
        file = self.found(job, old)
        if file is None:
            refused(0)
        digit = job.digit(file.protection, old[0])
        protection = job.core[e + 2] >> 27
        if digit > (0 if job.core[e] and protection != file.protection else 1):
            refused(2)
        if self.is_claimed(old):
            refused(3)
        if job.core[e]:
            self.check_new_place(job, old, new, cost(len(file.body)))
        del self.directories[old[0]][1][old[1:]]
        if job.core[e]:
            moved = File(protection, file.mode, file.moment, file.body)
            self.directories[new[0]][1][new[1:]] = moved
            self.follow(file, moved)
        channel.input = None
        channel.status &= ~ERRORS

    def follow(self, file, moved):
        """Renames the versions that are read with their file: it is one version with them, and costs once."""
        for channel in self.sides():
            if channel.input and channel.input[1] is file:
                channel.input = (channel.input[0], moved, channel.input[2])

    def check_new_place(self, job, old, new, price):
        protection, files = self.directories.get(new[0]) or refused(1)
        if new[0] != old[0] and not job.digit(protection, new[0]) & 2 and job.ppn != SYSTEM:
            refused(2)
        if new != old:
            if new[1:] in files:
                refused(4)
            if self.is_claimed(new):
                refused(3)
        if new[0] != old[0]:
            growth = self.growth(new[0])
            if growth and self.room() <= 0 or self.is_over(new[0], price + growth):
                refused(0o14)

    # Words.

    def command_list(self, job, address):
        """Returns the addresses that a command list names."""
        named = []
        for _ in range(512):
            job.need(address, 1)
            left, right = halves(job.core[address])
            if left:
                count = (1 << 18) - left
                job.need(right + 1, count)
                if len(named) + count > MOST_WORDS:
                    address_check()
                named += range(right + 1, right + 1 + count)
                address += 1
            elif right:
                address = right
            else:
                return named
        return address_check()

    def words_at(self, channel, most):
        """Returns up to this many words of the body at the next block, or the end."""
        _, file, block = channel.input
        body = channel.output.body if channel.output else file.body
        start = (block - 1) * DATA
        if start >= len(body):
            self.stop(channel, END)
        return body[start : start + most]

    def go_on(self, channel, words):
        place, file, block = channel.input
        channel.input = (place, file, block + up(words, DATA))
        channel.status &= ~ERRORS

    def __getattr__(self, name):
        if name == "in":
            return self.read
        raise AttributeError(name)

    def read(self, job, number, a):
        channel = self.channel(job, number)
        is_ring = channel.mode != DUMP
        if not channel.input or is_ring and channel.in_header == 0:
            refused(5)
        if is_ring:
            job.core, moved = self.ring_in(job, channel, lambda most: self.words_at(channel, most))
        else:
            named = self.command_list(job, a)
            words = self.words_at(channel, len(named)) if named else []
            for address, word in zip(named, words):
                job.core[address] = word
            moved = len(words)
        self.go_on(channel, moved)

    def put(self, channel, words):
        """Puts words at the next block of a version that is written."""
        output = channel.output
        body = spliced(output.body, output.next, words)
        rise = cost(len(body)) - cost(len(output.body))
        is_kept = output.kind == "append" and output.next <= output.kept
        is_over = rise > self.room() or rise > 0 and self.is_over(output.place[0], rise)
        if words and (up(len(body), DATA) > 16384 or is_over or is_kept):
            self.stop(channel, FULL)
        output.body = body
        output.next += up(len(words), DATA)

    def out(self, job, number, a):
        channel = self.channel(job, number)
        is_ring = channel.mode != DUMP
        if not channel.output or is_ring and channel.out_header == 0:
            refused(5)
        if is_ring:
            job.core = self.ring_out(job, channel)
        else:
            self.put(channel, [job.core[address] for address in self.command_list(job, a)])
        channel.status &= ~ERRORS

    def may_go_to(self, channel, side, block):
        """Checks what USETI and USETO require of a side and of the number of its next block."""
        if not side:
            refused(5)
        if block == 0:
            self.stop(channel, FULL)
        channel.status &= ~ERRORS

    def useti(self, job, number, block):
        channel = self.channel(job, number)
        self.may_go_to(channel, channel.input, block)
        channel.input = (*channel.input[:2], block)

    def useto(self, job, number, block):
        channel = self.channel(job, number)
        self.may_go_to(channel, channel.output, block)
        channel.output.next = block

    def getsts(self, job, number):
        return f"VALUE {self.channel(job, number).status:012o}"

    # Ends.

    def close(self, job, number, bits):
        channel = self.channel(job, number)
        closes_output = channel.output is not None and not bits & 1
        if closes_output and not bits & 0o40:
            self.publish(job, channel)
        closes_input = channel.input is not None and not bits & 2
        core = list(job.core)
        for closes, header in ((closes_output, channel.out_header), (closes_input, channel.in_header)):
            if closes and header and channel.mode != DUMP and not bits & 0o40:
                core[header], core[header + 2] = job.core[header] | USE, 0
        job.core = core
        if closes_output:
            channel.output = None
        if closes_input:
            channel.input = None
        channel.status &= ~ERRORS

    def publish(self, job, channel):
        header, output = channel.out_header, channel.output
        if channel.mode != DUMP and header and not job.core[header] & USE and job.core[header] & RIGHT:
            self.put(channel, self.last_buffer(job, job.core, channel)[1])
        old = output.file
        file = File(old.protection, old.mode, old.moment, output.body)
        ppn, name, extension = output.place
        self.directories[ppn][1][name, extension] = file
        if channel.input:
            channel.input = (channel.input[0], file, channel.input[2])

    def releas(self, job, number):
        self.close(job, number, 0)
        del job.channels[number]

    # Directories.

    def makdir(self, job, e):
        job.need(e, 2)
        self.coded(job, e, lambda: self.make_directory(job, halves(job.core[e]), job.core[e + 1] >> 27 or 0o775))

    def make_directory(self, job, ppn, protection):
        if 0 in ppn:
            refused(1)
        if job.ppn not in (SYSTEM, ppn):
            refused(2)
        if ppn in self.directories:
            refused(4)
        count = len(self.directories)
        if 1 + max(1, up(count + 1, 42)) - max(1, up(count, 42)) > self.room():
            refused(0o14)
        self.directories[ppn] = (protection, {})

    def remdir(self, job, e):
        job.need(e, 2)
        self.coded(job, e, lambda: self.remove_directory(job, halves(job.core[e])))

    def remove_directory(self, job, ppn):
        if ppn not in self.directories:
            refused(1)
        if job.ppn not in (SYSTEM, ppn):
            refused(2)
        if ppn in self.quotas and job.ppn != SYSTEM:
            refused(2)
        if self.directories[ppn][1] or self.pending(ppn):
            refused(0o22)
        del self.directories[ppn]
        self.quotas.pop(ppn, None)

    def quota(self, job, e):
        job.need(e, 2)
        self.coded(job, e, lambda: self.set_quota(job, halves(job.core[e]), halves(job.core[e + 1])[0]))

    def set_quota(self, job, ppn, quota):
        if self.layout == 1:
            refused(5)
        if ppn not in self.directories:
            refused(1)
        if job.ppn != SYSTEM:
            refused(2)
        self.quotas[ppn] = quota
        if quota == 0:
            del self.quotas[ppn]
