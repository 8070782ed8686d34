#!/usr/bin/env python3
"""Tests `filser wire`, and its clients in Python and C against each other and against `filser calls`.

usage: tests/clients.py PROGRAM

- Records that aren't orders: each part of each kind of record set to what it mustn't be; inputs that end early.
- What starts and ends a run, its exit status, and what the clients report of a run that doesn't start or dies.
- Rows of UUOs and of calls, each with what the reference gives for it, in both clients.
- Scripts of four jobs, in both layouts and forms: the replies of both clients are those of `filser calls` and of the
  model (model/machine.py); after each call the whole core is the model's, and what the answer returned is all that
  changed; at the end the images of all three have the same bytes.

Without a C compiler the client in C isn't tested, and a line says so. Prints a line for each failed check, and one line
at the end.
"""

import os
import resource
import shutil
import signal
import struct
import subprocess
import sys
import tempfile

from clients_player import Player, text_of
from clients_rows import CALL_ROWS, FULL_DISK_ROWS, UUO_ROWS, lines_of
from model.players import moment_of, script
from model.machine import Machine

HERE = os.path.dirname(os.path.abspath(__file__))
CLIENTS = os.path.join(HERE, "..", "clients")
sys.path.insert(0, os.path.join(CLIENTS, "python"))

from filser import Code, Error, Kind, Service, ServiceError, halves, sixbit

LIMIT = 120
WRONG = bytes(16)
DONE = bytes([1]) + bytes(15)
FLAGS = ["-std=c99", "-Wall", "-Wextra", "-Werror", "-pedantic"]
SCRIPTS = [(0, "at random", 1), (1, "in turn", 1), (2, "at random", 2), (5, "apart", 2)]


def record(kind, code=0, job=0, channel=0, number=0, detail=0, count=0, words=()):
    """Returns the bytes of a record, and of what follows it."""
    return struct.pack(f">BBBBIII{len(words)}Q", kind, code, job, channel, number, detail, count, *words)


def answer(kind, value=0, groups=()):
    """Returns the bytes of an answer."""
    return struct.pack(f">BBBBQI{len(groups)}Q", kind, 0, 0, 0, value, len(groups), *groups)


LOGIN = record(1, job=1, number=0o1000, count=1, words=[halves(0o10, 0o20)])
ROOM = record(5)


class Tries:
    """Runs of the program, each in its own folder, and the players of both clients."""

    def __init__(self, program, folder):
        self.program, self.folder = program, folder
        self.count = self.failed = self.lines = 0
        self.others = {}  # other ways to use a client
        self.players = {"python": [sys.executable, os.path.join(HERE, "clients_player.py")]}

    def compile(self, flags=()):
        """Compiles the player in C, and the use that the head comment of filser.h shows."""
        if not shutil.which("cc"):
            print("clients: there is no C compiler, so the client in C isn't tested")
            return
        client = os.path.join(CLIENTS, "c")
        player, use = os.path.join(self.folder, "player"), os.path.join(self.folder, "use.c")
        with open(os.path.join(client, "filser.h"), encoding="ascii") as header:
            shown = header.read().split("*/")[0].split("\n")
        with open(use, "w", encoding="ascii") as file:
            file.write("\n".join(line[6:] for line in shown if line.startswith("      ")) + "\n")
        sources = [os.path.join(client, "filser.c"), "-I", client]
        compiler = ["cc", *FLAGS, *flags, "-o"]
        subprocess.run([*compiler, player, os.path.join(HERE, "clients_player.c"), *sources], check=True)
        subprocess.run([*compiler, os.path.join(self.folder, "use"), use, *sources], check=True)
        self.players["c"] = [player]
        self.others["c with functions"] = [player]

    def same(self, what, found, wanted):
        """Counts a check, and reports what is wrong."""
        self.count += 1
        if found != wanted:
            self.failed += 1
            print(f"{what}: {found!r} and not {wanted!r}")

    def image(self, name, blocks=64, layout=1, form=1):
        """Makes an image again, and returns its path."""
        path = os.path.join(self.folder, name)
        if os.path.exists(path):
            os.remove(path)
        words = ["init", path, str(blocks), "--layout", str(layout), "--form", str(form)]
        subprocess.run([self.program, *words], check=True, timeout=LIMIT)
        return path

    def wire(self, image, data, words=(), **how):
        """Returns what `filser wire` writes for these bytes, and its status."""
        done = subprocess.run([self.program, "wire", image, *words], input=data, capture_output=True, check=False,
                              timeout=LIMIT, **how)
        return done.stdout, done.returncode

    def play(self, client, image, lines, form=1, program=None, timeout=0, folder=None):
        """Returns what the player of a client answers to lines."""
        words = [*(self.players.get(client) or self.others[client]), program or self.program, image, str(form),
                 str(timeout), *(["functions"] if client in self.others else [])]
        done = subprocess.run(words, input="\n".join([*lines, ""]), capture_output=True, text=True, check=False,
                              timeout=LIMIT, cwd=folder)
        return done.stdout.split("\n")[:-1]

    def play_rows(self, name, rows, layout=1):
        """Plays rows by each client on its own image, and compares each answer; and then the images."""
        images = []
        for client in [*self.players, *self.others]:
            image = self.image(f"{client}.IMG", layout=layout)
            found = self.play(client, image, [line for line, _ in rows])
            wanted = [(line, reply) for line, reply in rows if reply]
            for place, (line, reply) in enumerate(wanted):
                self.same(f"{name}, {client}, {line}", found[place] if place < len(found) else "nothing", reply)
            with open(image, "rb") as file:
                images.append(file.read())
        self.same(f"{name}: images", [image == images[0] for image in images], [True] * len(images))


def spoiled():
    """Yields records that aren't orders, each with what is wrong with it."""
    word = [1]
    for field in ("code", "channel", "detail"):
        yield f"LOGIN {field}", record(1, job=1, number=0o1000, count=1, words=[halves(1, 2)], **{field: 1})
    for number in (0, halves(0, 1), halves(1, 0), 1 << 36 | halves(1, 2), 1 << 63 | halves(1, 2)):
        yield f"LOGIN of {number:o}", record(1, job=1, number=0o1000, count=1, words=[number])
    yield "LOGIN of nobody", record(1, job=1, number=0o1000)
    yield "LOGIN of two", record(1, job=1, number=0o1000, count=2, words=[halves(1, 2)] * 2)
    for field in ("code", "channel", "detail"):
        yield f"DEPOSIT {field}", record(2, job=1, number=0o200, count=1, words=word, **{field: 1})
    for first, words in ((0o777777, [1, 1]), (0o1000000, [1]), (0o1000001, []), (0xFFFFFFFF, [1])):
        yield f"DEPOSIT at {first:o}", record(2, job=1, number=first, count=len(words), words=words)
    for words in ([1 << 36], [1, 1 << 63], [1, (1 << 36) + 1, 1]):
        yield f"DEPOSIT of {words}", record(2, job=1, number=0o200, count=len(words), words=words)
    for field in ("code", "channel"):
        yield f"EXAMINE {field}", record(3, job=1, number=0o200, detail=1, **{field: 1})
    yield "EXAMINE with a word", record(3, job=1, number=0o200, detail=1, count=1, words=word)
    for first, number in ((0o777777, 2), (0o1000000, 1), (0o1000001, 0), (1, 0o1000000), (0xFFFFFFFF, 0xFFFFFFFF)):
        yield f"EXAMINE of {number:o} at {first:o}", record(3, job=1, number=first, detail=number)
    for code in sorted(set(range(256)) - {int(code) for code in Code}):
        yield f"CALL {code:o}", record(4, code=code, job=1)
    for code in (Code.GETSTS, Code.RELEAS, Code.RESET):
        yield f"{code.name} number", record(4, code=code, job=1, number=1)
    for code in (Code.RESET, Code.MAKDIR, Code.REMDIR, Code.QUOTA):
        yield f"{code.name} channel", record(4, code=code, job=1, channel=1)
    for detail in (32768 << 16, 1440, 0xFFFFFFFF):
        yield f"CALL at {detail:x}", record(4, code=Code.RESET, job=1, detail=detail)
    for code in Code:
        yield f"{code.name} with a word", record(4, code=code, job=1, count=1, words=word)
    for field in ("code", "job", "channel", "number", "detail"):
        yield f"ROOM {field}", record(5, **{field: 1})
    yield "ROOM with a word", record(5, count=1, words=word)
    for kind in (0, 6, 7, 128, 255):
        yield f"kind {kind}", record(kind)


def wrong_records(tries):
    """Tests that a record that isn't an order is answered WRONG, changes nothing, and that the next one is answered."""
    image = tries.image("W.IMG")
    fresh = [place << 36 | (0o140 if place == 0o121 else 0) for place in range(0o1000)]
    for name, data in spoiled():
        examine = record(3, job=1, detail=0o1000)
        found = tries.wire(image, LOGIN + data + examine + ROOM)
        tries.same(name, found, (DONE + WRONG + answer(1, groups=fresh) + answer(12, 48), 1))
    # What is next to them is an order.
    sound = [(record(2, job=1, number=0o777777, count=1, words=[1]), answer(6)),
             (record(2, job=1, number=0o1000000), DONE), (record(3, job=1, number=0o1000000), DONE),
             (record(2, job=1, number=0o777, count=1, words=[(1 << 36) - 1]), DONE),
             (record(3, job=1, number=0o776, detail=3), answer(6, groups=[0o776 << 36, (0o1000 << 36) - 1])),
             (record(4, code=Code.RESET, job=1, detail=4095 << 16 | 1439), answer(1, groups=[0o121 << 36 | 0o140])),
             (record(4, code=Code.RESET, job=1, detail=32767 << 16), answer(11, groups=[0o121 << 36 | 0o140])),
             (record(4, code=Code.GETSTS, job=1, channel=255), answer(5)),
             (record(4, code=Code.RESET, job=2), answer(7)),
             (record(4, code=Code.RESET, job=255), answer(7)), (record(3, job=0, number=0, detail=1), answer(7))]
    data = LOGIN + b"".join(order for order, _ in sound)
    tries.same("sound orders", tries.wire(image, data), (DONE + b"".join(reply for _, reply in sound), 0))


def early_ends(tries):
    """Tests an input that ends inside a record, at each byte; and a record that announces more words than possible."""
    image = tries.image("E.IMG")
    for size in range(1, len(LOGIN)):
        found = tries.wire(image, ROOM + LOGIN[:size])
        tries.same(f"{size} bytes of a LOGIN", found, (answer(12, 48) + WRONG, 1))
    for kind in range(7):
        found = tries.wire(image, ROOM + record(kind, count=(1 << 18) + 1) + ROOM)
        tries.same(f"kind {kind} with too many words", found, (answer(12, 48) + WRONG, 1))
        found = tries.wire(image, ROOM + record(kind, count=0xFFFFFFFF) + bytes(100000))
        tries.same(f"kind {kind} with the most words", found, (answer(12, 48) + WRONG, 1))
    most = record(2, job=1, count=1 << 18) + bytes(8 << 18)
    tries.same("a whole core", tries.wire(image, LOGIN + most + ROOM), (DONE + answer(6) + answer(12, 48), 0))
    tries.same("a whole core, less a byte", tries.wire(image, LOGIN + most[:-1]), (DONE + WRONG, 1))


def without_writes():
    """Makes writes to a file fail in this process, without ending it."""
    signal.signal(signal.SIGXFSZ, signal.SIG_IGN)
    resource.setrlimit(resource.RLIMIT_FSIZE, (0, 0))


def statuses(tries):
    """Tests the exit statuses, and what the clients report of a program that doesn't start."""
    image = tries.image("S.IMG")
    tries.same("no input", tries.wire(image, b""), (b"", 0))
    refused = LOGIN + record(4, code=Code.LOOKUP, job=1, number=0o300) + record(4, code=Code.REMDIR, job=1)
    tries.same("refusals", tries.wire(image, refused)[1], 0)
    tries.same("a third form", tries.wire(image, b"", ["--form", "3"]), (b"", 2))
    tries.same("a date", tries.wire(image, b"", ["--date", "1"]), (b"", 2))
    tries.same("another form", tries.wire(image, ROOM, ["--form", "2"]), (b"?Not a volume\n", 3))
    made = LOGIN + record(2, job=1, number=0o200, count=1, words=[halves(0o10, 0o20)])
    made += record(4, code=Code.MAKDIR, job=1, number=0o200)
    found = tries.wire(image, made + LOGIN, preexec_fn=without_writes)
    # After DEVICE there is no longer a core to send.
    tries.same("a disk that can't be written", found, (DONE + DONE + answer(9) + answer(10), 4))
    missing, hyphen = os.path.join(tries.folder, "MISSING.IMG"), tries.image("-x.img")
    for client in tries.players:
        tries.same(f"another form, {client}", tries.play(client, image, [], 2), ["ERROR IMAGE_REFUSED 3 ?Not a volume"])
        tries.same(f"no image, {client}", tries.play(client, missing, []), ["ERROR IMAGE_REFUSED 4 ?Device fault"])
        found = tries.play(client, image, [], program=os.path.join(tries.folder, "missing"))
        tries.same(f"no program, {client}", found[0].split()[:2], ["ERROR", "NOT_FOUND"])
        found = tries.play(client, "-x.img", ["ROOM"], folder=os.path.dirname(hyphen))
        tries.same(f"an image with a hyphen, {client}", found, ["ROOM 48"])
        with Service(tries.program, image):
            found = tries.play(client, image, [])
        tries.same(f"an image that is served, {client}", found, ["ERROR IN_USE 4 ?Device fault"])
        found = tries.play(client, image, ["ROOM", "STOP", "ROOM", "1 LOGIN 10,20 1000"])
        tries.same(f"stop, {client}", found, ["ROOM 48", "STATUS 0", "ERROR ENDED", "ERROR ENDED"])


def error_of(function, *arguments, **named):
    """Returns the error that a function of the client raises."""
    try:
        function(*arguments, **named)
    except ServiceError as error:
        return error.error
    return None


def refusals_of_clients(tries):
    """Tests what a client refuses before it sends anything, and what it reports of a program that was killed."""
    image = tries.image("R.IMG")
    with Service(tries.program, image) as service:
        service.login(1, 0o10, 0o20, 0o1000)
        registers, memory = [0] * 16, [0] * 0o1000
        bad = [(service.login, 256, 1, 2, 0o1000), (service.login, 1, 0, 2, 0o1000), (service.login, 1, 1, 1 << 18, 3),
               (service.deposit, 1, 0o777777, [1, 2]), (service.deposit, 1, -1, [1]), (service.examine, 1, 1, 1 << 18),
               (service.call, 1, 4, 0, 0), (service.call, 1, Code.GETSTS, 1, 1), (service.call, 1, Code.MAKDIR, 1, 1),
               (service.call, 1, Code.IN, 256, 0), (service.call, 1, Code.IN, 0, 1 << 32),
               (service.call, 1, Code.IN, 0, 0, 32768, 0), (service.call, 1, Code.IN, 0, 0, 0, 1440),
               (service.uuo, 1, Code.IN << 27, 1 << 18, registers, memory)]
        for function, *arguments in bad:
            tries.same(f"{function.__name__}{arguments[:6]}", error_of(function, *arguments), Error.BAD_ARGUMENT)
        tries.same("a word", error_of(service.deposit, 1, 0, [1 << 36]), Error.BAD_WORD)
        tries.same("a job", error_of(service.uuo, 2, Code.IN << 27, 0, registers, memory), Error.NOT_LOGGED_IN)
        tries.same("memory", error_of(service.uuo, 1, Code.IN << 27, 0, registers, memory[1:]), Error.SHORT_MEMORY)
        service.add_room()
        tries.same("unsent", error_of(service.room), Error.NOT_SENT)
        tries.same("sent", [reply.kind for reply in service.send()], [Kind.ROOM])
        service._process.kill()
        tries.same("killed", error_of(service.room), Error.ENDED)
        tries.same("killed before", error_of(service.room), Error.ENDED)
        tries.same("status of the killed", service.stop(), -signal.SIGKILL)
    with Service(tries.program, image) as service:
        tries.same("started again", service.room(), 48)
    for client in tries.players:
        rows = ["1 LOGIN 10,20 1000", "1 DEP 1000000 0", "1 DEP 0 1000000000000", "1 EXA 1000000", "1 GETSTS 1 1",
                "1 INBUF 400 0", "401 LOGIN 10,20 1000", "AT 32768 0", "1 RESET", "AT 0 1440", "1 RESET", "ROOM"]
        wanted = ["DONE", "ERROR BAD_ARGUMENT", "ERROR BAD_WORD"] + ["ERROR BAD_ARGUMENT"] * 6 + ["ROOM 48"]
        tries.same(f"bad arguments, {client}", tries.play(client, image, rows), wanted)


# Programs that aren't filser: what they do, as shell commands, and what a client reports of it.
IMPOSTORS = [
    ("order; answer; order; exit 5", ["ERROR ENDED", "ERROR ENDED", "STATUS 5"]),
    ("order; answer; order; kill -9 $$", ["ERROR ENDED", "ERROR ENDED", "STATUS -9"]),
    ("order; answer; order; printf '\\014'; exit 0", ["ERROR ENDED", "ERROR ENDED", "STATUS 0"]),
    ("order; exec <&-; answer; sleep 1; exit 6", ["ERROR ENDED", "ERROR ENDED", "STATUS 6"]),
    ("order; answer; order; echo '?This is no answer'", ["ERROR PROTOCOL", "ERROR ENDED", "STATUS 0"]),
    ("echo '?No answer'; exit 3", ["ERROR IMAGE_REFUSED 3 ?No answer"]),
    ("echo 'No answer'; exit 3", ["ERROR NOT_STARTED 3 No answer"]),
    ("exit 7", ["ERROR NOT_STARTED 7 "]),
]
IMPOSTOR = """#!/bin/sh
order() { dd bs=16 count=1 of=/dev/null 2>/dev/null; }
answer() { printf '\\014%15s' '' | tr ' ' '\\000'; }
"""


def impostors(tries):
    """Tests what the clients report of a program that ends, or that writes something other than answers."""
    program = os.path.join(tries.folder, "impostor")
    for does, wanted in IMPOSTORS:
        with open(program, "w", encoding="ascii") as file:
            file.write(f"{IMPOSTOR}{does}\n")
        os.chmod(program, 0o755)
        for client in tries.players:
            found = tries.play(client, "NONE.IMG", ["ROOM", "ROOM", "STOP"], program=program)
            tries.same(f"{does}, {client}", found[: len(wanted)], wanted)


def large_batches(tries):
    """Tests more orders and answers at once than both pipes can have."""
    deposits = [f"1 DEP {place % 0o1000:o} {place:o}" for place in range(20000)]
    examines = [f"1 EXA {place % 0o1000:o}" for place in range(20000)]
    image = tries.image("L.IMG")
    last = {place % 0o1000: place for place in range(20000)}
    wanted = ["DONE"] * 20001 + [f"VALUE {last[place % 0o1000]:012o}" for place in range(20000)] + ["ROOM 48"]
    for client in tries.players:
        lines = ["1 LOGIN 10,20 1000", "BATCH 40001", *deposits, *examines, "ROOM"]
        tries.same(f"a large batch, {client}", tries.play(client, image, lines) == wanted, True)
    with Service(tries.program, image) as service:
        service.login(1, 0o10, 0o20, 0o400000)
        words = list(range(0o400000))
        service.add_deposit(1, 0, words)
        for _ in range(3):
            service.add_examine(1, 0, 0o400000)
        tries.same("a large core", [reply.words == words for reply in service.send()[1:]], [True] * 3)


def told_areas(tries):
    """Tests the words that the answer to each call returns."""
    with Service(tries.program, tries.image("T.IMG", layout=2)) as service:
        service.login(1, 1, 2, 0o4000)
        service.deposit(1, 0o121, [0o2000])
        service.deposit(1, 0o200, [halves(0o10, 0o20), 0])
        for place, mode in ((0o210, 0), (0o213, 0o17)):
            service.deposit(1, place, [mode, sixbit("DSK"), halves(0o1000, 0o1010)])
        service.deposit(1, 0o300, [sixbit("FOO"), 0, 0, halves(0o10, 0o20)])
        service.deposit(1, 0o400, [halves(0o777775, 0o477), 0o410])
        service.deposit(1, 0o410, [halves(0o777776, 0o577), 0])
        headers, input_header = {0o1000, 0o1001, 0o1002}, {0o1010, 0o1011, 0o1012}
        first, second, third = (set(range(base, base + 0o203)) for base in (0o2000, 0o2203, 0o2406))
        rows = [(Code.QUOTA, 0, 0o200, {0o201}), (Code.MAKDIR, 0, 0o200, {0o201}), (Code.REMDIR, 0, 0o200, {0o201}),
                (Code.MAKDIR, 0, 0o200, {0o201}), (Code.OPEN, 1, 0o210, headers | input_header),
                (Code.ENTER, 1, 0o300, {0o301, 0o302}), (Code.OUT, 1, 0, headers | {0o121} | first | second),
                (Code.OUT, 1, 0, headers | second | {0o2001, 0o2002}), (Code.USETO, 1, 1, set()),
                (Code.GETSTS, 1, 0, set()), (Code.CLOSE, 1, 0o40, set()), (Code.ENTER, 1, 0o300, {0o301, 0o302}),
                (Code.CLOSE, 1, 0, headers), (Code.RENAME, 1, 0o300, {0o301}),
                (Code.LOOKUP, 1, 0o300, {0o301, 0o302, 0o303}),
                (Code.INBUF, 1, 1, input_header | {0o121} | third), (Code.IN, 1, 0, input_header | third),
                (Code.USETI, 1, 1, set()), (Code.RELEAS, 1, 0, input_header), (Code.OPEN, 2, 0o213, set()),
                (Code.OUT, 2, 0o400, set()), (Code.LOOKUP, 3, 0o300, set()), (Code.RESET, 0, 0, {0o121})]
        for code, channel, number, wanted in rows:
            told = {address for address, _ in service.call(1, code, channel, number).changes}
            # All that an IN or OUT may change is returned, and of the ring nothing in its areas is omitted.
            tries.same(f"{code.name} tells", sorted(f"{place:o}" for place in told ^ wanted), [])


def scripts(tries):
    """Tests scripts of four jobs: both clients, `filser calls`, and the model."""
    for seed, order, form in SCRIPTS:
        blocks, (layout, moment) = [64, 96, 160][seed % 3], moment_of(seed)
        lines, wanted, _ = script(seed, order, blocks, layout, moment)
        changed = with_changes(lines, wanted, Machine(blocks, layout, moment))
        name = f"script {seed}, {order}, form {form}"
        image = tries.image("CALLS.IMG", blocks, layout, form)
        words = ["calls", image, "--date", str(moment[0]), "--minute", str(moment[1]), "--form", str(form)]
        done = subprocess.run([tries.program, *words], input="\n".join([*lines, ""]), capture_output=True, text=True,
                              check=False, timeout=LIMIT)
        tries.same(f"{name}, calls", done.stdout.split("\n")[:-1] == wanted, True)
        with open(image, "rb") as file:
            bytes_of_calls = file.read()
        for client in tries.players:
            image = tries.image("SCRIPT.IMG", blocks, layout, form)
            found = tries.play(client, image, [f"AT {moment[0]} {moment[1]}", *lines], form)
            tries.lines += len(lines)
            for place, (line, reply) in enumerate(zip(lines, changed)):
                got = found[place] if place < len(found) else "nothing"
                tries.same(f"{name}, {client}, line {place + 1}, {line}", got, reply)
            with open(image, "rb") as file:
                tries.same(f"{name}, {client}, the image", file.read() == bytes_of_calls, True)


def with_changes(lines, wanted, machine):
    """Returns the replies to lines, each with the words of the job's core that the call changes by the model."""
    replies = []
    for line, reply in zip(lines, wanted):
        job, name = int(line.split()[0], 8), line.split()[1]
        before = list(machine.jobs[job].core) if job in machine.jobs else None
        machine.line(line)
        if before is not None and name not in ("LOGIN", "DEP", "EXA"):
            after = machine.jobs[job].core
            changes = (f"{place:o}={new:012o}" for place, (old, new) in enumerate(zip(before, after)) if old != new)
            reply = " ".join([reply, *changes])
        replies.append(reply)
    return replies


def rows(tries):
    """Tests rows of UUOs and of calls."""
    tries.play_rows("UUOs", lines_of(UUO_ROWS))
    tries.play_rows("a full disk", lines_of(FULL_DISK_ROWS))
    tries.play_rows("calls", lines_of(CALL_ROWS), layout=2)


class Recorder(Service):
    """A service that records its orders as lines of a call script, each with its answer."""

    def _begin(self):
        self.data, self.kept = [data for data, _ in self._orders], getattr(self, "kept", [])
        return super()._begin()

    def _take_answers(self, exchange):
        answers = super()._take_answers(exchange)
        for data, reply in zip(self.data, answers):
            kind, code, job, channel, number, detail, count = struct.unpack_from(">BBBBIII", data)
            words = struct.unpack_from(f">{count}Q", data, 16)
            if kind == 1:
                self.kept.append((f"{job:o} LOGIN {words[0] >> 18:o},{words[0] & 0o777777:o} {number:o}", reply))
            elif kind == 2:
                self.kept += [(f"{job:o} DEP {number + place:o} {word:o}", reply) for place, word in enumerate(words)]
            elif kind == 4:
                numbers = {"RESET": "", "GETSTS": f"{channel:o}", "RELEAS": f"{channel:o}", "MAKDIR": f"{number:o}"}
                name = Code(code).name
                self.kept.append((f"{job:o} {name} {numbers.get(name, f'{channel:o} {number:o}')}".rstrip(), reply))
        return answers


def uuos_by_calls(tries):
    """Tests the orders of the rows of UUOs, played by `filser calls`: the same answers and the same image."""
    by_wire, by_calls = tries.image("WIRE.IMG"), tries.image("CALLS.IMG")
    with Recorder(tries.program, by_wire) as service:
        player = Player(service)
        for line, reply in lines_of(UUO_ROWS):
            if not reply.startswith("ERROR"):
                player.line(line.split(), iter(()))
        kept = service.kept
    lines = "".join(f"{line}\n" for line, _ in kept)
    done = subprocess.run([tries.program, "calls", by_calls], input=lines, capture_output=True, text=True, check=False,
                          timeout=LIMIT)
    for (line, reply), found in zip(kept, done.stdout.split("\n")):
        tries.same(f"by calls, {line}", found, text_of(reply.kind, reply.value))
    with open(by_wire, "rb") as one, open(by_calls, "rb") as other:
        tries.same("the image by calls", one.read() == other.read(), True)


def shown_use(tries):
    """Tests the use that filser.h shows."""
    if "c" not in tries.players:
        return
    image = tries.image("USE.IMG")
    done = subprocess.run([os.path.join(tries.folder, "use"), tries.program, image], capture_output=True, text=True,
                          check=False, timeout=LIMIT)
    tries.same("the use in filser.h", (done.stdout, done.returncode), ("DONE, go on 2 words\n", 0))


def main():
    if len(sys.argv) != 2 or not os.access(sys.argv[1], os.X_OK):
        print("usage: tests/clients.py PROGRAM", file=sys.stderr)
        return 2
    with tempfile.TemporaryDirectory() as folder:
        tries = Tries(os.path.abspath(sys.argv[1]), folder)
        tries.compile()
        for part in [wrong_records, early_ends, statuses, refusals_of_clients, impostors, large_batches, told_areas,
                     rows, uuos_by_calls, scripts, shown_use]:
            part(tries)
    print(f"clients: {tries.count - tries.failed} as they should be, {tries.failed} not; {tries.lines} lines of "
          "scripts")
    return 1 if tries.failed else 0


if __name__ == "__main__":
    sys.exit(main())
