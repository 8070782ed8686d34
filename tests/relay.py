#!/usr/bin/env python3
"""Tests the relay, clients/python/filser_relay.py, in front of the program.

usage: tests/relay.py PROGRAM

- The file of users: texts, owners and modes; who enters, and who logs in as whom.
- Records that aren't orders, inputs that break off, floods, and clients that don't read: other connections go on.
  Any bytes are answered as by the program itself.
- Jobs: whose they are, how many there are, and what is left of one for the next who gets it.
- 40 connections with random calls, some of which end in the middle: in the order in which the relay sent the orders,
  each answer is that of the model (model/machine.py), and the files at the end are the model's.
- Kills of clients, of the relay and of the service; faults of the disk; signals.
- Backups under load: each is accepted, and has every file that was acknowledged before it.
- The rows of clients_rows.py by the clients through `filser-relay wire`; a session, against `filser run`.

As root it connects as other users too, else as its own user alone. Prints a line for each failed check, and one line at
the end.
"""

import fcntl
import grp
import json
import os
import pwd
import random
import re
import select
import signal
import socket
import subprocess
import sys
import tempfile
import threading
import time

from clients import DONE, LOGIN, ROOM, WRONG, Tries, answer, record, spoiled
from clients_player import text_of
from clients_rows import UUO_ROWS, lines_of
from model.machine import Machine
from model.players import JOBS, OTHER, OWNER, Player, wrong_files

HERE = os.path.dirname(os.path.abspath(__file__))
CLIENTS = os.path.join(HERE, "..", "clients", "python")
RELAY = os.path.abspath(os.path.join(CLIENTS, "filser_relay.py"))
sys.path.insert(0, CLIENTS)

from filser import RECORD, Code, Kind, halves, iowd, order, sixbit  # noqa: E402
from filser_users import Refusal, read_users, users_of  # noqa: E402

LIMIT = 120
OWN = pwd.getpwuid(os.geteuid()).pw_name
OTHERS = [it for it in pwd.getpwall() if it.pw_uid not in (0, 65534)][:3] if os.geteuid() == 0 else []
EVERYBODY = f"{OWN}: 10,20, 10,21, 10,30, 11,5, 1,2\n"
NO_JOB, REFUSED_2, NO_MEMORY, ADDRESS = answer(7), answer(3, 2), answer(8), answer(6)


def until(condition):
    """Waits for a condition, however long that takes on a busy machine; returns whether it came."""
    end = time.monotonic() + LIMIT
    while not condition():
        if time.monotonic() > end:
            return False
        time.sleep(0.01)
    return True


class Link:
    """A connection to a relay."""

    def __init__(self, path, user=None):
        self.link = socket.socket(socket.AF_UNIX)
        self.link.settimeout(LIMIT)
        if user is None:
            self.link.connect(path)
            return
        groups = os.getgroups()
        os.setgroups([user.pw_gid])
        os.setegid(user.pw_gid)
        os.seteuid(user.pw_uid)
        try:
            self.link.connect(path)
        finally:
            os.seteuid(0)
            os.setegid(0)
            os.setgroups(groups)

    def send(self, data):
        self.link.sendall(data)
        return self

    def exactly(self, size):
        """Returns as many bytes, or those up to the end of the connection."""
        data = b""
        try:
            while len(data) < size:
                more = self.link.recv(size - len(data))
                if not more:
                    break
                data += more
        except ConnectionResetError:
            pass
        return data

    def answer(self):
        """Returns the bytes of the next answer, or none at the end."""
        head = self.exactly(RECORD.size)
        return head + self.exactly(8 * int.from_bytes(head[12:16], "big")) if len(head) == RECORD.size else b""

    def ask(self, *orders):
        """Sends orders at once, and returns the bytes of all answers."""
        self.send(b"".join(orders))
        return b"".join(self.answer() for _ in orders)

    def rest(self):
        """Returns what comes up to the end of the connection."""
        return self.exactly(1 << 30)

    def finish(self):
        """Ends the input, and returns what comes then."""
        try:
            self.link.shutdown(socket.SHUT_WR)
        except OSError:  # the relay has ended it already
            pass
        return self.rest()

    def close(self):
        self.link.close()


class Host:
    """A relay on an image of its own."""

    def __init__(self, tries, *words, users=EVERYBODY, blocks=600, layout=1, image=None, program=None, relay=RELAY,
                 waits=True):
        self.image = image or tries.image("J.IMG", blocks, layout)
        self.folder = tempfile.mkdtemp(dir=tries.folder)
        os.chmod(self.folder, 0o755)
        self.path, self.users = os.path.join(self.folder, "S"), os.path.join(self.folder, "users")
        self.allow(users)
        with open(self.log_path, "wb") as log:
            self.process = subprocess.Popen([relay, self.image, self.path, "--users", self.users, "--program",
                                             program or tries.program, *words], stderr=log)
        if waits and not until(lambda: self.process.poll() is not None or self.is_up()):
            raise RuntimeError("the relay doesn't start")

    @property
    def log_path(self):
        return os.path.join(self.folder, "log")

    def allow(self, text):
        with open(self.users, "w", encoding="utf-8") as file:
            file.write(text)
        os.chmod(self.users, 0o644)

    def log(self):
        with open(self.log_path, encoding="utf-8") as file:
            return file.read()

    def link(self, user=None):
        return Link(self.path, user)

    def control(self, **asked):
        """Returns the answer to a request."""
        control = Link(f"{self.path}.control")
        control.send(json.dumps(asked).encode() + b"\n")
        data = control.rest()
        control.close()
        return json.loads(data) if data else None

    def status(self):
        return self.control(ask="status")

    def is_up(self):
        """Returns whether the relay answers."""
        try:
            return self.status() is not None
        except OSError:
            return False

    def is_empty(self, count=0):
        """Returns whether no more than these connections are left, without a job, and all jobs are free."""
        told = self.status()
        return len(told["connections"]) == count and not told["jobs"]

    def stop(self, number=signal.SIGTERM):
        """Sends a signal, and returns the exit status."""
        self.process.send_signal(number)
        return self.process.wait(LIMIT)

    def __enter__(self):
        return self

    def __exit__(self, *_):
        self.process.kill()
        self.process.wait()
        until(self.is_unlocked)

    def is_unlocked(self):
        """Returns whether nobody serves the image any longer: a service outlives its relay up to the end of its input.
        """
        with open(self.image, "rb") as image:
            try:
                fcntl.flock(image, fcntl.LOCK_SH | fcntl.LOCK_NB)
            except BlockingIOError:
                return False
        return True


def login(job=1, owner=(0o10, 0o20), words=0o1000):
    return record(1, job=job, number=words, count=1, words=[halves(*owner)])


def reset(job=1):
    return record(4, code=Code.RESET, job=job)


def make_directory(owner, job=1):
    """Returns the orders that make a directory."""
    return [order(2, job=job, number=0o200, words=[halves(*owner), 0]), order(4, Code.MAKDIR, job, 0, 0o200)]


# Users.

GOOD = [("", {}), (" # nobody\n\n\t\n", {}), ("joe: 10,20", {"joe": {0o10000020}}),
        (" joe :10,20,  1,2 # both\r\n@a.b-c_d:\t777777,1\njoe: 3,4",
         {"joe": {0o10000020, 0o1000002, 0o3000004}, "@a.b-c_d": {0o777777000001}})]
BAD = ["joe", "joe:", "joe: ,", ": 10,20", "@: 10,20", "joe: 10", "joe: 10,20,10,21", "joe: 10,20,", "joe: 10 ,20",
       "joe: 0,20", "joe: 10,0", "joe: 8,1", "joe: 1234567,1", "joe: *", "joe: [10,20]", "joe amy: 10,20", "@@a: 10,20",
       "joe: 10,20 10,21", "joe: 10,20\0", "joe: 10,20\x0b", "joe: -1,2", "joe: 10,20\u00a0"]


def refusal_of(path):
    """Returns why a file of users is refused."""
    try:
        read_users(path)
    except Refusal as reason:
        return str(reason)
    return "it isn't"


def files_of_users(tries):
    """Tests texts of files of users, and files that are refused for what they are."""
    path = os.path.join(tries.folder, "users")
    for text, wanted in GOOD:
        with open(path, "w", encoding="utf-8", newline="") as file:
            file.write(text)
        os.chmod(path, 0o644)
        tries.same(f"users {text!r}", read_users(path), wanted)
    for text in BAD:
        try:
            found = users_of(f"# first\n{text}\nroot: 1,2")
        except Refusal as reason:
            found = str(reason)[:8]
        tries.same(f"users {text!r}", found, "line 2: ")
    for mode in (0o664, 0o646, 0o622, 0o666):
        os.chmod(path, mode)
        tries.same(f"mode {mode:o}", refusal_of(path), f"others than its owner may write it (mode {mode:o})")
    os.chmod(path, 0o644)
    with open(path, "wb") as file:
        file.write(b"joe: 10,20\n\xff")
    tries.same("a byte", refusal_of(path), "byte 12 isn't UTF-8")
    with open(path, "wb") as file:
        file.write(b"#" * ((1 << 20) + 1))
    tries.same("a long file", refusal_of(path), "it has more than 1048576 bytes")
    tries.same("a folder", refusal_of(tries.folder), "Is a directory")
    os.mkfifo(os.path.join(tries.folder, "fifo"))
    tries.same("a pipe", refusal_of(os.path.join(tries.folder, "fifo")), "it isn't a file")
    tries.same("nothing", refusal_of(os.path.join(tries.folder, "none")), "No such file or directory")
    if OTHERS:
        os.chown(path, OTHERS[0].pw_uid, 0)
        tries.same("an owner", refusal_of(path)[:29], f"it belongs to user {OTHERS[0].pw_uid}, and not t"[:29])
        os.chown(path, 0, 0)


def entries(tries):
    """Tests who enters, and who may be whom, also after the file was read again."""
    for text in ("", "#\n", "somebody: 1,2\n"):
        with Host(tries, users=text) as host:
            tries.same(f"no line, {text!r}", host.link().rest(), b"")
            tries.same("its log", f"<4>filser-relay: refusal: user {OWN}: the file of users has" in host.log(), True)
    with Host(tries, users="joe\n", waits=False) as host:
        tries.same("a wrong file", host.process.wait(LIMIT), 1)
        tries.same("its reason", "line 1: it isn't a name, a colon and PPNs" in host.log(), True)
    with Host(tries, users=f"{OWN}: 10,20\n") as host:
        link = host.link()
        tries.same("who", link.ask(login(), login(1, (1, 2)), login(2, (1, 2)), reset(1), reset(2)),
                   DONE + REFUSED_2 * 2 + answer(1, groups=[0o121 << 36 | 0o140]) + NO_JOB)
        tries.same("in order", link.ask(*[reset(2)] * 40, login(2, (1, 2)), *[reset(2)] * 40),
                   NO_JOB * 40 + REFUSED_2 + NO_JOB * 40)
        for text, mode in (("joe\n", 0o644), (f"{OWN}: 1,2\n", 0o666)):
            host.allow(text)
            os.chmod(host.users, mode)
            count = host.log().count("stays in force")
            host.process.send_signal(signal.SIGHUP)
            tries.same("a refused file", until(lambda was=count: host.log().count("stays in force") > was), True)
            tries.same("the old one", link.ask(login(1, (1, 2)), login()), REFUSED_2 + DONE)
        host.allow(f"{OWN}: 10,20, 1,2\n")
        host.process.send_signal(signal.SIGHUP)
        tries.same("a new file", until(lambda: "was read again" in host.log()), True)
        tries.same("more", link.ask(login(2, (1, 2))), DONE)
        host.allow(f"{OWN}: 10,20\n")
        host.process.send_signal(signal.SIGHUP)
        tries.same("one that forbids a job", link.rest(), b"")
        tries.same("its jobs", until(host.is_empty), True)


def other_users(tries):
    """Tests users by their groups, and that each has a share of the jobs; and who may ask for status and backups."""
    if not OTHERS:
        print("relay: not root, so other users aren't tested")
        return
    one, two, three = OTHERS
    text = f"{OWN}: 1,2\n{one.pw_name}: 10,20\n@{grp.getgrgid(two.pw_gid).gr_name}: 10,30\n"
    with Host(tries, "--mode", "666", users=text) as host:
        os.chmod(tries.folder, 0o755)
        asked = [login(), login(2, (0o10, 0o30)), login(2, (1, 2))]
        tries.same("a user", host.link(one).ask(*asked), DONE + REFUSED_2 * 2)
        tries.same("a group", host.link(two).ask(login(), login(2, (0o10, 0o30))), REFUSED_2 + DONE)
        tries.same("neither", host.link(three).rest(), b"")
        tries.same("gone", until(host.is_empty), True)
        kept = host.link(one)
        tries.same("all", kept.ask(*(login(job) for job in range(1, 41))), DONE * 40)
        link = host.link()
        tries.same("a share", link.ask(*(login(job, (1, 2)) for job in range(1, 26))), DONE * 24 + NO_MEMORY)
        tries.same("over it", kept.ask(login(41), login(40)), NO_MEMORY + DONE)
        os.chmod(f"{host.path}.control", 0o666)
        asked = Link(f"{host.path}.control", one)
        tries.same("status for others", asked.rest(), b"")
        tries.same("its log", f"user {one.pw_uid} may not ask" in host.log(), True)
        for it in (kept, link):
            it.close()
    with Host(tries, users=text) as host:
        try:
            found = host.link(one)
        except PermissionError as error:
            found = error.strerror
        tries.same("permission bits", found, "Permission denied")


# Records.


def wrong_records(tries):
    """Tests that records that aren't orders are answered WRONG, and that another connection doesn't see any of it."""
    with Host(tries) as host:
        other, link = host.link(), host.link()
        tries.same("logins", [it.ask(login()) for it in (link, other)], [DONE, DONE])
        fresh = answer(1, groups=[place << 36 | (0o140 if place == 0o121 else 0) for place in range(0o1000)])
        examine = record(3, job=1, detail=0o1000)
        for name, data in spoiled():
            tries.same(name, link.ask(data, examine), WRONG + fresh)
        tries.same("the other one", other.ask(examine), fresh)
        for size in range(1, len(LOGIN)):
            link = host.link().send(ROOM + LOGIN[:size])
            tries.same(f"{size} bytes of a LOGIN", len(link.finish()), 32)
        for kind in range(7):
            for count in ((1 << 18) + 1, 0xFFFFFFFF):
                link = host.link().send(login() + record(kind, count=count) + ROOM)
                tries.same(f"kind {kind} with {count} words", link.rest(), DONE + WRONG)
        whole = record(2, job=1, count=1 << 18) + bytes(8 << 18)
        tries.same("a whole core", host.link().send(login() + whole + whole[:-1]).finish(), DONE + ADDRESS + WRONG)
        tries.same("the other one, later", other.ask(examine, reset(2), record(9)), fresh + NO_JOB + WRONG)
        other.close()
        tries.same("all jobs are free", until(host.is_empty), True)
        tries.same("the end", host.stop(), 0)


def random_record(chance):
    """Returns the bytes of a record: most are orders, some have a byte that is anything, and some are only bytes."""
    job, channel = chance.choice([0, 1, 2, 2, 3, 64, 65, 255]), chance.choice([0, 1, 1, 2, 16, 255])
    place = chance.choice([0, 0o121, 0o200, 0o300, 0o400, 0o777, 0o1000, 0o777777, 0o1000000])
    word = [0, 1, 0o17, sixbit("DSK"), sixbit("FOO"), halves(0o10, 0o20), iowd(3, 0o500), 1 << 36]
    words = [chance.choice(word) for _ in range(chance.choice([1, 2, 4]))]
    detail = chance.choice([0, 0, 1439, 4096 << 16])
    owner, core = chance.choice([(0o10, 0o20), (0o10, 0o30), (1, 2)]), chance.choice([0o777, 0o1000, 0o2000])
    orders = [login(job, owner, core), order(2, job=job, number=place, words=words),
              order(3, job=job, number=place, detail=chance.choice([0, 1, 9])), ROOM]
    orders += [order(4, chance.choice(list(Code)), job, channel, place, detail)] * 4
    data = bytearray(chance.choice(orders))
    if chance.random() < 0.1:
        data[chance.randrange(12)] = chance.randrange(256)
    if chance.random() < 0.02:
        data = bytearray(chance.randrange(256) for _ in range(12)) + bytes([0, 0, 0, chance.randrange(3)])
    return bytes(data)


def same_bytes(tries):
    """Tests that a connection answers any bytes as `filser wire` does: 60 inputs on one image through a relay, and on
    another one without. The file of users allows each PPN in them."""
    chance, direct = random.Random(3), tries.image("D.IMG", 200)
    with Host(tries, blocks=200) as host:
        for turn in range(60):
            data = b"".join(random_record(chance) for _ in range(chance.randrange(1, 120)))
            data = data[: chance.randrange(len(data))] if turn % 3 == 0 else data
            data += record(chance.randrange(7), count=(1 << 18) + 1) if turn % 5 == 0 else b""
            link = host.link()
            for at in range(0, len(data), 700):
                link.send(data[at : at + 700])
            found = link.finish()
            tries.same(f"bytes {turn}", found == tries.wire(direct, data)[0], True)
        tries.same("the end", host.stop(), 0)


def floods(tries):
    """Tests clients that write and don't read, that break off, and that come in numbers: another one is served."""
    with Host(tries, "--patience", "1", "--each", "30") as host:
        other = host.link()
        tries.same("a login", other.ask(login()), DONE)
        stalled = [host.link() for _ in range(5)]
        flood = login(1, words=0o20000) + record(3, job=1, detail=0o20000) * 8 + ROOM * 4096
        for link in stalled:
            link.link.setblocking(False)
        sent = [0] * len(stalled)
        for _ in range(40):
            for place, link in enumerate(stalled):
                try:
                    sent[place] += link.link.send(flood[sent[place] :])
                except (BlockingIOError, ConnectionError):
                    pass
            tries.same("between floods", len(other.ask(ROOM)), RECORD.size)
        log = "it doesn't read its answers"
        tries.same("they are ended", until(lambda: host.log().count(log) == len(stalled)), True)
        for link in stalled:
            link.close()
        tries.same("all are gone", until(lambda: len(host.status()["connections"]) == 1), True)
        links = [host.link().send(LOGIN[:20]) for _ in range(29)]
        tries.same("too many", host.link().rest(), b"")
        tries.same("another one", other.ask(ROOM, login(1, (7, 7)))[RECORD.size :], REFUSED_2)
        for link in links:
            link.close()
        tries.same("all are gone again", until(lambda: len(host.status()["connections"]) == 1), True)
        link = host.link()
        tries.same("refusals", link.ask(*[login(1, (7, 7))] * 3000), REFUSED_2 * 3000)
        tries.same("few of them are logged", host.log().count("it may not be [7,7]"), 11)
        tries.same("memory", peak(host.process.pid) < 200_000, True)


def turns(tries):
    """Tests that an order waits for no more than one of each other connection, however many they have sent."""
    trace = os.path.join(tries.folder, "turns")
    with Host(tries, "--trace", trace) as host:
        floods, link = [host.link().send(ROOM * 4000) for _ in range(3)], host.link()
        tries.same("answers", len(link.ask(*[ROOM] * 100)), 100 * RECORD.size)
        for flood in floods:
            tries.same("a flood", len(flood.finish()), 4000 * RECORD.size)
        link.close()
        tries.same("the end", host.stop(), 0)
    with open(trace, encoding="ascii") as lines:
        places = [place for place, line in enumerate(lines) if line.startswith("4 ")]
    tries.same("turns", max(after - before for before, after in zip(places, places[1:])) <= 4, True)


def peak(process):
    """Returns the most memory that a process has had, in KiB."""
    with open(f"/proc/{process}/status", encoding="ascii") as file:
        return int(re.search(r"VmHWM:\s+(\d+)", file.read())[1])


# Jobs.


def jobs(tries):
    """Tests that a job is its connection's alone, and that the next one that gets it finds nothing in it."""
    with Host(tries, "--jobs", "60") as host:
        first, second = host.link(), host.link()
        tries.same("logins", first.ask(login(1, (1, 2)), *make_directory((0o10, 0o20))),
                   DONE * 2 + answer(1, groups=[0o201 << 36]))
        tries.same("another's", second.ask(record(3, job=1, detail=1), reset(), record(2, job=1, count=1, words=[1])),
                   NO_JOB * 3)
        secret = order(2, job=1, number=0o200, words=[0o123456])
        tries.same("a secret", first.ask(secret), DONE)
        enter = [order(2, job=2, number=0o210, words=[0o17, sixbit("DSK"), 0]), order(4, Code.OPEN, 2, 1, 0o210),
                 order(2, job=2, number=0o300, words=[sixbit("FOO"), 0, 0, 0]), order(4, Code.ENTER, 2, 1, 0o300)]
        tries.same("a file", first.ask(login(2), *enter)[:1], DONE[:1])
        tries.same("is being written", last_kind(second, login(2), enter), Kind.REFUSED)
        first.close()
        tries.same("free", until(lambda: host.status()["jobs"] == 1), True)
        tries.same("is dropped", last_kind(second, login(2), enter), Kind.DONE)
        second.close()
        tries.same("all are free", until(host.is_empty), True)
        second = host.link()
        # A LOGIN that is refused gives nothing, also to what was sent with it.
        examine = record(3, job=1, number=0o200, detail=1)
        asked = [login(1, words=0o777), examine, reset(), make_directory((0o12, 1))[1]]
        tries.same("a core that is too small", second.ask(*asked), ADDRESS + NO_JOB * 3)
        tries.same("a new core", second.ask(login(1), examine), DONE + answer(1, groups=[0o200 << 36]))
        asked = [login(0), login(64), login(65), login(255)]
        tries.same("no more than 64", second.ask(*asked), NO_JOB + DONE + NO_JOB * 2)
        tries.same("many", second.ask(*(login(job) for job in range(2, 62))), DONE * 58 + NO_MEMORY * 2)
        third = host.link()
        tries.same("the rest", third.ask(*(login(job) for job in range(1, 6))), DONE * 4 + NO_MEMORY)
        tries.same("again", third.ask(login(4, (1, 2)), login(5)), DONE + NO_MEMORY)
        second.close()
        tries.same("after the end", until(lambda: third.ask(login(5)) == DONE), True)
        tries.same("jobs", host.status()["jobs"], 5)


def last_kind(link, opening, orders):
    """Returns the kind of the answer to the last order."""
    link.send(b"".join([opening, *orders]))
    return [link.answer()[0] for _ in range(1 + len(orders))][-1]


# The model.


def line_of(data):
    """Returns a record as lines of a call script."""
    kind, code, job, channel, number, _, count = RECORD.unpack_from(data)
    words = [int.from_bytes(data[at : at + 8], "big") for at in range(RECORD.size, RECORD.size + 8 * count, 8)]
    if kind == 1:
        return f"{job:o} LOGIN {words[0] >> 18:o},{words[0] & 0o777777:o} {number:o}"
    if kind == 2:
        return f"{job:o} DEP {number:o} {words[0]:o}"
    if kind == 3:
        return f"{job:o} EXA {number:o}"
    name = Code(code).name
    numbers = {"RESET": "", "GETSTS": f"{channel:o}", "RELEAS": f"{channel:o}", "MAKDIR": f"{number:o}",
               "REMDIR": f"{number:o}", "QUOTA": f"{number:o}"}
    return f"{job:o} {name} {numbers.get(name, f'{channel:o} {number:o}')}".rstrip()


def record_of(line):
    """Returns a line of a call script as a record."""
    job, name, *fields = line.split()
    job = int(job, 8)
    if name == "LOGIN":
        return login(job, tuple(int(half, 8) for half in fields[0].split(",")), int(fields[1], 8))
    numbers = [int(field, 8) for field in fields]
    if name == "DEP":
        return order(2, job=job, number=numbers[0], words=[numbers[1]])
    if name == "EXA":
        return order(3, job=job, number=numbers[0], detail=1)
    channel, number = ([0] + numbers if name in ("MAKDIR", "REMDIR", "QUOTA") else numbers + [0, 0])[:2]
    return order(4, Code[name], job, channel, number)


class Client:
    """A connection with one or two players, each of which plans by a model of its own that sees nobody else."""

    def __init__(self, host, number, count):
        self.link, self.number, self.count = host.link(), number, count
        self.link.link.setblocking(False)
        self.got, self.waiting, self.is_over = b"", b"", False
        self.chance = random.Random(number)
        self.players = []
        for job in self.chance.sample(sorted(JOBS), 1 + number % 2):
            machine = Machine(600, 2)
            machine.directories = {OWNER: (0o775, {}), OTHER: (0o777, {})}
            self.players.append(Player(job, machine, f"{number} {job}"))

    def step(self):
        """Sends some bytes of what comes next, which end anywhere, and reads what is there."""
        while self.count and len(self.waiting) < 200:
            player = self.chance.choice(self.players)
            line = player.line()
            player.machine.line(line)
            self.waiting += record_of(line)
            self.count -= 1
        try:
            sent = self.link.link.send(self.waiting[: self.chance.randrange(1, 400)]) if self.waiting else 0
            self.waiting = self.waiting[sent:]
        except BlockingIOError:
            pass
        if select.select([self.link.link], [], [], 0)[0]:
            self.got += self.link.link.recv(1 << 16)

    def end(self):
        """Ends the connection: in the middle, or when all is answered."""
        self.is_over = True
        self.link.link.setblocking(True)
        self.link.link.settimeout(LIMIT)
        if not self.count and not self.waiting:
            self.got += self.link.finish()
        self.link.close()


def model(tries):
    """Tests 40 connections at a time against the model, played in the order in which the relay sent the orders."""
    trace = os.path.join(tries.folder, "trace")
    with Host(tries, "--trace", trace, "--each", "64", layout=2) as host:
        opening, machine, chance = host.link(), Machine(600, 2), random.Random(1)
        opening.ask(login(1, (1, 2)), *make_directory(OWNER), *make_directory(OTHER))
        opening.finish()
        clients, ended = [Client(host, number, 60) for number in range(2, 42)], []
        while clients:
            for client in chance.sample(clients, len(clients)):
                client.step()
                if client.count == 0 and not client.waiting or chance.random() < 0.002:
                    client.end()
                    clients.remove(client)
                    ended.append(client)
                    if len(ended) <= 15:
                        clients.append(Client(host, 41 + len(ended), 60))
        tries.same("the end", until(host.is_empty) and host.stop(), 0)
        by_client = replay(tries, trace, machine)
        for client in ended:
            sent = by_client.get(client.number, b"")
            sent = sent if not client.count and not client.waiting else sent[: len(client.got)]
            tries.same(f"connection {client.number}", client.got == sent, True)
        tries.same("files", wrong_files(tries.program, tries.folder, machine), [])


def replay(tries, trace, machine):
    """Plays a trace on the model; returns the answers of each connection."""
    answers = {}
    with open(trace, encoding="ascii") as lines:
        for place, line in enumerate(lines, 1):
            number, data, found = line.split()
            data, found = bytes.fromhex(data), bytes.fromhex(found)
            answers[int(number)] = answers.get(int(number), b"") + found
            tries.same(f"order {place}", told(found, data), wanted(machine, data, found))
            tries.lines += 1
    return answers


def told(found, data):
    """Returns an answer as the model has it."""
    kind, *_, high, low, count = RECORD.unpack_from(found)
    if data[0] == 3 and kind == Kind.DONE:
        return f"VALUE {int.from_bytes(found[16:24], 'big') & (1 << 36) - 1:012o}", []
    groups = [int.from_bytes(found[at : at + 8], "big") for at in range(16, 16 + 8 * count, 8)]
    return text_of(Kind(kind), high << 32 | low), [(group >> 36, group & (1 << 36) - 1) for group in groups]


def wanted(machine, data, found):
    """Returns the answer of the model, with the words that were told, and any others that it has changed."""
    if data[0] == 5:
        return f"ROOM {machine.room()}", []
    job = machine.jobs.get(data[2])
    before = list(job.core) if job and data[0] == 4 else []
    reply = machine.line(line_of(data))
    if not before:
        return reply, []
    addresses = [address for address, _ in told(found, data)[1]]
    changed = {place for place, (old, new) in enumerate(zip(before, job.core)) if old != new}
    return reply, [(it, job.core[it]) for it in addresses] + sorted(changed - set(addresses))


# Ends.


def write_file(link, name, number, blocks=1):
    """Writes a file of blocks of words that are this number, by job 1 with a core of 2000; returns whether it is
    acknowledged."""
    orders = [order(2, job=1, number=0o210, words=[0o17, sixbit("DSK"), 0]), order(4, Code.OPEN, 1, 1, 0o210),
              order(2, job=1, number=0o300, words=[sixbit(name), 0, 0, 0]), order(4, Code.ENTER, 1, 1, 0o300),
              order(2, job=1, number=0o400, words=[iowd(128, 0o1000), 0]),
              order(2, job=1, number=0o1000, words=[number] * 128), *[order(4, Code.OUT, 1, 1, 0o400)] * blocks,
              order(4, Code.RELEAS, 1, 1)]
    try:
        link.send(b"".join(orders))
        found = [link.answer()[:1] for _ in orders]
    except OSError:
        return False
    return found[-1] == bytes([Kind.DONE])


def versions(tries, image, folder):
    """Returns the number of each file of [10,20] on an image, or its words if they aren't one number."""
    done = subprocess.run([tries.program, "check", image], capture_output=True, text=True, check=False, timeout=LIMIT)
    tries.same("check", (done.returncode, done.stdout[:9]), (0, "Volume of"))
    subprocess.run([tries.program, "export", image, folder, "10,20", "--words"], stdout=subprocess.DEVNULL, check=False,
                   timeout=LIMIT)
    found = {}
    for name in os.listdir(os.path.join(folder, "10,20")) if os.path.isdir(os.path.join(folder, "10,20")) else []:
        with open(os.path.join(folder, "10,20", name), "rb") as file:
            data = file.read()
        words = {data[at : at + 8] for at in range(0, len(data), 8)}
        found[name] = int.from_bytes(words.pop(), "big") if len(words) == 1 and len(data) % 1024 == 0 else data
    return found


class Load(threading.Thread):
    """Writes versions of a few files by a connection until it ends or has made as many as it shall."""

    def __init__(self, host, name, count=10**9):
        super().__init__(daemon=True)
        self.link, self.name, self.count, self.acknowledged, self.version = host.link(), name, count, {}, 0
        self.link.ask(login(1, words=0o2000))

    def run(self):
        while self.version < self.count:
            self.version += 1
            name = f"{self.name}{self.version % 5}"
            if not write_file(self.link, name, self.version, 1 + self.version % 3):
                break
            self.acknowledged[name] = self.version


def check_versions(tries, what, image, loads, before):
    """Tests that an image has of each file the version that was acknowledged, or a later one that was begun."""
    with tempfile.TemporaryDirectory(dir=tries.folder) as folder:
        found = versions(tries, image, folder)
    for load, acknowledged in zip(loads, before):
        for name, version in acknowledged.items():
            has = found.get(name)
            tries.same(f"{what}: {name}", isinstance(has, int) and version <= has <= load.version, True)


def begin(tries, host, count):
    """Makes the directory, and starts loads."""
    link = host.link()
    tries.same("a directory", link.ask(login(), *make_directory((0o10, 0o20)))[: RECORD.size], DONE)
    link.close()
    loads = [Load(host, chr(ord("A") + place)) for place in range(count)]
    for load in loads:
        load.start()
    return loads


def kills(tries):
    """Kills clients, the relay and the service while files are written."""
    chance = random.Random(2)
    for turn in range(6):
        victim = ("client", "relay", "service")[turn % 3]
        with Host(tries) as host:
            loads = begin(tries, host, 3)
            goal = chance.randrange(1, 40)
            tries.same("work", until(lambda wanted=goal: sum(it.version for it in loads) > wanted), True)
            service = host.status()["service"]
            if victim == "client":
                loads[0].link.link.shutdown(socket.SHUT_RDWR)
                tries.same("its job is free", until(lambda: host.status()["jobs"] == 2), True)
                tries.same("others go on", all(it.is_alive() for it in loads[1:]), True)
                tries.same("the end", host.stop(), 0)
            elif victim == "relay":
                host.process.kill()
            else:
                end_service(tries, host, service)
            for load in loads:
                load.join(LIMIT)
            host.process.wait(LIMIT)
            until(host.is_unlocked)
            check_versions(tries, f"kill of a {victim}", host.image, loads, [it.acknowledged for it in loads])


def end_service(tries, host, service):
    """Kills the service twice: it is started again once."""
    os.kill(service, signal.SIGKILL)
    tries.same("a new service", until(lambda: host.log().count("<5>filser-relay: start") == 2), True)
    link = host.link()
    tries.same("is used", link.ask(ROOM, record(3, job=1, detail=1), login())[RECORD.size :], NO_JOB + DONE)
    told = host.status()
    tries.same("is told", (told["restarts"], told["service"] != service, told["jobs"]), (1, True, 1))
    os.kill(told["service"], signal.SIGKILL)
    tries.same("a client sees it", link.rest(), b"")
    tries.same("the end", host.process.wait(LIMIT), 4)


FAILING = """#!{python}
import os, resource, signal, sys
signal.signal(signal.SIGXFSZ, signal.SIG_IGN)
resource.setrlimit(resource.RLIMIT_FSIZE, (0, 0))
os.execv({program!r}, [{program!r}, *sys.argv[1:]])
"""


def faults(tries):
    """Tests a disk that fails, an image that is refused, a program that can't be started, and an image in use."""
    program = os.path.join(tries.folder, "failing")
    with open(program, "w", encoding="utf-8") as file:
        file.write(FAILING.format(python=sys.executable, program=tries.program))
    os.chmod(program, 0o755)
    with Host(tries, program=program) as host:
        one, two = host.link(), host.link()
        tries.same("logins", [it.ask(login()) for it in (one, two)], [DONE, DONE])
        one.send(b"".join(make_directory((0o10, 0o20))) + reset() + ROOM)
        found = [one.answer()[0] for _ in range(4)]
        tries.same("DEVICE", found, [Kind.DONE, Kind.DEVICE, Kind.FAILED, Kind.ROOM])
        tries.same("the other one ends", two.rest(), b"")
        tries.same("the end", host.process.wait(LIMIT), 4)
        tries.same("one start", host.log().count("<5>filser-relay: start"), 1)
        tries.same("its reason", "<2>filser-relay: fault: the disk has failed" in host.log(), True)
    with Host(tries, "--form", "2", waits=False) as host:
        tries.same("another form", host.process.wait(LIMIT), 3)
        tries.same("its text", "status 3, ?Not a volume" in host.log(), True)
        tries.same("no socket", os.path.exists(host.path), False)
    with Host(tries, program="/none", waits=False) as host:
        tries.same("no program", host.process.wait(LIMIT), 4)
    with Host(tries) as host:
        tries.same("an image in use", Host(tries, image=host.image, waits=False).process.wait(LIMIT), 4)
        tries.same("the first one", host.link().ask(login()), DONE)


def signals(tries):
    """Tests that a signal lets orders be answered that were sent, and ends with status 0; and where sockets are."""
    for number in (signal.SIGTERM, signal.SIGINT):
        with Host(tries) as host:
            links = [host.link() for _ in range(8)]
            for link in links:
                tries.same("a login", link.ask(login()), DONE)
                link.send(LOGIN[:5])
            tries.same("the end", host.stop(number), 0)
            tries.same("half a record", [link.rest() for link in links], [b""] * 8)
            tries.same("no socket is left", sorted(os.listdir(host.folder)), ["log", "users"])
    with Host(tries) as host:
        host.process.kill()
        host.process.wait()
        until(host.is_unlocked)
        words = [RELAY, host.image, host.path, "--users", host.users, "--program", tries.program]
        with open(host.log_path, "wb") as log:
            host.process = subprocess.Popen(words, stderr=log)
        tries.same("a stale socket is used again", until(host.is_up), True)
        other = tries.image("K.IMG")
        for path, reason in socket_paths(host):
            done = subprocess.run([RELAY, other, path, *words[3:]], capture_output=True, text=True, check=False,
                                  timeout=LIMIT)
            tries.same(f"a socket at {os.path.basename(path)[:9]}", (done.returncode, reason in done.stderr), (4, True))
        tries.same("its end", host.stop(), 0)


ACTIVATE = """#!{python}
import os, socket, sys
sockets = []
for path in (sys.argv[2], sys.argv[2] + ".control"):
    sockets.append(socket.socket(socket.AF_UNIX))
    sockets[-1].bind(path)
    sockets[-1].listen()
    os.dup2(sockets[-1].fileno(), 10 + len(sockets))
for place in (0, 1):
    os.dup2(11 + place, 3 + place)
os.environ.update(LISTEN_FDS="{count}", LISTEN_PID=str(os.getpid()))
os.execv({relay!r}, [{relay!r}, *sys.argv[1:]])
"""


def activation(tries):
    """Tests sockets that a service manager passes: both, in their order, and they are left where they are."""
    for count, status in ((2, 0), (1, 4)):
        program = os.path.join(tries.folder, f"activate{count}")
        with open(program, "w", encoding="utf-8") as file:
            file.write(ACTIVATE.format(python=sys.executable, relay=RELAY, count=count))
        os.chmod(program, 0o755)
        with Host(tries, relay=program) as host:
            if status == 0:
                link = host.link()
                tries.same("a passed socket", link.ask(login()), DONE)
                tries.same("the other one", host.status()["jobs"], 1)
                host.process.terminate()
            tries.same(f"{count} sockets", host.process.wait(LIMIT), status)
            tries.same("they are left", sorted(os.listdir(host.folder)), ["S", "S.control", "log", "users"])


def socket_paths(host):
    """Yields paths at which no socket is made, each with the reason."""
    link = os.path.join(host.folder, "link")
    os.symlink(os.path.join(host.folder, "elsewhere"), link)
    yield host.path, "another process listens there"
    yield link, "something that isn't a socket has this path"
    yield host.users, "something that isn't a socket has this path"
    yield os.path.join(host.folder, "none", "S"), "No such file or directory"
    yield os.path.join(host.folder, "S" * 200), "AF_UNIX path too long"


# Backups.


def backups(tries):
    """Tests 20 backups under load, during which no order is answered, and paths at which none is made."""
    trace = os.path.join(tries.folder, "copies.trace")
    with Host(tries, "--trace", trace, blocks=8192) as host:
        loads = begin(tries, host, 4)
        folder = os.path.join(tries.folder, "copies")
        os.mkdir(folder)
        for turn in range(20):
            tries.same("work", until(lambda wanted=3 * turn: min(it.version for it in loads) > wanted), True)
            before = [dict(it.acknowledged) for it in loads]
            path = os.path.join(folder, f"{turn % 7}.IMG")
            told_of = host.control(ask="backup", file=path)
            tries.same("a backup", told_of.get("file"), path)
            check_versions(tries, f"backup {turn}", path, loads, before)
        tries.same("seven of them", sorted(os.listdir(folder)), [f"{turn}.IMG" for turn in range(7)])
        tries.same("permission bits", os.stat(path).st_mode & 0o7777, 0o600)
        for asked, reason in backup_paths(host, folder):
            tries.same(f"a backup at {asked}", host.control(**asked), {"refused": reason})
        tries.same("all are there", sorted(os.listdir(folder))[-3:], ["6.IMG", "folder", "link"])
        done = subprocess.run([RELAY, "--backup", "here.IMG", host.path], cwd=folder, check=False, timeout=LIMIT)
        tries.same("by the command", (done.returncode, os.path.exists(os.path.join(folder, "here.IMG"))), (0, True))
        words = [RELAY, "--status", host.path]
        done = subprocess.run(words, capture_output=True, text=True, check=False, timeout=LIMIT)
        tries.same("status", re.sub(r"\d+", "N", done.stdout).split("\n")[1:4],
                   ["users N, connections N, jobs N of N", "orders N, a second N.N, room N",
                    f"last backup N-N-NTN:N:NZ {re.sub('[0-9]+', 'N', folder)}/here.IMG"])
        tries.same("the end", host.stop(), 0)
        for load in loads:
            load.join(LIMIT)
        check_versions(tries, "at the end", host.image, loads, [it.acknowledged for it in loads])
    with open(trace, encoding="ascii") as lines:
        kinds = "".join({"copy begins\n": "(", "copy ends\n": ")"}.get(line, ".") for line in lines)
    tries.same("orders while the image is copied", (kinds.count("()"), kinds.count("(")), (21, 21))


def backup_paths(host, folder):
    """Yields requests that are refused, each with the reason."""
    os.mkdir(os.path.join(folder, "folder"))
    os.symlink(host.image, os.path.join(folder, "link"))
    is_no_file, is_no_request = "something that isn't a file has this path", "this is no request"
    yield {"ask": "backup", "file": host.image}, "the file is in use by another process"
    yield {"ask": "backup", "file": os.path.join(folder, "link")}, is_no_file
    yield {"ask": "backup", "file": os.path.join(folder, "folder")}, is_no_file
    yield {"ask": "backup", "file": host.path}, is_no_file
    yield {"ask": "backup", "file": "7.IMG"}, "the path isn't absolute"
    yield {"ask": "backup", "file": os.path.join(folder, "none", "7.IMG")}, "No such file or directory"
    yield {"ask": "backup", "file": folder + "/"}, "the path has no name"
    yield {"ask": "backup", "file": folder + "/\0"}, is_no_request
    yield {"ask": "backup"}, is_no_request
    yield {"ask": "backup", "file": 7}, is_no_request
    yield {"file": 7}, is_no_request


# Its users' side.

LINES = """\
TYPE X
login [0,1]
LOGIN [10,20]
MAKDIR [10,20]
makdir [10,20]<0>
TYPE X
TYPE FOO.

COPY COPY.TXT=FOO.TXT
TYPE COPY.TXT\r
TYPE COPY.TXTX
COPY EMPTY.=NONE
COPY EMPTY2=EMPTY
TYPE EMPTY2
COPY BIG2.TXT=BIG.TXT
RENAME FOO.TXT=COPY.TXT
RENAME BAR.TXT=COPY.TXT
RENAME BAR.TXT=COPY.TXT
RENAME BAR.TXT[10,30]=BAR.TXT
LOGIN [10,30]
MAKDIR [10,30]<777>
MAKDIR [7,7]
COPY FOO=FOO.TXT[10,20]
DELETE FOO.TXT[10,20]
PROTECT FOO.TXT[10,20]<777>
PROTECT FOO<155>
PROTECT FOO<1555>
TYPE FOO
QUOTA [10,20] 5
LOGIN [1,2]
QUOTA [10,20] 262144
QUOTA [10,20]  5
QUOTA [10,20] 5
DELETE FOO.TXT[10,20]
DELETE FOO.TXT[10,20]
 TYPE FOO
TYPE  BAR.TXT[10,20]
TYPE BAR.TXT[10,20] """ + "\nTYPE " + "X" * 251 + "\nLOGIN [10,20]\nTYPE BAR.TXT\r"


def sessions(tries):
    """Tests a session against `filser run` on an image with the same files; and the PPN as an argument."""
    images = [tries.image(name, 4096, 2) for name in ("R.IMG", "J.IMG")]
    for image in images:
        subprocess.run([tries.program, "import", image, "10,20", *texts(tries)], stdout=subprocess.DEVNULL, check=True)
    done = subprocess.run([tries.program, "run", images[0]], input=LINES.encode(), capture_output=True, check=False,
                          timeout=LIMIT)
    with Host(tries, image=images[1]) as host:
        words = [RELAY, "--session", host.path]
        found = subprocess.run(words, input=LINES.encode(), capture_output=True, check=False, timeout=LIMIT)
        tries.same("a session", found.stdout, done.stdout)
        tries.same("its status", (found.returncode, found.stderr.replace(b"filser-relay", b"filser")), (1, done.stderr))
        for ppn, lines, printed, status in [
                ("10,20", b"TYPE BAR.TXT", None, 0), ("[10,30]", b"DIRECTORY\nDIRECTORY [1,2]\n", None, 1),
                ("3,3", b"", b"?Protection failure\n", 1), ("3", b"", b"?Command error\n", 1)]:
            found = subprocess.run([*words, ppn], input=lines, capture_output=True, check=False, timeout=LIMIT)
            text = printed or b"Job 1 [" + ppn.strip("[]").encode() + b"]\n"
            tries.same(f"as {ppn}", (found.stdout[: len(text)], found.returncode), (text, status))
        tries.same("DIRECTORY", found_directory(words), b"?DIRECTORY can't be had over the wire\n" * 2)
        tries.same("the end", host.stop(), 0)
    listed = [subprocess.run([tries.program, "list", "--tsv", image], capture_output=True, check=False).stdout
              for image in images]
    tries.same("the files", listed[1], listed[0])


def found_directory(words):
    """Returns what two lines print after a login."""
    found = subprocess.run([*words, "10,20"], input=b"DIRECTORY\nDIRECTORY [10,30]", capture_output=True, check=False)
    return found.stdout.split(b"\n", 1)[1]


def texts(tries):
    """Makes files of the host, with a large one whose length LOOKUP doesn't give, and returns their paths."""
    paths = []
    for name, text in (("FOO.TXT", "HELLO\r\n"), ("FOO", "A" * 640), ("EMPTY", ""), ("BIG.TXT", "0123456789" * 65600)):
        paths.append(os.path.join(tries.folder, name))
        with open(paths[-1], "w", encoding="ascii") as file:
            file.write(text)
    return paths


def rows(tries):
    """Tests the rows of UUOs by the clients through `filser-relay wire`, and what that does without a relay."""
    for client in tries.players:
        with Host(tries, blocks=64) as host:
            pairs = [(line, reply) for line, reply in lines_of(UUO_ROWS)]
            found = tries.play(client, host.path, [line for line, _ in pairs], program=RELAY)
            for place, (line, reply) in enumerate(pair for pair in pairs if pair[1]):
                tries.same(f"{client}, {line}", found[place] if place < len(found) else "nothing", reply)
            tries.same("gone", until(host.is_empty), True)
            host.stop()
            found = tries.play(client, host.path, [], program=RELAY)
            tries.same(f"no relay, {client}", found, ["ERROR NOT_STARTED 4 "])
    for words in ([], ["A"], ["A", "B"], ["wire"], ["--status"], ["--status", "--session", "S"], ["wire", "S", "T"],
                  ["--session", "S", "1,2", "3"], ["A", "B", "--users", "C", "--jobs", "0"], ["--backup", "S"]):
        done = subprocess.run([RELAY, *words], capture_output=True, check=False, timeout=LIMIT)
        tries.same(f"words {words}", (done.returncode, done.stdout), (2, b""))


def main():
    if len(sys.argv) != 2 or not os.access(sys.argv[1], os.X_OK):
        print("usage: tests/relay.py PROGRAM", file=sys.stderr)
        return 2
    with tempfile.TemporaryDirectory() as folder:
        tries = Tries(os.path.abspath(sys.argv[1]), folder)
        tries.compile()
        for part in [files_of_users, entries, other_users, wrong_records, same_bytes, floods, turns, jobs, model,
                     kills, faults, signals, activation, backups, sessions, rows]:
            part(tries)
    print(f"relay: {tries.count - tries.failed} of {tries.count} as they should be; {tries.lines} orders against the "
          "model")
    return 1 if tries.failed else 0


if __name__ == "__main__":
    sys.exit(main())
