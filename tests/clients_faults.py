#!/usr/bin/env python3
"""Tests the clients of `filser wire` in C and Python where something goes wrong around them.

usage: tests/clients_faults.py PROGRAM

- A service that breaks each rule of the wire in turn (clients_fake.py): one error, and nothing after it.
- Random programs whose UUOs say what the machine has changed: the same answers and the same image as if all of its
  memory is compared, also after UUOs that the service doesn't do, second logins, empty ranges and errors.
- The client in C (clients_faults.c), with the sanitizers of the compiler if it has them: each allocation refused, a
  signal at each system call, two services in two threads beside one that starts programs, unread answers, a timeout,
  what a machine reports of its changes, an event loop.
- The client in Python: an exception at each of its steps, words that aren't whole numbers, and the same.
- An interrupt from the terminal; a program in C++ that includes the header; `make install-clients`.

Prints a line for each failed check, and one line at the end.
"""

import dis
import os
import random
import select
import shutil
import signal
import subprocess
import sys
import tempfile
import threading
import time
from array import array

from clients import CLIENTS, FLAGS, HERE, LIMIT, Tries, error_of
from clients_fake import CALL, DEPOSIT, EXAMINE, LOGIN, ROOM, RULES
from clients_rows import word_of

import filser
from filser import Code, Compare, Error, Kind, Next, Service, ServiceError, iowd, sixbit

FAKE = os.path.join(HERE, "clients_fake.py")
SANITIZERS = ["-g", "-fsanitize=address,undefined", "-fno-sanitize-recover=undefined"]
EFFECTS = ("CALL", "STORE_ATTR", "STORE_SUBSCR", "DELETE", "RETURN", "BINARY_OP", "INPLACE")
PROGRAMS = 20
STEPS = 30
SIZE = 0o2000

OPEN_UUO = f"UUO 1 {word_of('OPEN', 1, 0o210):o} 210 0"
GETSTS_UUO = f"UUO 1 {word_of('GETSTS', 1, 0o300):o} 300 0"
BREAKING = {LOGIN: ["1 LOGIN 10,20 1000"], DEPOSIT: [OPEN_UUO], EXAMINE: ["1 EXA 200"],
            CALL: ["1 USETI 1 1", OPEN_UUO], ROOM: ["ROOM"]}
# An answer too many is found at once only if it comes with the last one, so there is one call.
ONE_CALL = ["1 USETI 1 1", f"UUO 1 {word_of('USETI', 1, 1):o} 1 0"]
BREAKING_BY_RULE = {"login with 81 words": ["1 LOGIN 10,20 121"], "large status": ["1 GETSTS 1", GETSTS_UUO],
                    "no status": ["1 GETSTS 1", GETSTS_UUO], "one answer too many": ONE_CALL,
                    "half an answer too many": ONE_CALL}
SEPARATE = {"an answer by itself", "done after device", "silence", "silence in an answer", "silence at the start",
            "no rule"}


def broken_rules(tries):
    """Tests services that break a rule of the wire: a client reports it once, and that the exchange has ended."""
    for rule, (kind, _) in RULES.items():
        for client in tries.players if rule not in SEPARATE else ():
            for line in BREAKING_BY_RULE.get(rule, BREAKING.get(kind)):
                first = [] if kind == LOGIN else ["1 LOGIN 10,20 1000", "POKE 700 7"]
                lines = [*first, line, "ROOM", "1 LOGIN 10,20 1000", "STOP"]
                found = tries.play(client, rule, lines, program=FAKE)
                wanted = ["DONE"] * bool(first) + ["ERROR PROTOCOL", "ERROR ENDED", "ERROR ENDED", "STATUS 0"]
                tries.same(f"{rule}, {client}, {line}", found, wanted)
    for client in tries.players:
        lines = ["1 LOGIN 10,20 1000", "POKE 700 7", "UUO 1 1 1 0", OPEN_UUO, "1 EXA 700", "ROOM", "STOP"]
        wanted = ["DONE", "0 WRONG BEHIND 700", "2 DONE", "VALUE 000000000007", "ROOM 48", "STATUS 0"]
        tries.same(f"no rule, {client}", tries.play(client, "no rule", lines, program=FAKE), wanted)
        lines = ["1 LOGIN 10,20 1000", OPEN_UUO, OPEN_UUO, "ROOM"]
        wanted = ["DONE", "ERROR PROTOCOL", "ERROR ENDED", "ERROR ENDED"]
        tries.same(f"done after device, {client}", tries.play(client, "done after device", lines, program=FAKE), wanted)
        found = tries.play(client, "silence at the start", [], program=FAKE, timeout=50)
        tries.same(f"silence at the start, {client}", found, ["ERROR TIMED_OUT -9 "])


def unwanted_answer(tries):
    """Tests an answer that comes by itself, after the answer to the last order was read."""
    written = os.path.join(tries.folder, "WRITTEN")
    for client, player in tries.players.items():
        words = [*player, FAKE, "an answer by itself", "1", "0"]
        with subprocess.Popen(words, stdin=subprocess.PIPE, stdout=subprocess.PIPE, text=True, cwd=tries.folder,
                              bufsize=1) as process:
            process.stdin.write("1 USETI 1 1\n")
            while not os.path.exists(written):
                time.sleep(0.01)
            process.stdin.write("ROOM\nROOM\n")
            found = process.communicate()[0].split()
        os.remove(written)
        tries.same(f"an answer by itself, {client}", ("48" in found, found.count("PROTOCOL")), (False, 1))


def silence(tries):
    """Tests that a service which doesn't answer in time ends, and is killed at the stop."""
    for rule in ("silence", "silence in an answer"):
        service = Service(FAKE, rule)
        service._timeout = 50
        tries.same(rule, error_of(service.call, 1, Code.USETI, 1, 1), Error.TIMED_OUT)
        tries.same(f"after {rule}", error_of(service.room), Error.ENDED)
        tries.same(f"the status of {rule}", service.stop(), -signal.SIGKILL)


class RandomProgram:
    """Lines of a machine that changes words of its memory, with what it has changed before each UUO."""

    def __init__(self, seed):
        self.random = random.Random(seed)
        self.lines, self.touched = [], []
        self.log_in()
        self.poke(0o210, 0o17)
        self.poke(0o211, sixbit("DSK"))
        self.poke(0o220, sixbit("FOO"))
        self.uuo("OPEN", 0o210)
        self.uuo("ENTER", 0o220)
        for _ in range(STEPS):
            self.step()
        self.write_out()
        self.uuo("CLOSE", 0)

    def log_in(self):
        self.lines.append(f"1 LOGIN 10,20 {SIZE:o}")
        for address, word in ((0o200, filser.halves(0o10, 0o20)), (0o210, 0o17), (0o211, sixbit("DSK")),
                              (0o220, sixbit("FOO"))):
            self.lines.append(f"POKE {address:o} {word:o}")  # no hint names these: after a LOGIN all is compared
        self.touched = []

    def poke(self, address, word):
        self.lines.append(f"POKE {address:o} {word:o}")
        if address >= 16:
            self.touched.append(address)

    def uuo(self, operation, address):
        """Adds a UUO, and before it the range of words that were changed, which is empty if none was."""
        first, last = (min(self.touched), max(self.touched)) if self.touched else (0o700, 0o677)
        self.lines.append(f"HINT {first:o} {last:o}")
        word = operation if isinstance(operation, int) else word_of(operation, 1, address)
        self.lines.append(f"UUO 1 {word:o} {address:o} 0")
        self.touched = []

    def write_out(self):
        """Writes words that were changed at some time before."""
        self.poke(0o400, iowd(self.random.randrange(1, 0o300), 0o1000 + self.random.randrange(0o200)))
        self.uuo("OUT", 0o400)

    def bad_word(self):
        """A UUO that isn't sent, since a word has too many bits."""
        address = self.random.randrange(0o1000, SIZE)
        self.poke(address, 1 << 36)
        self.uuo("STATZ", 0)
        self.poke(address, 1)

    def log_in_again(self):
        self.log_in()
        self.uuo("OPEN", 0o210)
        self.uuo("ENTER", 0o220)

    def step(self):
        for _ in range(self.random.randrange(4)):
            self.poke(self.random.choice([self.random.randrange(0o1000, SIZE), self.random.randrange(1, 16)]),
                      self.random.randrange(1 << 36))
        declined = [0o51 << 27, 0o200 << 27, word_of("CALLI", 0, 1), word_of("SETSTS", 1, 0)]
        choices = [lambda: self.uuo(self.random.choice(declined), 0)] * 3 + [self.write_out] * 3
        choices += [lambda: self.uuo("GETSTS", 0o1100), lambda: self.uuo("STATZ", 0), self.bad_word]
        self.random.choice(choices + ([self.log_in_again] if self.random.random() < 0.2 else []))()


def random_programs(tries):
    """Tests random programs with and without what they say of their changes: the same answers and images."""
    made = ["2 LOGIN 10,20 1000", "2 DEP 200 10000020", "2 MAKDIR 200"]
    for seed in range(PROGRAMS):
        lines = RandomProgram(seed).lines
        wanted = None
        for client in [*tries.players, *tries.others]:
            for kind, played in (("all", [line for line in lines if "HINT" not in line]), ("hints", lines)):
                image = tries.image("HINTS.IMG")
                answers = tries.play(client, image, made + played)
                with open(image, "rb") as file:
                    found = answers, file.read()
                wanted = wanted or found
                tries.lines += len(played)
                tries.same(f"program {seed}, {client}, {kind}: answers", found[0] == wanted[0], True)
                tries.same(f"program {seed}, {client}, {kind}: image", found[1] == wanted[1], True)
        tries.same(f"program {seed} writes", sum("DONE" in line for line in wanted[0]) > 3, True)


def faults_in_c(tries):
    """Tests the client in C, with its allocations and system calls in the hands of the test."""
    if "c" not in tries.players:
        return
    program = os.path.join(tries.folder, "faults")
    client = os.path.join(CLIENTS, "c")
    flags = [*FLAGS, *tries.sanitizers, "-pthread", "-I", client]
    subprocess.run(["cc", *flags, "-o", program, os.path.join(HERE, "clients_faults.c")], check=True)
    image = tries.image("FAULTS.IMG")
    for place in range(2):
        tries.image(f"FAULTS.IMG.{place}")
    for words in (["memory"], ["signals"], ["descriptors"], ["threads"], ["stop"], ["options"],
                  ["reported"], ["loop"], ["interrupt"], ["values"], ["group", "0"], ["group", "1"]):
        done = subprocess.run([program, words[0], tries.program, image, *words[1:]], capture_output=True, text=True,
                              check=False, timeout=LIMIT, start_new_session=True)
        *failed, last = done.stdout.split("\n")[:-1] or ["nothing"]
        tries.same(f"{' '.join(words)}: status", done.returncode, 0)
        tries.same(f"{' '.join(words)}: end", last.split()[-1:], ["0"])
        tries.count += int(last.split()[0]) if last.split()[0].isdigit() else 0
        for line in failed:
            print(f"{' '.join(words)}: {line}")
        if done.returncode != 0:
            print(done.stderr)


class Interruption(BaseException):
    """What a handler of a signal raises."""


def steps_of(function, stop_at=None):
    """Calls a function, and returns the steps of the client in it that change something or return, each with its place;
    or raises Interruption before one of them."""
    steps = []

    def trace(frame, event, _):
        if frame.f_code.co_filename != filser.__file__:
            return None
        frame.f_trace_opcodes = True
        if event == "opcode" and dis.opname[frame.f_code.co_code[frame.f_lasti]].startswith(EFFECTS):
            steps.append((frame.f_code.co_name, frame.f_lasti))
            if len(steps) - 1 == stop_at:
                raise Interruption()
        return trace

    sys.settrace(trace)
    try:
        function()
    finally:
        sys.settrace(None)
    return steps


class Machine:
    """A machine with its service, for the client in Python."""

    def __init__(self, program, image, compare=Compare.ALL):
        self.accumulators, self.memory = [0] * 16, array("Q", bytes(8 * 0o1000))
        self.service = Service(program, image)
        self.service.login(1, 0o10, 0o20, 0o1000, self.accumulators, self.memory, compare)
        self.memory[0o121], self.memory[0o210], self.memory[0o211] = 0o140, 0o17, sixbit("DSK")
        self.uuo()

    def uuo(self, changed=None):
        return self.service.uuo(1, word_of("OPEN", 1, 0o210), 0o210, changed=changed)

    def play(self):
        """Makes each kind of exchange."""
        self.memory[0o700] += 1
        self.uuo((0o700, 0o700))
        self.service.add_deposit(1, 0o400, [1, 2, 3])
        self.service.add_room()
        self.service.send()
        self.service.deposit(1, 0o400, [0, 0, 0])

    def is_right(self):
        """Returns whether the service has ended for good, or works and has the machine's words after the next UUO."""
        try:
            if self.service._orders:
                self.service.send()
            self.service.room()
        except ServiceError as error:
            return error.error == Error.ENDED and error_of(self.uuo) == Error.ENDED
        done = self.uuo((0o700, 0o700)).kind == Kind.DONE
        return done and self.service.examine(1, 0, 0o1000).words == self.accumulators + list(self.memory[16:])


def interrupted_steps(tries):
    """Tests an exception at each step of the client in Python, as a handler of a signal raises it."""
    image = tries.image("STEPS.IMG")
    machine = Machine(tries.program, image)
    steps = steps_of(machine.play)
    machine.service.stop()
    last = {step: place for place, step in enumerate(steps)}
    first = {step: place for place, step in reversed(list(enumerate(steps)))}
    for place in sorted({*last.values(), *first.values()}):
        machine = Machine(tries.program, image)
        try:
            steps_of(machine.play, place)
        except Interruption:
            pass
        tries.same(f"interrupted at step {place}, {steps[place]}", machine.is_right(), True)
        machine.service.stop()


def wrong_words(tries):
    """Tests words that aren't whole numbers: they are refused, and what follows is done."""
    machine = Machine(tries.program, tries.image("FLOATS.IMG"))
    for word in (1.5, "1", None, -1, 1 << 36):
        tries.same(f"deposit {word}", error_of(machine.service.add_deposit, 1, 0o400, [1, word]), Error.BAD_WORD)
        memory = list(machine.memory)
        memory[0o500], memory[0o700] = 1, word
        found = error_of(machine.service.uuo, 1, word_of("OPEN", 1, 0o210), 0o210, machine.accumulators, memory)
        tries.same(f"memory {word}", found, Error.BAD_WORD)
        tries.same(f"after {word}", machine.is_right(), True)
    machine.service.stop()


def stops(tries):
    """Tests a stop while answers are unread, and an answer that waits unread at the next order."""
    service = Service(tries.program, tries.image("UNREAD.IMG"), stderr=subprocess.DEVNULL)
    service.login(1, 0o10, 0o20, 0o400000)
    os.write(service._process.stdin.fileno(), filser.order(EXAMINE, job=1, detail=0o400000) * 3)
    tries.same("a stop with unread answers", service.stop(), 4)
    service = Service(tries.program, tries.image("UNREAD.IMG"))
    os.write(service._process.stdin.fileno(), filser.order(ROOM))
    poll = select.poll()
    poll.register(service._process.stdout, select.POLLIN)
    poll.poll()
    tries.same("an answer that waits", error_of(service.room), Error.PROTOCOL)
    tries.same("after it", error_of(service.room), Error.ENDED)
    service.stop()


def interrupt_group(program, image, shares_group):
    """Interrupts this process's group as a terminal does, and prints what becomes of a service of it."""
    signal.signal(signal.SIGINT, lambda *_: None)
    service = Service(program, image, shares_group=shares_group)
    os.killpg(0, signal.SIGINT)
    if shares_group:
        os.waitid(os.P_PID, service._process.pid, os.WEXITED | os.WNOWAIT)
    error = error_of(service.room)
    print(error and error.name, service.stop())


def terminals(tries):
    """Tests an interrupt from the terminal: a service in its own session goes on."""
    image = tries.image("GROUP.IMG")
    for shares, wanted in (("", "None 0\n"), ("1", f"ENDED {-signal.SIGINT}\n")):
        done = subprocess.run([sys.executable, __file__, "group", tries.program, image, shares], capture_output=True,
                              text=True, check=False, timeout=LIMIT, start_new_session=True)
        tries.same(f"an interrupt, {shares or 0}", done.stdout, wanted)


def reported(tries):
    """Tests what a machine reports of its changes to the client in Python, and a logout."""
    machine = Machine(tries.program, tries.image("REPORTED.IMG"), Compare.DEBUG)
    machine.memory[0o701] += 1
    machine.memory[0o703] += 1
    machine.service.touched(1, 0o700, 3)
    try:
        machine.uuo()
        tries.same("a missed word", "none", "one")
    except ServiceError as error:
        tries.same("a missed word", (error.error, error.address), (Error.MISSED, 0o703))
    machine.service.touched(1, 0o703, 1)
    tries.same("it is named", machine.is_right(), True)
    tries.same("a logout", machine.service.logout(1).kind, Kind.DONE)
    tries.same("after it", error_of(machine.uuo), Error.NOT_LOGGED_IN)
    tries.same("examine after it", error_of(machine.service.examine, 1, 0, 1), Error.NOT_LOGGED_IN)
    machine.service.login(1, 0o10, 0o20, 0o1000)
    without = error_of(machine.service.uuo, 1, word_of("OPEN", 1, 0o210), 0o210)
    tries.same("without a machine", without, Error.NO_MACHINE)
    short = error_of(machine.service.login, 1, 0o10, 0o20, 0o1000, [0] * 16, [0] * 0o777)
    tries.same("a short memory", short, Error.SHORT_MEMORY)
    machine.service.stop()
    machine = Machine(tries.program, tries.image("REPORTED.IMG"), Compare.TOUCHED)
    for place in range(0o400, 0o1000, 0o23):
        machine.memory[place] += 1
        machine.service.touched(1, place, 1)
        tries.same("TTCALL", machine.service.uuo(1, 0o51 << 27, 0).next, Next.NOT_MINE)
    tries.same("all that was named", machine.is_right(), True)
    machine.service.stop()


def loops(tries):
    """Tests exchanges of an event loop by the client in Python, and an interrupt from another thread."""
    machine = Machine(tries.program, tries.image("LOOP.IMG"))
    service = machine.service

    def complete(advance):
        while True:
            result = advance()
            if result is not None:
                return result
            waits = service.waits_for()
            writable = [waits.writable] if waits.writable >= 0 else []
            select.select([waits.readable, waits.interrupt], writable, [])

    tries.same("a UUO begins", service.begin_uuo(1, word_of("OPEN", 1, 0o210), 0o210), True)
    tries.same("another call meanwhile", error_of(service.room), Error.UNFINISHED)
    tries.same("the other advance", error_of(service.advance), Error.BAD_ARGUMENT)
    tries.same("a UUO", complete(service.advance_uuo).advance, 2)
    tries.same("not the service's", service.begin_uuo(1, 0o51 << 27, 0), False)
    for _ in range(200):
        service.add_examine(1, 0, 0o1000)
    service.begin()
    tries.same("a batch", len(complete(service.advance)), 200)
    tries.same("the core", machine.is_right(), True)
    thread = threading.Thread(target=service.interrupt)
    thread.start()
    thread.join()
    tries.same("an interrupt", (service.has_ended, error_of(service.room)), (False, Error.INTERRUPTED))
    tries.same("after it", (service.has_ended, error_of(service.room)), (True, Error.ENDED))
    tries.same("its status", service.stop(), 0)


def values(tries):
    """Tests the words and numbers that the client in Python makes."""
    rows = [(filser.sixbit, ("TOOLONG",)), (filser.sixbit, ("dsk",)), (filser.iowd, (0, 0o500)), (filser.iowd, (1, 0)),
            (filser.date_number, (1975, 2, 29)), (filser.date_number, (2052, 2, 2)), (filser.halves, (1 << 18, 0)),
            (filser.date_number, (1963, 12, 31))]
    for function, arguments in rows:
        tries.same(f"{function.__name__}{arguments}", error_of(function, *arguments), Error.BAD_ARGUMENT)
    tries.same("1-Feb-2052", filser.date_number(2052, 2, 1), 32767)
    tries.same("now", 20000 < filser.now()[0] < 32768 and filser.now()[1] < 1440, True)


def threads(tries):
    """Tests two services in two threads beside programs that inherit what can be inherited."""
    wrong = []

    def serve(image, seed):
        numbers = random.Random(seed)
        for _ in range(5):
            machine = Machine(tries.program, image)
            for _ in range(20):
                machine.memory[numbers.randrange(0o400, 0o1000)] = numbers.randrange(1 << 36)
                if not machine.uuo().kind == Kind.DONE or not machine.is_right():
                    wrong.append(seed)
            if machine.service.stop() != 0:
                wrong.append(seed)

    images = [tries.image(f"THREAD{seed}.IMG") for seed in range(2)]
    started = [threading.Thread(target=serve, args=(image, seed)) for seed, image in enumerate(images)]
    for thread in started:
        thread.start()
    others = [subprocess.Popen(["sleep", "1000"], close_fds=False) for _ in range(20)]
    for thread in started:
        thread.join(LIMIT)
    tries.same("threads that don't end", sum(thread.is_alive() for thread in started), 0)
    for other in others:
        other.kill()
        other.wait()
    tries.same("threads", wrong, [])


CPLUSPLUS = """
#include "filser.h"
#include <cstdio>
int main() {
    struct filser_options options = {};
    struct filser *service = nullptr;
    options.size = sizeof options;
    enum filser_error error = filser_start(&options, &service);
    std::printf("%s\\n", filser_error_text(error));
    return filser_stop(service);
}
"""


def in_cplusplus(tries):
    """Tests a program in C++ that includes the header and links with the client in C."""
    if not shutil.which("c++"):
        print("clients_faults: there is no C++ compiler, so the header isn't tried in C++")
        return
    paths = {name: os.path.join(tries.folder, name) for name in ("use.cc", "client.o", "use_cc")}
    with open(paths["use.cc"], "w", encoding="ascii") as file:
        file.write(CPLUSPLUS)
    client = os.path.join(CLIENTS, "c")
    subprocess.run(["cc", *FLAGS, "-c", "-o", paths["client.o"], os.path.join(client, "filser.c")], check=True)
    done = subprocess.run(["c++", "-std=c++17", "-Wall", "-Wextra", "-Werror", "-pedantic", "-I", client, "-o",
                           paths["use_cc"], paths["use.cc"], paths["client.o"]], check=False)
    tries.same("C++ compiles and links", done.returncode, 0)
    if done.returncode == 0:
        found = subprocess.run([paths["use_cc"]], capture_output=True, text=True, check=False, timeout=LIMIT).stdout
        tries.same("C++ runs", found, "an argument is outside its range, and nothing was sent\n")


def installed(tries):
    """Tests what `make install-clients` installs: a use in C by pkg-config, and an import in Python."""
    if not all(map(shutil.which, ("make", "cc", "pkg-config"))):
        print("clients_faults: without make, cc and pkg-config the installation of the clients isn't tested")
        return
    prefix, program = os.path.join(tries.folder, "installed"), os.path.join(tries.folder, "installed_use")
    words = ["make", "-s", "-C", os.path.dirname(CLIENTS), "install-clients", f"PREFIX={prefix}"]
    subprocess.run(words, check=True, timeout=LIMIT)
    found = {**os.environ, "PKG_CONFIG_PATH": os.path.join(prefix, "lib", "pkgconfig"), "PYTHONDONTWRITEBYTECODE": "1"}
    flags = subprocess.run(["pkg-config", "--cflags", "--libs", "filser"], capture_output=True, text=True, check=True,
                           env=found).stdout.split()
    subprocess.run(["cc", *FLAGS, "-o", program, os.path.join(tries.folder, "use.c"), *flags], check=True)
    done = subprocess.run([program, tries.program, tries.image("USE.IMG")], capture_output=True, text=True, check=False)
    tries.same("a use of the library", done.stdout, "DONE, go on 2 words\n")
    folder = os.path.join(prefix, "lib", "python3", "dist-packages")
    done = subprocess.run([sys.executable, "-c", "import filser; print(filser.VERSION, filser.__file__)"], check=False,
                          capture_output=True, text=True, env={**found, "PYTHONPATH": folder})
    tries.same("an import", done.stdout, f"0.1.0 {os.path.join(folder, 'filser', '__init__.py')}\n")
    tries.same("py.typed", os.path.exists(os.path.join(folder, "filser", "py.typed")), True)


def find_sanitizers(tries):
    """Sets the flags of the compiler for its sanitizers, if it has them."""
    tries.sanitizers = []
    if not shutil.which("cc"):
        return
    source, program = os.path.join(tries.folder, "tried.c"), os.path.join(tries.folder, "tried")
    with open(source, "w", encoding="ascii") as file:
        file.write("int main(void) { return 0; }\n")
    compiled = subprocess.run(["cc", *SANITIZERS, "-o", program, source], capture_output=True, check=False)
    if compiled.returncode == 0 and subprocess.run([program], capture_output=True, check=False).returncode == 0:
        tries.sanitizers = SANITIZERS
    else:
        print("clients_faults: the compiler has no sanitizers, so the client in C is tested without")


def main():
    if len(sys.argv) == 5 and sys.argv[1] == "group":
        interrupt_group(sys.argv[2], sys.argv[3], bool(sys.argv[4]))
        return 0
    if len(sys.argv) != 2 or not os.access(sys.argv[1], os.X_OK):
        print("usage: tests/clients_faults.py PROGRAM", file=sys.stderr)
        return 2
    with tempfile.TemporaryDirectory() as folder:
        tries = Tries(os.path.abspath(sys.argv[1]), folder)
        find_sanitizers(tries)
        tries.compile(tries.sanitizers)
        for part in [broken_rules, unwanted_answer, silence, random_programs, faults_in_c, interrupted_steps,
                     wrong_words, stops, terminals, threads, reported, loops, values,
                     in_cplusplus, installed]:
            part(tries)
    print(f"clients_faults: {tries.count - tries.failed} of {tries.count} as they should be; {tries.lines} lines of "
          "random programs")
    return 1 if tries.failed else 0


if __name__ == "__main__":
    sys.exit(main())
