"""A client for `filser wire`: the disk of a PDP-10 emulator, served by a process over two pipes.

A service has an image to itself. Jobs log in, each with its own core; `deposit` and `examine` move words, `call` makes
a call of the monitor, and `uuo` does a UUO of a running machine on the machine's own memory:

    with Service("filser", "DISK.IMG") as service:
        service.login(1, 0o10, 0o20, 0o10000, accumulators, memory)
        outcome = service.uuo(1, instruction, address, pc=pc)
        if outcome.next is Next.ADVANCE:
            pc += outcome.advance

Words are whole numbers below 2^36. Orders that are collected by `add_login` and similar functions are sent by one
write:

    service.add_deposit(1, 0o300, [sixbit("FOO"), sixbit("DAT"), 0, 0])
    service.add_call(1, Code.LOOKUP, 1, 0o300)
    answers = service.send()

What can't be sent, and an exchange that fails, raises `ServiceError`; what the service refuses is an `Answer`. An
exception of any kind that interrupts an exchange ends it for good: each later call raises `Error.ENDED`. One thread at
a time may use a service; only `interrupt` may be called from any thread. Needs POSIX, Python 3.8 or later, and no other
package. docs/EMULATORS.md describes the wire. The client in C, in clients/c, has the same functions.
"""

from __future__ import annotations

import datetime
import enum
import fcntl
import operator
import os
import select
import struct
import subprocess
import time
from array import array
from typing import IO, Any, Iterable, List, MutableSequence, NamedTuple, Optional, Sequence, Tuple, Union

RECORD = struct.Struct(">BBBBIII")
WORD_LIMIT = 1 << 36
CORE_LIMIT = 1 << 18
VERSION, WIRE_VERSION = "0.1.0", 1  # a program doesn't tell which wire it speaks, so these can't be compared
RIGHT_HALF = CORE_LIMIT - 1
LEAST_CORE, MOST_CORE = 0o1000, 0o400000
ACCUMULATORS = 0o20
START_ADDRESS, FIRST_FREE = 0o120, 0o121  # .JBSA and .JBFF
LARGE_PIECE, PIECE = 4096, 64
MOST_PRINTED = 256


class Kind(enum.IntEnum):
    """The kinds of answers."""

    WRONG = 0  # the record wasn't an order, and nothing was done
    DONE = 1
    VALUE = 2  # the value is a status
    REFUSED = 3  # the value is the error code
    STOPPED = 4  # the value is the status: end of file, or no room
    NO_CHANNEL = 5
    ADDRESS_CHECK = 6
    NO_JOB = 7
    NO_MEMORY = 8  # of the service; nothing was done, and the call may be repeated
    DEVICE = 9  # the disk failed: start again
    FAILED = 10  # it had failed before
    DATE_RANGE = 11
    ROOM = 12  # the value is the number of blocks that are left


class Code(enum.IntEnum):
    """The calls: the operation codes of their UUOs, and the service's own for directories."""

    MAKDIR = 1
    REMDIR = 2
    QUOTA = 3
    RESET = 0o47
    OPEN = 0o50
    RENAME = 0o55
    IN = 0o56
    OUT = 0o57
    GETSTS = 0o62
    INBUF = 0o64
    OUTBUF = 0o65
    CLOSE = 0o70
    RELEAS = 0o71
    USETI = 0o74
    USETO = 0o75
    LOOKUP = 0o76
    ENTER = 0o77


class Error(enum.Enum):
    """Why there was no answer."""

    BAD_ARGUMENT = "an argument is outside its range, and nothing was sent"
    BAD_WORD = "a word isn't a whole number below 2^36, and nothing was sent"
    NOT_LOGGED_IN = "the job isn't logged in, and nothing was sent"
    NOT_SENT = "orders were collected and are not sent yet"
    SHORT_MEMORY = "the machine's memory is smaller than the job's core, and nothing was sent"
    NO_MACHINE = "the job has no machine's memory, and nothing was sent"
    MISSED = "a word was changed and not reported, and nothing was sent"
    UNFINISHED = "the exchange isn't complete yet"
    NOT_FOUND = "there is no such program, or it can't be run"
    IN_USE = "another process has the image"
    IMAGE_REFUSED = "the program refused the image"
    NOT_STARTED = "the program ended before its first answer"
    ENDED = "the program ended, its streams failed, or an earlier exchange did"
    PROTOCOL = "the program wrote something that can't be the answer"
    TIMED_OUT = "the answers didn't come in time"
    INTERRUPTED = "the exchange was interrupted"


class ServiceError(Exception):
    """An error of the client: `error` is an `Error`. If the program didn't start, `status` is its exit status, and
    `text` what it has printed; of a missed word `address` is its address."""

    def __init__(self, error: Error, status: Optional[int] = None, text: str = "", address: Optional[int] = None):
        ended = "" if status is None else f", status {status}"
        place = "" if address is None else f", address {address:o}"
        super().__init__(error.value + ended + place + (f": {text}" if text else ""))
        self.error, self.status, self.text, self.address = error, status, text, address


class Answer(NamedTuple):
    """An answer: its kind, its value, and pairs of an address and the word that the job's core has there."""

    kind: Kind
    value: int
    changes: List[Tuple[int, int]]

    @property
    def words(self) -> List[int]:
        """Returns the words that an EXAMINE has read."""
        return [word for _, word in self.changes]


class Compare(enum.Enum):
    """Which words of a machine are compared, before a UUO, with those that the service has. After a LOGIN all are
    compared once in any case."""

    ALL = "all"
    TOUCHED = "those that `touched` has named, and the accumulators"
    DEBUG = "all, and a word that differs and wasn't named raises `Error.MISSED`"


class Next(enum.Enum):
    """Where a machine goes on after a UUO."""

    NOT_MINE = "it isn't a UUO that the service does, and nothing was sent"
    ADVANCE = "`advance` words after the UUO: 1, 2 if it skips, 3 or 4 after an INIT"
    STOP = "the monitor would have stopped the program; an emulator that goes on nevertheless advances by `advance`"


class Outcome(NamedTuple):
    """What a UUO did: how far the machine goes on, the kind and value of the answer, and where it goes on. It was done
    if `kind` is `Kind.DONE` or `Kind.VALUE`."""

    advance: int
    kind: Kind
    value: int
    next: Next


NOT_MINE = Outcome(0, Kind.WRONG, 0, Next.NOT_MINE)


class Waits(NamedTuple):
    """What an exchange waits for: descriptors, of which `writable` is -1 if all is written, and milliseconds, -1 if
    there is no timeout."""

    readable: int
    writable: int
    interrupt: int
    timeout: int


class Sent(NamedTuple):
    """What is left of an order after it is written: what its answer may be, and changes in the copy of a core."""

    kind: int
    code: int
    job: int
    number: int
    detail: int
    words: Sequence[int]
    machine: Any = None  # of a LOGIN: the machine's memory


Memory = MutableSequence[int]

LOGIN, DEPOSIT, EXAMINE, CALL, ROOM = range(1, 6)
# Kinds of answers by orders. These are plain numbers, which are found faster.
HAVE_VALUE = {int(kind) for kind in (Kind.VALUE, Kind.REFUSED, Kind.STOPPED, Kind.ROOM)}
OF_ROOM = {int(Kind.ROOM)}
OF_ALL = {int(kind) for kind in (Kind.DONE, Kind.ADDRESS_CHECK, Kind.NO_JOB, Kind.NO_MEMORY, Kind.DEVICE, Kind.FAILED)}
OF_LOGIN = OF_ALL | {int(Kind.REFUSED)}  # by a relay
OF_CALLS = OF_ALL | {int(kind) for kind in (Kind.REFUSED, Kind.STOPPED, Kind.NO_CHANNEL, Kind.DATE_RANGE)}
OF_GETSTS = OF_CALLS - {int(Kind.DONE)} | {int(Kind.VALUE)}
KINDS = tuple(Kind)

WITHOUT_NUMBER = {Code.RESET, Code.GETSTS, Code.RELEAS}
WITHOUT_CHANNEL = {Code.RESET, Code.MAKDIR, Code.REMDIR, Code.QUOTA}
CODES = {int(code) for code in Code}

INIT, CALLI, STATO, STATZ, INPUT, OUTPUT = 0o41, 0o47, 0o61, 0o63, 0o66, 0o67
CALLI_RESET, CALLI_EXIT = 0, 0o12
ASKS_STATUS = {int(Code.GETSTS), STATO, STATZ}
SKIPS_AT_DONE = {Code.OPEN, Code.LOOKUP, Code.ENTER, Code.RENAME}
SKIPS_UNLESS_DONE = {Code.IN, Code.OUT}
HAS_ERROR_RETURN = SKIPS_AT_DONE | {INIT}
SAME_CALL = CODES - {Code.RESET, Code.MAKDIR, Code.REMDIR, Code.QUOTA}


def sixbit(text: str) -> int:
    """Returns up to six characters, from space to underscore, as a word.

    >>> oct(sixbit("DSK"))
    '0o446353000000'
    """
    if len(text) > 6 or not all(" " <= character <= "_" for character in text):
        raise ServiceError(Error.BAD_ARGUMENT)
    word = 0
    for character in text.ljust(6):
        word = word * 64 + ord(character) - 32
    return word


def halves(left: int, right: int) -> int:
    """Returns a word of two halves.

    >>> oct(halves(0o10, 0o20))
    '0o10000020'
    """
    _check_ranges((left, CORE_LIMIT), (right, CORE_LIMIT))
    return left << 18 | right


def iowd(count: int, first: int) -> int:
    """Returns a word of a command list: `count` words from the address `first`.

    >>> oct(iowd(2, 0o500))
    '0o777776000477'
    """
    _check_ranges((count - 1, RIGHT_HALF), (first - 1, RIGHT_HALF))
    return halves(CORE_LIMIT - count, first - 1)


def date_number(year: int, month: int, day: int) -> int:
    """Returns the number of a date from 1-Jan-1964 to 1-Feb-2052.

    >>> date_number(1975, 1, 4)
    4095
    """
    try:
        datetime.date(year, month, day)
    except (TypeError, ValueError) as error:
        raise ServiceError(Error.BAD_ARGUMENT) from error
    number = ((year - 1964) * 12 + month - 1) * 31 + day - 1
    _check_ranges((number, 1 << 15))
    return number


def now() -> Tuple[int, int]:
    """Returns the number of today's date, and the minute of the day, in local time."""
    moment = datetime.datetime.now()
    return date_number(moment.year, moment.month, moment.day), moment.hour * 60 + moment.minute


def is_uuo(instruction: int, address: int) -> bool:
    """Returns whether `Service.uuo` does a UUO with this word and effective address.

    >>> is_uuo(0o051140000000, 0)
    False
    """
    return bool(calls_of(instruction >> 27, instruction >> 23 & 0o17, address, 0))


def order(kind: int, code: int = 0, job: int = 0, channel: int = 0, number: int = 0, detail: int = 0,
          words: Sequence[int] = ()) -> bytes:
    """Returns the bytes of an order.

    >>> order(3, job=1, number=0o121, detail=1).hex()
    '03000100000000510000000100000000'
    """
    record = RECORD.pack(kind, code, job, channel, number, detail, len(words))
    return record + struct.pack(f">{len(words)}Q", *words) if words else record


def split_answer(held: Union[bytes, bytearray, memoryview]) -> Optional[Tuple[Answer, int]]:
    """Returns the first answer in bytes, and how many bytes it has; none if it isn't complete.

    >>> split_answer(bytes.fromhex("04000000000000000000201100000000"))
    (Answer(kind=<Kind.STOPPED: 4>, value=8209, changes=[]), 16)
    """
    if len(held) < RECORD.size:
        return None
    kind, code, job, channel, high, low, count = RECORD.unpack_from(held)
    if kind > Kind.ROOM or code or job or channel:
        raise ServiceError(Error.PROTOCOL)
    size = RECORD.size + 8 * count
    if len(held) < size:
        return None
    groups = struct.unpack_from(f">{count}Q", held, RECORD.size)
    changes = [(group >> 36, group & WORD_LIMIT - 1) for group in groups]
    return Answer(KINDS[kind], high << 32 | low, changes), size


def calls_of(operation, channel, address, pc):
    """Returns the calls that do a UUO, each with its channel and number; none if the service doesn't do it.

    >>> calls_of(0o66, 2, 0o400, 0)
    [(<Code.IN: 46>, 2, 256)]
    """
    release = (Code.RELEAS, channel, 0)
    if operation == Code.OPEN:  # a monitor releases an open channel first
        return [release, (Code.OPEN, channel, address)]
    if operation == INIT:
        return [release, (Code.OPEN, channel, pc)]
    if operation == CALLI and address == CALLI_RESET:
        return [(Code.RESET, 0, 0)]
    if operation == CALLI and address == CALLI_EXIT and channel == 0:
        return [(Code.RELEAS, number, 0) for number in range(0o20)]
    if operation in ASKS_STATUS:
        return [(Code.GETSTS, channel, 0)]
    if operation == Code.RELEAS:
        return [release]
    if operation in (INPUT, OUTPUT):
        return [(Code.IN if operation == INPUT else Code.OUT, channel, address)]
    return [(Code(operation), channel, address)] if operation in SAME_CALL else []


def advance_of(operation, address, answer):
    """Returns how far the machine continues after a UUO with this answer."""
    done = answer.kind == Kind.DONE
    if operation == INIT:
        return 4 if done else 3
    if operation in SKIPS_AT_DONE:
        skips = done
    elif operation in SKIPS_UNLESS_DONE:
        skips = not done
    elif answer.kind == Kind.VALUE and operation == STATZ:
        skips = not answer.value & address
    else:
        skips = answer.kind == Kind.VALUE and operation == STATO and bool(answer.value & address)
    return 2 if skips else 1


def next_of(operation, kind):
    """Returns where the machine goes on after a UUO that was answered by this kind."""
    goes_on = kind in (Kind.DONE, Kind.VALUE, Kind.STOPPED) or kind == Kind.REFUSED and operation in HAS_ERROR_RETURN
    return Next.ADVANCE if goes_on else Next.STOP


def answer_of(calls, answers):
    """Returns the answer to a UUO: that of its first call that isn't done, or of its last. A channel that isn't open
    counts as closed."""
    for (code, _, _), answer in zip(calls, answers):
        if answer.kind == Kind.NO_CHANNEL and code in (Code.CLOSE, Code.RELEAS):
            answer = Answer(Kind.DONE, 0, [])
        if answer.kind != Kind.DONE:
            break
    return answer


def kinds_of(sent):
    """Returns the kinds of answers that an order may have."""
    if sent.kind != CALL:
        return {ROOM: OF_ROOM, LOGIN: OF_LOGIN}.get(sent.kind, OF_ALL)
    return OF_GETSTS if sent.code == Code.GETSTS else OF_CALLS


def are_changes_for(sent, answer, size):
    """Returns whether an answer may have these words of a core of this size: an EXAMINE returns all in a row, or those
    up to the end of the core; a call returns any; other orders return none."""
    if sent.kind == EXAMINE:
        there = min(sent.detail, max(0, size - sent.number))
        if answer.kind not in (Kind.DONE, Kind.ADDRESS_CHECK):
            return not answer.changes
        addresses = [address for address, _ in answer.changes]
        wanted = Kind.DONE if there == sent.detail else Kind.ADDRESS_CHECK
        return answer.kind == wanted and addresses == list(range(sent.number, sent.number + there))
    if sent.kind == CALL:
        return all(address < size for address, _ in answer.changes)
    return not answer.changes


class _Machine(NamedTuple):
    """A machine's memory, as a LOGIN or a UUO gives it."""

    accumulators: Memory
    memory: Memory
    compare: Compare

    def check(self, size):
        """Refuses a memory that is smaller than a core."""
        if len(self.memory) < size or len(self.accumulators) < ACCUMULATORS:
            raise ServiceError(Error.SHORT_MEMORY)

    def put(self, address, word):
        """Puts a word; addresses below 20 (octal) are accumulators."""
        (self.accumulators if address < ACCUMULATORS else self.memory)[address] = word


class _Copy:
    """A copy of the core that the service has for a job, and the pieces of it in which the machine may have other
    words. In debug mode a piece has one word."""

    def __init__(self, size, machine):
        self.words = array("Q", bytes(8 * size))
        self.words[FIRST_FREE] = 0o140
        self.machine = machine
        self.grain = 1 if machine and machine.compare is Compare.DEBUG else PIECE
        self.touched = set()
        self.needs_all = True  # all words are compared before the next UUO: after a LOGIN, or if nothing was named

    def touch(self, first, past):
        """Notes that the machine may have other words from one address to before another."""
        past = min(past, len(self.words))
        if first < past:
            self.touched.update(range(max(first, 0) // self.grain, (past - 1) // self.grain + 1))

    def put(self, first, words):
        """Puts words that the machine doesn't have yet, up to the end of the core."""
        words = words[: max(0, len(self.words) - first)]
        self.words[first : first + len(words)] = array("Q", words)
        self.touch(first, first + len(words))

    def put_changes(self, changes):
        """Puts the words of an answer, which the machine doesn't have yet."""
        for address, word in changes:
            self.words[address] = word
        self.touched.update(address // self.grain for address, _ in changes)

    def forget_touched(self):
        """Notes that the copy has the machine's words."""
        self.touched.clear()
        self.needs_all = False

    def areas(self, compare):
        """Returns the first address and the one after the last of what is compared: all, or what was touched."""
        if self.needs_all or compare is not Compare.TOUCHED:
            return [(ACCUMULATORS, len(self.words))]
        areas = []
        for piece in sorted(self.touched):
            first, past = max(piece * PIECE, ACCUMULATORS), min((piece + 1) * PIECE, len(self.words))
            if areas and areas[-1][1] == first:
                areas[-1] = areas[-1][0], past
            else:
                areas.append((first, past))
        return areas

    def check_missed(self, runs):
        """Refuses words that differ and weren't reported, in debug mode."""
        if self.needs_all or self.machine.compare is not Compare.DEBUG:
            return
        for first, words in runs:
            for address in range(first, first + len(words)):
                if address not in self.touched:
                    raise ServiceError(Error.MISSED, address=address)


class _Exchange:
    """An exchange that was begun: how far its orders are written and its answers read."""

    def __init__(self, orders, timeout):
        self.rest = memoryview(b"".join(data for data, _ in orders))
        self.sent = [sent for _, sent in orders]
        self.answers = []
        self.deadline = time.monotonic() + timeout / 1000 if timeout else None

    def time_left(self):
        """Returns the milliseconds until the deadline, or None."""
        return None if self.deadline is None else max(0, self.deadline - time.monotonic()) * 1000


class _Uuo(NamedTuple):
    """A UUO whose orders are sent."""

    job: int
    operation: int
    address: int
    pc: int
    calls: List[Tuple[Code, int, int]]
    machine: _Machine


class Service:
    """A process of `filser wire` that has an image to itself until it is stopped."""

    def __init__(self, program: Union[str, os.PathLike[str]], image: Union[str, os.PathLike[str]], form: int = 1,
                 stderr: Union[None, int, IO[Any]] = None, timeout: int = 0, shares_group: bool = False) -> None:
        """Starts the program, and waits until it serves the image.

        Its standard error goes to `stderr`, as of `subprocess.Popen`, or where this process's own goes. `timeout` is
        how long an exchange may take, in milliseconds; 0 is as long as it takes. The program runs in a session of its
        own, so that what the terminal sends to this process, such as an interrupt, doesn't end it; with `shares_group`
        it stays in this process's group."""
        self._has_ended = self._has_failed = False
        self._held = bytearray()
        self._orders = []  # each the bytes of an order, and what is left of it after it is written
        self._cores = {}  # by job
        self._out = set()  # the jobs that have logged out
        self._begun = None  # an exchange of `begin` or `begin_uuo`, and its UUO
        self._timeout, self._wake = timeout, ()
        _check_ranges((timeout, 1 << 31), (form - 1, 2))
        words = [os.fspath(program), "wire", "--form", str(form), "--", os.fspath(image)]
        try:
            self._process = subprocess.Popen(words, bufsize=0, stdin=subprocess.PIPE, stdout=subprocess.PIPE,
                                             stderr=stderr, start_new_session=not shares_group)
        except OSError as error:
            raise ServiceError(Error.NOT_FOUND, text=str(error)) from error
        try:
            self._prepare()
            self.room()
        except ServiceError as error:
            if error.error not in (Error.ENDED, Error.PROTOCOL):
                raise ServiceError(error.error, self.stop()) from error
            raise self._not_started(image) from error
        except BaseException:
            self.stop()
            raise

    def _prepare(self):
        """Makes what waits for answers and for `interrupt`."""
        self._to, self._from = self._process.stdin.fileno(), self._process.stdout.fileno()
        self._wake = os.pipe()
        for file in (self._to, self._from, *self._wake):
            os.set_blocking(file, False)
        self._poll = select.poll()
        self._poll.register(self._from, select.POLLIN)
        self._poll.register(self._wake[0], select.POLLIN)

    def _not_started(self, image):
        """Returns the error of a program that has printed a line instead of an answer."""
        self._process.stdin.close()
        exchange = _Exchange([], self._timeout)
        try:
            while len(self._held) < MOST_PRINTED and self._poll.poll(exchange.time_left()):
                self._read()
        except ServiceError:
            pass  # it has printed all
        text = self._held[:MOST_PRINTED].decode("latin-1").split("\n")[0]
        error = Error.NOT_STARTED
        if text.startswith("?"):
            error = Error.IN_USE if _is_in_use(image) else Error.IMAGE_REFUSED
        return ServiceError(error, self.stop(), text)

    def __enter__(self) -> Service:
        return self

    def __exit__(self, *_: object) -> None:
        self.stop()

    def stop(self) -> int:
        """Ends the exchange, waits for the program, and returns its exit status. A program that hasn't ended after the
        timeout is killed, which loses nothing that was answered DONE. If answers are unread, the status is 4."""
        self._has_ended, self._begun = True, None
        self._process.stdin.close()
        self._process.stdout.close()  # a program that has answers to write waits until they are read
        wake, self._wake = self._wake, ()
        for file in wake:
            os.close(file)
        try:
            return self._process.wait(self._timeout / 1000 if self._timeout else None)
        except subprocess.TimeoutExpired:
            self._process.kill()
            return self._process.wait()

    @property
    def has_ended(self) -> bool:
        """Whether the exchange has ended, so that nothing is left but `stop`."""
        return self._has_ended and self._begun is None

    def interrupt(self) -> None:
        """Ends the exchange that runs, or the next one, with `Error.INTERRUPTED`. It may be called from any thread, but
        not while `stop` runs."""
        if self._wake:
            try:
                os.write(self._wake[1], b"i")
            except BlockingIOError:
                pass  # it is interrupted already

    # Orders that are collected until `send`.

    def add_login(self, job: int, project: int, programmer: int, words: int, accumulators: Optional[Memory] = None,
                  memory: Optional[Memory] = None, compare: Compare = Compare.ALL) -> None:
        """Collects a LOGIN: the job's core has this number of words.

        UUOs of the job need the machine's memory, here or with each UUO: 16 accumulators, and at least as many words as
        the core, of which the first 16 aren't used. Both are lists, arrays of type "Q", which are compared much faster,
        or the like. They must keep being the machine's memory until the job logs in again or out."""
        self._check_running()
        _check_ranges((job, 256), (words, 1 << 32), (project - 1, RIGHT_HALF), (programmer - 1, RIGHT_HALF))
        machine = _Machine((), (), compare)
        if accumulators is not None and memory is not None:
            machine = _Machine(accumulators, memory, compare)
            machine.check(words if words <= MOST_CORE else 0)
        owner = [halves(project, programmer)]
        self._add(order(LOGIN, job=job, number=words, words=owner), Sent(LOGIN, 0, job, words, 0, owner, machine))

    def add_deposit(self, job: int, address: int, words: Iterable[int]) -> None:
        """Collects a DEPOSIT of words at an address and those after it."""
        self._check_job(job)
        words = _checked(words)
        _check_ranges((address, CORE_LIMIT + 1), (address + len(words), CORE_LIMIT + 1))
        self._add(order(DEPOSIT, job=job, number=address, words=words), Sent(DEPOSIT, 0, job, address, 0, words))

    def add_examine(self, job: int, address: int, count: int) -> None:
        """Collects an EXAMINE of words at an address and those after it."""
        self._check_job(job)
        _check_ranges((address, CORE_LIMIT + 1), (count, CORE_LIMIT + 1), (address + count, CORE_LIMIT + 1))
        self._add(order(EXAMINE, job=job, number=address, detail=count), Sent(EXAMINE, 0, job, address, count, ()))

    def add_call(self, job: int, code: int, channel: int = 0, number: int = 0, date: int = 0, minute: int = 0) -> None:
        """Collects a CALL, which is made at this date and minute."""
        self._check_job(job)
        _check_ranges((number, 1 << 32), (date, 1 << 15), (minute, 1440))
        if code not in CODES or code in WITHOUT_NUMBER and number != 0:
            raise ServiceError(Error.BAD_ARGUMENT)
        _check_ranges((channel, 1 if code in WITHOUT_CHANNEL else 256))
        detail = date << 16 | minute
        self._add(order(CALL, code, job, channel, number, detail), Sent(CALL, code, job, number, detail, ()))

    def add_room(self) -> None:
        """Collects a ROOM."""
        self._check_running()
        self._add(order(ROOM), Sent(ROOM, 0, 0, 0, 0, ()))

    def _check_running(self):
        if self._begun:
            raise ServiceError(Error.UNFINISHED)

    def _check_job(self, job):
        self._check_running()
        _check_ranges((job, 256))
        if job in self._out:
            raise ServiceError(Error.NOT_LOGGED_IN)

    def _check_sent(self):
        self._check_running()
        if self._orders:
            raise ServiceError(Error.NOT_SENT)

    def _add(self, data, sent):
        self._orders.append((data, sent))

    def send(self) -> List[Answer]:
        """Sends what was collected, waits, and returns the answers in the same order. They are read while the orders
        are written, so there may be as many as memory has room for."""
        answers = self._complete(self._begin())
        self._has_ended = False
        return answers

    # The same as single orders, each sent at once. They are refused while collected orders wait for `send`.

    def login(self, job: int, project: int, programmer: int, words: int, accumulators: Optional[Memory] = None,
              memory: Optional[Memory] = None, compare: Compare = Compare.ALL) -> Answer:
        """Logs a job in, as of `add_login`: DONE, or ADDRESS_CHECK for a core that is too small or too large. A relay
        answers REFUSED to who may not be this one."""
        return self._send_one(self.add_login, job, project, programmer, words, accumulators, memory, compare)

    def deposit(self, job: int, address: int, words: Iterable[int]) -> Answer:
        """Puts words into a job's core, up to the first that isn't in it."""
        return self._send_one(self.add_deposit, job, address, words)

    def examine(self, job: int, address: int, count: int) -> Answer:
        """Reads words of a job's core, up to the first that isn't in it: see `Answer.words`."""
        return self._send_one(self.add_examine, job, address, count)

    def call(self, job: int, code: int, channel: int = 0, number: int = 0, date: int = 0, minute: int = 0) -> Answer:
        """Makes a call. The answer has each word of the job's core that it may have changed."""
        return self._send_one(self.add_call, job, code, channel, number, date, minute)

    def room(self) -> int:
        """Returns the number of blocks that are left."""
        return self._send_one(self.add_room).value

    def _send_one(self, add, *arguments):
        """Sends one order, and returns its answer. If it isn't sent, it isn't collected either."""
        self._check_sent()
        try:
            add(*arguments)
            return self.send()[0]
        except BaseException:
            self._orders = []
            raise

    def logout(self, job: int, date: int = 0, minute: int = 0) -> Answer:
        """Releases all channels of a job, as EXIT does, and frees the copy of its core: orders for the job are then
        refused until it logs in again. The answer is that of the first RELEAS that wasn't done; then the job stays
        logged in."""
        self._check_sent()
        if job not in self._cores:
            raise ServiceError(Error.NOT_LOGGED_IN)
        calls = [(Code.RELEAS, channel, 0) for channel in range(0o20)]
        for code, channel, number in calls:
            self.add_call(job, code, channel, number, date, minute)
        answer = answer_of(calls, self.send())
        if answer.kind == Kind.DONE:
            self._out.add(job)
            del self._cores[job]
        return answer

    # UUOs of a running machine.

    def touched(self, job: int, first: int, count: int) -> None:
        """Notes that a machine has changed words: any number of times between two UUOs, in any order. What is noted is
        stored until a UUO that is sent carries it, whatever becomes of those before. Words outside the core, and jobs
        that aren't logged in, don't matter."""
        if job in self._cores:
            self._cores[job].touch(first, first + count)

    def uuo(self, job: int, instruction: int, address: int, accumulators: Optional[Memory] = None,
            memory: Optional[Memory] = None, pc: int = 0, date: int = 0, minute: int = 0,
            changed: Optional[Tuple[int, int]] = None) -> Outcome:
        """Does a UUO, and returns an `Outcome`.

        `instruction` is its word and `address` its effective address. `pc` is what the machine's PC had when it fetched
        the instruction; under XCT the address of the first XCT, after which the machine goes on. It matters to INIT,
        which has two more words there. `accumulators` and `memory` may be left out if the LOGIN had them.

        `changed` may be a first and a last address: the machine has changed no other words and accumulators since `uuo`
        was last called for this job, whatever came of that call. Then these are compared with what the service has, as
        `Compare.TOUCHED` says. If another exception than `ServiceError` leaves this function, the caller has to name
        the words again."""
        begun = self._begin_uuo(job, instruction, address, accumulators, memory, pc, date, minute, changed)
        return self._finish_uuo(self._complete(begun[0]), *begun) if begun else NOT_MINE

    def begin_uuo(self, job: int, instruction: int, address: int, accumulators: Optional[Memory] = None,
                  memory: Optional[Memory] = None, pc: int = 0, date: int = 0, minute: int = 0,
                  changed: Optional[Tuple[int, int]] = None) -> bool:
        """Begins a UUO for an event loop, without waiting, and returns whether it is the service's: then `advance_uuo`
        has to be called until it returns an outcome, each time after what `waits_for` returns. Until then other methods
        are refused with `Error.UNFINISHED`, and the machine mustn't run on, nor change its memory."""
        self._begun = self._begin_uuo(job, instruction, address, accumulators, memory, pc, date, minute, changed)
        return self._begun is not None

    def advance_uuo(self) -> Optional[Outcome]:
        """Goes on with a UUO without waiting; returns its outcome, or None if it isn't complete yet."""
        begun = self._advance(True)
        return None if begun is None else self._finish_uuo(self._take_answers(begun[0]), *begun)

    def begin(self) -> None:
        """Begins to send what was collected, for an event loop, without waiting: as `begin_uuo`, with `advance`."""
        self._check_running()
        self._begun = self._begin(), None

    def advance(self) -> Optional[List[Answer]]:
        """Goes on with what `begin` has begun, without waiting; returns the answers, or None if it isn't complete."""
        begun = self._advance(False)
        if begun is None:
            return None
        answers = self._take_answers(begun[0])
        self._has_ended = False
        return answers

    def waits_for(self) -> Waits:
        """Returns what the exchange that was begun waits for."""
        if not self._begun:
            raise ServiceError(Error.BAD_ARGUMENT)
        exchange = self._begun[0]
        left = exchange.time_left()
        return Waits(self._from, self._to if exchange.rest else -1, self._wake[0], -1 if left is None else int(left))

    def _begin_uuo(self, job, instruction, address, accumulators, memory, pc, date, minute, changed):
        """Begins a UUO, and returns the exchange and the UUO; None if it isn't the service's."""
        copy = self._cores.get(job)
        if changed is not None:
            self.touched(job, changed[0], changed[1] - changed[0] + 1)
        elif copy and copy.machine.compare is Compare.ALL:
            copy.needs_all = True  # whatever a later call names
        self._check_sent()
        _checked([instruction])
        _check_ranges((job, 256), (address, CORE_LIMIT), (pc, CORE_LIMIT), (date, 1 << 15), (minute, 1440))
        calls = calls_of(instruction >> 27, instruction >> 23 & 0o17, address, pc)
        if not calls:
            return None
        if copy is None:
            raise ServiceError(Error.NOT_LOGGED_IN)
        machine = copy.machine
        if accumulators is not None and memory is not None:
            machine = machine._replace(accumulators=accumulators, memory=memory)
        if changed is not None and machine.compare is Compare.ALL:
            machine = machine._replace(compare=Compare.TOUCHED)
        if not len(machine.accumulators):
            raise ServiceError(Error.NO_MACHINE)
        uuo = _Uuo(job, instruction >> 27, address, pc, calls, machine)
        try:
            self._add_changes(copy, uuo)
            self._add_calls(uuo, date, minute)
        except BaseException:
            self._orders = []
            raise
        return self._begin(), uuo

    def _add_changes(self, copy, uuo):
        """Collects deposits of the words that differ from the service's core.

        This is right whatever a call reads, and doesn't depend on it: the copy has what the core of the service has,
        since only deposits and the words that answers return change that core, so after these deposits it is the
        machine's memory. An unchanged piece costs one comparison."""
        machine = uuo.machine
        machine.check(len(copy.words))
        runs = []
        for first, past in copy.areas(machine.compare):
            runs += _differences(machine.memory, copy.words, first, past)
        copy.check_missed(runs)
        for place, words in _differences(machine.accumulators, copy.words, 0, ACCUMULATORS) + runs:
            self.add_deposit(uuo.job, place, words)

    def _add_calls(self, uuo, date, minute):
        """Collects the calls of a UUO. OPEN reads three words; the first one of an INIT is its effective address, so
        that takes the place of the instruction in the service's copy, and is corrected before the next UUO."""
        for code, channel, number in uuo.calls:
            if uuo.operation == INIT and code == Code.OPEN:
                self.add_deposit(uuo.job, uuo.pc, [uuo.address])
            self.add_call(uuo.job, code, channel, number, date, minute)

    def _finish_uuo(self, answers, exchange, uuo):
        """Puts what a UUO has changed into the machine's memory, and returns its outcome. All deposits were done, or
        nothing was since the disk had failed: a call that ran without them has done something else than the machine
        wanted."""
        pairs = list(zip(exchange.sent, answers))
        if any(sent.kind == DEPOSIT and answer.kind not in (Kind.DONE, Kind.FAILED) for sent, answer in pairs):
            raise ServiceError(Error.PROTOCOL)
        made = [answer for sent, answer in pairs if sent.kind == CALL]
        for answer in made:
            for place, word in answer.changes:
                uuo.machine.put(place, word)
        self._cores[uuo.job].forget_touched()
        answer = self._settle(self._cores[uuo.job], uuo, answer_of(uuo.calls, made))
        self._has_ended = False
        advance = advance_of(uuo.operation, uuo.address, answer)
        return Outcome(advance, answer.kind, answer.value, next_of(uuo.operation, answer.kind))

    def _settle(self, copy, uuo, answer):
        """Puts what a monitor puts into the machine's memory besides what a call does, and returns the answer to the
        UUO. A GETSTS into a word that doesn't exist is an address check."""
        memory = uuo.machine.memory
        if uuo.operation == INIT:
            copy.touch(uuo.pc, uuo.pc + 1)  # the copy doesn't have the instruction
        elif uuo.operation == Code.GETSTS and uuo.address >= len(copy.words):
            return Answer(Kind.ADDRESS_CHECK, 0, [])
        elif uuo.operation == Code.GETSTS and answer.kind == Kind.VALUE:
            uuo.machine.put(uuo.address, answer.value)
            copy.touch(uuo.address, uuo.address + 1)
        elif (uuo.operation, uuo.address, answer.kind) == (CALLI, CALLI_RESET, Kind.DONE):
            if memory[START_ADDRESS] >> 18:
                memory[FIRST_FREE] = memory[FIRST_FREE] & ~RIGHT_HALF | memory[START_ADDRESS] >> 18
                copy.touch(FIRST_FREE, FIRST_FREE + 1)
        return answer

    # The exchange.

    def _begin(self):
        """Begins to send the orders, and returns the exchange. The service has ended until its caller has what the
        answers say: whatever interrupts this leaves it so, since later answers couldn't be told apart."""
        self._check_running()
        orders, self._orders = self._orders, []
        if self._has_ended:
            raise ServiceError(Error.ENDED)
        self._has_ended = True
        exchange = _Exchange(orders, self._timeout)
        if orders:
            self._check_silence()
            self._write(exchange)
            if exchange.rest:
                self._poll.register(self._to, select.POLLOUT)
        return exchange

    def _check_silence(self):
        """Refuses what comes before any order is written."""
        ready = dict(self._poll.poll(0))
        if self._wake[0] in ready:
            raise ServiceError(Error.INTERRUPTED)
        if ready:
            self._read()
            raise ServiceError(Error.PROTOCOL)

    def _complete(self, exchange):
        """Waits until an exchange is complete, and returns the answers."""
        while len(exchange.answers) < len(exchange.sent):
            if not self._go_on(exchange, exchange.time_left()):
                raise ServiceError(Error.TIMED_OUT)
        return self._take_answers(exchange)

    def _advance(self, is_uuo):
        """Goes on with what was begun, and returns it if it is complete. What interrupts this has ended it."""
        if not self._begun or (self._begun[1] is not None) != is_uuo:
            raise ServiceError(Error.BAD_ARGUMENT)
        begun, self._begun = self._begun, None
        exchange = begun[0]
        if len(exchange.answers) < len(exchange.sent) and not self._go_on(exchange, 0) and exchange.time_left() == 0:
            raise ServiceError(Error.TIMED_OUT)
        if len(exchange.answers) >= len(exchange.sent):
            return begun
        self._begun = begun
        return None

    def _go_on(self, exchange, wait):
        """Waits at most this long, writes and reads what is ready, and returns whether anything was."""
        ready = self._poll.poll(wait)
        for stream, _ in ready:
            if stream == self._wake[0]:
                raise ServiceError(Error.INTERRUPTED)
            if stream == self._from:
                self._read()
                self._split(exchange.answers)
            elif exchange.rest:
                self._write(exchange)
                if not exchange.rest:
                    self._poll.unregister(self._to)
        return bool(ready)

    def _take_answers(self, exchange):
        """Checks the answers, repeats in the copies what the orders have done, and returns the answers."""
        if len(exchange.answers) > len(exchange.sent) or self._held:
            raise ServiceError(Error.PROTOCOL)
        for sent, answer in zip(exchange.sent, exchange.answers):
            self._check_answer(sent, answer)
            self._copy(sent, answer)
        return exchange.answers

    def _check_answer(self, sent, answer):
        """Refuses what can't be the answer to an order, by the rules of docs/EMULATORS.md: it must not reach the copy
        or the machine."""
        copy = self._cores.get(sent.job)
        is_empty = sent.kind == DEPOSIT and not sent.words or sent.kind == EXAMINE and sent.detail == 0
        kind = int(answer.kind)
        is_good = kind in kinds_of(sent)
        is_good &= answer.value < (WORD_LIMIT if kind in HAVE_VALUE else 1)
        if sent.kind == LOGIN and kind == Kind.DONE:
            is_good &= LEAST_CORE <= sent.number <= MOST_CORE
        if sent.kind != LOGIN and kind == Kind.NO_JOB:
            is_good &= copy is None
        if self._has_failed and sent.kind != ROOM and not is_empty:
            is_good &= kind == Kind.FAILED
        if not is_good or not are_changes_for(sent, answer, 0 if copy is None else len(copy.words)):
            raise ServiceError(Error.PROTOCOL)

    def _copy(self, sent, answer):
        """Repeats in the copy of a core what an order has done. The machine doesn't have these words yet."""
        copy = self._cores.get(sent.job)
        self._has_failed |= answer.kind in (Kind.DEVICE, Kind.FAILED)
        if sent.kind == LOGIN and answer.kind == Kind.DONE:
            self._cores[sent.job] = _Copy(sent.number, sent.machine)
            self._out.discard(sent.job)
        elif sent.kind == DEPOSIT and answer.kind in (Kind.DONE, Kind.ADDRESS_CHECK) and copy is not None:
            copy.put(sent.number, sent.words)
        elif sent.kind == CALL and copy is not None:
            copy.put_changes(answer.changes)

    def _write(self, exchange):
        """Writes what the pipe takes: all if nobody reads any longer, because then the answers end."""
        try:
            exchange.rest = exchange.rest[os.write(self._to, exchange.rest) :]
        except BlockingIOError:
            pass
        except BrokenPipeError:
            exchange.rest = exchange.rest[:0]

    def _read(self):
        """Reads what is available."""
        data = os.read(self._from, 1 << 16)
        if not data:
            raise ServiceError(Error.ENDED)
        self._held += data

    def _split(self, answers):
        """Takes the complete answers out of the bytes that were read."""
        place, held = 0, memoryview(self._held)
        try:
            while len(held) - place >= RECORD.size:
                found = split_answer(held[place:])
                if found is None:
                    break
                answers.append(found[0])
                place += found[1]
        finally:
            held.release()
        del self._held[:place]


def _is_in_use(image):
    """Returns whether another process has locked the image, as a service does."""
    try:
        file = os.open(image, os.O_RDONLY | os.O_NONBLOCK)
    except OSError:
        return False
    try:
        fcntl.flock(file, fcntl.LOCK_SH | fcntl.LOCK_NB)
    except BlockingIOError:
        return True
    except OSError:
        return False
    finally:
        os.close(file)
    return False


def _check_ranges(*pairs):
    """Refuses a number that is negative, or not below its limit."""
    for number, limit in pairs:
        if not isinstance(number, int) or not 0 <= number < limit:
            raise ServiceError(Error.BAD_ARGUMENT)


def _checked(words):
    """Returns words as a list, and refuses what isn't a whole number below 2^36."""
    try:
        words = [operator.index(word) for word in words]
    except TypeError as error:
        raise ServiceError(Error.BAD_WORD) from error
    if words and not 0 <= min(words) <= max(words) < WORD_LIMIT:
        raise ServiceError(Error.BAD_WORD)
    return words


def _view_of(words):
    """Returns the bytes of an array of words of 64 bits, which are compared fast; None of a list or the like."""
    try:
        view = memoryview(words)
    except TypeError:
        return None
    return view.cast("B") if view.format in ("Q", "L") and view.itemsize == 8 and view.c_contiguous else None


def _pieces_that_differ(words, copy, first, past):
    """Returns where pieces of words begin that differ from the copy. An array is compared as bytes; and all by large
    pieces first."""
    mine, known = _view_of(words), memoryview(copy).cast("B")

    def differ(start, stop):
        if mine is None:
            return list(words[start:stop]) != copy[start:stop].tolist()
        return mine[8 * start : 8 * stop].tobytes() != known[8 * start : 8 * stop].tobytes()

    pieces = []
    for start in range(first, past, LARGE_PIECE):
        stop = min(start + LARGE_PIECE, past)
        if differ(start, stop):
            pieces += [piece for piece in range(start, stop, PIECE) if differ(piece, min(piece + PIECE, stop))]
    return pieces


def _differences(words, copy, first, past):
    """Returns the runs of words from `first` to before `past` that differ from the copy: each its address and its
    words."""
    runs = []
    for start in _pieces_that_differ(words, copy, first, past):
        stop = min(start + PIECE, past)
        for place, (word, old) in enumerate(zip(words[start:stop], copy[start:stop]), start):
            if word == old:
                continue
            if runs and runs[-1][0] + len(runs[-1][1]) == place:
                runs[-1][1].append(word)
            else:
                runs.append((place, [word]))
    return runs
