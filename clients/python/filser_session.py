"""A session of command lines over the wire, for people who have no emulator: what `filser run` does, by calls.

Lines, texts and calls are those of a session (docs/USING.md), except that no call lists a directory, so DIRECTORY is
refused, and that a relay may refuse a LOGIN.
"""

import re
import signal
import sys

from filser import Code, Kind, Service, ServiceError, halves, iowd, sixbit

MOST_BYTES = 255  # of a line
CORE_WORDS = 0o10000
READER, WRITER = 1, 2  # channels
OPEN_WORDS, FILE_WORDS, NEW_WORDS, LIST_WORDS, AREA = 0o30, 0o40, 0o44, 0o50, 0o200
DUMP_MODE = 0o17
BLOCK, RUN_BLOCKS = 128, 16  # words of a block, and blocks that an IN moves
END_OF_FILE = 0o20000

HALF = "((?=[0-7]{1,6}[],])0*[1-7][0-7]*)"
PPN = rf"\[{HALF},{HALF}\]"
SPEC = rf"([A-Z0-9]{{1,6}})(?:\.([A-Z0-9]{{0,3}}))?(?:{PPN})?"
COMMANDS = {name: re.compile(name + rest) for name, rest in [
    ("LOGIN", f" +{PPN}"), ("DIRECTORY", f"(?: +{PPN})?"), ("COPY", f" +{SPEC}={SPEC}"), ("RENAME", f" +{SPEC}={SPEC}"),
    ("DELETE", f" +{SPEC}"), ("TYPE", f" +{SPEC}"), ("PROTECT", f" +{SPEC}<([0-7]{{1,3}})>"),
    ("MAKDIR", f" +{PPN}(?:<([0-7]{{1,3}})>)?"), ("QUOTA", f" +{PPN} ([0-9]{{1,6}})")]}

CODE_TEXTS = {0: "?File not found", 1: "?No such directory", 2: "?Protection failure", 3: "?File being modified",
              4: "?File name already exists", 0o14: "?No room", 0o22: "?Directory not empty"}
KIND_TEXTS = {Kind.STOPPED: "?No room", Kind.NO_JOB: "?Not logged in", Kind.NO_MEMORY: "?No memory",
              Kind.DEVICE: "?Device fault", Kind.FAILED: "?Service stopped", Kind.DATE_RANGE: "?Date out of range"}
BROKEN = {KIND_TEXTS[Kind.DEVICE], KIND_TEXTS[Kind.FAILED]}


class Refused(Exception):
    """The text of a line that is refused."""


def text_of(answer):
    """Returns the text of an answer that isn't DONE."""
    texts, key = (CODE_TEXTS, answer.value) if answer.kind == Kind.REFUSED else (KIND_TEXTS, answer.kind)
    return texts.get(key, "?Illegal sequence")


def word_of(project, programmer):
    """Returns the word of a directory, or 0 for the job's own."""
    return halves(int(project, 8), int(programmer, 8)) if project else 0


def file_of(name, extension, project, programmer):
    """Returns the words of a file: its name, its extension, and its directory."""
    return sixbit(name), sixbit(extension or ""), word_of(project, programmer)


def characters_of(words):
    r"""Returns the characters of words, without nulls.

    >>> characters_of([0o442131446236, 0o064240000000])
    b'HELLO\r\n'
    """
    return bytes(it for word in words for it in (word >> shift & 127 for shift in range(29, 0, -7)) if it)


def lines_of(stream):
    """Yields the lines of a stream, the last one too if no line feed ends it. One that is too long is cut, but is still
    too long."""
    held = b""
    for piece in iter(lambda: stream.readline(4096), b""):
        has_ended = piece.endswith(b"\n")
        held = (held + (piece[:-1] if has_ended else piece))[: MOST_BYTES + 1]
        if has_ended:
            yield held[:-1] if held.endswith(b"\r") and len(held) <= MOST_BYTES else held
            held = b""
    yield held


class Session:
    """A session: its lines by the calls of job 1."""

    def __init__(self, service):
        self._service, self._is_logged_in = service, False

    def answer(self, line):
        """Returns the bytes that a line prints, or raises the text of its refusal."""
        text = line.upper().decode("latin-1") if len(line) <= MOST_BYTES else ""
        name = text.partition(" ")[0]
        found = COMMANDS[name].fullmatch(text) if name in COMMANDS else None
        if not found or name == "QUOTA" and int(found[3]) >= 1 << 18:
            raise Refused("?Command error")
        if name != "LOGIN" and not self._is_logged_in:
            raise Refused("?Not logged in")
        try:
            printed = getattr(self, f"_{name.lower()}")(*found.groups())
        finally:
            if name != "LOGIN":
                self._service.call(1, Code.RESET)
        return b"OK\n" if printed is None else printed

    # Commands, with the groups of their expressions.

    def _login(self, *ppn):
        project, programmer = (int(half, 8) for half in ppn)
        self._need(self._service.login(1, project, programmer, CORE_WORDS))
        self._is_logged_in = True
        return f"Job 1 [{project:o},{programmer:o}]\n".encode()

    def _directory(self, *_):
        raise Refused("?DIRECTORY can't be had over the wire")

    def _copy(self, *groups):
        size = self._look_up(file_of(*groups[4:]))
        self._open(WRITER, Code.ENTER, NEW_WORDS, file_of(*groups[:4]))
        for _ in self._read(size):
            self._call(Code.OUT, WRITER, LIST_WORDS)
        self._call(Code.CLOSE, WRITER, 0)

    def _type(self, *groups):
        size = self._look_up(file_of(*groups))
        return b"".join([characters_of(words) for words in self._read(size)])

    def _rename(self, *groups):
        name, extension, directory = file_of(*groups[:4])
        self._look_up(file_of(*groups[4:]))
        self._deposit(FILE_WORDS, name, extension)
        self._deposit(FILE_WORDS + 3, directory)
        self._call(Code.RENAME, READER, FILE_WORDS)

    def _delete(self, *groups):
        self._look_up(file_of(*groups))
        self._deposit(FILE_WORDS, 0)
        self._call(Code.RENAME, READER, FILE_WORDS)

    def _protect(self, *groups):
        name, extension, directory = file_of(*groups[:4])
        self._look_up((name, extension, directory))
        self._deposit(FILE_WORDS, name, extension, int(groups[4], 8) << 27, directory)
        self._call(Code.RENAME, READER, FILE_WORDS)

    def _makdir(self, project, programmer, protection):
        self._deposit(FILE_WORDS, word_of(project, programmer), int(protection or "0", 8) << 27)
        self._call(Code.MAKDIR, 0, FILE_WORDS)

    def _quota(self, project, programmer, blocks):
        self._deposit(FILE_WORDS, word_of(project, programmer), int(blocks) << 18)
        self._call(Code.QUOTA, 0, FILE_WORDS)

    # Their calls.

    def _need(self, answer):
        """Returns an answer that is DONE."""
        if answer.kind != Kind.DONE:
            raise Refused(text_of(answer))
        return answer

    def _call(self, code, channel, number):
        return self._need(self._service.call(1, code, channel, number))

    def _deposit(self, address, *words):
        self._need(self._service.deposit(1, address, words))

    def _open(self, channel, code, place, file):
        """Opens a channel in dump mode, and looks a file up or enters it."""
        self._deposit(OPEN_WORDS, DUMP_MODE, sixbit("DSK"), 0)
        self._call(Code.OPEN, channel, OPEN_WORDS)
        self._deposit(place, file[0], file[1], 0, file[2])
        self._call(code, channel, place)

    def _look_up(self, file):
        """Looks a file up, and returns what LOOKUP leaves: minus the number of words, or a number of blocks."""
        self._open(READER, Code.LOOKUP, FILE_WORDS, file)
        return self._need(self._service.examine(1, FILE_WORDS + 3, 1)).words[0] >> 18

    def _in(self, count):
        """Returns this many words of the file, which are at the area then, and which the list names."""
        self._deposit(LIST_WORDS, iowd(count, AREA), 0)
        moved = dict(self._call(Code.IN, READER, LIST_WORDS).changes)
        return [moved[AREA + place] for place in range(count)]

    def _read(self, size):
        """Yields the words of the file that was looked up, and checks that it has no more."""
        words = (1 << 18) - size if size >= 1 << 17 else None
        blocks = size if words is None else -(-words // BLOCK)
        whole = max(0, blocks - 1)
        for count in [RUN_BLOCKS * BLOCK] * (whole // RUN_BLOCKS) + [BLOCK] * (whole % RUN_BLOCKS):
            yield self._in(count)
        if blocks:
            count = self._last_count(blocks) if words is None else (words - 1) % BLOCK + 1
            self._call(Code.USETI, READER, blocks)
            yield self._in(count)
        self._deposit(LIST_WORDS, iowd(BLOCK, AREA), 0)
        end = self._service.call(1, Code.IN, READER, LIST_WORDS)
        if end.kind != Kind.STOPPED or not end.value & END_OF_FILE:
            raise Refused(text_of(end))

    def _last_count(self, block):
        """Returns how many words the last block of a large file has: read over different words, those are the same."""
        found = []
        for word in (0, 1):
            self._deposit(AREA, *[word] * BLOCK)
            self._call(Code.USETI, READER, block)
            found.append(self._in(BLOCK))
        return sum(one == other for one, other in zip(*found))


def serve(session, lines):
    """Answers lines, and returns the exit status."""
    refused = first = status = 0
    for number, line in enumerate(lines, 1):
        if not line:
            continue
        try:
            printed = session.answer(line)
        except Refused as reason:
            printed, refused, first = f"{reason}\n".encode(), refused + 1, first or number
            status = 4 if str(reason) in BROKEN else max(status, 1)
        sys.stdout.buffer.write(printed)
        sys.stdout.buffer.flush()
    if refused:
        many = f"{refused} lines were refused, the first is line {first}"
        text = f"line {first} was refused" if refused == 1 else many
        sys.stderr.write(f"filser-relay: standard input: {text}\n")
    return status


def hold_session(program, path, ppn=None):
    """Serves the lines of standard input at a relay's socket, logged in from the start if a PPN is given, and returns
    the exit status."""
    signal.signal(signal.SIGINT, signal.SIG_DFL)
    signal.signal(signal.SIGPIPE, signal.SIG_DFL)
    try:
        with Service(program, path) as service:
            session = Session(service)
            status = serve(session, [f"LOGIN [{ppn.strip('[]')}]".encode()] if ppn else [])
            return status or serve(session, lines_of(sys.stdin.buffer))
    except ServiceError as error:
        sys.stderr.write(f"filser-relay: {error}\n")
        return 4
