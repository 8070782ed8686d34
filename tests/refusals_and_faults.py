#!/usr/bin/env python3
"""Tests what the program refuses, and what it reports if the host fails.

usage: tests/refusals_and_faults.py PROGRAM

The program gets images that were written by hand and files that aren't images; hosts that refuse a call; an input that
breaks off; and arguments that no command takes. Each run is judged by what it prints, by its standard error, by its
exit status, and by the bytes that the image then has. Prints a line for each failed check, and one line at the end.
"""

import ctypes
import errno
import fcntl
import os
import resource
import shutil
import signal
import socket
import struct
import subprocess
import sys
import tempfile

BLOCK = 1024
LIMIT = 60
NOBODY = 65534

# An image of 64 blocks as a new volume has it: block, place and word (octal) of each word that isn't zero.
FRESH = """1 0 465154634562  1 1 1  1 2 100  1 3 1  1 4 11  1 5 17
2 0 465154634562  2 1 1  2 2 100  2 3 1  2 4 11  2 5 17
14 0 777774000000"""

# The same of a volume with the directory [10,20], protection 775, and in it FOO.TXT, protection 057, of 4-Jan-1975,
# with the two words of `HELLO`, carriage return and line feed.
V1 = """1 0 465154634562  1 1 1  1 2 100  1 3 1  1 4 11  1 5 17
2 0 465154634562  2 1 1  2 2 100  2 3 1  2 4 11  2 5 17
14 0 777777400000
15 1 1  15 2 000010000020  15 3 775000000000  15 4 20
16 1 1  16 2 465757000000  16 3 647064000000  16 4 21
17 0 625142000000  17 1 465757000000  17 2 647064000000  17 3 057000007777  17 4 000010000020
17 5 2  17 6 1  17 16 000001000022
18 0 442131446236  18 1 064240000000"""

# A log of one put: the block of V1's master directory, unchanged.
LOG = """4 0 545747000000  4 1 1  4 2 17
5 1 1  5 2 000010000020  5 3 775000000000  5 4 20"""

OPEN_GATE = [(3, place, 0o252525252525) for place in range(128)]
DAMAGED = 1 << 36

LOGIN = b"LOGIN [10,20]\n"
JOB = b"Job 1 [10,20]\n"
FAULT = b"?Device fault\n"
HELLO = b"HELLO\r\n"


def words_of(text):
    """Returns the words of a table."""
    fields = text.split()
    return [(int(b), int(p), int(w, 8)) for b, p, w in zip(fields[::3], fields[1::3], fields[2::3])]


def image_of(text, changes=()):
    """Returns the bytes of an image of 64 blocks with the words of a table, and then with these."""
    image = bytearray(64 * BLOCK)
    for block, place, word in words_of(text) + list(changes):
        at = block * BLOCK + 8 * place
        image[at : at + 8] = word.to_bytes(8, "big")
    return bytes(image)


def logged():
    """Returns V1 with the log after a closed gate."""
    return image_of(V1, words_of(LOG))


def interrupted():
    """Returns the same with an open gate, and with the block of the master directory damaged: the next start has to
    write."""
    return image_of(V1, words_of(LOG) + OPEN_GATE + [(15, 0, 1 << 63)])


def line_of(words):
    """Returns a run's words as they are typed."""
    return " ".join(["filser", *words])


def tells(name, what):
    """Returns what is reported of a file, or of another part of the host."""
    return f"filser: {name}: {what}\n".encode()


def tells_fault(name, what):
    """Returns what is reported of a device that failed in a task on an image: the reason, and what to do then."""
    hint = "after a device fault let the host drop its cache (restart it) before the next start"
    return tells(name, what) + tells(name, hint)


def tells_lines(count, first):
    """Returns what is reported of lines that were refused."""
    if count == 1:
        return tells("standard input", f"line {first} was refused")
    return tells("standard input", f"{count} lines were refused, the first is line {first}")


def as_another():
    """Makes this process run as a user who may do with a file what everybody may."""
    if os.getuid() == 0:
        os.setgroups([])
        os.setgid(NOBODY)
        os.setuid(NOBODY)


def without_writes():
    """Makes writes to a file fail in this process, without ending it."""
    signal.signal(signal.SIGXFSZ, signal.SIG_IGN)
    resource.setrlimit(resource.RLIMIT_FSIZE, (0, 0))


def without_reads():
    """From now on this process can't read a block from a file: the system refuses it, by a filter (seccomp).

    The filter's numbers are those of Linux on an x86-64. It checks the kind of the processor, the call (`read` or
    `pread64`), its file, which is no standard stream, and how many bytes are requested, which are at least those of a
    block. Shorter reads are let through, since the program itself is loaded by them."""
    load, equal, above, at_least, answer = 0x20, 0x15, 0x25, 0x35, 0x06
    refuse, allow = 0x00050000 | errno.EBADF, 0x7FFF0000
    code = [
        (load, 0, 0, 4), (equal, 0, 8, 0xC000003E),
        (load, 0, 0, 0), (equal, 1, 0, 0), (equal, 0, 5, 17),
        (load, 0, 0, 16), (above, 0, 3, 2),
        (load, 0, 0, 32), (at_least, 0, 1, BLOCK),
        (answer, 0, 0, refuse), (answer, 0, 0, allow),
    ]
    rules = ctypes.create_string_buffer(b"".join(struct.pack("=HBBI", *rule) for rule in code))
    handed = struct.pack("@HP", len(code), ctypes.addressof(rules))
    system = ctypes.CDLL(None, use_errno=True)
    if system.prctl(38, 1, 0, 0, 0) or system.prctl(22, 2, handed, 0, 0):
        raise OSError(ctypes.get_errno(), "no filter")


class Tries:
    """Runs of the program, each case in its own folder."""

    def __init__(self, program):
        self.program = program
        self.folder = None
        self.count = 0
        self.failed = 0

    def enter(self, folder):
        """Makes runs use this folder, which is new and open to all."""
        os.mkdir(folder)
        os.chmod(folder, 0o755)
        self.folder = folder

    def path(self, name):
        return os.path.join(self.folder, name)

    def write(self, name, data):
        with open(self.path(name), "wb") as file:
            file.write(data)

    def judge(self, good, what):
        """Counts a check, and reports what is wrong."""
        self.count += 1
        if not good:
            self.failed += 1
            print(f"{os.path.basename(self.folder)}: {what}")

    def run(self, words, data, host=None, stream=None):
        """Returns what a run prints, what it reports, and its status: over these bytes, or this stream, and under this
        host."""
        given = {"input": data} if stream is None else {"stdin": stream}
        done = subprocess.run([self.program, *words], capture_output=True, cwd=self.folder, check=False, timeout=LIMIT,
                              preexec_fn=host, **given)
        return done.stdout, done.stderr, done.returncode

    def may_filter(self):
        """Returns whether the system accepts a filter of calls from a process that requests one."""
        try:
            self.run(["--version"], b"", host=without_reads)
        except subprocess.SubprocessError:
            return False
        return True

    def expect(self, words, data, output, status, told=b"", **how):
        """Checks that a run prints this, reports this, and has this status."""
        printed, said, code = self.run(words, data, **how)
        self.judge((printed, said, code) == (output, told, status),
                   f"{line_of(words)}: status {code} and not {status}; {printed!r} and not {output!r}; "
                   f"tells {said!r} and not {told!r}")

    def expect_failed(self, told, host=None):
        """Checks that a run on the image ends before its start, since the host fails, and that this is reported of
        it."""
        self.expect(["run", "V.IMG"], LOGIN, FAULT, 4, tells("V.IMG", told), host=host)

    def expect_faulty(self, told, host):
        """Checks that a start ends with a device fault, and that this is reported of it."""
        self.expect(["run", "V.IMG"], LOGIN, FAULT, 4, tells_fault("V.IMG", told), host=host)

    def expect_unmade(self, name, told, host):
        """Checks that making an image fails because of the device, and that nothing is left at its place."""
        self.expect(["init", name, "64"], b"", FAULT, 4, tells(name, told), host=host)
        self.judge(not os.path.lexists(self.path(name)), f"{name} is there")

    def expect_refused(self, image, output):
        """Checks that a run on a file of these bytes is refused with this text, and leaves them unchanged."""
        self.write("V.IMG", image)
        self.expect(["run", "V.IMG"], LOGIN, output, 3)
        self.same("V.IMG", image)

    def expect_mistaken(self, words, told):
        """Checks that words are refused: nothing is printed, the report begins like this, and no file is made."""
        printed, said, code = self.run(words, b"")
        self.judge((printed, code) == (b"", 2) and said.startswith(told),
                   f"{line_of(words)}: status {code} and not 2; {printed!r}; tells {said!r} and not {told!r}")
        self.judge(not os.listdir(self.folder), f"{line_of(words)}: it made {os.listdir(self.folder)}")

    def expect_shown(self, words, text):
        """Checks that what was requested is printed, this among it, and that nothing is reported."""
        printed, said, code = self.run(words, b"")
        self.judge((said, code) == (b"", 0) and text in printed,
                   f"{line_of(words)}: status {code} and not 0; {printed[:80]!r} without {text!r}; tells {said!r}")

    def same(self, name, data):
        """Checks that a file of the host has these bytes."""
        with open(self.path(name), "rb") as file:
            self.judge(file.read() == data, f"{name} has other bytes")


def files_on_an_image(tries):
    """Tests that an image is checked, a file is put there and read back, and its directory listed."""
    tries.write("V1.IMG", image_of(V1))
    tries.expect(["check", "V1.IMG"], b"", b"Volume of 64 blocks, room 45\n", 0)
    tries.expect(["put", "V1.IMG", "10,20", "BAR.TXT", "--date", "4095"], HELLO, b"OK\n", 0)
    tries.expect(["get", "V1.IMG", "10,20", "BAR.TXT"], b"", HELLO, 0)
    listing = (b"BAR    TXT     1  <057>   4-Jan-1975\nFOO    TXT     1  <057>   4-Jan-1975\n"
               b"Total 2 blocks in 2 files [10,20]\n")
    tries.expect(["list", "V1.IMG"], b"", listing, 0)


def a_directory_in_place_of_an_image(tries):
    """Tests that a directory of the host isn't an image, and that its name is taken."""
    os.mkdir(tries.path("V.IMG"))
    tries.expect_failed("Is a directory (os error 21)")
    told = tells("V.IMG", "File exists (os error 17)")
    tries.expect(["init", "V.IMG", "64"], b"", b"?Image exists\n", 3, told)
    tries.judge(os.listdir(tries.path("V.IMG")) == [], "the directory has something in it")


def images_of_an_odd_size(tries):
    """Tests that an image with a byte more, or one less, is refused by its size alone."""
    for image in [image_of(V1) + b"\0", image_of(V1)[:-1]]:
        tries.expect_refused(image, b"?Not a volume\n")


def an_image_that_is_not_read(tries):
    """Tests an image that the host doesn't open, and one that it opens and doesn't read."""
    denied = "Permission denied (os error 13)"
    os.mkdir(tries.path("KEPT"))
    os.chmod(tries.path("KEPT"), 0o555)
    tries.expect_unmade("KEPT/V.IMG", denied, as_another)
    os.chmod(tries.path("KEPT"), 0o755)
    image = interrupted()
    tries.write("V.IMG", image)
    os.chmod(tries.path("V.IMG"), 0)
    tries.expect_failed(denied, as_another)
    os.chmod(tries.path("V.IMG"), 0o644)
    tries.same("V.IMG", image)
    if tries.may_filter():
        tries.expect_faulty("Bad file descriptor (os error 9)", without_reads)
        tries.same("V.IMG", image)
    else:
        print("an_image_that_is_not_read: not tried where reads fail, since this system takes no filter")


def an_image_that_is_only_read(tries):
    """Tests that an image that can't be written is served if nothing has to be written, and otherwise not; a host that
    lets it be written recovers it first."""
    whole, image = logged(), interrupted()
    tries.write("V.IMG", whole)
    tries.expect(["run", "V.IMG"], LOGIN, JOB, 0, host=without_writes)
    tries.same("V.IMG", whole)
    tries.write("V.IMG", image)
    tries.expect_faulty("File too large (os error 27)", without_writes)
    tries.same("V.IMG", image)
    tries.expect(["run", "V.IMG"], LOGIN, JOB, 0)
    tries.same("V.IMG", whole)


def an_image_that_is_made_and_not_written(tries):
    """Tests that of an image that is made and then can't be written nothing is left."""
    tries.expect_unmade("V.IMG", "File too large (os error 27)", without_writes)


def an_image_in_use(tries):
    """Tests that an image that is locked isn't served, and stays as it was; one that is no longer locked is served."""
    image = interrupted()
    tries.write("V.IMG", image)
    with open(tries.path("V.IMG"), "rb") as other:
        fcntl.flock(other, fcntl.LOCK_EX)
        tries.expect_failed("in use by another process")
        tries.same("V.IMG", image)
        fcntl.flock(other, fcntl.LOCK_UN)
        tries.expect(["run", "V.IMG"], LOGIN, JOB, 0)


def an_input_that_breaks_off(tries):
    """The line that an input broke off in is told: the third, after two that were answered.

    A socket whose other end is closed before all was read there gives what it has, and then fails."""
    far, near = socket.socketpair()
    with near:
        near.sendall(b"unread")
        far.sendall(b"LOGIN [10,20]\nFOO\nDIR")
        far.close()
        told = tells("standard input", "line 3: Connection reset by peer (os error 104)")
        # The run has status 4, so it doesn't report which line was refused.
        tries.expect([], None, JOB + b"?Command error\n", 4, told, stream=near)


def records_that_break_off(tries):
    """Tests that the records of `wire` aren't lines, so only the fault is reported, after the answer to the one that
    was whole: ROOM, which has the 48 blocks that a new volume of 64 has left."""
    tries.write("V.IMG", image_of(FRESH))
    far, near = socket.socketpair()
    with near:
        near.sendall(b"unread")
        far.sendall(b"\5" + bytes(15) + b"\5")
        far.close()
        told = tells("standard input", "Connection reset by peer (os error 104)")
        tries.expect(["wire", "V.IMG"], None, b"\x0c" + bytes(10) + b"\x30" + bytes(4), 4, told, stream=near)
    tries.same("V.IMG", image_of(FRESH))


def an_image_is_made(tries):
    """Tests that a new image has the bytes of a new volume, and is served."""
    tries.expect(["init", "V.IMG", "64"], b"", b"", 0)
    tries.same("V.IMG", image_of(FRESH))
    tries.expect(["run", "V.IMG"], LOGIN + b"DIRECTORY\n", JOB + b"?No such directory\n", 1, tells_lines(1, 2))
    tries.expect(["run", "V.IMG"], b"", b"", 0)


def names_where_no_image_is_made(tries):
    """Tests that a new image gets no name that is taken, and none in a folder that doesn't exist."""
    tries.write("V.IMG", image_of(FRESH))
    told = tells("V.IMG", "File exists (os error 17)")
    for blocks in ["128", "64"]:
        tries.expect(["init", "V.IMG", blocks], b"", b"?Image exists\n", 3, told)
        tries.same("V.IMG", image_of(FRESH))
    told = tells("NONE/V.IMG", "No such file or directory (os error 2)")
    tries.expect(["init", "NONE/V.IMG", "64"], b"", FAULT, 4, told)


def an_image_is_served(tries):
    """Tests that the image written by hand is served in place."""
    image = image_of(V1)
    tries.write("V1.IMG", image)
    listing = JOB + b"FOO    TXT     1  <057>   4-Jan-1975\nTotal 1 blocks in 1 files [10,20]\n"
    tries.expect(["run", "V1.IMG"], LOGIN + b"DIRECTORY\n", listing, 0)
    tries.expect(["run", "V1.IMG"], b"DIRECTORY\n", b"?Not logged in\n", 1, tells_lines(1, 1))
    tries.expect(["run", "V1.IMG"], b"LOGIN [0,20]\n", b"?Command error\n", 1, tells_lines(1, 1))
    dated = ["run", "V1.IMG", "--date", "4095", "--minute", "605"]
    tries.expect(dated, b"login [10,20]\ndirectory\n", listing, 0)
    tries.same("V1.IMG", image)


def a_script_is_served(tries):
    """Tests that a call script is served: if something was not done it has status 1, and the image stays as it was."""
    image = image_of(V1)
    tries.write("V1.IMG", image)
    lines = b"1 LOGIN 10,20 1000\n1 DEP 200 17\n1 EXA 200"
    tries.expect(["calls", "V1.IMG"], lines, b"DONE\nDONE\nVALUE 000000000017\n", 0)
    tries.expect(["calls", "V1.IMG"], b"1 RESET\n", b"NOJOB\n", 1, tells_lines(1, 1))
    tries.expect(["calls", "V1.IMG"], b"DIRECTORY\n", b"SYNTAX\n", 1, tells_lines(1, 1))
    late = b"filser: --date 32767: this volume has dates up to 4095 (4-Jan-1975)\n"
    tries.expect(["calls", "V1.IMG", "--date", "32767"], b"1 RESET\n", b"DATE\n", 1, late + tells_lines(1, 1))
    tries.same("V1.IMG", image)


def lines_that_are_refused(tries):
    """Tests the number of refused lines, and the number of the first: by the line feeds before it, so empty lines
    count."""
    image = image_of(V1)
    tries.write("V1.IMG", image)
    error, job, absent = b"?Command error\n", JOB, b"?File not found\n"
    for kind, lines, printed, told in [
        ("run", b"", b"", b""),
        ("run", LOGIN + b"\n\n", job, b""),
        ("run", b"\n\r\nFOO\n" + LOGIN, error + job, tells_lines(1, 3)),
        ("run", LOGIN + b"FOO\nFOO\n\nTYPE BAR", job + error * 2 + absent, tells_lines(3, 2)),
        ("run", LOGIN + b"\n\nDELETE BAR", job + absent, tells_lines(1, 4)),
        ("run", b"A" * 255 + b"\n" + b"A" * 256 + b"\n" + b"A" * 1000 + b"\n", error * 3, tells_lines(3, 1)),
        ("run", LOGIN + b"\n" * 300 + b"FOO\n" * 300, job + error * 300, tells_lines(300, 302)),
        ("calls", b"1 LOGIN 10,20 1000\n\n1 EXA 1000\n1 EXA 0", b"DONE\nADDRESS\nVALUE 000000000000\n",
         tells_lines(1, 3)),
        ("calls", b"1 EXA 0\n\nFOO\n1 EXA 0\n", b"NOJOB\nSYNTAX\nNOJOB\n", tells_lines(3, 1)),
    ]:
        tries.expect([kind, "V1.IMG"], lines, printed, 1 if told else 0, told)
    # A file that begins like a refusal isn't one.
    tries.expect(["put", "V1.IMG", "10,20", "Q"], b"?File not found\n", b"OK\n", 0)
    tries.expect(["run", "V1.IMG"], LOGIN + b"TYPE Q\n", job + absent, 0)


def inputs_that_are_no_file(tries):
    """Tests the reports why the input of `put` can't be a file: the first byte that isn't text, a length that isn't one
    of words, or the first word that is too large. Bytes are decimal, and places are counted from 1."""
    image = image_of(V1)
    tries.write("V1.IMG", image)
    put = ["put", "V1.IMG", "10,20", "BAR"]
    hint = "isn't text (1 to 127); --bytes stores any bytes"
    for data, byte, place in [
        (b"\0", 0, 1),
        (b"HELLO\x80\xff", 128, 6),
        (b"HE\xc3\xa9", 195, 3),
        (b"A" * 5000 + b"\0" + b"\xff", 0, 5001),
        (b"\x7f" * 1024 + b"\xc8", 200, 1025),
    ]:
        told = tells("standard input", f"byte {byte} at {place} {hint}")
        tries.expect(put, data, b"?Not ASCII\n", 1, told)
    large, largest = b"\0\0\0\x10\0\0\0\0", b"\0\0\0\x0f\xff\xff\xff\xff"
    for data, told in [
        (b"\0" * 7, "7 bytes, which is no multiple of eight"),
        (large + b"\0", "9 bytes, which is no multiple of eight"),
        (large, "word 1 has bits above its 36"),
        (largest * 700 + b"\x80" + b"\0" * 7 + large, "word 701 has bits above its 36"),
    ]:
        tries.expect(put + ["--words"], data, b"?Bad words\n", 1, tells("standard input", told))
    tries.same("V1.IMG", image)
    tries.expect(put + ["--words"], largest, b"OK\n", 0)
    # Another refusal has no reason besides its text.
    tries.expect(["put", "V1.IMG", "10,77", "BAR"], HELLO, b"?No such directory\n", 1)
    tries.expect(["get", "V1.IMG", "10,20", "NONE"], b"", b"?File not found\n", 1)


def dates_past_the_volume(tries):
    """Tests that a date that no call accepts is reported before anything is served, and that nothing changes."""
    image = image_of(V1)
    tries.write("V1.IMG", image)
    for date, number in [("4096", 4096), ("1975-01-05", 4096), ("1-Feb-2052", 32767)]:
        told = f"filser: --date {number}: this volume has dates up to 4095 (4-Jan-1975)\n".encode()
        dated = ["--date", date]
        refused = b"?Date out of range\n"
        tries.expect(["put", "V1.IMG", "10,20", "BAR", *dated], HELLO, refused, 1, told)
        tries.expect(["get", "V1.IMG", "10,20", "FOO.TXT", *dated], b"", refused, 1, told)
        tries.expect(["run", "V1.IMG", *dated], LOGIN + b"TYPE FOO.TXT\n", JOB + refused, 1, told + tells_lines(1, 2))
        tries.expect(["run", "V1.IMG", *dated], b"", b"", 0, told)
    tries.same("V1.IMG", image)
    # For a file that isn't a volume nothing of the kind is reported.
    tries.write("V.IMG", b"")
    tries.expect(["run", "V.IMG", "--date", "4096"], LOGIN, b"?Not a volume\n", 3)


def spoiled_images(tries):
    """Tests that V1 with a word or two changed is refused, by the block that they are in."""
    for changes, output in [
        ([(14, 0, 0o777777600000)], b"?Bad table block 14\n"),
        ([(14, 0, 0o777777000000), (17, 16, 0o000001000020)], b"?Block 16 reached twice\n"),
        ([(15, 0, DAMAGED)], b"?Bad directory block 15\n"),
        ([(17, 0, DAMAGED)], b"?Bad retrieval block 17\n"),
        ([(18, 5, DAMAGED)], b"?Bad data block 18\n"),
        ([(1, 2, 0o101), (2, 2, 0o101)], b"?Bad home blocks\n"),
    ]:
        tries.expect_refused(image_of(V1, changes), output)


def files_that_are_no_images(tries):
    """Tests a file that doesn't exist, files that aren't images, and a gate that is open over no log."""
    tries.expect_failed("No such file or directory (os error 2)")
    tries.expect_refused(b"", b"?Not a volume\n")
    tries.expect_refused(b"FILSER", b"?Not a volume\n")
    tries.expect_refused(image_of(V1, OPEN_GATE), b"?Bad log\n")


def a_fresh_volume(tries):
    """Tests that without words the input is served on a new volume."""
    tries.expect([], LOGIN, JOB, 0)
    tries.expect([], b"", b"", 0)
    tries.expect([], b"FOO\n", b"?Command error\n", 1, tells_lines(1, 1))


def streams_that_are_missing(tries):
    """Tests that without an input or an output nothing is served, and without a standard error nothing is reported."""
    closed = tells("standard input or output", "it is closed")
    tries.expect([], b"", b"", 4, closed, host=lambda: os.close(0))
    tries.expect([], b"", b"", 4, closed, host=lambda: os.close(1))
    tries.expect([], LOGIN, JOB, 0, host=lambda: os.close(2))
    tries.expect([], b"", b"", 4, host=lambda: os.closerange(0, 3))


def arguments(tries):
    """Tests what goes to the standard error, and what is shown on request."""
    tries.expect_mistaken(["init", "NONE.IMG", "63"], b"error: ")
    tries.expect_mistaken(["check", os.fsdecode(b"\xff.IMG")], b"?Bad argument\nfilser: an argument isn't UTF-8\n")
    tries.expect(["--version"], b"", b"filser 0.1.0\n", 0)
    tries.expect_shown(["help"], b"Usage: filser ")


def expect_argument(tries, words, argument, text):
    """Checks that words are refused, with a report of the argument at fault and the form that it needs."""
    wanted = {
        "PPN": "two octal numbers of 1 to 6 digits, neither of them zero, as 10,20 or [10,20]",
        "NAME": "1 to 6 letters and digits, and at most 3 more after a full stop, as FOO.TXT",
        "--date": "a day from 1964-01-01 to 2052-02-01, as 1975-01-04 or 4-Jan-1975, or its number",
    }
    tries.expect(words, b"", b"", 2, f"?Bad argument\nfilser: {argument} {text}: {wanted[argument]}\n".encode())
    tries.judge(not os.listdir(tries.folder), f"{line_of(words)}: it made {os.listdir(tries.folder)}")


def names_that_name_no_file(tries):
    """Tests directories and files that no name stands for."""
    for owner in ["0,20", "20,0", "10", "10,", "10,x", "10,8", "10,20,30", "1000000,1", "[10,20", "10,20]", "[[10,20]]",
                  "[]", "", " 10,20", "[10,20] ", "(10,20)"]:
        expect_argument(tries, ["get", "V.IMG", owner, "FOO"], "PPN", owner)
        expect_argument(tries, ["put", "V.IMG", owner, "TOOLONG"], "PPN", owner)
        expect_argument(tries, ["list", "V.IMG", owner], "PPN", owner)
    for name in [".TXT", "FOO.TEXT", "TOOLONG", "FOO[10,20]", "longname008.text", "", "F O", "*", "A.B.C"]:
        expect_argument(tries, ["get", "V.IMG", "10,20", name], "NAME", name)
        expect_argument(tries, ["put", "V.IMG", "[10,20]", name, "--date", "4-Foo-1975"], "NAME", name)


def texts_that_name_no_day(tries):
    """Tests dates that are neither a number nor a day of the calendar, whose months have 31 days each."""
    for text in ["1963-12-31", "2052-02-02", "2053-01-01", "1975-13-01", "1975-00-10", "1975-01-00", "1975-01-32",
                 "1975-1-04", "1975-01-4", "75-01-04", "01975-01-04", "1975-01-04-", "1975-01", "1975/01/04",
                 "4-Foo-1975", "4-January-1975", "32-Jan-1975", "0-Jan-1975", "004-Jan-1975", "4-Jan-75", "4-1-1975",
                 "Jan-4-1975", "31-Dec-1963", "2-Feb-2052", "", "x", "0x10", "4095 ", "1975-01-0:", "197/-01-04"]:
        for words in [["run", "V.IMG"], ["calls", "V.IMG"], ["put", "V.IMG", "10,20", "FOO"],
                      ["get", "V.IMG", "10,20", "FOO"]]:
            expect_argument(tries, [*words, "--date", text], "--date", text)


def numbers_out_of_range(tries):
    """Tests numbers that are too small, too large, or not decimal."""
    for words, number, argument in [
        (["init", "V.IMG"], "63", "<BLOCKS>"),
        (["init", "V.IMG"], "131073", "<BLOCKS>"),
        (["init", "V.IMG"], "0x40", "<BLOCKS>"),
        (["run", "V.IMG", "--date"], "32768", "--date <DATE>"),
        (["calls", "V.IMG", "--date"], "32768", "--date <DATE>"),
        (["put", "V.IMG", "10,20", "FOO", "--date"], "99999999999999999999", "--date <DATE>"),
        (["get", "V.IMG", "10,20", "FOO", "--date"], "4294967296", "--date <DATE>"),
        (["run", "V.IMG", "--minute"], "1440", "--minute <N>"),
        (["calls", "V.IMG", "--minute"], "1440", "--minute <N>"),
    ]:
        tries.expect_mistaken(words + [number], f"error: invalid value '{number}' for '{argument}': ".encode())
    tries.expect_mistaken(["run", "V.IMG", "--date=-5"], b"error: invalid value '-5' for '--date <DATE>': ")


def words_that_no_command_takes(tries):
    """Tests words that are too few or too many, and a command that doesn't exist."""
    missing = b"error: the following required arguments were not provided:\n  "
    tries.expect_mistaken(["init", "V.IMG"], missing + b"<BLOCKS>\n")
    tries.expect_mistaken(["run"], missing + b"<IMAGE>\n")
    tries.expect_mistaken(["run", "V.IMG", "W.IMG"], b"error: unexpected argument 'W.IMG' found\n")
    tries.expect_mistaken(["format"], b"error: unrecognized subcommand 'format'\n")


def help_and_version(tries):
    """Tests what shows help, and what shows the version."""
    for words in [["help"], ["-h"], ["--help"]]:
        tries.expect_shown(words, b"\nUsage: filser [")
    tries.expect_shown(["run", "--help"], b"\nUsage: filser run ")
    tries.expect(["-V"], b"", b"filser 0.1.0\n", 0)
    tries.expect(["--version"], b"", b"filser 0.1.0\n", 0)


CASES = [
    files_on_an_image,
    a_directory_in_place_of_an_image,
    images_of_an_odd_size,
    an_image_that_is_not_read,
    an_image_that_is_only_read,
    an_image_that_is_made_and_not_written,
    an_image_in_use,
    an_input_that_breaks_off,
    records_that_break_off,
    an_image_is_made,
    names_where_no_image_is_made,
    an_image_is_served,
    a_script_is_served,
    lines_that_are_refused,
    inputs_that_are_no_file,
    dates_past_the_volume,
    spoiled_images,
    files_that_are_no_images,
    a_fresh_volume,
    streams_that_are_missing,
    arguments,
    names_that_name_no_file,
    texts_that_name_no_day,
    numbers_out_of_range,
    words_that_no_command_takes,
    help_and_version,
]


def main():
    if len(sys.argv) != 2 or not os.access(sys.argv[1], os.X_OK):
        print("usage: tests/refusals_and_faults.py PROGRAM", file=sys.stderr)
        return 2
    with tempfile.TemporaryDirectory() as folder:
        # Another user may not be able to reach the program, so a copy of it is run.
        os.chmod(folder, 0o755)
        program = shutil.copy(sys.argv[1], os.path.join(folder, "filser"))
        os.chmod(program, 0o755)
        tries = Tries(program)
        for case in CASES:
            tries.enter(os.path.join(folder, case.__name__))
            case(tries)
    print(f"refusals_and_faults: {tries.count - tries.failed} as they should be, {tries.failed} not")
    return 1 if tries.failed else 0


if __name__ == "__main__":
    sys.exit(main())
