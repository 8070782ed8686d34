#!/usr/bin/env python3
"""Tests put, get, delete, list, check, convert, migrate and quotas: the output, the exit status, and the bytes left.

usage: tests/put_get_list_convert.py PROGRAM

Prints a line for each failed check, and one line at the end.
"""

import os
import pty
import subprocess
import sys
import tempfile

BLOCK = 1024

# An image of 64 blocks with the directory [10,20], protection 775, and in it FOO.TXT, protection 057, of 4-Jan-1975,
# with the two words of `HELLO`, carriage return and line feed: block, place, word (octal).
V1 = """1 0 465154634562  1 1 1  1 2 100  1 3 1  1 4 11  1 5 17
2 0 465154634562  2 1 1  2 2 100  2 3 1  2 4 11  2 5 17
14 0 777777400000
15 1 1  15 2 000010000020  15 3 775000000000  15 4 20
16 1 1  16 2 465757000000  16 3 647064000000  16 4 21
17 0 625142000000  17 1 465757000000  17 2 647064000000  17 3 057000007777  17 4 000010000020
17 5 2  17 6 1  17 16 000001000022
18 0 442131446236  18 1 064240000000"""

OPEN_GATE = [(3, place, 0o252525252525) for place in range(128)]
HELLO = b"HELLO\r\n"


def words_of(text):
    """Returns the words of a table."""
    fields = text.split()
    return [(int(b), int(p), int(w, 8)) for b, p, w in zip(fields[::3], fields[1::3], fields[2::3])]


def image_of(changes=(), damaged=()):
    """Returns the bytes of V1 with these words changed, and with these blocks damaged."""
    image = bytearray(64 * BLOCK)
    for block, place, word in words_of(V1) + list(changes):
        at = block * BLOCK + 8 * place
        image[at : at + 8] = word.to_bytes(8, "big")
    for block in damaged:
        image[block * BLOCK] = 0x80
    return bytes(image)


def read_to_end(terminal):
    """Returns what is written to a pseudo terminal until all who write to it have ended."""
    text = b""
    while True:
        try:
            part = os.read(terminal, 4096)
        except OSError:  # by which the system reports that nobody has it open
            part = b""
        if not part:
            return text
        text += part


def homes(first, second):
    """Returns the words that name these layouts in the home copies."""
    return [(1, 1, first), (2, 1, second)]


class Tries:
    """Runs of the program in their own folder."""

    def __init__(self, program, folder):
        self.program = program
        self.folder = folder
        self.count = 0
        self.failed = 0

    def path(self, name):
        return os.path.join(self.folder, name)

    def write(self, name, data):
        with open(self.path(name), "wb") as file:
            file.write(data)

    def read(self, name):
        with open(self.path(name), "rb") as file:
            return file.read()

    def run(self, words, data=b""):
        """Returns what a run prints, what it reports, and its status."""
        done = subprocess.run([self.program, *words], input=data, capture_output=True, cwd=self.folder, check=False)
        return done.stdout, done.stderr, done.returncode

    def run_at_terminal(self, words):
        """Returns the same for a run whose standard error is a terminal, and which has no input."""
        terminal, errors = pty.openpty()
        with subprocess.Popen([self.program, *words], stdin=subprocess.DEVNULL, stdout=subprocess.PIPE, stderr=errors,
                              cwd=self.folder) as running:
            os.close(errors)
            told = read_to_end(terminal)
            printed = running.stdout.read()
        os.close(terminal)
        return printed, told, running.returncode

    def expect(self, words, data, outputs, status, telling=b""):
        """Checks that a run prints one of these, reports this among others, and has this status."""
        self.count += 1
        printed, told, code = self.run(words, data)
        if printed not in outputs or code != status or telling not in told:
            self.failed += 1
            print(f"{' '.join(words)}: status {code} and not {status}; {printed[:80]!r} and not {outputs[0][:80]!r}; "
                  f"{told[:80]!r}")

    def expect_told(self, words, output, status, at_terminal, elsewhere):
        """Checks that a run prints this and has this status; it reports this on a terminal, and that if there is none.
        What it makes is removed after each."""
        for run, wanted in [(self.run, elsewhere), (self.run_at_terminal, at_terminal)]:
            self.count += 1
            before = os.listdir(self.folder)
            printed, told, code = run(words)
            if (printed, told, code) != (output, wanted, status):
                self.failed += 1
                print(f"{' '.join(words)}: status {code} and not {status}; {printed[:80]!r} and not {output[:80]!r}; "
                      f"told {told[-80:]!r} and not {wanted[-80:]!r}")
            for name in set(os.listdir(self.folder)) - set(before):
                os.remove(self.path(name))

    def same(self, name, data):
        """Checks that a file of the host has these bytes."""
        self.count += 1
        if self.read(name) != data:
            self.failed += 1
            print(f"{name} has changed")

    def holds(self, name, length, at, data):
        """Checks that a file of the host has this many bytes, and these at a place of it."""
        self.count += 1
        found = self.read(name)
        if len(found) != length or found[at : at + len(data)] != data:
            self.failed += 1
            print(f"{name}: {len(found)} bytes, {found[at : at + len(data)].hex()} at {at}")


def check(tries):
    """Tests what `check` prints for V1, and for V1 with one change."""
    well = ["Volume of 64 blocks, room 45"]
    table = [
        ("none", image_of(), well, 0),
        ("block 1 damaged", image_of(damaged=[1]), well, 0),
        ("no home", image_of([(1, 0, 0), (2, 0, 0)]), ["?Not a volume"], 3),
        ("version 3", image_of([(1, 1, 3), (2, 1, 3)]), ["?Bad home blocks"], 3),
        ("gate open, no log", image_of(OPEN_GATE), ["?Bad log"], 3),
        ("43 entries", image_of([(15, 1, 0o53)]), ["?Bad directory block 15"], 3),
        ("a quota in layout 1", image_of([(15, 3, 0o775000000012)]), ["?Bad directory block 15"], 3),
        ("a quota in layout 2", image_of(homes(2, 2) + [(15, 3, 0o775000000012)]), well, 0),
        ("a quota below the charge", image_of(homes(2, 2) + [(15, 3, 0o775000000001)]), well, 0),
        ("the largest quota", image_of(homes(2, 2) + [(15, 3, 0o775000777777)]), well, 0),
        ("a larger one", image_of(homes(2, 2) + [(15, 3, 0o775001000000)]), ["?Bad directory block 15"], 3),
        ("a late date in layout 1", image_of([(17, 2, 0o647064100000)]), ["?Bad retrieval block 17"], 3),
        ("a late date in layout 2", image_of(homes(2, 2) + [(17, 2, 0o647064100000)]), well, 0),
        ("the latest", image_of(homes(2, 2) + [(17, 2, 0o647064700000)]), well, 0),
        ("a later one", image_of(homes(2, 2) + [(17, 2, 0o647064740000)]), ["?Bad retrieval block 17"], 3),
        ("minute 1439", image_of([(17, 3, 0o057026377777)]), well, 0),
        ("minute 1440", image_of([(17, 3, 0o057026407777)]), ["?Bad retrieval block 17"], 3),
        ("two blocks of words", image_of([(17, 5, 0o201)]), ["?Bad retrieval block 17"], 3),
        ("block 18 damaged", image_of(damaged=[18]), ["?Bad data block 18"], 3),
        ("a bit too many", image_of([(14, 2, 1)]), ["?Bad table block 14"], 3),
        ("a loop", image_of([(16, 0, 0o20)]), ["?Bad directory block 16", "?Block 16 reached twice"], 3),
        ("table short", image_of([(14, 0, 0o777777600000)]), ["?Bad table block 14"], 3),
        ("block 16 twice", image_of([(17, 16, 0o000001000020), (14, 0, 0o777777000000)]),
         ["?Block 16 reached twice"], 3),
        ("no blocks", b"", ["?Not a volume"], 3),
        ("half a block", image_of()[:-512], ["?Not a volume"], 3),
    ]
    for name, image, lines, status in table:
        tries.write("C.IMG", image)
        tries.expect(["check", "C.IMG"], b"", [f"{line}\n".encode() for line in lines], status)
    # An image whose commit was interrupted is recovered: the log has block 15 as it is in V1, and the gate is open.
    log = [(4, 0, 0o545747000000), (4, 1, 1), (4, 2, 0o17)]
    log += [(5, place, word) for block, place, word in words_of(V1) if block == 15]
    tries.write("C.IMG", image_of(OPEN_GATE + log, damaged=[15]))
    tries.expect(["check", "C.IMG"], b"", [b"Volume of 64 blocks, room 45\n"], 0)
    if tries.read("C.IMG")[15 * BLOCK : 16 * BLOCK] != image_of()[15 * BLOCK : 16 * BLOCK]:
        tries.failed += 1
        print("check didn't recover the image")
    tries.expect(["init", "D.IMG", "64"], b"", [b""], 0)
    tries.expect(["check", "D.IMG"], b"", [b"Volume of 64 blocks, room 48\n"], 0)


def row(tries):
    """Tests that a file is put, copied, listed, deleted, and deleted again."""
    tries.expect(["run", "D.IMG"], b"LOGIN [10,20]\nMAKDIR [10,20]\n", [b"Job 1 [10,20]\nOK\n"], 0)
    tries.expect(["put", "D.IMG", "10,20", "FOO.TXT", "--date", "4095"], HELLO, [b"OK\n"], 0)
    tries.expect(["get", "D.IMG", "10,20", "FOO.TXT"], b"", [HELLO], 0)
    lines = b"LOGIN [10,20]\nCOPY BAR.TXT=FOO.TXT\nDIRECTORY\nDELETE FOO.TXT\nDELETE FOO.TXT\n"
    listed = (b"BAR    TXT     1  <057>   1-Jan-1964\nFOO    TXT     1  <057>   4-Jan-1975\n"
              b"Total 2 blocks in 2 files [10,20]\n")
    tries.expect(["run", "D.IMG"], lines, [b"Job 1 [10,20]\nOK\n" + listed + b"OK\n?File not found\n"], 1)
    # The words are those of the manual's packing, and mode 0 is a file's.
    tries.expect(["get", "--words", "D.IMG", "10,20", "BAR.TXT"], b"",
                 [(0o442131446236).to_bytes(8, "big") + (0o064240000000).to_bytes(8, "big")], 0)
    calls = (b"1 LOGIN 10,20 1000\n1 DEP 200 17\n1 DEP 201 446353000000\n1 OPEN 1 200\n1 DEP 300 424162000000\n"
             b"1 DEP 301 647064000000\n1 LOOKUP 1 300\n1 EXA 302\n1 EXA 303\n")
    tries.expect(["put", "D.IMG", "10,20", "BAR.TXT", "--date", "4095", "--minute", "605"], HELLO, [b"OK\n"], 0)
    tries.expect(["calls", "D.IMG"], calls, [b"DONE\n" * 7 + b"VALUE 057011357777\nVALUE 777776000000\n"], 0)


def deletes(tries):
    """Tests that a file is deleted, and deleted again; a new one has the room again."""
    tries.write("DEL.IMG", image_of())
    for output, status in [(b"OK\n", 0), (b"?File not found\n", 1)]:
        tries.expect(["delete", "DEL.IMG", "[10,20]", "foo.txt"], b"", [output], status)
    tries.expect(["check", "DEL.IMG"], b"", [b"Volume of 64 blocks, room 47\n"], 0)
    tries.expect(["get", "DEL.IMG", "10,20", "FOO.TXT"], b"", [b"?File not found\n"], 1)
    tries.expect(["delete", "DEL.IMG", "10,20", "FOO.TXT", "--date", "1"], b"", [b""], 2)
    tries.expect(["put", "DEL.IMG", "10,20", "FOO.TXT"], HELLO, [b"OK\n"], 0)
    tries.expect(["run", "DEL.IMG"], b"LOGIN [10,20]\nPROTECT FOO.TXT<277>\n", [b"Job 1 [10,20]\nOK\n"], 0)
    tries.expect(["delete", "DEL.IMG", "10,20", "FOO.TXT"], b"", [b"?Protection failure\n"], 1)
    tries.expect(["get", "DEL.IMG", "10,20", "FOO.TXT"], b"", [HELLO], 0)


def lists(tries):
    """Tests that directories are listed, one, or all in the order of their numbers."""
    tries.write("L.IMG", image_of())
    one = b"FOO    TXT     1  <057>   4-Jan-1975\nTotal 1 blocks in 1 files [10,20]\n"
    tries.expect(["list", "L.IMG", "10,20"], b"", [one], 0)
    tries.expect(["list", "L.IMG", "[10,20]"], b"", [one], 0)
    tries.expect(["list", "L.IMG"], b"", [one], 0)
    tries.expect(["run", "L.IMG"], b"LOGIN [1,2]\nMAKDIR [11,5]<000>\nMAKDIR [1,7]\n", [b"Job 1 [1,2]\nOK\nOK\n"], 0)
    tries.expect(["list", "L.IMG"], b"", [b"No files [1,7]\n" + one + b"No files [11,5]\n"], 0)
    tries.expect(["list", "L.IMG", "77,1"], b"", [b"?No such directory\n"], 1)
    tries.expect(["list", "D.IMG", "10,20,30"], b"", [b""], 2)


def tabs(*fields):
    """Returns a line of a list as a table."""
    return "\t".join(fields).encode() + b"\n"


def dated(year, month, day):
    """Returns the number of a date, as the disk has it."""
    return str(((year - 1964) * 12 + month - 1) * 31 + day - 1)


def days(tries):
    """Tests that a date is a number, or the text of a day as `list --tsv` or DIRECTORY prints it; a PPN may have
    brackets."""
    put = ["put", "Y.IMG", "[10,20]", "DAY", "--date"]
    months = "Jan Feb Mar Apr May Jun Jul Aug Sep Oct Nov Dec".split()
    tries.write("Y.IMG", image_of())
    foo = tabs("10,20", "FOO", "TXT", "057", "00", "1975-01-04", "00:00", "2", "1")
    listed = [(1964, 1, 1), (1975, 1, 4), (1969, 7, 20), (1972, 2, 31), (1974, 12, 31)]
    listed += [(1970, month + 1, 9 + month) for month in range(12)]
    for year, month, day in listed:
        iso, name = f"{year}-{month:02}-{day:02}", months[month - 1]
        texts = [dated(year, month, day), "+" + dated(year, month, day), iso, f"{day}-{name}-{year}",
                 f"{day:02}-{name.upper()}-{year}", f"{day}-{name.lower()}-{year}"]
        for text in texts:
            # The day before is put first, so that each text has an effect.
            tries.expect(put + ["0"], HELLO, [b"OK\n"], 0)
            tries.expect(put + [text], HELLO, [b"OK\n"], 0)
            seen = tabs("10,20", "DAY", "", "057", "00", iso, "00:00", "2", "1")
            tries.expect(["list", "--tsv", "Y.IMG", "[10,20]"], b"", [seen + foo], 0)
    tries.expect(["get", "Y.IMG", "[10,20]", "day", "--date", "4-Jan-1975"], b"", [HELLO], 0)
    tries.expect(["run", "Y.IMG", "--date", "4-Jan-1975"], b"LOGIN [10,20]\nCOPY A=DAY\n",
                 [b"Job 1 [10,20]\nOK\n"], 0)
    tries.expect(["list", "Y.IMG", "10,20"], b"", [
        b"A              1  <057>   4-Jan-1975\nDAY            1  <057>  20-Dec-1970\n"
        b"FOO    TXT     1  <057>   4-Jan-1975\nTotal 3 blocks in 3 files [10,20]\n"], 0)


def tables(tries):
    """Tests that directories are listed as tables, one, or all in the order of their numbers."""
    foo = tabs("10,20", "FOO", "TXT", "057", "00", "1975-01-04", "00:00", "2", "1")
    tries.write("T.IMG", image_of())
    tries.expect(["list", "--tsv", "T.IMG", "10,20"], b"", [foo], 0)
    tries.expect(["list", "T.IMG", "10,20", "--tsv"], b"", [foo], 0)
    # Other directories: one without files, and one with a file that the program writes.
    made = b"LOGIN [1,2]\nMAKDIR [11,5]<000>\nMAKDIR [1,7]\n"
    tries.expect(["run", "T.IMG"], made, [b"Job 1 [1,2]\nOK\nOK\n"], 0)
    tries.expect(["list", "--tsv", "T.IMG", "1,7"], b"", [b""], 0)
    put = ["put", "--words", "T.IMG", "11,5", "BAR", "--minute", "1439"]
    for (year, month, day), date in [
        ((1964, 1, 1), "1964-01-01"),
        ((1964, 1, 31), "1964-01-31"),
        ((1964, 2, 1), "1964-02-01"),
        ((1970, 12, 31), "1970-12-31"),
        ((1975, 1, 4), "1975-01-04"),
    ]:
        tries.expect(put + ["--date", dated(year, month, day)], b"\0" * 129 * 8, [b"OK\n"], 0)
        bar = tabs("11,5", "BAR", "", "057", "17", date, "23:59", "129", "2")
        tries.expect(["list", "--tsv", "T.IMG"], b"", [foo + bar], 0)
    # A name with a blank inside and no extension, a file of a block of words, a mode of one digit, and another minute.
    name = [(16, 2, 0o410042000000), (17, 1, 0o410042000000), (16, 3, 0), (17, 2, 0)]
    tries.write("T.IMG", image_of(name + [(17, 3, 0o123 << 27 | 1 << 23 | 605 << 12), (17, 5, 128)]))
    odd = tabs("10,20", "A B", "", "123", "01", "1964-01-01", "10:05", "128", "1")
    tries.expect(["list", "--tsv", "T.IMG"], b"", [odd], 0)
    # What is refused prints its text, in its place.
    tries.expect(["list", "--tsv", "T.IMG", "77,1"], b"", [b"?No such directory\n"], 1)
    tries.expect(["list", "--tsv", "T.IMG", "10,20,30"], b"", [b""], 2)
    tries.expect(["check", "--tsv", "T.IMG"], b"", [b""], 2)
    tries.write("T.IMG", image_of([(15, 1, 0o53)]))
    tries.expect(["list", "--tsv", "T.IMG"], b"", [b"?Bad directory block 15\n"], 3)
    tries.expect(["init", "E.IMG", "64"], b"", [b""], 0)
    tries.expect(["list", "--tsv", "E.IMG"], b"", [b""], 0)


def back(tries):
    """Tests 50 files of 0 to 40,000 bytes, put and read back."""
    tries.expect(["init", "B.IMG", "512"], b"", [b""], 0)
    tries.expect(["run", "B.IMG"], b"LOGIN [10,20]\nMAKDIR [10,20]\n", [b"Job 1 [10,20]\nOK\n"], 0)
    for number in range(50):
        size = (40000 * number // 49) if number > 4 else number
        text = bytes((number + 31 * place) % 127 + 1 for place in range(size))
        tries.expect(["put", "B.IMG", "10,20", "text.a"], text, [b"OK\n"], 0)
        tries.expect(["get", "B.IMG", "10,20", "TEXT.A"], b"", [text], 0)
        count = size // 8
        data = b"".join(((number + 2 ** 30 * place + place) % 2 ** 36).to_bytes(8, "big") for place in range(count))
        tries.expect(["put", "--words", "B.IMG", "10,20", "WORDS.B"], data, [b"OK\n"], 0)
        tries.expect(["get", "--words", "B.IMG", "10,20", "WORDS.B"], b"", [data], 0)
    tries.expect(["check", "B.IMG"], b"", [b"Volume of 512 blocks, room 390\n"], 0)


def octets_of(data):
    """Returns the words of bytes of eight bits, eight bytes each: four in a word, and in the last one how many
    count."""
    groups = [data[place : place + 4] for place in range(0, len(data), 4)]
    words = [int.from_bytes(group.ljust(4, b"\0"), "big") << 4 for group in groups]
    if words:
        words[-1] |= len(groups[-1])
    return b"".join(word.to_bytes(8, "big") for word in words)


def octets(tries):
    """Tests files of any bytes, and files of words that have none."""
    tries.expect(["init", "O.IMG", "512"], b"", [b""], 0)
    tries.expect(["run", "O.IMG"], b"LOGIN [10,20]\nMAKDIR [10,20]\n", [b"Job 1 [10,20]\nOK\n"], 0)
    file = ["O.IMG", "10,20", "ANY.BIN"]
    every = bytes(range(256))
    for data in [bytes(255 - place for place in range(size)) for size in range(10)] + [
        bytes(7), b"\0ABC\0", every, every + b"\xff", every * 8, every * 8 + b"\0", (every * 90)[:8191], every * 90,
    ]:
        tries.expect(["put", "--bytes", *file], data, [b"OK\n"], 0)
        tries.expect(["get", "--bytes", *file], b"", [data], 0)
        tries.expect(["get", "--words", *file], b"", [octets_of(data)], 0)
    tries.expect(["put", *file], b"HELLO\r\n", [b"OK\n"], 0)
    tries.expect(["get", *file, "--bytes"], b"", [b"?Not bytes\n"], 1)
    # No count, one above 4, a byte that isn't counted, a count before the last word.
    for words in [[0], [0o202000000005], [0o202410000001], [0o202411032104, 0o202000000001]]:
        data = b"".join(word.to_bytes(8, "big") for word in words)
        tries.expect(["put", "--words", *file], data, [b"OK\n"], 0)
        tries.expect(["get", "--bytes", *file], b"", [b"?Not bytes\n"], 1)
        tries.expect(["get", "--words", *file], b"", [data], 0)
    tries.expect(["get", "--bytes", "O.IMG", "10,20", "NONE"], b"", [b"?File not found\n"], 1)
    before = tries.read("O.IMG")
    told = b"?Bad argument\nfilser: --words and --bytes exclude each other\n"
    for command in ["put", "get"]:
        tries.expect([command, "--words", "--bytes", *file], b"", [b""], 2, told)
    tries.same("O.IMG", before)
    tries.expect(["put", "--bytes", *file], bytes(2048 * 512), [b"?No room\n"], 1)
    tries.expect(["get", "--words", *file], b"", [data], 0)


def converts(tries):
    """Tests images of form 2, and conversions of either form to the other."""
    tries.expect(["init", "W.IMG", "64", "--form", "2"], b"", [b""], 0)
    tries.expect(["run", "W.IMG"], b"", [b"?Not a volume\n"], 3)
    lines = b"LOGIN [10,20]\nMAKDIR [10,20]\n"
    tries.expect(["run", "W.IMG", "--form", "2"], lines, [b"Job 1 [10,20]\nOK\n"], 0)
    tries.expect(["check", "W.IMG", "--form", "2"], b"", [b"Volume of 64 blocks, room 47\n"], 0)
    tries.holds("W.IMG", 36864, 0, b"")
    # There and back: a damaged block then has zeros, and nothing else has changed.
    damaged = image_of(damaged=[30])
    tries.write("V.IMG", damaged)
    done = [b"Converted 64 blocks\n"]
    tries.expect(["convert", "V.IMG", "P.IMG"], b"", done, 0)
    tries.same("V.IMG", damaged)
    tries.holds("P.IMG", 36864, 18 * 576, bytes.fromhex("911664c9e1a2800000"))
    listed = [b"FOO    TXT     1  <057>   4-Jan-1975\nTotal 1 blocks in 1 files [10,20]\n"]
    tries.expect(["list", "P.IMG", "--form", "2"], b"", listed, 0)
    tries.expect(["get", "P.IMG", "10,20", "FOO.TXT", "--form", "2"], b"", [HELLO], 0)
    tries.expect(["convert", "P.IMG", "U.IMG", "--form", "2"], b"", done, 0)
    tries.same("U.IMG", image_of())
    tries.expect(["run", "U.IMG"], b"LOGIN [10,20]\nDIRECTORY\n", [b"Job 1 [10,20]\n" + listed[0]], 0)
    # An interrupted commit is finished first.
    log = [(4, 0, 0o545747000000), (4, 1, 1), (4, 2, 0o17)]
    log += [(5, place, word) for block, place, word in words_of(V1) if block == 15]
    tries.write("O.IMG", image_of(OPEN_GATE + log, damaged=[15]))
    tries.expect(["convert", "O.IMG", "Q.IMG"], b"", done, 0)
    tries.expect(["check", "Q.IMG", "--form", "2"], b"", [b"Volume of 64 blocks, room 45\n"], 0)
    # What is refused: a file that exists, before anything else; then the image.
    packed = tries.read("P.IMG")
    for image in ["V.IMG", "NONE.IMG", "P.IMG"]:
        tries.expect(["convert", image, "P.IMG"], b"", [b"?Image exists\n"], 3)
    tries.same("P.IMG", packed)
    tries.expect(["convert", "NONE.IMG", "X.IMG"], b"", [b"?Device fault\n"], 4)
    tries.expect(["convert", "V.IMG", "X.IMG", "--form", "2"], b"", [b"?Not a volume\n"], 3)
    tries.expect(["check", "X.IMG"], b"", [b"?Device fault\n"], 4)
    tries.write("S.IMG", image_of([(15, 1, 0o53)]))
    tries.expect(["convert", "S.IMG", "X.IMG"], b"", [b"?Bad directory block 15\n"], 3)
    tries.expect(["check", "X.IMG"], b"", [b"?Device fault\n"], 4)
    for words in [["V.IMG"], ["V.IMG", "Y.IMG", "--form", "3"], ["V.IMG", "Y.IMG", "--form", "0"]]:
        tries.expect(["convert", *words], b"", [b""], 2)


def migrates(tries):
    """Tests that a migrated image has layout 2, with the same words elsewhere except for the log, and then later
    dates."""
    done, rest = [b"Layout 2\n"], image_of()[14 * BLOCK :]
    tries.write("M.IMG", image_of())
    tries.expect(["put", "M.IMG", "10,20", "BAR", "--date", "4096"], HELLO, [b"?Date out of range\n"], 1)
    tries.expect(["run", "M.IMG", "--date", "4096"], b"LOGIN [10,20]\nCOPY A=FOO.TXT\n",
                 [b"Job 1 [10,20]\n?Date out of range\n"], 1)
    for _ in range(2):
        tries.expect(["migrate", "M.IMG"], b"ignored", done, 0)
        tries.holds("M.IMG", 64 * BLOCK, 0, image_of(homes(2, 2))[: 4 * BLOCK])
        tries.holds("M.IMG", 64 * BLOCK, 14 * BLOCK, rest)
    foo = b"FOO    TXT     1  <057>   4-Jan-1975\n"
    tries.expect(["list", "M.IMG"], b"", [foo + b"Total 1 blocks in 1 files [10,20]\n"], 0)
    for date, day in [("4096", b" 5-Jan-1975"), ("1-Feb-2052", b" 1-Feb-2052")]:
        tries.expect(["put", "M.IMG", "10,20", "BAR", "--date", date], HELLO, [b"OK\n"], 0)
        listed = b"BAR            1  <057>  " + day + b"\n" + foo + b"Total 2 blocks in 2 files [10,20]\n"
        tries.expect(["list", "M.IMG", "10,20"], b"", [listed], 0)
    tries.expect(["put", "M.IMG", "10,20", "BAR", "--date", "32768"], HELLO, [b""], 2)
    # A conversion keeps the layout, and images of form 2 are migrated, too.
    tries.expect(["convert", "M.IMG", "K.IMG"], b"", [b"Converted 64 blocks\n"], 0)
    tries.expect(["list", "K.IMG", "--form", "2"], b"", [listed], 0)
    tries.write("L.IMG", image_of())
    tries.expect(["convert", "L.IMG", "L2.IMG"], b"", [b"Converted 64 blocks\n"], 0)
    tries.expect(["migrate", "L2.IMG"], b"", [b"?Not a volume\n"], 3)
    tries.expect(["migrate", "L2.IMG", "--form", "2"], b"", done, 0)
    tries.expect(["put", "L2.IMG", "10,20", "BAR", "--date", "4096", "--form", "2"], HELLO, [b"OK\n"], 0)
    # The first valid copy decides the layout: an image of layout 2 stays as it is, and so does the copy after it.
    for first, second, left in [(1, 2, (2, 2)), (2, 1, (2, 1)), (3, 2, (3, 2)), (0, 1, (2, 2))]:
        tries.write("C.IMG", image_of(homes(first, second)))
        tries.expect(["migrate", "C.IMG"], b"", done, 0)
        tries.holds("C.IMG", 64 * BLOCK, BLOCK, image_of(homes(*left))[BLOCK : 3 * BLOCK])
        tries.expect(["put", "C.IMG", "10,20", "BAR", "--date", "4096"], HELLO, [b"OK\n"], 0)
    # What a start refuses isn't changed.
    for changes, line in [(homes(3, 0), b"?Bad home blocks\n"), ([(17, 5, 0o201)], b"?Bad retrieval block 17\n")]:
        spoiled = image_of(changes)
        tries.write("S.IMG", spoiled)
        tries.expect(["migrate", "S.IMG"], b"", [line], 3)
        tries.same("S.IMG", spoiled)
    tries.expect(["migrate", "NONE.IMG"], b"", [b"?Device fault\n"], 4)
    for words in [[], ["M.IMG", "X"], ["M.IMG", "--form", "3"], ["M.IMG", "--date", "1"]]:
        tries.expect(["migrate", *words], b"", [b""], 2)


def layouts(tries):
    """Tests that a new image has the requested layout, and 1 if none is requested."""
    for words, layout, printed in [([], 1, b"?Date out of range\n"), (["--layout", "1"], 1, b"?Date out of range\n"),
                                   (["--layout", "2"], 2, b"OK\n")]:
        tries.expect(["init", "I.IMG", "64", *words], b"", [b""], 0)
        tries.holds("I.IMG", 64 * BLOCK, 0, image_of(homes(layout, layout))[: 4 * BLOCK])
        tries.expect(["run", "I.IMG"], b"LOGIN [10,20]\nMAKDIR [10,20]\n", [b"Job 1 [10,20]\nOK\n"], 0)
        tries.expect(["put", "I.IMG", "10,20", "FOO", "--date", "4096"], HELLO, [printed], 2 - layout)
        os.remove(tries.path("I.IMG"))
    for layout in ["0", "3", "one"]:
        tries.expect(["init", "I.IMG", "64", "--layout", layout], b"", [b""], 2)
    tries.expect(["init", "I.IMG", "64", "--form", "2", "--layout", "2"], b"", [b""], 0)
    tries.expect(["migrate", "I.IMG", "--form", "2"], b"", [b"Layout 2\n"], 0)


def quotas(tries):
    """Tests that a quota limits what a directory has, whichever way it comes there, and is stored with the image."""
    full, session = [b"?No room\n"], ["run", "LIMIT.IMG"]
    tries.expect(["init", "LIMIT.IMG", "64", "--layout", "2"], b"", [b""], 0)
    tries.expect(session, b"LOGIN [1,2]\nMAKDIR [10,20]\nQUOTA [10,20] 10\n", [b"Job 1 [1,2]\nOK\nOK\n"], 0)
    tries.holds("LIMIT.IMG", 64 * BLOCK, 15 * BLOCK + 24, (0o775000000012).to_bytes(8, "big"))
    # The directory has a block, and a file of eight blocks has nine: no more files, and no new version of this one.
    tries.expect(["put", "LIMIT.IMG", "10,20", "FOO"], b"A" * 5121, full, 1)
    tries.expect(["put", "LIMIT.IMG", "10,20", "FOO"], b"A" * 5120, [b"OK\n"], 0)
    before = tries.read("LIMIT.IMG")
    tries.expect(["put", "LIMIT.IMG", "10,20", "FOO"], b"", full, 1)
    tries.expect(["put", "LIMIT.IMG", "10,20", "BAR"], b"", full, 1)
    tries.expect(session, b"LOGIN [10,20]\nCOPY BAR=FOO\nQUOTA [10,20] 11\n",
                 [b"Job 1 [10,20]\n?No room\n?Protection failure\n"], 1)
    tries.same("LIMIT.IMG", before)
    tries.expect(["check", "LIMIT.IMG"], b"", [b"Volume of 64 blocks, room 38\n"], 0)
    # The copy in form 2 has the quota, too.
    tries.expect(["convert", "LIMIT.IMG", "LIMIT2.IMG"], b"", [b"Converted 64 blocks\n"], 0)
    tries.expect(["put", "LIMIT2.IMG", "10,20", "BAR", "--form", "2"], b"", full, 1)
    tries.expect(["run", "LIMIT2.IMG", "--form", "2"], b"LOGIN [1,2]\nQUOTA [10,20] 0\n", [b"Job 1 [1,2]\nOK\n"], 0)
    tries.expect(["put", "LIMIT2.IMG", "10,20", "BAR", "--form", "2"], b"", [b"OK\n"], 0)
    # A name or a protection costs nothing, and another directory must have room for the whole file.
    tries.expect(session, b"LOGIN [1,2]\nRENAME BAR[10,20]=FOO[10,20]\nPROTECT BAR[10,20]<155>\nMAKDIR [11,5]\n"
                 b"QUOTA [11,5] 9\nRENAME BAR[11,5]=BAR[10,20]\nQUOTA [11,5] 10\nRENAME BAR[11,5]=BAR[10,20]\n",
                 [b"Job 1 [1,2]\nOK\nOK\nOK\nOK\n?No room\nOK\nOK\n"], 1)
    tries.expect(["put", "LIMIT.IMG", "10,20", "FOO"], b"A" * 5120, [b"OK\n"], 0)
    # A quota below the charge doesn't stop anybody from reading or deleting.
    tries.expect(session, b"LOGIN [1,2]\nQUOTA [10,20] 1\n", [b"Job 1 [1,2]\nOK\n"], 0)
    tries.expect(["get", "LIMIT.IMG", "10,20", "FOO"], b"", [b"A" * 5120], 0)
    tries.expect(session, b"LOGIN [10,20]\nDELETE FOO\n", [b"Job 1 [10,20]\nOK\n"], 0)
    tries.expect(["put", "LIMIT.IMG", "10,20", "FOO"], b"", full, 1)
    # Layout 1 has no quotas; a migrated image has none yet.
    tries.write("LIMIT1.IMG", image_of())
    tries.expect(["run", "LIMIT1.IMG"], b"LOGIN [1,2]\nQUOTA [10,20] 4\n", [b"Job 1 [1,2]\n?Illegal sequence\n"], 1)
    tries.same("LIMIT1.IMG", image_of())
    tries.expect(["migrate", "LIMIT1.IMG"], b"", [b"Layout 2\n"], 0)
    tries.expect(["put", "LIMIT1.IMG", "10,20", "BAR"], HELLO, [b"OK\n"], 0)
    tries.expect(["run", "LIMIT1.IMG"], b"LOGIN [1,2]\nQUOTA [10,20] 4\n", [b"Job 1 [1,2]\nOK\n"], 0)
    tries.expect(["put", "LIMIT1.IMG", "10,20", "BAR"], HELLO, full, 1)


def progress(tries):
    """Tests that a conversion of many blocks shows its progress on a terminal, and nowhere else; one of few blocks
    shows none."""
    convert = ["convert", "H.IMG", "N.IMG"]
    steps = b"".join(b"\rfilser: convert: %d %%" % percent for percent in range(101))
    for blocks, told in [(8191, b""), (8192, steps + b"\r\n"), (16384, steps + b"\r\n")]:
        tries.expect(["init", "H.IMG", str(blocks)], b"", [b""], 0)
        tries.expect_told(convert, b"Converted %d blocks\n" % blocks, 0, told, b"")
        os.remove(tries.path("H.IMG"))
    # What is refused makes no new file, and no progress of it is shown.
    tries.write("H.IMG", bytes(8192 * BLOCK))
    tries.expect_told(convert, b"?Not a volume\n", 3, b"", b"")
    tries.expect(["check", "N.IMG"], b"", [b"?Device fault\n"], 4)


def refusals(tries):
    """Tests what is refused, and that nothing changes then."""
    put = ["put", "R.IMG", "10,20"]
    get = ["get", "R.IMG", "10,20"]
    tries.write("R.IMG", image_of())
    before = tries.read("R.IMG")
    for data in [b"\0", b"HELLO\x80", b"\xff" * 40000, b"A" * 40000 + b"\0"]:
        tries.expect(put + ["FOO.TXT"], data, [b"?Not ASCII\n"], 1, b"filser: standard input: byte ")
    for data in [b"\0" * 7, b"\0" * 1025, b"\0\0\0\x10\0\0\0\0", b"\0" * 8 + b"\x80" + b"\0" * 7]:
        tries.expect(put + ["FOO.TXT", "--words"], data, [b"?Bad words\n"], 1)
    tries.expect(put + ["FOO.TXT"], b"A" * 40000, [b"?No room\n"], 1)
    tries.expect(put + ["NEW", "--words"], b"\0" * 48 * BLOCK, [b"?No room\n"], 1)
    # What found room was written to free blocks, 19 to 62, where it has no meaning; no other block has changed.
    tries.holds("R.IMG", len(before), 0, before[: 19 * BLOCK])
    tries.holds("R.IMG", len(before), 63 * BLOCK, before[63 * BLOCK :])
    tries.write("R.IMG", before)
    tries.expect(put + ["FOO.TXT", "--date", "4096"], HELLO, [b"?Date out of range\n"], 1)
    tries.expect(get + ["FOO.TXT", "--date", "4096"], b"", [b"?Date out of range\n"], 1)
    tries.expect(["put", "R.IMG", "11,5", "FOO"], HELLO, [b"?No such directory\n"], 1)
    for command in ["get", "delete"]:
        tries.expect([command, "R.IMG", "11,5", "FOO"], b"", [b"?No such directory\n"], 1)
        tries.expect([command, "R.IMG", "10,20", "BAR.TXT"], b"", [b"?File not found\n"], 1)
        tries.expect([command, "R.IMG", "10", "FOO.TXT"], b"", [b""], 2)
        tries.expect([command, "R.IMG", "10,20", "FOO.TEXT"], b"", [b""], 2)
    for name in ["", "TOOLONG", "FOO.TEXT", "FOO[10,20]", "F O", "*"]:
        tries.expect(put + [name], HELLO, [b""], 2)
    for owner in ["0,20", "10", "10,8", "[10,20", "[0,20]", "1000000,1"]:
        tries.expect(["get", "R.IMG", owner, "FOO.TXT"], b"", [b""], 2)
    tries.expect(["get", "NONE.IMG", "10,20", "FOO.TXT"], b"", [b"?Device fault\n"], 4)
    tries.expect(["check", "."], b"", [b"?Device fault\n"], 4)
    tries.same("R.IMG", before)
    tries.expect(["run", "R.IMG"], b"LOGIN [10,20]\nPROTECT FOO.TXT<777>\n", [b"Job 1 [10,20]\nOK\n"], 0)
    tries.expect(get + ["FOO.TXT"], b"", [b"?Protection failure\n"], 1)
    tries.expect(put + ["FOO.TXT"], HELLO, [b"?Protection failure\n"], 1)
    # The start is refused before the input is read.
    tries.write("S.IMG", image_of([(15, 1, 0o53)]))
    tries.expect(["put", "S.IMG", "10,20", "FOO.TXT"], b"\0", [b"?Bad directory block 15\n"], 3)
    tries.expect(["get", "S.IMG", "10,20", "FOO.TXT"], b"", [b"?Bad directory block 15\n"], 3)
    tries.expect(["list", "S.IMG"], b"", [b"?Bad directory block 15\n"], 3)
    # A null isn't a character of a text, and doesn't end one.
    word = 0
    for character in b"H\0LLO":
        word = 128 * word + 2 * character
    tries.write("N.IMG", image_of([(18, 0, word)]))
    tries.expect(["get", "N.IMG", "10,20", "FOO.TXT"], b"", [b"HLLO\r\n"], 0)


def main():
    if len(sys.argv) != 2 or not os.access(sys.argv[1], os.X_OK):
        print("usage: tests/put_get_list_convert.py PROGRAM", file=sys.stderr)
        return 2
    with tempfile.TemporaryDirectory() as folder:
        tries = Tries(os.path.abspath(sys.argv[1]), folder)
        parts = [check, row, deletes, lists, tables, days, back, octets]
        for part in parts + [converts, migrates, layouts, quotas, progress, refusals]:
            part(tries)
    print(f"put_get_list_convert: {tries.count - tries.failed} as they should be, {tries.failed} not")
    return 1 if tries.failed else 0


if __name__ == "__main__":
    sys.exit(main())
