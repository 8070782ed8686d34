#!/usr/bin/env python3
"""Tests whole collections in and out: import, export, and put with --new.

usage: tests/imported_files.py PROGRAM

Prints a line for each failed check, and one line at the end.
"""

import os
import random
import signal
import subprocess
import sys
import tempfile
import time

FILES = 1000


class Tries:
    """Runs of the program in their own folder."""

    def __init__(self, program, folder):
        self.program = program
        self.folder = folder
        self.count = 0
        self.failed = 0

    def path(self, *names):
        return os.path.join(self.folder, *names)

    def write(self, name, data):
        os.makedirs(os.path.dirname(self.path(name)) or ".", exist_ok=True)
        with open(self.path(name), "wb") as file:
            file.write(data)

    def read(self, name):
        try:
            with open(self.path(name), "rb") as file:
                return file.read()
        except OSError as error:
            return error

    def run(self, words, given=b""):
        return subprocess.run([self.program, *words], input=given, capture_output=True, cwd=self.folder)

    def so(self, name, is_so):
        """Counts a check that must hold."""
        self.count += 1
        if not is_so:
            self.failed += 1
            print(f"imported_files: {name}")

    def expect(self, words, given, wanted, status):
        """Checks that a run prints this, and has this status. Returns what it reports on the standard error."""
        ran = self.run(words, given)
        is_so = ran.stdout == wanted and ran.returncode == status
        self.so(f"{' '.join(words)[:80]}: {ran.stdout[:200]}, status {ran.returncode}", is_so)
        return ran.stderr

    def image(self, name, blocks=4096, *options):
        if os.path.exists(self.path(name)):
            os.remove(self.path(name))
        self.expect(["init", name, str(blocks), *options], b"", b"", 0)


def lines(*parts):
    return "".join(part + "\n" for part in parts).encode()


def four_commands(tries):
    """Tests the first session of a collection: init, import, check, export. The import makes the directory."""
    tries.write("a/foo.txt", b"HELLO\r\n")
    tries.write("a/data.bin", bytes(range(256)))
    tries.write("a/empty", b"")
    tries.image("A.IMG", 64)
    paths = ["a/foo.txt", "a/data.bin", "a/empty"]
    tries.expect(["import", "A.IMG", "10,20", *paths], b"",
                 lines("a/foo.txt: FOO.TXT OK", "a/data.bin: DATA.BIN OK", "a/empty: EMPTY OK"), 0)
    tries.expect(["check", "A.IMG"], b"", b"Volume of 64 blocks, room 42\n", 0)
    tries.expect(["export", "A.IMG", "out", "--list"], b"",
                 lines("out/10,20/DATA.BIN", "out/10,20/EMPTY", "out/10,20/FOO.TXT"), 0)
    tries.so("--list makes nothing", not os.path.exists(tries.path("out")))
    tries.expect(["export", "A.IMG", "out"], b"",
                 lines("out/10,20/DATA.BIN: bytes OK", "out/10,20/EMPTY: text OK", "out/10,20/FOO.TXT: text OK"), 0)
    for name, path in (("DATA.BIN", "a/data.bin"), ("EMPTY", "a/empty"), ("FOO.TXT", "a/foo.txt")):
        tries.so(f"{name} comes back", tries.read(f"out/10,20/{name}") == tries.read(path))
    # Nothing that exists is overwritten, on the host or on the image.
    told = tries.expect(["export", "A.IMG", "out"], b"",
                        lines(*(f"out/10,20/{n}: ?Can't write" for n in ("DATA.BIN", "EMPTY", "FOO.TXT"))), 1)
    tries.so("it tells why", told.count(b"File exists") == 3)
    tries.write("b/foo.txt", b"OTHER")
    told = tries.expect(["import", "A.IMG", "10,20", "b/foo.txt"], b"",
                        lines("b/foo.txt: FOO.TXT ?File name already exists"), 1)
    tries.so("no file of this run has its name", told == b"")
    tries.expect(["get", "A.IMG", "10,20", "FOO.TXT"], b"", b"HELLO\r\n", 0)
    tries.expect(["put", "--new", "A.IMG", "10,20", "FOO.TXT"], b"OTHER", b"?File name already exists\n", 1)
    tries.expect(["put", "--new", "A.IMG", "10,20", "NEW.TXT"], b"OTHER", b"OK\n", 0)
    tries.expect(["put", "--new", "A.IMG", "10,21", "NEW.TXT"], b"OTHER", b"?No such directory\n", 1)
    tries.expect(["get", "A.IMG", "10,20", "FOO.TXT"], b"", b"HELLO\r\n", 0)
    tries.expect(["get", "A.IMG", "10,20", "NEW.TXT"], b"", b"OTHER", 0)


def names(tries):
    """Tests which name a file gets, and what is refused."""
    tries.image("N.IMG")
    given = [f"long/{name}" for name in ("Makefile", "a.html", "read me.txt", "readme2.txt", ".profile", "x.tar.gz",
                                         "---", "foo.")]
    for name in given:
        tries.write(name, name.encode())
    paths = sorted(os.path.join("long", name) for name in os.listdir(tries.path("long")))
    refused = [f"{path}: ?Bad name" for path in paths if path != "long/foo."]
    order = [f"{path}: FOO. OK" if path == "long/foo." else f"{path}: ?Bad name" for path in paths]
    tries.so("all but one are refused", len(refused) == len(paths) - 1)
    tries.expect(["import", "N.IMG", "10,20", *paths], b"", lines(*order), 1)
    told = tries.expect(
        ["import", "N.IMG", "10,21", "--shorten", *given], b"",
        lines("long/Makefile: MAKEFI OK", "long/a.html: A.HTM OK", "long/read me.txt: README.TXT OK",
              "long/readme2.txt: README.TXT ?File name already exists", "long/.profile: PROFIL OK",
              "long/x.tar.gz: XTAR.GZ OK", "long/---: ?Bad name", "long/foo.: FOO. OK"), 1)
    tries.so("both are named", told == b"filser: long/readme2.txt: long/read me.txt has the same name\n")
    # A path that can't be read, or that would forge a line, doesn't stop the others.
    tries.write("odd/a\nb", b"X")
    told = tries.expect(["import", "N.IMG", "10,22", "odd/none", "odd", "odd/a\nb", "a/foo.txt"], b"",
                        lines("odd/none: ?Can't read", "odd: ?Can't read", "odd/a?b: ?Bad name",
                              "a/foo.txt: FOO.TXT OK"), 1)
    tries.so("the system's reasons", b"odd/none: No such file" in told and b"odd: Is a directory" in told)


def encodings(tries):
    """Tests how bytes are interpreted, and what comes out."""
    tries.image("E.IMG")
    tries.write("e/t1.txt", b"HELLA")  # five characters that are also the bytes of a word
    for length in range(10):
        tries.write(f"e/b{length}.bin", bytes([255] * length))
    tries.write("e/w.bin", (5).to_bytes(8, "big") + (2**36 - 1).to_bytes(8, "big"))
    tries.expect(["import", "E.IMG", "10,20", "e/t1.txt", *(f"e/b{n}.bin" for n in range(10))], b"",
                 lines("e/t1.txt: T1.TXT OK", *(f"e/b{n}.bin: B{n}.BIN OK" for n in range(10))), 0)
    tries.expect(["import", "E.IMG", "10,21", "--words", "e/w.bin", "e/t1.txt"], b"",
                 lines("e/w.bin: W.BIN OK", "e/t1.txt: T1.TXT ?Bad words"), 1)
    told = tries.expect(["import", "E.IMG", "10,21", "--text", "e/b3.bin"], b"",
                        lines("e/b3.bin: B3.BIN ?Not ASCII"), 1)
    tries.so("which byte it is", b"byte 255 at 1 isn't text" in told)
    tries.expect(["import", "E.IMG", "10,22", "--bytes", "e/t1.txt"], b"", lines("e/t1.txt: T1.TXT OK"), 0)
    kinds = ["B0.BIN: text", *(f"B{n}.BIN: bytes" for n in range(1, 10)), "T1.TXT: text"]
    tries.expect(["export", "E.IMG", "e-out"], b"",
                 lines(*(f"e-out/10,20/{kind} OK" for kind in kinds), "e-out/10,21/W.BIN: words OK",
                       "e-out/10,22/T1.TXT: bytes OK"), 0)
    for n in range(10):
        tries.so(f"{n} bytes come back", tries.read(f"e-out/10,20/B{n}.BIN") == bytes([255] * n))
    tries.so("text comes back", tries.read("e-out/10,20/T1.TXT") == b"HELLA" == tries.read("e-out/10,22/T1.TXT"))
    tries.so("words come back", tries.read("e-out/10,21/W.BIN") == tries.read("e/w.bin"))
    tries.expect(["export", "E.IMG", "e-bytes", "10,21", "--bytes"], b"", lines("e-bytes/10,21/W.BIN: ?Not bytes"), 1)
    tries.expect(["export", "E.IMG", "e-words", "10,22", "--words"], b"", lines("e-words/10,22/T1.TXT: words OK"), 0)
    tries.so("its two words", tries.read("e-words/10,22/T1.TXT") ==
             (0x48454C4C0).to_bytes(8, "big") + (0x410000001).to_bytes(8, "big"))
    # A text that was copied has mode 17, and a text with bit 35 set can be restored only from words.
    tries.expect(["run", "E.IMG"], lines("LOGIN [10,20]", "COPY C.TXT=T1.TXT"), lines("Job 1 [10,20]", "OK"), 0)
    ran = tries.run(["export", "E.IMG", "e-copy", "10,20"])
    tries.so("a copy has mode 17, but no bytes make its word, so it is text", b"C.TXT: text OK" in ran.stdout)
    tries.image("F.IMG")
    name = "C.TXT"
    tries.expect(["import", "F.IMG", "10,20", f"e-copy/10,20/{name}"], b"", lines(f"e-copy/10,20/{name}: {name} OK"), 0)


def dates(tries):
    """Tests that dates are stored, in the range of the volume."""
    tries.image("D.IMG")
    tries.image("D2.IMG", 4096, "--layout", "2")
    for name, when in (("d/old.txt", 12_000_000), ("d/new.txt", 1_700_000_000)):
        tries.write(name, b"X")
        os.utime(tries.path(name), (when, when))
    tries.expect(["import", "D.IMG", "10,20", "--dates", "d/old.txt", "d/new.txt"], b"",
                 lines("d/old.txt: OLD.TXT OK", "d/new.txt: NEW.TXT ?Date out of range"), 1)
    tries.expect(["import", "D2.IMG", "10,20", "--dates", "d/old.txt", "d/new.txt"], b"",
                 lines("d/old.txt: OLD.TXT OK", "d/new.txt: NEW.TXT OK"), 0)
    tries.expect(["list", "--tsv", "D2.IMG"], b"",
                 lines("10,20\tNEW\tTXT\t057\t00\t2023-11-14\t22:13\t1\t1",
                       "10,20\tOLD\tTXT\t057\t00\t1970-05-19\t21:20\t1\t1"), 0)
    tries.expect(["export", "D2.IMG", "d-out"], b"",
                 lines("d-out/10,20/NEW.TXT: text OK", "d-out/10,20/OLD.TXT: text OK"), 0)
    for name, when in (("d-out/10,20/OLD.TXT", 12_000_000), ("d-out/10,20/NEW.TXT", 1_700_000_000)):
        tries.so(f"{name} is of its minute", int(os.stat(tries.path(name)).st_mtime) == when // 60 * 60)
    tries.expect(["import", "D.IMG", "10,21", "--date", "1969-07-20", "--minute", "5", "d/new.txt"], b"",
                 lines("d/new.txt: NEW.TXT OK"), 0)
    ran = tries.run(["list", "--tsv", "D.IMG", "10,21"])
    tries.so("the date that is given", b"\t1969-07-20\t00:05\t" in ran.stdout)


def odd_names(tries):
    """Tests names of a volume that no path may have: no file of the host gets one that leads elsewhere. All files
    except the first have no words and mode 17."""
    tries.image("O.IMG")
    tries.expect(["import", "O.IMG", "10,20", "a/foo.txt"], b"", lines("a/foo.txt: FOO.TXT OK"), 0)
    for name, ext in ((0o160000000000, 0), (0o161600000000, 0), (0o170000000000, 0o160000), (0o410041000000, 0o410000)):
        script = [
            "1 LOGIN 10,20 1000", "1 DEP 30 17", "1 DEP 31 446353000000", "1 DEP 32 0", "1 OPEN 1 30",
            "1 DEP 40 465757000000", "1 DEP 41 647064000000", "1 DEP 42 0", "1 DEP 43 0", "1 LOOKUP 1 40",
            f"1 DEP 40 {name:o}", f"1 DEP 41 {ext << 18:o}", "1 DEP 43 0", "1 RENAME 1 40",
            "1 OPEN 2 30", "1 DEP 44 465757000000", "1 DEP 45 647064000000", "1 DEP 46 0", "1 DEP 47 0",
            "1 ENTER 2 44", "1 CLOSE 2 0",
        ]
        ran = tries.run(["calls", "O.IMG"], lines(*script))
        tries.so(f"a name of {name:o}", ran.returncode == 0)
    tries.expect(["export", "O.IMG", "o-out"], b"",
                 lines("o-out/10,20/%2E: text OK", "o-out/10,20/%2E%2E: bytes OK", "o-out/10,20/%2F.%2E: bytes OK",
                       "o-out/10,20/A%20A.A: bytes OK", "o-out/10,20/FOO.TXT: bytes OK"), 0)


def rooms(tries):
    """Tests that files that find no room don't stop the others, and that folders that can't be made are reported."""
    tries.image("R.IMG", 64)
    tries.write("r/big.bin", bytes([200] * 60_000))
    tries.write("r/huge.bin", bytes([200] * 9_000_000))
    tries.expect(["import", "R.IMG", "10,20", "a/foo.txt", "r/big.bin", "r/huge.bin", "a/empty"], b"",
                 lines("a/foo.txt: FOO.TXT OK", "r/big.bin: BIG.BIN ?No room", "r/huge.bin: HUGE.BIN ?No room",
                       "a/empty: EMPTY OK"), 1)
    tries.expect(["check", "R.IMG"], b"", b"Volume of 64 blocks, room 44\n", 0)
    tries.write("r/file", b"")
    told = tries.expect(["export", "R.IMG", "r/file"], b"", lines("r/file: ?Can't make folder"), 1)
    tries.so("why not", b"r/file: File exists" in told)
    os.makedirs(tries.path("r-out"))
    tries.write("r-out/10,20", b"")
    tries.expect(["export", "R.IMG", "r-out"], b"", lines("r-out/10,20: ?Can't make folder"), 1)
    tries.expect(["export", "R.IMG", "none/r-out"], b"", lines("none/r-out: ?Can't make folder"), 1)
    tries.expect(["export", "R.IMG", "r-two", "10,21"], b"", lines("r-two/10,21: ?No such directory"), 1)
    # What a full volume has no room for isn't made either.
    tries.image("FULL.IMG", 64)
    owners = [f"[10,{n:o}]" for n in range(1, 49)]
    script = [line for owner in owners for line in (f"LOGIN {owner}", f"MAKDIR {owner}")]
    tries.run(["run", "FULL.IMG"], lines(*script))
    tries.expect(["import", "FULL.IMG", "20,20", "a/foo.txt"], b"", lines("a/foo.txt: ?No room"), 1)


def directories(tries):
    """Tests that a directory is made with the first file that is put, and not before."""
    tries.image("DIR.IMG", 64)
    tries.expect(["import", "DIR.IMG", "10,20", "odd/none", "long/---"], b"",
                 lines("odd/none: ?Can't read", "long/---: ?Bad name"), 1)
    tries.expect(["list", "DIR.IMG", "10,20"], b"", b"?No such directory\n", 1)
    tries.expect(["import", "DIR.IMG", "10,20", "odd/none", "a/foo.txt"], b"",
                 lines("odd/none: ?Can't read", "a/foo.txt: FOO.TXT OK"), 1)


def streams(tries):
    """Tests that nothing is printed or reported into a file to import: such a run is turned away."""
    tries.image("S.IMG", 64)
    tries.image("S2.IMG", 64)
    before = tries.read("S.IMG"), tries.read("S2.IMG")
    words = [tries.program, "import", "S.IMG", "10,20", "a/foo.txt", "S2.IMG"]
    reason = b"filser: a file to import: the standard output of this run\n"
    for led, told in ((("stdout",), reason), (("stderr",), None), (("stdout", "stderr"), None)):
        with open(tries.path("S2.IMG"), "ab") as source:
            given = {"stdout": subprocess.PIPE, "stderr": subprocess.PIPE, **{name: source for name in led}}
            ran = subprocess.run(words, cwd=tries.folder, stdin=subprocess.DEVNULL, **given)
        tries.so(f"{led} at a file to import: {ran}", ran.returncode == 4 and not ran.stdout and ran.stderr == told)
        tries.so(f"{led} at a file to import: no byte changes", before == (tries.read("S.IMG"), tries.read("S2.IMG")))
    with open(tries.path("a/foo.txt"), "rb") as source:
        ran = subprocess.run([*words[:4], "a/foo.txt"], cwd=tries.folder, stdin=source, capture_output=True)
    tries.so("a file to import may be the input", ran.stdout == lines("a/foo.txt: FOO.TXT OK"))


def arguments(tries):
    """Tests that wrong words open nothing."""
    before = tries.read("A.IMG")
    for words in (["import", "A.IMG", "10,20"], ["import", "A.IMG", "10", "a/foo.txt"], ["export", "A.IMG"],
                  ["import", "A.IMG", "10,20", "--text", "--words", "a/foo.txt"],
                  ["export", "A.IMG", "x", "--bytes", "--words"], ["export", "A.IMG", "x", "10"],
                  ["put", "A.IMG", "--newer", "10,20", "FOO.TXT"]):
        tries.expect(words, b"", b"", 2)
    tries.so("the image is as before", tries.read("A.IMG") == before)
    tries.expect(["import", "NONE.IMG", "10,20", "a/foo.txt"], b"", b"?Device fault\n", 4)
    tries.expect(["export", "NONE.IMG", "x"], b"", b"?Device fault\n", 4)


def thousand(tries):
    """Tests a thousand files in and out, byte for byte, in one run each."""
    chance = random.Random(1964)
    wanted = {}
    for n in range(FILES):
        name = f"f{n:05}.{'txt' if n % 2 else 'bin'}"
        size = chance.choice([0, 1, 3, 4, 5, 100, 639, 640, 641, 2000])
        data = bytes(chance.randrange(1, 128) for _ in range(size)) if n % 2 else chance.randbytes(size)
        tries.write(f"t/{name}", data)
        wanted[name.upper()] = data
    tries.image("T.IMG", 16384, "--layout", "2")
    paths = [f"t/{name.lower()}" for name in sorted(wanted)]
    tries.expect(["import", "T.IMG", "10,20", *paths], b"",
                 lines(*(f"{path}: {os.path.basename(path).upper()} OK" for path in paths)), 0)
    ran = tries.run(["export", "T.IMG", "t-out"])
    tries.so("all of them come out", ran.returncode == 0 and ran.stdout.count(b" OK\n") == FILES)
    same = sum(tries.read(f"t-out/10,20/{name}") == data for name, data in wanted.items())
    tries.so(f"{same} of {FILES} come back", same == FILES)
    kills(tries, paths, wanted)


def kills(tries, paths, wanted):
    """Tests an import that is stopped in the middle: what was answered is there, and another run stores the rest."""
    for part in range(3):
        tries.image("K.IMG", 16384)
        words = [tries.program, "import", "K.IMG", "10,20", *paths]
        run = subprocess.Popen(words, stdout=subprocess.PIPE, cwd=tries.folder)
        time.sleep(0.1 + 0.15 * part)
        run.send_signal(signal.SIGKILL)
        answered = [line.split()[1].decode() for line in run.communicate()[0].split(b"\n") if line.endswith(b" OK")]
        tries.expect(["check", "K.IMG"], b"", tries.run(["check", "K.IMG"]).stdout, 0)
        listed = tries.run(["list", "--tsv", "K.IMG", "10,20"]).stdout.decode().split("\n")
        there = {".".join(line.split("\t")[1:3]) for line in listed if line}
        tries.so(f"the {len(answered)} answered files are there", set(answered) <= there)
        ran = tries.run(["import", "K.IMG", "10,20", *paths])
        exists = ran.stdout.count(b"?File name already exists")
        is_rest = ran.stdout.count(b" OK\n") + exists == FILES and exists >= len(answered)
        tries.so("the rest comes by another run", is_rest)
        tries.run(["export", "K.IMG", f"k-out{part}"])
        same = sum(tries.read(f"k-out{part}/10,20/{name}") == data for name, data in wanted.items())
        tries.so(f"{same} of {FILES} come back after a stop", same == FILES)


def main():
    if len(sys.argv) != 2 or not os.access(sys.argv[1], os.X_OK):
        print("usage: tests/imported_files.py PROGRAM", file=sys.stderr)
        return 2
    with tempfile.TemporaryDirectory() as folder:
        tries = Tries(os.path.abspath(sys.argv[1]), folder)
        for part in (four_commands, names, encodings, dates, odd_names, rooms, directories, streams, arguments,
                     thousand):
            part(tries)
    print(f"imported_files: {tries.count - tries.failed} as they should be, {tries.failed} not")
    return 1 if tries.failed else 0


if __name__ == "__main__":
    sys.exit(main())
