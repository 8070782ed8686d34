#!/usr/bin/env python3
"""Measures what the program adds to its own system calls.

usage: benchmarks/replay.py PROGRAM

Each run is traced once (strace), and a program in C (gcc -O2) is made of the calls that it made on the image: the same
reads, writes, seeks and syncs in the same order, with the bytes of each read copied once, and nothing else. The table
has the processor's time of both, including the system's, in milliseconds, each the least of fifteen runs that take
turns, and the program's as a multiple of the other's. The folder is below /dev/shm if there is one, so that a sync
costs nothing. The runs are:

  a start     on a volume of 8192 blocks with 1,000 files of 500 characters
  60 MiB      a start on a volume of 131,072 blocks with 60 MiB of files
  get         of one of these files
  import      of 100 more of them
  COPY        of a file of 1 MiB to one that is there, on the large volume
  put         of 1 MiB of words to a file that is there, on the same
  get 10 MiB  of a file of as many words, on the same

Times on a machine that does other work are rough. This isn't part of the gate.
"""
import os
import re
import shutil
import subprocess
import sys
import tempfile

TURNS = 15
MIB = 1 << 20
TEXT = b"A LINE OF FIFTY CHARACTERS, TEN OF WHICH A FILE HAS\n"[:50] * 10
CALL = re.compile(r"^(read|pread64|write|pwrite64|lseek|fdatasync|fsync)\(\d+<([^>]*)>(?:, \.\.\.|, \"\"\.{3})?(?:, (\d+))?")
TRACER = ["strace", "-f", "-y", "-s", "0", "-e", "trace=read,pread64,write,pwrite64,lseek,fdatasync,fsync", "-o"]
SOURCE = """#include <fcntl.h>
#include <string.h>
#include <unistd.h>
struct call { char kind; long count; };
static const struct call calls[] = { %s };
static char bytes[1 << 22], kept[1 << 22];
int main(int count, char **words) {
    int image = open(words[1], O_RDWR);
    if (image < 0) return 1;
    for (const struct call *call = calls; call->kind; call++) {
        ssize_t done = 0;
        if (call->kind == 'r') { done = read(image, bytes, call->count); memcpy(kept, bytes, done < 0 ? 0 : done); }
        else if (call->kind == 'w') done = write(image, kept, call->count);
        else if (call->kind == 's') done = lseek(image, call->count, SEEK_SET);
        else done = fdatasync(image);
        if (done < 0) return 1;
    }
    return 0;
}
"""


class Run:
    """A run of the program on a fresh copy of an image."""

    def __init__(self, name, image, words, given=b""):
        self.name = name
        self.image = image
        self.words = words
        self.given = given

    def spent(self, words, folder):
        """Returns the processor's time of a process, including the system's."""
        shutil.copyfile(os.path.join(folder, self.image), os.path.join(folder, "RUN.IMG"))
        with open(os.path.join(folder, "given"), "rb") as given:
            child = subprocess.Popen(words, stdin=given, stdout=subprocess.DEVNULL, cwd=folder)
        _number, status, used = os.wait4(child.pid, 0)
        child.returncode = os.waitstatus_to_exitcode(status)
        if child.returncode != 0:
            sys.exit(f"{words[:4]} ended with {child.returncode}")
        return used.ru_utime + used.ru_stime

    def calls(self, program, folder):
        """Returns the calls of a run on its image, as the program in C has them."""
        trace = os.path.join(folder, "trace")
        self.spent([*TRACER, trace, program, *self.words], folder)
        calls = []
        with open(trace, encoding="utf-8") as lines:
            for line in lines:
                found = CALL.match(line.split(None, 1)[1])
                if found and found[2].endswith("/RUN.IMG"):
                    kind = {"l": "s"}.get(found[1].lstrip("p")[0], found[1].lstrip("p")[0])
                    calls.append(f"{{'{kind}', {found[3] or 0}}}")
        return calls

    def measure(self, program, folder):
        """Returns the least times of the program and of one in C that makes the same calls, and how many calls there
        are."""
        with open(os.path.join(folder, "given"), "wb") as given:
            given.write(self.given)
        calls = self.calls(program, folder)
        source, other = os.path.join(folder, "replay.c"), os.path.join(folder, "replay")
        with open(source, "w", encoding="utf-8") as file:
            file.write(SOURCE % ", ".join([*calls, "{0, 0}"]))
        subprocess.run(["gcc", "-O2", "-o", other, source], check=True)
        times = [(self.spent([program, *self.words], folder), self.spent([other, "RUN.IMG"], folder))
                 for _turn in range(TURNS)]
        return min(time[0] for time in times), min(time[1] for time in times), len(calls)


def make_images(program, folder):
    """Makes the two images, and files of the host."""

    def run(*words, given=b""):
        subprocess.run([program, *words], input=given, stdout=subprocess.DEVNULL, cwd=folder, check=True)

    names = [f"F{number:04}.TXT" for number in range(1000)]
    for name in [*names, *(f"G{number:04}.TXT" for number in range(100))]:
        with open(os.path.join(folder, name), "wb") as file:
            file.write(TEXT)
    run("init", "SMALL.IMG", "8192")
    run("import", "SMALL.IMG", "10,20", *names)
    run("init", "LARGE.IMG", "131072")
    run("run", "LARGE.IMG", given=b"LOGIN [10,20]\nMAKDIR [10,20]\n")
    words = os.urandom(MIB)
    words = b"".join(b"\0\0\0" + bytes([byte & 15]) + words[at:at + 4] for at, byte in enumerate(words[:MIB // 8]))
    run("put", "--words", "LARGE.IMG", "10,20", "BIG.DAT", given=words * 10)
    run("put", "--words", "LARGE.IMG", "10,20", "F0.DAT", given=words)
    copies = "".join(f"COPY F{number}.DAT=F0.DAT\n" for number in range(1, 50))
    run("run", "LARGE.IMG", given=b"LOGIN [10,20]\n" + copies.encode())
    return words


def main():
    program = os.path.abspath(sys.argv[1])
    with tempfile.TemporaryDirectory(dir="/dev/shm" if os.path.isdir("/dev/shm") else None) as folder:
        words = make_images(program, folder)
        runs = [
            Run("a start", "SMALL.IMG", ["check", "RUN.IMG"]),
            Run("60 MiB", "LARGE.IMG", ["check", "RUN.IMG"]),
            Run("get", "SMALL.IMG", ["get", "RUN.IMG", "10,20", "F0500.TXT"]),
            Run("import", "SMALL.IMG", ["import", "RUN.IMG", "10,20", *(f"G{number:04}.TXT" for number in range(100))]),
            Run("COPY", "LARGE.IMG", ["run", "RUN.IMG"], b"LOGIN [10,20]\nCOPY F1.DAT=F2.DAT\n"),
            Run("put", "LARGE.IMG", ["put", "--words", "RUN.IMG", "10,20", "F1.DAT"], words),
            Run("get 10 MiB", "LARGE.IMG", ["get", "--words", "RUN.IMG", "10,20", "BIG.DAT"]),
        ]
        print(f"{'':12}{'calls':>8}{'program':>10}{'C':>10}{'ratio':>8}")
        for run in runs:
            own, other, count = run.measure(program, folder)
            print(f"{run.name:12}{count:>8}{1000 * own:>10.1f}{1000 * other:>10.1f}{own / other:>8.2f}")


if __name__ == "__main__":
    main()
