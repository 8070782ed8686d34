#!/usr/bin/env python3
"""Tests that exported files last, and that nothing else is read or made: python3 tests/exported_files.py PROGRAM.

- Each system call of an export fails in turn, and the program is killed at each: a file with a line OK is whole, no
  file with its own name is in part, and the next run makes the rest and leaves nothing unfinished.
- Links, FIFOs, sockets, devices and folders in the place of a file or a folder, before the run and during it.
- Permission bits, file systems without times and without links, a device that fills up late.
- Imports that are refused again cost the same for each file, by instructions that valgrind counts.

Without strace, or if it may not trace, the calls that fail are left out, and a line says so. Prints a line for each
failed check, and one line at the end.
"""

import os
import re
import shutil
import signal
import socket
import stat
import subprocess
import sys
import tempfile

FILES = {"10,20/A.TXT": (b"HELLO\r\n", "text"), "10,20/B.BIN": (bytes(range(256)) * 9, "bytes"),
         "10,20/EMPTY": (b"", "text"), "10,21/C.TXT": (b"C" * 5000, "text")}
UNFINISHED = "filser-unfinished"
# What an export asks of the host beyond the image, by the system's names.
CALLS = ("mkdir", "openat", "write", "fchmod", "chmod", "fsync", "link", "unlink", "flock", "statx", "utimensat")
COUNTED = re.compile(rb"Collected : (\d+)")
MOST_RATIO = 2.4


class Tries:
    """Runs of the program in a folder of their own, on an image with a few files."""

    def __init__(self, program, folder):
        self.program, self.folder = program, folder
        self.count = self.failed = 0
        os.makedirs(self.path("in"))
        self.run("init", "D.IMG", "4096")
        for name, (data, _) in FILES.items():
            owner, name = name.split("/")
            self.write(os.path.join("in", name), data)
            self.run("import", "D.IMG", owner, os.path.join("in", name))

    def path(self, *names):
        return os.path.join(self.folder, *names)

    def write(self, name, data):
        os.makedirs(os.path.dirname(self.path(name)), exist_ok=True)
        with open(self.path(name), "wb") as file:
            file.write(data)

    def read(self, name):
        try:
            with open(self.path(name), "rb") as file:
                return file.read()
        except OSError:
            return None

    def run(self, *words, before=()):
        return subprocess.run([*before, self.program, *words], capture_output=True, cwd=self.folder, timeout=120)

    def so(self, what, is_so):
        """Counts a check that must hold."""
        self.count += 1
        if not is_so:
            self.failed += 1
            print(f"exported_files: {what}")

    def clear(self):
        shutil.rmtree(self.path("out"), ignore_errors=True)

    def answers(self, ran):
        """Returns what each line of an export says of its file, without the kind of its bytes."""
        parts = (line.split(": ", 1) for line in ran.stdout.decode().splitlines() if ": " in line)
        return {path.removeprefix("out/"): said.split()[-1] if said.endswith(" OK") else said for path, said in parts}

    def left(self):
        """Returns the names in the folders of an export that are those of no file of the image."""
        found = [os.path.relpath(os.path.join(at, name), self.path("out"))
                 for at, _, names in os.walk(self.path("out")) for name in names]
        return [name for name in found if name not in FILES]

    def check_files(self, what, answers):
        """Checks that what has a line OK is whole, and that no file is in part."""
        for name, (data, _) in FILES.items():
            found = self.read(os.path.join("out", name))
            self.so(f"{what}: {name} is in part", found in (None, data))
            if answers.get(name) == "OK":
                self.so(f"{what}: {name} is OK and isn't there", found == data)

    def check_rest(self, what):
        """Checks that the next run makes the files that aren't there, and leaves nothing else."""
        there = {name for name in FILES if self.read(os.path.join("out", name)) is not None}
        ran = self.run("export", "D.IMG", "out")
        answers = self.answers(ran)
        wanted = {name: "?Can't write" if name in there else "OK" for name in FILES}
        self.so(f"{what}, then {ran.stdout}", answers == wanted)
        self.check_files(f"{what}, then", answers)
        self.so(f"{what} leaves {self.left()}", not self.left())


def may_trace():
    """Returns whether strace is installed and may trace."""
    if not shutil.which("strace"):
        return False
    return subprocess.run(["strace", "-o", "/dev/null", "true"], capture_output=True, check=False).returncode == 0


def failing(calls):
    """Returns the words before a run in which these calls fail, or end it."""
    return ["strace", "-o", "/dev/null", "-e", f"inject={calls}"]


def counts_of(tries):
    """Returns how often an export makes each call, from the first one that the image needs no more."""
    tries.run("export", "D.IMG", "out", before=["strace", "-o", "calls", "-e", f"trace={','.join(CALLS)}"])
    with open(tries.path("calls"), encoding="latin-1") as file:
        made = [line.split("(")[0] for line in file if "(" in line]
    tries.clear()
    first = made.index("mkdir")
    return {call: (made[:first].count(call), made.count(call)) for call in CALLS}


def a_plain_export(tries):
    """Tests an export that nothing disturbs: bytes, lines, permission bits, and what a second one says."""
    os.chmod(tries.path("D.IMG"), 0o640)
    ran = tries.run("export", "D.IMG", "out")
    wanted = "".join(f"out/{name}: {kind} OK\n" for name, (_, kind) in FILES.items())
    tries.so(f"a plain export: {ran.stdout}", ran.stdout.decode() == wanted and ran.returncode == 0)
    tries.check_files("a plain export", tries.answers(ran))
    bits = {stat.S_IMODE(os.stat(tries.path("out", name)).st_mode) for name in FILES}
    tries.so(f"bits of files: {bits}", bits == {0o640})
    bits = {stat.S_IMODE(os.stat(tries.path(name)).st_mode) for name in ("out", "out/10,20", "out/10,21")}
    tries.so(f"bits of folders: {bits}", bits == {0o750})
    tries.check_rest("a second export")
    tries.clear()


def faults_in_turn(tries, counts):
    """Tests an export in which one system call fails, or is the last one."""
    for call, (before, all_of_them) in counts.items():
        for number in range(before + 1, all_of_them + 1):
            for fault in ("error=EIO", "error=ENOSPC", "signal=KILL"):
                what = f"{call} {number} {fault}"
                ran = tries.run("export", "D.IMG", "out", before=failing(f"{call}:{fault}:when={number}"))
                answers = tries.answers(ran)
                tries.check_files(what, answers)
                if fault.startswith("error"):
                    refused = any(said != "OK" for said in answers.values())
                    # A write may be that of a line: then the run ends.
                    ended = call == "write" and ran.returncode == 4
                    said = f"{what}: {ran.stdout}, status {ran.returncode}"
                    tries.so(said, ended or refused == (ran.returncode != 0))
                tries.check_rest(what)
                tries.clear()


def kinds_of_file_systems(tries):
    """Tests file systems that keep no times or have no links, and a device that fills up when it is synced."""
    ran = tries.run("export", "D.IMG", "out", before=failing("link:error=EPERM"))
    tries.so(f"without links: {ran.stdout}", set(tries.answers(ran).values()) == {"OK"} and not tries.left())
    tries.check_files("without links", tries.answers(ran))
    tries.clear()
    ran = tries.run("export", "D.IMG", "out", before=failing("flock:error=ENOLCK:when=2+"))
    tries.so(f"without locks: {ran.stdout}", set(tries.answers(ran).values()) == {"OK"} and not tries.left())
    tries.clear()
    tries.run("init", "T.IMG", "4096", "--layout", "2")
    tries.run("import", "T.IMG", "10,20", "in/A.TXT", "--date", "1975-01-04")
    ran = tries.run("export", "T.IMG", "out", before=failing("utimensat:error=EPERM"))
    told = b"out/10,20/A.TXT: its date isn't set: " in ran.stderr
    tries.so(f"without times: {ran.stdout}", ran.stdout == b"out/10,20/A.TXT: text OK\n" and told)
    tries.clear()


def things_in_the_way(tries):
    """Tests that a link is no folder, that no name is taken twice, and that other files stay as they are."""
    for linked, status in (("out", 0), ("out/10,20", 1)):
        shutil.rmtree(tries.path("elsewhere"), ignore_errors=True)
        os.makedirs(tries.path("elsewhere"))
        os.makedirs(os.path.dirname(tries.path(linked)), exist_ok=True)
        os.symlink(tries.path("elsewhere"), tries.path(linked))
        ran = tries.run("export", "D.IMG", "out", "10,20")
        is_empty = not os.listdir(tries.path("elsewhere"))
        tries.so(f"{linked} is a link: {ran.stdout}", ran.returncode == status and is_empty == (status == 1))
        os.remove(tries.path(linked))
        tries.clear()
    tries.write("victim", b"mine")
    for name in ("A.TXT", f".A.TXT.{UNFINISHED}"):
        os.makedirs(tries.path("out/10,20"))
        os.symlink(tries.path("victim"), tries.path("out/10,20", name))
        ran = tries.run("export", "D.IMG", "out", "10,20")
        answers = tries.answers(ran)
        tries.so(f"{name} is a link: {ran.stdout}", answers["10,20/A.TXT"] == "?Can't write"
                 and answers["10,20/B.BIN"] == "OK" and tries.read("victim") == b"mine")
        tries.clear()
    os.makedirs(tries.path("out/10,20"))
    os.mkfifo(tries.path("out/10,20/A.TXT"))
    os.mkdir(tries.path(f"out/10,20/.B.BIN.{UNFINISHED}"))
    answers = tries.answers(tries.run("export", "D.IMG", "out", "10,20"))
    tries.so(f"a FIFO and a folder: {answers}", answers["10,20/A.TXT"] == "?Can't write"
             and answers["10,20/B.BIN"] == "?Can't write" and answers["10,20/EMPTY"] == "OK")
    tries.clear()


def a_folder_that_is_replaced(tries):
    """Tests an export whose folder becomes a link while it runs: nothing is written elsewhere."""
    tries.run("init", "M.IMG", "4096")
    names = [f"in/F{number}.TXT" for number in range(300)]
    for name in names:
        tries.write(name, b"F")
    tries.run("import", "M.IMG", "10,20", *names)
    os.makedirs(tries.path("other"))
    run = subprocess.Popen([tries.program, "export", "M.IMG", "out"], stdout=subprocess.PIPE, stderr=subprocess.DEVNULL,
                           cwd=tries.folder)
    first = run.stdout.readline()
    run.send_signal(signal.SIGSTOP)
    os.rename(tries.path("out/10,20"), tries.path("moved"))
    os.symlink(tries.path("other"), tries.path("out/10,20"))
    run.send_signal(signal.SIGCONT)
    rest = run.communicate()[0]
    said = [line for line in (first + rest).splitlines() if line.endswith(b" OK")]
    there = [name for name in os.listdir(tries.path("moved")) if not name.endswith(UNFINISHED)]
    tries.so(f"{len(said)} lines OK, {len(there)} files", len(said) <= len(there) <= len(said) + 1)
    tries.so(f"elsewhere: {os.listdir(tries.path('other'))[:3]}", not os.listdir(tries.path("other")))
    os.remove(tries.path("out/10,20"))
    tries.clear()


def what_is_no_file(tries):
    """Tests that an import reads regular files alone, and doesn't wait for others."""
    os.mkfifo(tries.path("fifo"))
    with socket.socket(socket.AF_UNIX) as listener:
        listener.bind(tries.path("socket"))
        os.symlink(tries.path("in/A.TXT"), tries.path("link"))
        os.symlink("/dev/zero", tries.path("zero"))
        os.makedirs(tries.path("folder"), exist_ok=True)
        ran = tries.run("import", "D.IMG", "10,22", "fifo", "socket", "zero", "folder", "link")
    wanted = "".join(f"{name}: ?Can't read\n" for name in ("fifo", "socket", "zero", "folder")) + "link: LINK OK\n"
    tries.so(f"no files: {ran.stdout}", ran.stdout.decode() == wanted and ran.returncode == 1)
    kinds = ("fifo: it is a FIFO", "socket: it is a socket", "zero: it is a device", "folder: Is a directory")
    tries.so(f"their kinds: {ran.stderr}", all(kind in ran.stderr.decode() for kind in kinds))
    tries.run("delete", "D.IMG", "10,22", "LINK")


def refused_again(tries):
    """Tests that a file that is refused costs the same, however many are refused before it."""
    if not shutil.which("valgrind"):
        print("exported_files: SKIPPED, there is no valgrind to count instructions")
        return
    costs = []
    for count in (500, 1000):
        names = [f"many/F{number}" for number in range(count)]
        for name in names:
            tries.write(name, b"F")
        tries.run("init", f"{count}.IMG", "4096")
        tries.run("import", f"{count}.IMG", "10,20", *names)
        ran = tries.run("import", f"{count}.IMG", "10,20", *names,
                        before=["valgrind", "--tool=callgrind", "--callgrind-out-file=/dev/null"])
        counted = COUNTED.search(ran.stderr)
        costs.append(int(counted[1]) if counted else 0)
        tries.so(f"{count} refused", ran.stdout.count(b"?File name already exists") == count)
        tries.so(f"{count} are named", b"has the same name" not in ran.stderr)
    tries.so(f"instructions of refusals: {costs}", 0 < costs[1] <= MOST_RATIO * costs[0])


def main():
    if len(sys.argv) != 2 or not os.access(sys.argv[1], os.X_OK):
        print("usage: tests/exported_files.py PROGRAM", file=sys.stderr)
        return 2
    with tempfile.TemporaryDirectory() as folder:
        tries = Tries(os.path.abspath(sys.argv[1]), folder)
        a_plain_export(tries)
        if may_trace():
            faults_in_turn(tries, counts_of(tries))
            kinds_of_file_systems(tries)
        else:
            print("exported_files: SKIPPED in part, there is no strace that may trace (apt-get install strace)")
        for part in (things_in_the_way, a_folder_that_is_replaced, what_is_no_file, refused_again):
            part(tries)
    print(f"exported_files: {tries.count - tries.failed} as they should be, {tries.failed} not")
    return 1 if tries.failed else 0


if __name__ == "__main__":
    sys.exit(main())
