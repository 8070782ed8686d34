#!/usr/bin/env python3
"""Tests what the program reports if the host fails, and that nothing lands in a file that its words name.

usage: tests/host_faults.py PROGRAM

A run that ends with status 4 reports why: an output that is full, a root directory that can't be opened, lack of
memory, a lock that the system doesn't give, reads or a sync that fail, an image whose length changes. A read that fails
once costs nothing. Words that are refused or ask for help print nothing into a file that one of them names. `convert`
copies permission bits, a failed `init` removes only its own file, and names are reported with their control characters
escaped. An endless input is refused, and 512 KiB of stack are enough. Some calls are made to fail by strace; without it, or if it may not trace, those cases are
SKIPPED, and a line says so. Prints a line for each failed check, and one line at the end.
"""

import fcntl
import os
import resource
import shutil
import subprocess
import sys
import tempfile
import time

LIMIT = 60
PAGE = 4096
AMPLE = 1 << 28
STACK = 1 << 19

LOGIN = b"LOGIN [1,2]\n"
JOB = b"Job 1 [1,2]\n"
MAKDIR = b"MAKDIR [10,21]\n"
FAULT = b"?Device fault\n"
MADE = b"LOGIN [10,20]\nMAKDIR [10,20]\n"
HELLO = b"HELLO\r\n"
VERSION = b"filser 0.1.0\n"
HINT = "after a device fault let the host drop its cache (restart it) before the next start"
LENGTH = "the image has another length than at the start"
OWNER = "two octal numbers of 1 to 6 digits, neither of them zero, as 10,20 or [10,20]"
FULL = "No space left on device (os error 28)"
BROKEN = "Input/output error (os error 5)"


def tells(name, *reasons):
    """Returns what is reported of a file, or of another part of the host: a line for each reason."""
    return "".join(f"filser: {name}: {reason}\n" for reason in reasons).encode()


class Tries:
    """Runs of the program, each case in its own folder, which has an image A.IMG with a file on it."""

    def __init__(self, program):
        self.program = program
        self.folder = None
        self.count = 0
        self.failed = 0
        self.may_trace = may_trace()

    def enter(self, folder):
        """Makes runs use this folder, which is new."""
        os.mkdir(folder)
        self.folder = folder
        self.run(["init", "A.IMG", "64"])
        self.run(["run", "A.IMG"], data=MADE)
        self.run(["put", "A.IMG", "10,20", "HELLO.TXT"], data=HELLO)

    def path(self, name):
        return os.path.join(self.folder, name)

    def read(self, name):
        with open(self.path(name), "rb") as file:
            return file.read()

    def write(self, name, data):
        with open(self.path(name), "wb") as file:
            file.write(data)

    def mode(self, name):
        """Returns the permission bits of a file."""
        return os.stat(self.path(name)).st_mode & 0o7777

    def judge(self, good, what):
        """Counts a check, and reports what is wrong."""
        self.count += 1
        if not good:
            self.failed += 1
            print(f"{os.path.basename(self.folder)}: {what}")

    def skip(self, what):
        """Reports what can't be tested here."""
        print(f"{os.path.basename(self.folder)}: SKIPPED, {what}")

    def words(self, words, faults, log):
        """Returns the words of a run in which calls fail as strace is told, with a log of what it traced."""
        if not faults:
            return [self.program, *words]
        return ["strace", "-f", "-o", self.path(log), *faults, self.program, *words]

    def run(self, words, data=b"", faults=(), log="LOG", **how):
        """Returns what a run prints and reports, and its status. A stream that leads to a file is empty here."""
        streams = {"stdout": subprocess.PIPE, "stderr": subprocess.PIPE, **how}
        done = subprocess.run(self.words(words, faults, log), input=data, cwd=self.folder, check=False, timeout=LIMIT,
                              **streams)
        return done.stdout or b"", done.stderr or b"", done.returncode

    def expect(self, words, printed, told, status, **how):
        """Checks that a run prints this, reports this, and has this status; None is anything."""
        out, err, code = self.run(words, **how)
        good = code == status and printed in (None, out) and told in (None, err)
        self.judge(good, f"{words}: status {code} and not {status}; {out!r} and not {printed!r}; tells {err!r} and not "
                         f"{told!r}")
        return out, err

    def expect_kept(self, name, words, printed, told, status, **how):
        """Checks the same, and that a file still has its bytes."""
        was = self.read(name)
        out, err = self.expect(words, printed, told, status, **how)
        self.judge(self.read(name) == was, f"{words}: {name} has other bytes")
        return out, err

    def appending(self, name):
        """Returns a stream that leads to the end of a file."""
        return open(self.path(name), "ab")


def limits(what, bytes_allowed):
    """Returns what gives a child this limit."""
    return lambda: resource.setrlimit(what, (bytes_allowed, bytes_allowed))


def may_trace():
    """Returns whether strace is installed and may trace."""
    if not shutil.which("strace"):
        return False
    return subprocess.run(["strace", "-o", "/dev/null", "true"], capture_output=True, check=False).returncode == 0


def failing(call, error, when="1+"):
    """Returns what strace needs to make a call fail."""
    return ["-e", f"trace={call}", "-e", f"inject={call}:error={error}:when={when}"]


def an_output_that_is_full(tries):
    """Tests that an answer that can't be written is reported, and that what was done stays."""
    told = tells("standard output", FULL)
    for words, data in [(["list", "A.IMG"], b""), (["list", "A.IMG", "7,7"], b""), (["check", "A.IMG"], b""),
                        (["get", "A.IMG", "10,20", "HELLO.TXT"], b""), (["run", "A.IMG"], LOGIN),
                        (["calls", "A.IMG"], b"1 RESET\n"), (["migrate", "A.IMG"], b""), ([], LOGIN),
                        (["--version"], b""), (["help"], b"")]:
        with open("/dev/full", "wb") as full:
            tries.expect(words, None, told, 4, data=data, stdout=full)
    # a refusal that can't be printed has its reason too
    with open("/dev/full", "wb") as full:
        tries.expect(["check", "NONE.IMG"], None, tells("NONE.IMG", "No such file or directory (os error 2)") + told, 4,
                     stdout=full)
    with open("/dev/full", "wb") as full, tries.appending("A.IMG") as errors:
        for words in (["--help", "A.IMG"], ["run", "A.IMG", "--help"]):
            tries.expect_kept("A.IMG", words, None, None, 0, stdout=full, stderr=errors)
    # if nothing is printed, nothing fails
    with open("/dev/full", "wb") as full:
        tries.expect(["init", "B.IMG", "64"], None, b"", 0, stdout=full)


def a_root_that_is_not_opened(tries):
    """Tests that there is no run without the root directory, which takes the places of missing streams."""
    if not tries.may_trace:
        tries.skip("there is no strace that may trace")
        return
    faults = ["-P", "/", *failing("openat", "EMFILE")]
    told = tells("/", "Too many open files (os error 24)")
    for words in (["check", "A.IMG"], [], ["--version"]):
        tries.expect_kept("A.IMG", words, b"", told, 4, data=LOGIN, faults=faults)
    with tries.appending("A.IMG") as errors:
        tries.expect_kept("A.IMG", ["check", "A.IMG"], b"", None, 4, faults=faults, stderr=errors)


def too_little_memory(tries):
    """Tests that a run reports why it ends with status 4, whatever memory it has, and reports nothing if it has
    enough."""
    want = b"filser: out of memory\n"
    tales = {}
    for words, data in [(["run", "A.IMG"], LOGIN), ([], LOGIN), (["get", "A.IMG", "10,20", "HELLO.TXT"], b"")]:
        for pages in range(0, 512):
            def limit(size=pages * PAGE):
                resource.setrlimit(resource.RLIMIT_DATA, (size, size))
            try:
                out, err, code = tries.run(words, data=data, preexec_fn=limit)
            except (OSError, subprocess.SubprocessError):
                continue
            if code == 0:
                tries.judge(err == b"", f"{words} with {pages} pages: tells {err!r}")
                break
            if code == 4:
                tales[err] = tales.get(err, 0) + 1
                tries.judge(err in (want, tells("A.IMG", "out of memory")),
                            f"{words} with {pages} pages: prints {out!r} and tells {err!r}")
    if want not in tales:
        tries.skip("no limit of memory ends a run for want of it")


def words_that_are_refused(tries):
    """Tests that wrong words print nothing into a file that one of them names, and that they are otherwise reported as
    usual."""
    os.symlink("A.IMG", tries.path("LINK.IMG"))
    os.link(tries.path("A.IMG"), tries.path("OTHER.IMG"))
    for words in [["run", "A.IMG", "--date", "99999"], ["run", "A.IMG", "--date", "x"], ["get", "A.IMG", "9,9", "FOO"],
                  ["init", "A.IMG", "63"], ["run", "NONE.IMG", "A.IMG"], ["A.IMG"], ["run", "LINK.IMG", "--date", "x"],
                  ["list", "OTHER.IMG", "x"], ["run", "./A.IMG", "--minute", "1440"], ["--nonsense", "A.IMG"],
                  ["list", "A.IMG", b"\xff"]]:
        with tries.appending("A.IMG") as image:
            tries.expect_kept("A.IMG", words, b"", None, 2, stderr=image)
            tries.expect_kept("A.IMG", words, None, None, 2, stdout=image, stderr=image)
            _, told = tries.expect_kept("A.IMG", words, None, None, 2, stdout=image)
            tries.judge(told != b"", f"{words}: nothing is told on a standard error that leads elsewhere")
        with open(tries.path("ERRORS"), "wb") as errors:
            tries.expect(words, b"", None, 2, stderr=errors)
        tries.judge(tries.read("ERRORS") == told, f"{words}: {tries.read('ERRORS')!r} and not {told!r}")


def words_that_ask_for_help(tries):
    """Tests the same with help and the version."""
    for words in [["--help", "A.IMG"], ["run", "A.IMG", "--help"], ["--version", "A.IMG"], ["run", "--help", "A.IMG"]]:
        shown, _ = tries.expect(words, None, b"", 0)
        tries.judge(shown != b"", f"{words}: nothing is shown")
        with tries.appending("A.IMG") as image:
            tries.expect_kept("A.IMG", words, None, b"", 0, stdout=image)
            tries.expect_kept("A.IMG", words, None, None, 0, stdout=image, stderr=image)
            tries.expect_kept("A.IMG", words, b"", None, 0, stderr=image)
        with open(tries.path("SHOWN"), "wb") as output:
            tries.expect(words, None, b"", 0, stdout=output)
        tries.judge(tries.read("SHOWN") == shown, f"{words}: {tries.read('SHOWN')!r} and not {shown!r}")
    # the first word is the program's name, and names no file
    with open(tries.path("filser"), "wb") as output:
        done = subprocess.run(["filser", "--version"], executable=tries.program, stdout=output, cwd=tries.folder,
                              check=False, timeout=LIMIT)
    shown = tries.read("filser")
    tries.judge((done.returncode, shown) == (0, VERSION), f"{shown!r} in a file with the name of the program")


def a_new_name_that_a_stream_leads_to(tries):
    """Tests that `convert` prints nothing into the file that has the new name."""
    shutil.copy(tries.path("A.IMG"), tries.path("NEW.IMG"))
    words = ["convert", "A.IMG", "NEW.IMG"]
    tries.expect_kept("NEW.IMG", words, b"?Image exists\n", b"", 3)
    with tries.appending("NEW.IMG") as new:
        tries.expect_kept("NEW.IMG", words, None, tells("NEW.IMG", "the standard output of this run"), 3, stdout=new)
        tries.expect_kept("NEW.IMG", words, b"", None, 3, stderr=new)
        tries.expect_kept("NEW.IMG", words, None, None, 3, stdout=new, stderr=new)
    with open("/dev/full", "wb") as full, tries.appending("NEW.IMG") as new:
        tries.expect_kept("NEW.IMG", words, None, None, 3, stdout=full, stderr=new)
    with tries.appending("NEW.IMG") as new:
        tries.expect_kept("NEW.IMG", words, b"", None, 3, stderr=new, preexec_fn=lambda: os.close(0))
    tries.expect(words, b"", tells("standard input or output", "it is closed"), 4, preexec_fn=lambda: os.close(0))
    # nor if another stream leads to the existing image
    with open(tries.path("A.IMG"), "rb") as image, tries.appending("NEW.IMG") as new:
        told = tells("NEW.IMG", "the standard output of this run")
        tries.expect_kept("NEW.IMG", words, None, told, 3, data=None, stdin=image, stdout=new)
        tries.expect_kept("NEW.IMG", words, b"", None, 3, data=None, stdin=image, stderr=new)
        told = tells("A.IMG", "the standard input of this run")
        tries.expect(words, FAULT, told, 4, data=None, stdin=image)
    with tries.appending("A.IMG") as image, tries.appending("NEW.IMG") as new:
        tries.expect_kept("NEW.IMG", words, None, None, 3, stdout=image, stderr=new)
        tries.expect_kept("NEW.IMG", words, None, None, 4, stdout=new, stderr=image)
        tries.expect_kept("A.IMG", words, None, None, 3, stdout=image, stderr=new)
        tries.expect_kept("A.IMG", words, None, None, 4, stdout=new, stderr=image)


def a_sync_that_fails(tries):
    """Tests that after a device fault the reason is reported, and what to do before the next start."""
    if not tries.may_trace:
        tries.skip("there is no strace that may trace")
        return
    told = tells("A.IMG", BROKEN, HINT)
    # a file that can't be opened isn't a device that failed
    tries.expect(["check", "NONE.IMG"], FAULT, tells("NONE.IMG", "No such file or directory (os error 2)"), 4)
    # every start syncs once, so that it continues from what is on the disk
    first = failing("fdatasync", "EIO")
    for words in (["get", "A.IMG", "10,20", "HELLO.TXT"], ["check", "A.IMG"], ["convert", "A.IMG", "N.IMG"],
                  ["migrate", "A.IMG"], ["run", "A.IMG"]):
        tries.expect_kept("A.IMG", words, FAULT, told, 4, data=LOGIN, faults=first)
    tries.judge(not os.path.lexists(tries.path("N.IMG")), "N.IMG is there")
    # what makes no other sync meets no fault after it
    later = failing("fdatasync", "EIO", "2+")
    tries.expect(["get", "A.IMG", "10,20", "HELLO.TXT"], HELLO, b"", 0, faults=later)
    tries.expect(["run", "A.IMG"], JOB + FAULT, told, 4, data=LOGIN + MAKDIR, faults=later)
    tries.expect(["put", "A.IMG", "10,20", "BAR"], FAULT, told, 4, data=HELLO, faults=later)


def a_read_that_fails(tries):
    """Tests that a read which fails once costs nothing, since blocks are read ahead, and a block that wasn't reached is
    read by itself; and that a device that fails from then on is a fault."""
    if not tries.may_trace:
        tries.skip("there is no strace that may trace")
        return
    words, told = ["get", "A.IMG", "10,20", "HELLO.TXT"], tells("A.IMG", BROKEN, HINT)
    for count in range(1, 40):
        here = ["-P", tries.path("A.IMG")]
        tries.expect_kept("A.IMG", words, HELLO, b"", 0, faults=here + failing("read", "EIO", str(count)))
        if "(INJECTED)" not in tries.read("LOG").decode():
            break
        tries.expect_kept("A.IMG", words, FAULT, told, 4, faults=here + failing("read", "EIO", f"{count}+"))
    tries.judge(2 < count < 39, f"{count} reads of the image")


def an_image_whose_length_changes(tries):
    """Tests that such a change is reported as what it is."""
    image = tries.read("A.IMG")
    for changed in (image + b"\0", image[:1024]):
        tries.write("A.IMG", image)
        with subprocess.Popen([tries.program, "run", "A.IMG"], cwd=tries.folder, stdin=subprocess.PIPE,
                              stdout=subprocess.PIPE, stderr=subprocess.PIPE) as running:
            running.stdin.write(LOGIN)
            running.stdin.flush()
            first = running.stdout.readline()
            with open(tries.path("A.IMG"), "r+b") as file:
                file.truncate(len(changed))
            out, err = running.communicate(MAKDIR, timeout=LIMIT)
        tries.judge((first + out, err, running.returncode) == (JOB + FAULT, tells("A.IMG", LENGTH, HINT), 4),
                    f"{len(changed)} bytes: status {running.returncode}; {first + out!r}; tells {err!r}")


def a_lock_that_is_not_given(tries):
    """Tests that a run needs a lock, and retries an interrupted call."""
    with open(tries.path("A.IMG"), "rb") as other:
        fcntl.flock(other, fcntl.LOCK_EX)
        told = tells("A.IMG", "in use by another process")
        for words in (["run", "A.IMG"], ["list", "A.IMG"], ["migrate", "A.IMG"], ["convert", "A.IMG", "N.IMG"]):
            tries.expect_kept("A.IMG", words, FAULT, told, 4, data=LOGIN)
    if not tries.may_trace:
        tries.skip("there is no strace that may trace")
        return
    for error, reason in [("ENOLCK", "No locks available (os error 37)"),
                          ("EBADF", "Bad file descriptor (os error 9)")]:
        told = tells("A.IMG", reason)
        for words in (["run", "A.IMG"], ["list", "A.IMG"], ["migrate", "A.IMG"], ["convert", "A.IMG", "N.IMG"]):
            tries.expect_kept("A.IMG", words, FAULT, told, 4, data=LOGIN, faults=failing("flock", error))
        tries.judge(not os.path.lexists(tries.path("N.IMG")), "N.IMG is there")
        tries.expect(["init", "B.IMG", "64"], FAULT, tells("B.IMG", reason), 4, faults=failing("flock", error))
        tries.judge(not os.path.lexists(tries.path("B.IMG")), "B.IMG is there")
    tries.expect(["run", "A.IMG"], JOB, b"", 0, data=LOGIN, faults=failing("flock", "EINTR", "1..3"))


def names_with_control_characters(tries):
    """Tests that they are reported escaped: in the names of files, in arguments, and in what is unknown."""
    missing = "No such file or directory (os error 2)"
    for name, shown in [("A\x1b[31m\n.IMG", "A\\u{1b}[31m\\n.IMG"), ("\t\r\x7f", "\\t\\r\\u{7f}"),
                        ("\u009b31m", "\\u{9b}31m"), ("Ä '\\.IMG", "Ä '\\.IMG")]:
        tries.expect(["check", name], FAULT, tells(shown, missing), 4)
        tries.expect(["list", "A.IMG", name], b"", f"?Bad argument\nfilser: PPN {shown}: {OWNER}\n".encode(), 2)
    for words in (["\x1b[31m"], ["run", "A.IMG", "\x1b[31m"], ["--\x1b[31m"], ["run", "A.IMG", "--minute", "\x1b"]):
        _, told = tries.expect(words, b"", None, 2)
        tries.judge(b"\x1b" not in told and b"\\u{1b}" in told, f"{words}: {told!r}")


def permission_bits(tries):
    """Tests that a converted image has those of the image, whatever the mask, and a new one those that the mask
    leaves."""
    for mask in (0o000, 0o022, 0o077):
        for mode in (0o600, 0o640, 0o644, 0o666, 0o660):
            os.chmod(tries.path("A.IMG"), mode)
            name = f"{mask:o}-{mode:o}.IMG"
            tries.expect(["convert", "A.IMG", name], b"Converted 64 blocks\n", b"", 0, umask=mask)
            tries.judge(tries.mode(name) == mode, f"{name}: mode {tries.mode(name):o}")
        name = f"{mask:o}.IMG"
        tries.expect(["init", name, "64"], b"", b"", 0, umask=mask)
        tries.judge(tries.mode(name) == 0o666 & ~mask, f"{name}: mode {tries.mode(name):o}")
    if not tries.may_trace:
        tries.skip("there is no strace that may trace")
        return
    os.chmod(tries.path("A.IMG"), 0o644)
    tries.expect(["convert", "A.IMG", "NEW.IMG"], None, b"", 0, faults=["-e", "trace=open,openat"], umask=0)
    opened = [line for line in tries.read("LOG").decode().split("\n") if "NEW.IMG" in line]
    tries.judge(len(opened) == 1 and "O_EXCL" in opened[0] and ", 0600)" in opened[0], f"NEW.IMG is opened by {opened}")


def a_file_that_came_in_its_place(tries):
    """Tests that a failed `init` removes the file that it made, and no other that has its name meanwhile."""
    if not tries.may_trace:
        tries.skip("there is no strace that may trace")
        return
    tries.expect(["init", "B.IMG", "64"], FAULT, tells("B.IMG", BROKEN), 4, faults=failing("fsync", "EIO"))
    tries.judge(not os.path.lexists(tries.path("B.IMG")), "B.IMG is there")
    faults = ["-e", "trace=fsync", "-e", "inject=fsync:error=EIO:delay_enter=2000000"]
    tries.write("OTHER", b"another file\n")
    with subprocess.Popen(tries.words(["init", "C.IMG", "64"], faults, "LOG"), cwd=tries.folder,
                          stdin=subprocess.DEVNULL, stdout=subprocess.PIPE, stderr=subprocess.PIPE) as running:
        for _ in range(100):
            if os.path.exists(tries.path("C.IMG")) and os.path.getsize(tries.path("C.IMG")) == 65536:
                break
            time.sleep(0.01)
        os.rename(tries.path("OTHER"), tries.path("C.IMG"))
        out, err = running.communicate(timeout=LIMIT)
    tries.judge((out, err, running.returncode) == (FAULT, tells("C.IMG", BROKEN), 4),
                f"status {running.returncode}; {out!r}; tells {err!r}")
    tries.judge(os.path.exists(tries.path("C.IMG")) and tries.read("C.IMG") == b"another file\n", "it is gone")


def an_input_without_an_end(tries):
    """Tests that an input of `put` is read only up to the length of a file, or up to a byte that isn't text. A list
    that grows beyond 16 MiB takes places for 32 MiB, half of which it never touches."""
    inputs = [
        (["yes"], [], 1 << 25, b"?No room\n", "more than 10485760 bytes, which no file can hold"),
        (["yes"], ["--words"], 1 << 26, b"?No room\n", "more than 16777216 bytes, which no file can hold"),
        (["cat", "/dev/zero"], [], 1 << 22, b"?Not ASCII\n",
         "byte 0 at 1 isn't text (1 to 127); --bytes stores any bytes"),
    ]
    for source, options, memory, printed, reason in inputs:
        with subprocess.Popen(source, stdout=subprocess.PIPE) as running:
            done = subprocess.run([tries.program, "put", *options, "A.IMG", "10,20", "LONG"], stdin=running.stdout,
                                  capture_output=True, cwd=tries.folder, check=False, timeout=LIMIT,
                                  preexec_fn=limits(resource.RLIMIT_DATA, memory))
            running.stdout.close()
            running.kill()
        answered = (done.stdout, done.stderr, done.returncode)
        tries.judge(answered == (printed, tells("standard input", reason), 1), f"{source} {options}: {answered!r}")
    tries.expect(["get", "A.IMG", "10,20", "HELLO.TXT"], HELLO, b"", 0)


def a_small_stack(tries):
    """Tests that 512 KiB of stack are enough for every command."""
    small = {"preexec_fn": limits(resource.RLIMIT_STACK, STACK)}
    tries.expect(["init", "B.IMG", "512"], b"", b"", 0, **small)
    tries.expect(["run", "B.IMG"], b"Job 1 [10,20]\nOK\n", b"", 0, data=MADE, **small)
    tries.expect(["put", "B.IMG", "10,20", "A"], b"OK\n", b"", 0, data=b"B" * 100000, **small)
    tries.expect(["run", "B.IMG"], b"Job 1 [10,20]\nOK\nOK\nOK\n", b"", 0,
                 data=b"LOGIN [10,20]\nCOPY B=A\nRENAME C=B\nDELETE C\n", **small)
    tries.expect(["get", "B.IMG", "10,20", "A"], b"B" * 100000, b"", 0, **small)
    tries.expect(["check", "B.IMG"], None, b"", 0, **small)
    tries.expect(["list", "B.IMG"], None, b"", 0, **small)
    tries.expect(["convert", "B.IMG", "C.IMG"], None, b"", 0, **small)
    tries.expect(["migrate", "B.IMG"], b"Layout 2\n", b"", 0, **small)
    jobs = b"".join(b"%o LOGIN 10,20 1000\n" % job for job in range(1, 65))
    tries.expect(["calls", "B.IMG"], b"DONE\n" * 64, b"", 0, data=jobs, **small)
    tries.expect(["--help"], None, b"", 0, **small)


CASES = [
    an_output_that_is_full,
    a_root_that_is_not_opened,
    too_little_memory,
    words_that_are_refused,
    words_that_ask_for_help,
    a_new_name_that_a_stream_leads_to,
    a_sync_that_fails,
    a_read_that_fails,
    an_image_whose_length_changes,
    a_lock_that_is_not_given,
    names_with_control_characters,
    permission_bits,
    a_file_that_came_in_its_place,
    an_input_without_an_end,
    a_small_stack,
]


def main():
    if len(sys.argv) != 2 or not os.access(sys.argv[1], os.X_OK):
        print("usage: tests/host_faults.py PROGRAM", file=sys.stderr)
        return 2
    with tempfile.TemporaryDirectory() as folder:
        tries = Tries(os.path.abspath(sys.argv[1]))
        for case in CASES:
            tries.enter(os.path.join(folder, case.__name__))
            case(tries)
    print(f"host_faults: {tries.count - tries.failed} as they should be, {tries.failed} not")
    return 1 if tries.failed else 0


if __name__ == "__main__":
    sys.exit(main())
