#!/usr/bin/env python3
"""Counts the syncs that the program makes: python3 tests/syncs_of_each_call.py PROGRAM.

No proof covers the system's own sync: the library promises nothing about that call, so one line of the program is
trusted to make it. The program serves a call script and a session under strace, line by line, on an image of each
layout. A start syncs the image once, a line that changes files syncs it four times before its answer is printed, and no
other line syncs. The script prints a line for each wrong count, for each sync that fails or is not of the image, and
for each answer that differs from the model's (machine.py), and a line at the end. Without strace, or if it may not
trace, the script says SKIPPED and succeeds."""

import os
import re
import shutil
import subprocess
import sys
import tempfile

from model.machine import Machine

BLOCKS = 64
LIMIT = 60
START, COMMIT, NONE = 1, 4, 0
COMMIT_2 = -4  # a commit in layout 2; layout 1 refuses
SYNCS = ["fsync", "fdatasync", "sync_file_range", "msync", "sync", "syncfs"]
# A process, its call, the arguments and the answer
TRACED = re.compile(r"\d+ +(\w+)\((.*)\) += (.*)")

# Each line of a call script, with the number of syncs before its answer. Job 1 belongs to [1,2], which may do all, and
# works on a file in [10,20].
CALLS = [
    ("1 LOGIN 1,2 1000", NONE),
    # directories
    ("1 DEP 200 000010000020", NONE), ("1 MAKDIR 200", COMMIT), ("1 MAKDIR 200", NONE),
    ("1 DEP 201 000010000021", NONE), ("1 MAKDIR 201", COMMIT), ("1 REMDIR 201", COMMIT), ("1 MAKDIR 201", COMMIT),
    # a quota
    ("1 DEP 202 000010000020", NONE), ("1 DEP 203 000050000000", NONE), ("1 QUOTA 202", COMMIT_2),
    # a new file of two words
    ("1 DEP 210 17", NONE), ("1 DEP 211 446353000000", NONE), ("1 OPEN 1 210", NONE),
    ("1 DEP 300 465757000000", NONE), ("1 DEP 301 647064000000", NONE), ("1 DEP 303 000010000020", NONE),
    ("1 DEP 400 777776000477", NONE), ("1 DEP 500 442131446236", NONE),
    ("1 ENTER 1 300", NONE), ("1 OUT 1 400", NONE), ("1 CLOSE 1 0", COMMIT), ("1 CLOSE 1 0", NONE),
    # a new version of it
    ("1 DEP 303 000010000020", NONE), ("1 ENTER 1 300", NONE), ("1 OUT 1 400", NONE), ("1 RELEAS 1", COMMIT),
    # an update in place
    ("1 OPEN 1 210", NONE), ("1 DEP 303 000010000020", NONE), ("1 LOOKUP 1 300", NONE),
    ("1 DEP 303 000010000020", NONE), ("1 ENTER 1 300", NONE), ("1 OUT 1 400", NONE), ("1 CLOSE 1 0", COMMIT),
    # read
    ("1 DEP 303 000010000020", NONE), ("1 LOOKUP 1 300", NONE), ("1 DEP 410 777776000577", NONE), ("1 IN 1 410", NONE),
    ("1 EXA 600", NONE), ("1 CLOSE 1 0", NONE),
    # a new version that is dropped
    ("1 DEP 303 000010000020", NONE), ("1 ENTER 1 300", NONE), ("1 OUT 1 400", NONE), ("1 CLOSE 1 40", NONE),
    # another protection, another name, another directory, and a deletion
    ("1 DEP 303 000010000020", NONE), ("1 LOOKUP 1 300", NONE), ("1 DEP 302 155000000000", NONE),
    ("1 DEP 303 000010000020", NONE), ("1 RENAME 1 300", COMMIT),
    ("1 DEP 303 000010000020", NONE), ("1 LOOKUP 1 300", NONE), ("1 DEP 303 000010000020", NONE),
    ("1 DEP 300 424162000000", NONE), ("1 RENAME 1 300", COMMIT),
    ("1 DEP 303 000010000020", NONE), ("1 LOOKUP 1 300", NONE), ("1 DEP 303 000010000021", NONE),
    ("1 RENAME 1 300", COMMIT),
    ("1 DEP 303 000010000021", NONE), ("1 LOOKUP 1 300", NONE), ("1 DEP 300 0", NONE), ("1 RENAME 1 300", COMMIT),
    ("1 RESET", NONE),
]

# The same for a session on an image with one file, with the text that each line prints.
LINES = [
    ("LOGIN [10,20]", "Job 1 [10,20]", NONE),
    ("COPY BAR.TXT=FOO.TXT", "OK", COMMIT),
    ("RENAME BAZ.TXT=BAR.TXT", "OK", COMMIT),
    ("PROTECT BAZ.TXT<155>", "OK", COMMIT),
    ("DELETE BAZ.TXT", "OK", COMMIT),
    ("DELETE BAZ.TXT", "?File not found", NONE),
    ("TYPE FOO.TXT", "HELLO", NONE),
    ("MAKDIR [10,20]", "?File name already exists", NONE),
    ("LOGIN [1,2]", "Job 1 [1,2]", NONE),
    ("QUOTA [10,20] 9", "OK", COMMIT_2),
]

class Counts:
    """Counts of the syncs of runs in a folder with an image."""

    def __init__(self, program, folder):
        self.program, self.folder, self.failed, self.lines = program, folder, 0, 0

    def judge(self, good, what):
        """Prints what is wrong."""
        if not good:
            self.failed += 1
            print(what)

    def run(self, *words, data=b""):
        """Runs the program untraced; it must succeed."""
        done = subprocess.run([self.program, *words], input=data, capture_output=True, cwd=self.folder, check=False,
                              timeout=LIMIT)
        self.judge(done.returncode == 0, f"{' '.join(words)}: status {done.returncode}, {done.stdout!r}")

    def traced(self, words, lines):
        """Runs the program under strace, and gives it each line after the answer to the line before. Returns the
        answers, and the number of syncs before each print and after the last one."""
        log = os.path.join(self.folder, "TRACE")
        tracer = ["strace", "-f", "-y", "-o", log, "-e", "trace=write," + ",".join(SYNCS), self.program, *words]
        with subprocess.Popen(tracer, stdin=subprocess.PIPE, stdout=subprocess.PIPE, cwd=self.folder) as process:
            answers = []
            for line in lines:
                process.stdin.write(line.encode() + b"\n")
                process.stdin.flush()
                answers.append(process.stdout.readline().decode("latin-1").rstrip("\r\n"))
            process.stdin.close()
            process.wait(timeout=LIMIT)
        with open(log, encoding="latin-1") as text:
            return answers, self.counted(text)

    def counted(self, log):
        """Counts the syncs in a trace before each print and after the last one."""
        counts = [0]
        for traced in log:
            found = TRACED.match(traced)
            if not found:
                continue
            call, given, answer = found.groups()
            if call in SYNCS:
                counts[-1] += 1
                self.judge(call == "fdatasync" and "/J.IMG>" in given and answer == "0",
                           f"not a sync of the image that succeeded: {traced.strip()}")
            elif given.startswith("1<"):
                counts.append(0)
        return counts

    def expect(self, words, rows):
        """Compares the answers and the syncs of a run with these rows. The start's syncs are added to those of the
        first."""
        answers, counts = self.traced(words, [line for line, _, _ in rows])
        self.lines += len(rows)
        self.judge(len(counts) == len(rows) + 1, f"{' '.join(words)}: {len(counts) - 1} answers to {len(rows)} lines")
        for place, ((line, wanted, syncs), got, count) in enumerate(zip(rows, answers, counts)):
            syncs += START if place == 0 else 0
            self.judge(got == wanted, f"{line}: {got} and not {wanted}")
            self.judge(syncs != COMMIT or wanted in ("DONE", "OK"), f"{line}: it should change files: {wanted}")
            self.judge(count == syncs, f"{line}: {count} syncs and not {syncs}")
        self.judge(counts[-1] == 0, f"{' '.join(words)}: {counts[-1]} syncs after the last line")

    def layout(self, layout):
        """Serves the script and the session on an image of this layout."""
        machine, of_layout_2 = Machine(BLOCKS, layout), COMMIT if layout == 2 else NONE
        calls = [(line, machine.line(line), of_layout_2 if syncs == COMMIT_2 else syncs) for line, syncs in CALLS]
        lines = [row if row[2] != COMMIT_2 else (row[0], row[1] if layout == 2 else "?Illegal sequence", of_layout_2)
                 for row in LINES]
        self.run("init", "J.IMG", str(BLOCKS), "--layout", str(layout))
        self.expect(["calls", "J.IMG"], calls)
        self.run("put", "J.IMG", "10,20", "FOO.TXT", data=b"HELLO\r\n")
        self.expect(["run", "J.IMG"], lines)
        os.remove(os.path.join(self.folder, "J.IMG"))

def may_trace():
    """Returns whether strace is installed and may trace."""
    if not shutil.which("strace"):
        return False
    return subprocess.run(["strace", "-o", "/dev/null", "true"], capture_output=True, check=False).returncode == 0

def main():
    if len(sys.argv) != 2 or not os.access(sys.argv[1], os.X_OK):
        print("usage: python3 tests/syncs_of_each_call.py PROGRAM", file=sys.stderr)
        return 2
    if not may_trace():
        print("syncs: SKIPPED, there is no strace that may trace (apt-get install strace)")
        return 0
    with tempfile.TemporaryDirectory() as folder:
        counts = Counts(os.path.abspath(sys.argv[1]), folder)
        for layout in (1, 2):
            counts.layout(layout)
    print(f"syncs: {counts.lines} lines, {counts.failed} failures")
    return 1 if counts.failed else 0

if __name__ == "__main__":
    sys.exit(main())
