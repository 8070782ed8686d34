#!/usr/bin/env python3
"""Kills the program at random moments, many times over, and checks that each file is whole afterwards.

usage: tests/random_kills.py PROGRAM [TIMES [SEED]]

A process of `filser calls` writes FOO.DAT over and over, each version with one block more than the last, and each word
of a version is its number. It is killed by SIGKILL within some 40 milliseconds. Then `filser check` must accept the
image, `filser run` must list one file, and `filser get --words` must give a version with as many blocks, whole: that of
the last answered CLOSE, or the next one. Half of the TIMES the image has layout 1, then layout 2. The last line is 'N
passed, M failed'. This isn't part of the gate, since it depends on the clock.
"""
import pathlib
import random
import subprocess
import sys
import tempfile

MOST_BLOCKS = 60


def octal(number):
    return f"{number:o}"


def opening():
    """Returns the lines with which a process begins."""
    return ["1 LOGIN 10,20 100000", "1 DEP 200 17", "1 DEP 201 446353000000", "1 OPEN 1 200"]


def version(number, blocks):
    """Returns the lines that write a version: this many blocks of words that are this number."""
    lines = ["1 DEP 300 465757000000", "1 DEP 301 444164000000", "1 DEP 302 0", "1 DEP 303 0", "1 ENTER 1 300"]
    lines += [f"1 DEP {octal(0o1000 + place)} {octal(number)}" for place in range(128)]
    lines += ["1 DEP 400 777600000777", "1 DEP 401 0"]
    return lines + ["1 OUT 1 400"] * blocks + ["1 CLOSE 1 0"]


def run(program, words, given=b""):
    """Returns what a run of the program prints, and its status."""
    done = subprocess.run([program, *words], input=given, stdout=subprocess.PIPE, stderr=subprocess.STDOUT)
    return done.stdout, done.returncode


def killed(program, image, first, rng):
    """Serves versions of 1, 2, 3 .. blocks until it is killed; returns how many were answered."""
    lines = opening()
    ends = []
    for blocks in range(1, MOST_BLOCKS + 1):
        lines += version(first + blocks, blocks)
        ends.append(len(lines))
    process = subprocess.Popen([program, "calls", image], stdin=subprocess.PIPE, stdout=subprocess.PIPE)
    try:
        printed, _ = process.communicate("\n".join(lines).encode() + b"\n", timeout=rng.uniform(0.001, 0.04))
    except subprocess.TimeoutExpired:
        process.kill()
        printed, _ = process.communicate()
    replies = printed.count(b"\n")
    return sum(1 for end in ends if end <= replies)


def look(program, image, first, answered, before):
    """Returns why the files aren't valid, or nothing; and the version that is there."""
    said, status = run(program, ["check", image])
    if status != 0:
        return f"check says {said!r}", before
    said, status = run(program, ["run", image], b"LOGIN [10,20]\nDIRECTORY\n")
    if status != 0 or b"in 1 files" not in said:
        return f"run lists {said!r}", before
    body, status = run(program, ["get", image, "10,20", "FOO.DAT", "--words"])
    words = {body[place : place + 8] for place in range(0, len(body), 8)}
    blocks = len(body) // 1024
    if status != 0 or len(words) != 1 or len(body) % 1024 != 0:
        return f"get ends with {status}, {len(body)} bytes and {len(words)} different words", before
    number = int.from_bytes(words.pop(), "big")
    found = (number, blocks)
    wanted = {before if answered == 0 else (first + answered, answered), (first + answered + 1, answered + 1)}
    if found not in wanted:
        return f"version {found} is there, in place of one of {sorted(wanted)}", before
    return "", found


def kill_often(program, layout, times, rng):
    """Kills a process this many times on an image of this layout. Returns how often a check failed."""
    failed = 0
    with tempfile.TemporaryDirectory() as room:
        image = f"{room}/A.IMG"
        run(program, ["init", image, "256", "--layout", str(layout)])
        run(program, ["run", image], b"LOGIN [10,20]\nMAKDIR [10,20]\n")
        first = opening() + version(1, 1)
        run(program, ["calls", image], "\n".join(first).encode() + b"\n")
        before, next_number = (1, 1), 1
        for turn in range(times):
            answered = killed(program, image, next_number, rng)
            why, before = look(program, image, next_number, answered, before)
            next_number += MOST_BLOCKS + 1
            if why:
                failed += 1
                print(f"layout {layout}, turn {turn}: {why}")
    return failed


def main():
    if len(sys.argv) not in (2, 3, 4):
        sys.exit("usage: tests/random_kills.py PROGRAM [TIMES [SEED]]")
    program = str(pathlib.Path(sys.argv[1]).resolve())
    times = int(sys.argv[2]) if len(sys.argv) > 2 else 200
    rng = random.Random(int(sys.argv[3]) if len(sys.argv) > 3 else 1)
    failed = kill_often(program, 1, times - times // 2, rng) + kill_often(program, 2, times // 2, rng)
    print(f"{times - failed} passed, {failed} failed")
    sys.exit(1 if failed else 0)


if __name__ == "__main__":
    main()
