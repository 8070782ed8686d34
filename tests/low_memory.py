#!/usr/bin/env python3
"""Serves call scripts of four jobs with too little memory, and compares each answer with a model.

usage: tests/low_memory.py PROGRAM [COUNT]

The model is model/machine.py, and model/players.py decides what the jobs do. Volumes of both layouts are served in
turn, at a moment that fits. For each of COUNT seeds (10 if not given) the program gets as many pages of memory as it
takes to start, one more, and so on, up to those with which it serves the whole script. Then it is served one line at a
time, each with no more memory than the process has, and again with ample memory if it needs some. After a NOMEMORY
everything must be unchanged, so each later answer must be the model's again; calls that take no memory must never be
answered NOMEMORY. At the end the program is started again, and its room and each word of each file must be the model's.
"""

import copy
import os
import resource
import subprocess
import sys
import tempfile

from model.machine import Machine
from model.players import JOBS, dated, make, moment_of, run, script, wrong_files

BLOCKS = 160
PAGE = 4096
AMPLE = 1 << 28
# The calls and the answers that take no memory.
FREE_CALLS = {"DEP", "EXA", "OPEN", "INBUF", "OUTBUF", "USETI", "USETO", "GETSTS", "RESET"}
FREE_ANSWERS = {"DATE", "NOJOB", "NOCHANNEL", "ADDRESS", "REFUSED 5"}


def fresh_machine(seed):
    """Returns the model of the volume that a seed makes."""
    return Machine(BLOCKS, *moment_of(seed))


def calls(program, seed):
    """Returns the words of a run that serves a script, at the moment of its seed."""
    return [program, "calls", "J.IMG", *dated(moment_of(seed)[1])]


def serve(program, folder, seed, lines, limit):
    """Returns the lines that the program prints for a script, if it may have this many bytes of memory; and its
    status."""
    make(program, folder, BLOCKS, seed)
    done = subprocess.run(calls(program, seed), input="\n".join(lines + [""]).encode(), capture_output=True,
                          cwd=folder, check=False, timeout=60,
                          preexec_fn=lambda: resource.setrlimit(resource.RLIMIT_DATA, (limit, limit)))
    return done.stdout.decode("latin-1").split("\n")[:-1], done.returncode


def may_want(machine, line):
    """Returns whether a line may be answered NOMEMORY."""
    return line.split()[1] not in FREE_CALLS and copy.deepcopy(machine).line(line) not in FREE_ANSWERS


def replay(seed, lines, found):
    """Returns the model after the events that were answered with something other than NOMEMORY, how many weren't, and
    the first answer that isn't the model's."""
    machine, refused = fresh_machine(seed), 0
    for place, (line, got) in enumerate(zip(lines, found)):
        if got == "NOMEMORY" and may_want(machine, line):
            refused += 1
            continue
        want = machine.line(line)
        if got != want:
            return machine, refused, [f"line {place + 1}, {line}: {got} and not {want}"]
    return machine, refused, []


def wrong_image(program, folder, machine):
    """Returns what isn't the model's in the image that is left."""
    text, _ = run(program, folder, ["check", "J.IMG"])
    if text != f"Volume of {BLOCKS} blocks, room {machine.room()}\n".encode():
        return [f"check prints {text!r}, and the model has room {machine.room()}"]
    return wrong_files(program, folder, machine)


def ended(machine):
    """Ends the model's run as the program's ended: what is still being written is dropped."""
    for job in JOBS:
        machine.line(f"{job} RESET")
    return machine


def judge(program, folder, seed, lines, limit):
    """Returns how many events were refused memory, and what isn't the model's. If there is none for the text of an
    answer, the run ends with status 4: the event after the last answer was served or wasn't."""
    found, status = serve(program, folder, seed, lines, limit)
    machine, refused, wrong = replay(seed, lines, found)
    if status == 4 and len(found) < len(lines):
        more = copy.deepcopy(machine)
        more.line(lines[len(found)])
        if wrong_image(program, folder, ended(more)):
            wrong += wrong_image(program, folder, ended(machine))
        return refused + 1, wrong
    if len(found) != len(lines) or status not in (0, 1):
        wrong.append(f"{len(found)} answers to {len(lines)} lines, status {status}")
    return refused, wrong + wrong_image(program, folder, machine)


def ask(process, line, limit):
    """Returns what the program answers to a line, if it may have this many bytes of memory."""
    resource.prlimit(process.pid, resource.RLIMIT_DATA, (limit, resource.RLIM_INFINITY))
    process.stdin.write(line.encode() + b"\n")
    process.stdin.flush()
    return process.stdout.readline().decode("latin-1").rstrip("\n")


def memory_of(process):
    """Returns how many bytes of memory a process has, as the limit counts them: of its heap and of what it maps for
    itself."""
    with open(f"/proc/{process.pid}/status", encoding="ascii") as lines:
        return next(int(line.split()[1]) * 1024 for line in lines if line.startswith("VmData:"))


def judge_lines(program, folder, seed, lines):
    """Returns how many events were refused more memory than the program had, and what isn't the model's."""
    make(program, folder, BLOCKS, seed)
    machine, refused, wrong = fresh_machine(seed), 0, []
    with subprocess.Popen(calls(program, seed), cwd=folder, stdin=subprocess.PIPE, stdout=subprocess.PIPE) as process:
        for place, line in enumerate(lines):
            got = ask(process, line, memory_of(process) if place else AMPLE)  # it has started after the first
            if got == "NOMEMORY" and may_want(machine, line):
                refused += 1
                got = ask(process, line, AMPLE)
            want = machine.line(line)
            if got != want:
                wrong.append(f"line {place + 1}, {line}: {got} and not {want}")
                break
        process.stdin.close()
    return refused, wrong + wrong_image(program, folder, machine)


def least(low, high, serves):
    """Returns the least number of pages that is enough: `high` is, and `low` isn't."""
    while high - low > 1:
        middle = (low + high) // 2
        low, high = (low, middle) if serves(middle) else (middle, high)
    return high


def try_seed(program, folder, seed):
    """Returns the limits that were tried with a script, how many events were refused, how many more were and were then
    served when they were repeated, and what isn't the model's."""
    lines, wanted, _ = script(seed, "in turn", BLOCKS, *moment_of(seed))
    starts = least(0, AMPLE // PAGE,
                   lambda pages: serve(program, folder, seed, lines[:1], pages * PAGE)[0] == wanted[:1])
    serves = least(0, AMPLE // PAGE, lambda pages: serve(program, folder, seed, lines, pages * PAGE)[0] == wanted)
    again, wrong = judge_lines(program, folder, seed, lines)
    refusals, wrong = 0, [f"line by line: {what}" for what in wrong]
    for pages in range(starts, serves + 1):
        refused, found = judge(program, folder, seed, lines, pages * PAGE)
        refusals += refused
        wrong += [f"{pages} pages: {what}" for what in found]
    return serves + 1 - starts, refusals, again, wrong


def main():
    if len(sys.argv) not in (2, 3) or not os.access(sys.argv[1], os.X_OK):
        print("usage: tests/low_memory.py PROGRAM [COUNT]", file=sys.stderr)
        return 2
    program, count = os.path.abspath(sys.argv[1]), int(sys.argv[2]) if len(sys.argv) == 3 else 10
    limits = refusals = again = failed = 0
    with tempfile.TemporaryDirectory() as folder:
        for seed in range(count):
            tried, refused, asked, wrong = try_seed(program, folder, seed)
            limits, refusals, again = limits + tried, refusals + refused, again + asked
            failed += bool(wrong)
            for what in wrong[:3]:
                print(f"seed {seed}, {what}")
    print(f"low_memory: {count - failed} scripts as they should be, {failed} not; {limits} limits, {refusals} events "
          f"refused, {again} more served when they were asked again")
    return 1 if failed or not refusals or not again else 0


if __name__ == "__main__":
    sys.exit(main())
