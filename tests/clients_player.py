#!/usr/bin/env python3
"""Plays lines by the client in Python; clients_player.c plays the same lines by the client in C.

usage: clients_player.py PROGRAM IMAGE FORM TIMEOUT

A line of a call script is answered as `filser calls` answers it. After a call the whole core of the job is examined:
its words that have changed follow, each as ADDRESS=WORD, and UNTOLD or MISTOLD with an address if the answer to the
call didn't return such a word as it is. Numbers are octal, except in AT, ROOM and BATCH. Other lines:

    AT DATE MINUTE      the moment of the calls that follow
    ROOM                the blocks that are left
    BATCH N             the N lines that follow are sent by one write
    POKE ADDRESS WORD   a word of the machine, whose memory is as large as the core of the last job that logged in
    UUO J WORD E PC     a UUO of the machine: STOP if the monitor would have stopped the program, how far it goes on,
                        the answer, the words of the machine that have changed, and BEHIND with an address if the job's
                        core has another word there than the machine
    HINT FIRST LAST     what the next UUO is told of the words that have changed
    STOP                the exit status
"""

import os
import sys

sys.path.insert(0, os.path.join(os.path.dirname(os.path.abspath(__file__)), "..", "clients", "python"))

from filser import Code, Kind, Next, Service, ServiceError, is_uuo

TEXTS = {Kind.NO_CHANNEL: "NOCHANNEL", Kind.ADDRESS_CHECK: "ADDRESS", Kind.NO_JOB: "NOJOB", Kind.NO_MEMORY: "NOMEMORY",
         Kind.DATE_RANGE: "DATE", Kind.DONE: "DONE", Kind.DEVICE: "DEVICE", Kind.FAILED: "FAILED", Kind.WRONG: "WRONG"}
FORMATS = {Kind.VALUE: "VALUE {:012o}", Kind.REFUSED: "REFUSED {:o}", Kind.STOPPED: "STOPPED {:06o}",
           Kind.ROOM: "ROOM {}"}
BLOCK_ALONE = {"MAKDIR", "REMDIR", "QUOTA"}


def text_of(kind, value):
    """Returns an answer as a line of `filser calls`."""
    return TEXTS.get(kind) or FORMATS[kind].format(value)


def changes_of(before, after):
    """Returns the words that have changed, each with its address."""
    return [f"{place:o}={new:012o}" for place, (old, new) in enumerate(zip(before, after)) if old != new]


class Player:
    """The state of a run of lines."""

    def __init__(self, service):
        self.service = service
        self.cores = {}
        self.moment = (0, 0)
        self.hint = None
        self.accumulators, self.memory = [0] * 16, []

    def add(self, fields):
        """Collects the order of a line."""
        job, name, arguments = int(fields[0], 8), fields[1], fields[2:]
        if name == "LOGIN":
            project, programmer = (int(half, 8) for half in arguments[0].split(","))
            return self.service.add_login(job, project, programmer, int(arguments[1], 8))
        numbers = [int(argument, 8) for argument in arguments]
        if name == "DEP":
            return self.service.add_deposit(job, numbers[0], [numbers[1]])
        if name == "EXA":
            return self.service.add_examine(job, numbers[0], 1)
        channel, number = ([0] + numbers if name in BLOCK_ALONE else numbers + [0, 0])[:2]
        return self.service.add_call(job, Code[name], channel, number, *self.moment)

    def text(self, fields, answer):
        """Returns the answer to the order of a line, as `filser calls` has it."""
        job, name = int(fields[0], 8), fields[1]
        if name == "LOGIN" and answer.kind == Kind.DONE:
            self.memory = [0] * int(fields[3], 8)
            self.cores[job] = [0] * len(self.memory)
            self.cores[job][0o121] = 0o140
        if name == "DEP" and answer.kind == Kind.DONE:
            self.cores[job][int(fields[2], 8)] = int(fields[3], 8)
        if name == "EXA" and answer.kind == Kind.DONE:
            return text_of(Kind.VALUE, answer.words[0])
        return text_of(answer.kind, answer.value)

    def order(self, fields):
        """Plays one line of a call script."""
        self.add(fields)
        answer = self.service.send()[0]
        replies = [self.text(fields, answer)]
        job = int(fields[0], 8)
        if fields[1] not in ("LOGIN", "DEP", "EXA") and job in self.cores:
            before, told = self.cores[job], dict(answer.changes)
            core = self.cores[job] = self.service.examine(job, 0, len(before)).words
            replies += changes_of(before, core)
            replies += [f"MISTOLD {place:o}" for place, word in answer.changes if core[place] != word]
            replies += [f"UNTOLD {place:o}" for place, word in enumerate(core)
                        if word != told.get(place, before[place])]
        return " ".join(replies)

    def batch(self, lines):
        """Plays lines whose orders are sent at once."""
        for fields in lines:
            self.service.add_room() if fields == ["ROOM"] else self.add(fields)
        answers = self.service.send()
        return "\n".join(text_of(answer.kind, answer.value) if fields == ["ROOM"] else self.text(fields, answer)
                         for fields, answer in zip(lines, answers))

    def uuo(self, job, word, address, pc):
        """Plays a UUO of the machine."""
        before = self.accumulators + self.memory[16:]
        hint, self.hint = self.hint, None
        outcome = self.service.uuo(job, word, address, self.accumulators, self.memory, pc, *self.moment, changed=hint)
        after = self.accumulators + self.memory[16:]
        replies = ["STOP"] if outcome.next is Next.STOP else []
        replies += ["NOT AS ASKED"] if is_uuo(word, address) == (outcome.next is Next.NOT_MINE) else []
        replies += [str(outcome.advance), text_of(outcome.kind, outcome.value), *changes_of(before, after)]
        core = self.service.examine(job, 0, len(after)).words
        replies += [f"BEHIND {place:o}" for place, (old, new) in enumerate(zip(core, after)) if old != new]
        self.cores[job] = core
        return " ".join(replies)

    def poke(self, address, word):
        (self.accumulators if address < 16 else self.memory)[address] = word

    def line(self, fields, rest):
        """Plays a line, and returns its answer, or None if it has none."""
        if fields[0] == "AT":
            self.moment = int(fields[1]), int(fields[2])
        elif fields[0] == "ROOM":
            return text_of(Kind.ROOM, self.service.room())
        elif fields[0] == "BATCH":
            return self.batch([next(rest) for _ in range(int(fields[1]))])
        elif fields[0] == "POKE":
            self.poke(int(fields[1], 8), int(fields[2], 8))
        elif fields[0] == "HINT":
            self.hint = int(fields[1], 8), int(fields[2], 8)
        elif fields[0] == "UUO":
            return self.uuo(*(int(field, 8) for field in fields[1:]))
        elif fields[0] == "STOP":
            return f"STATUS {self.service.stop()}"
        else:
            return self.order(fields)
        return None


def main():
    try:
        player = Player(Service(*sys.argv[1:3], int(sys.argv[3]), timeout=int(sys.argv[4])))
    except ServiceError as error:
        print(f"ERROR {error.error.name} {error.status} {error.text}")
        return
    lines = (line.split() for line in sys.stdin)
    for fields in lines:
        try:
            reply = player.line(fields, lines)
        except ServiceError as error:
            reply = f"ERROR {error.error.name}"
        if reply is not None:
            print(reply, flush=True)


if __name__ == "__main__":
    main()
