#!/usr/bin/env python3
"""A service that speaks the wire and breaks one rule of it, for tests of the clients.

usage: clients_fake.py wire .. RULE

RULE, in the place of the image, says which one: see RULES. Except for that the service has one job, whose core takes
deposits and is examined; each call is DONE, and there are 48 blocks.
"""

import os
import signal
import struct
import sys
import time

LOGIN, DEPOSIT, EXAMINE, CALL, ROOM = range(1, 6)
WRONG, DONE, VALUE, REFUSED, STOPPED, _, ADDRESS_CHECK, NO_JOB, NO_MEMORY, DEVICE, _, _, BLOCKS = range(13)
WORD_LIMIT = 1 << 36
SIZE = 0o1000


def answer(kind, value=0, groups=()):
    """Returns the bytes of an answer."""
    return struct.pack(f">BBBBQI{len(groups)}Q", kind, 0, 0, 0, value, len(groups), *groups)


def group(address, word=0):
    return address * WORD_LIMIT + word


def examined(first, count, shift=0):
    return answer(DONE, 0, [group(first + place + shift) for place in range(count)])


# By a name: the kind of order whose answer breaks a rule, and that answer, from the order's number and detail.
RULES = {
    "address past the core": (CALL, lambda number, detail: answer(DONE, 0, [group(SIZE)])),
    "address past any core": (CALL, lambda number, detail: answer(DONE, 0, [group((1 << 28) - 1)])),
    "login with 81 words": (LOGIN, lambda number, detail: answer(DONE)),
    "login with a word": (LOGIN, lambda number, detail: answer(DONE, 0, [group(0)])),
    "login of a status": (LOGIN, lambda number, detail: answer(VALUE, 1)),
    "one answer too many": (CALL, lambda number, detail: answer(DONE) + answer(DONE)),
    "half an answer too many": (CALL, lambda number, detail: answer(DONE) + answer(DONE)[:7]),
    "room for a call": (CALL, lambda number, detail: answer(BLOCKS, 48)),
    "wrong for a call": (CALL, lambda number, detail: answer(WRONG)),
    "status for a call": (CALL, lambda number, detail: answer(VALUE, 1)),
    "no job for a call": (CALL, lambda number, detail: answer(NO_JOB)),
    "value of a call": (CALL, lambda number, detail: answer(DONE, 1)),
    "large code": (CALL, lambda number, detail: answer(REFUSED, WORD_LIMIT)),
    "large stop": (CALL, lambda number, detail: answer(STOPPED, WORD_LIMIT)),
    "large status": (CALL, lambda number, detail: answer(VALUE, WORD_LIMIT)),
    "no status": (CALL, lambda number, detail: answer(DONE)),
    "deposit not done": (DEPOSIT, lambda number, detail: answer(ADDRESS_CHECK)),
    "deposit without memory": (DEPOSIT, lambda number, detail: answer(NO_MEMORY)),
    "deposit without a job": (DEPOSIT, lambda number, detail: answer(NO_JOB)),
    "deposit with a word": (DEPOSIT, lambda number, detail: answer(DONE, 0, [group(number)])),
    "examine elsewhere": (EXAMINE, lambda number, detail: examined(number, detail, 1)),
    "examine too few": (EXAMINE, lambda number, detail: examined(number, detail - 1)),
    "examine too many": (EXAMINE, lambda number, detail: examined(number, detail + 1)),
    "examine not all": (EXAMINE, lambda number, detail: answer(ADDRESS_CHECK)),
    "examine with a job": (EXAMINE, lambda number, detail: answer(NO_JOB)),
    "room that is done": (ROOM, lambda number, detail: answer(DONE)),
    "room with a word": (ROOM, lambda number, detail: answer(BLOCKS, 48, [group(0)])),
    "kind 13": (CALL, lambda number, detail: answer(13)),
    "a byte that isn't 0": (CALL, lambda number, detail: bytes([DONE, 1]) + answer(DONE)[2:]),
    "done after device": (CALL, lambda number, detail: answer(DEVICE)),
    "an answer by itself": (CALL, lambda number, detail: answer(DONE)),
    "silence": (CALL, lambda number, detail: b""),
    "silence in an answer": (CALL, lambda number, detail: answer(DONE)[:9]),
    "silence at the start": (ROOM, lambda number, detail: b""),
    "no rule": (0, None),
}


def read(size):
    """Returns this number of bytes of the input, and ends at its end."""
    data = sys.stdin.buffer.read(size)
    if len(data) < size:
        sys.exit(0)
    return data


def write(data):
    """Writes bytes, and ends if nobody reads them any longer."""
    try:
        os.write(1, data)
    except BrokenPipeError:
        sys.exit(0)


def sound_answer(kind, number, detail, core, words):
    """Returns the answer of a service that keeps the rules."""
    if kind == ROOM:
        return answer(BLOCKS, 48)
    if kind == DEPOSIT:
        core.update(enumerate(words, number))
    if kind == EXAMINE:
        return answer(DONE, 0, [group(place, core.get(place, 0)) for place in range(number, number + detail)])
    return answer(DONE)


def main(rule):
    if rule.startswith("silence"):
        signal.signal(signal.SIGPIPE, signal.SIG_IGN)
    broken, answer_of = RULES[rule]
    rooms, core = 0, {}
    while True:
        kind, _, _, _, number, detail, count = struct.unpack(">BBBBIII", read(16))
        words = struct.unpack(f">{count}Q", read(8 * count))
        rooms += kind == ROOM
        breaks = kind == broken and (kind != ROOM or rooms > 1 or rule == "silence at the start")
        write(answer_of(number, detail) if breaks else sound_answer(kind, number, detail, core, words))
        while breaks and rule.startswith("silence"):
            time.sleep(1000)
        if breaks and rule == "an answer by itself":
            write(answer(DONE))
            with open("WRITTEN", "w", encoding="ascii"):
                pass  # the test waits for this file
        if breaks and rule == "done after device":
            broken = 0


if __name__ == "__main__":
    main(sys.argv[-1])
