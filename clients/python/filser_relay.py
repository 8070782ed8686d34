#!/usr/bin/env python3
"""filser-relay: many clients at one image, each as whom it may be.

usage: filser-relay IMAGE SOCKET --users FILE [OPTION ..]
       filser-relay wire SOCKET
       filser-relay --session SOCKET [PPN]
       filser-relay --status SOCKET [--json]
       filser-relay --backup FILE SOCKET

The relay starts one process of `filser wire IMAGE` and listens at a Unix socket, where each connection carries the
records of the wire: docs/EMULATORS.md has these, and the man page what the relay does with them. `wire` joins its
standard streams to a connection, for clients that start a program. The relay isn't proved; the program that answers the
calls is.

What it never does: it gives no order to the service that isn't a whole record, and no job to a connection before that
connection has logged it in. A connection ends by itself, and takes no other one with it.
"""

import argparse
import asyncio
import json
import os
import signal
import socket
import subprocess
import sys
import threading
from collections import deque, namedtuple

from filser import RECORD, WORD_LIMIT, Code, Kind, order
from filser_control import Control, complain, connected, control_of, file_of, request, show_status
from filser_session import hold_session
from filser_users import (CRITICAL, ERROR, INFO, JOBS, NOTICE, WARNING, Refusal, listen_at, log, passed_sockets,
                          person_of, ppns_of, read_users, text_of, uid_of)

NOBODY = 255  # the number of a job that no LOGIN can have, so the service answers NO JOB to all else that is an order
LOGIN, DEPOSIT, EXAMINE, CALL, ROOM = range(1, 6)  # the kinds of orders
MOST_GROUPS = 1 << 18
WINDOW = 32  # orders that the service has and hasn't answered
WINDOW_BYTES = 1 << 17  # of their answers, before the last one: large answers take long, and others wait for them
PIPE_BYTES = 1 << 16  # of orders that wait for the pipe to the service, before the last one
READ_BYTES = 1 << 16  # of orders that wait in a connection, if its first one is whole
SMALL_ANSWER = RECORD.size + 8 * 1024
LARGE_ANSWER = RECORD.size + 8 * (MOST_GROUPS + 1024)
LARGE_CALLS = {Code.IN, Code.INBUF, Code.OUTBUF}  # they may change a whole core, and others a few buffers
MOST_RESTARTS = 1
MOST_REFUSALS = 10  # of a connection that are logged
MOST_TURNED_AWAY = 100  # connections that are logged in the time of the patience

Job = namedtuple("Job", "number ppn")  # the service's number, and as whom it is logged in
Sent = namedtuple("Sent", "connection bound done record")  # what is left of an order until its answer comes


def answer_of(kind, value=0):
    """Returns the bytes of an answer without groups."""
    return RECORD.pack(kind, 0, 0, 0, 0, value, 0)


def login_of(record):
    """Returns the PPN of a LOGIN of a job from 1 to 64, or None for a record that is none."""
    _, code, job, channel, _, detail, count = RECORD.unpack_from(record)
    ppn = int.from_bytes(record[RECORD.size :], "big") if count == 1 else 0
    is_plain = not code and not channel and not detail and 1 <= job <= JOBS
    return ppn if is_plain and ppn < WORD_LIMIT and ppn >> 18 and ppn & 0o777777 else None


def most_answered(record):
    """Returns how many bytes the answer to an order has at most."""
    kind, code, _, _, _, detail, _ = RECORD.unpack_from(record)
    if kind == EXAMINE:
        return RECORD.size + 8 * min(detail, MOST_GROUPS)
    if kind == CALL:
        return LARGE_ANSWER if code in LARGE_CALLS else SMALL_ANSWER
    return RECORD.size


def all_jobs():
    """Returns the jobs of a new service; the last one is given first."""
    return list(range(JOBS, 0, -1))


class Ended(Exception):
    """The end of the relay: its exit status, and why."""

    def __init__(self, status, reason):
        super().__init__(reason)
        self.status = status


class Writer:
    """The output of a descriptor that doesn't block: what it doesn't take at once waits in memory."""

    def __init__(self, loop, descriptor, on_taken):
        self._loop, self._descriptor, self._on_taken = loop, descriptor, on_taken
        self._held, self._is_watched = bytearray(), False
        self.taken = 0  # bytes that the descriptor has taken
        self.is_broken = False

    def __len__(self):
        return len(self._held)

    def add(self, data):
        """Appends bytes, which the next flush writes."""
        self._held += data

    def flush(self):
        """Writes what the descriptor takes. If it can't be written any longer, nothing waits any longer."""
        try:
            count = os.write(self._descriptor, self._held) if self._held else 0
        except BlockingIOError:
            count = 0
        except OSError:
            self.is_broken, count = True, len(self._held)
        del self._held[:count]
        self.taken += count
        if bool(self._held) != self._is_watched:
            self._is_watched = not self._is_watched
            if self._is_watched:
                self._loop.add_writer(self._descriptor, self._on_taken)
            else:
                self._loop.remove_writer(self._descriptor)

    def stop(self):
        """Drops what waits, before the descriptor is closed."""
        self._held.clear()
        self.flush()


class Process:
    """A process of `filser wire`: takes orders, and hands each answer to a function."""

    def __init__(self, loop, words, on_answers, on_taken):
        # In a session of its own, so that the terminal's Ctrl-C ends the relay alone, which then ends the process.
        self._process = subprocess.Popen(words, bufsize=0, stdin=subprocess.PIPE, stdout=subprocess.PIPE,
                                         start_new_session=True)
        self.number, self._loop, self._on_answers = self._process.pid, loop, on_answers
        self._held, self._is_answer = bytearray(), True
        self.ended = loop.create_future()  # the exit status
        for stream in (self._process.stdin, self._process.stdout):
            os.set_blocking(stream.fileno(), False)
        self.out = Writer(loop, self._process.stdin.fileno(), on_taken)
        loop.add_reader(self._process.stdout, self._read)

    def stop(self):
        """Ends the input, after which the process answers what it has, and ends."""
        self.out.stop()
        self._process.stdin.close()

    @property
    def is_stopped(self):
        return self._process.stdin.closed

    @property
    def text(self):
        """Returns what it has printed where an answer was expected."""
        return "" if self._is_answer else self._held[:200].decode("latin-1").strip()

    def _read(self):
        data = os.read(self._process.stdout.fileno(), 1 << 18)
        if not data:
            return self._end()
        self._held += data
        self._on_answers(self._answers())
        return None

    def _answers(self):
        """Yields the kind and the bytes of each whole answer."""
        while self._is_answer and len(self._held) >= RECORD.size:
            kind, *zeros, _, _, count = RECORD.unpack_from(self._held)
            if kind > Kind.ROOM or any(zeros) or count > 4 * MOST_GROUPS:
                self._is_answer = False
                self.stop()
                return
            size = RECORD.size + 8 * count
            if len(self._held) < size:
                return
            answer = bytes(self._held[:size])
            del self._held[:size]
            yield kind, answer

    def _end(self):
        self._loop.remove_reader(self._process.stdout)
        if not self.is_stopped:
            self.stop()
        self._is_answer = self._is_answer and not self._held
        self._process.stdout.close()
        self.ended.set_result(self._process.wait())


class Exchange:
    """The exchange with the service: whose order goes next, and whose an answer is."""

    def __init__(self, loop, words, trace):
        self._loop, self._words, self._trace = loop, words, trace
        self._turns = deque()  # connections that have an order to send, each once
        self._own = deque()  # the relay's orders, which come first
        self._sent, self._owed = deque(), 0
        self._is_held = self._is_woken = False
        self._quiet = None
        self.is_up = False
        self.process, self.count, self.room = None, 0, 0
        self.on_fault = None

    def start(self):
        """Starts the process, and returns a future of its first answer."""
        self.process = Process(self._loop, self._words, self._take_answers, self.pump)
        return self.ask(order(ROOM))

    def end(self):
        """Forgets the orders of a process that has ended."""
        self._sent.clear()
        self._own.clear()
        self._owed, self.is_up = 0, False
        self._tell_quiet()

    # Orders.

    def queue(self, connection):
        """Gives a connection a turn, after those that have one."""
        if not connection.is_queued:
            connection.is_queued = True
            self._turns.append(connection)

    def ask(self, record):
        """Sends an order of the relay, and returns a future of the kind of its answer."""
        answered = self._loop.create_future()
        self._own.append((record, answered))
        self.wake()
        return answered

    async def is_answered(self, answered):
        """Returns whether an order of the relay is answered, or the process has ended before."""
        await asyncio.wait([answered, self.process.ended], return_when=asyncio.FIRST_COMPLETED)
        return answered.done()

    def wake(self):
        """Makes the loop send what may be sent, soon."""
        if not self._is_woken:
            self._is_woken = True
            self._loop.call_soon(self.pump)

    def pump(self):
        """Sends what may be sent: one order of each connection that has a turn, round and round. After many turns the
        loop reads what has come meanwhile; those of a LOGIN that the relay refuses itself take no room."""
        self._is_woken = False
        if self.process.is_stopped:
            return
        for _ in range(2 * WINDOW):
            if not self._has_room():
                break
            if self._own:
                record, answered = self._own.popleft()
                self.send(record, None, RECORD.size, answered.set_result)
            elif self._turns and self.is_up:
                connection = self._turns.popleft()
                connection.is_queued = False
                connection.take_turn()
            else:
                break
        else:
            self.wake()
        self.process.out.flush()

    def _has_room(self):
        """Returns whether one more order may go."""
        is_full = len(self._sent) >= WINDOW or self._owed >= WINDOW_BYTES or len(self.process.out) >= PIPE_BYTES
        return not self._is_held and not is_full

    def send(self, record, connection, bound, done=None):
        """Sends an order now; `done` gets the kind of the answer."""
        self._owed += bound
        self._sent.append(Sent(connection, bound, done, bytes(record) if self._trace else b""))
        self.process.out.add(record)
        self.count += 1

    # Answers.

    def _take_answers(self, answers):
        told = set()
        for kind, answer in answers:
            if not self._sent:
                self.process.stop()  # an answer to nothing: this is no service
                break
            sent = self._sent.popleft()
            self._owed -= sent.bound
            self._judge(sent, kind, answer)
            if sent.done:
                sent.done(kind)
            if sent.connection:
                sent.connection.take_answer(answer, sent.bound)
                told.add(sent.connection)
        for connection in told:
            connection.flush()
        if not self._sent:
            self._tell_quiet()
        self.pump()

    def _judge(self, sent, kind, answer):
        """Notes what an answer says of the service."""
        if kind == Kind.ROOM:
            self.is_up, self.room = True, int.from_bytes(answer[4:12], "big")
        if kind in (Kind.DEVICE, Kind.FAILED):
            self.on_fault()
        if self._trace:
            self.note(f"{sent.connection.number if sent.connection else 0} {sent.record.hex()} {answer.hex()}")

    def note(self, line):
        """Writes a line to the trace, if there is one."""
        if self._trace:
            self._trace.write(f"{line}\n")

    # Quiet.

    async def hold(self):
        """Lets no order go until `release`, and returns when all that went are answered."""
        self._is_held = True
        if self._sent:
            self._quiet = self._loop.create_future()
            await self._quiet

    def release(self):
        """Lets orders go again."""
        self._is_held = False
        self.wake()

    def _tell_quiet(self):
        if self._quiet and not self._quiet.done():
            self._quiet.set_result(None)


class Connection:
    """A client: its orders in their order, its answers, and its jobs, which it numbers from 1."""

    def __init__(self, relay, link, number, person):
        self._relay, self._exchange, self._loop = relay, relay.exchange, relay.loop
        self._link, self.number, self.person = link, number, person
        self.jobs = {}  # by the client's number
        self.orders = self._refusals = 0
        self._held, self._in_flight, self._owed = bytearray(), 0, 0
        self._has_input, self._is_watched = True, False
        self._awaits_login = self._is_finished = self._is_due = False
        self.is_queued = self.is_over = False
        self._taken = 0
        link.setblocking(False)
        self._out = Writer(self._loop, link.fileno(), self._resume)
        self._watch()

    def __str__(self):
        return f"connection {self.number}, {self.person.name}"

    # Input.

    def _read(self):
        try:
            data = self._link.recv(READ_BYTES)
        except BlockingIOError:
            return
        except OSError as error:
            self.end(error.strerror)
            return
        self._has_input = bool(data)
        self._held += data
        self._advance()
        self._exchange.pump()

    def end_input(self):
        """Takes no more orders: those that are here are answered, and then the connection ends."""
        self._has_input = False
        self._advance()

    def _watch(self):
        """Reads as long as there is room: up to a whole record, or up to many small ones."""
        wanted = self._has_input and not self.is_over and len(self._held) < max(READ_BYTES, self._first_size())
        if wanted != self._is_watched:
            self._is_watched = wanted
            if wanted:
                self._loop.add_reader(self._link, self._read)
            else:
                self._loop.remove_reader(self._link)

    def _first_size(self):
        """Returns the size of the first record, as far as it is known. One that announces too much is never whole, and
        ends the input as a record that breaks off does."""
        if len(self._held) < RECORD.size:
            return RECORD.size
        count = int.from_bytes(self._held[12:16], "big")
        if count > MOST_GROUPS:
            self._has_input = False
        return RECORD.size + 8 * count

    def _is_whole(self):
        size = self._first_size()
        return len(self._held) >= size and size <= RECORD.size + 8 * MOST_GROUPS

    def _advance(self):
        """Goes on after a change: takes a turn, or ends if all is done."""
        if self.is_over:
            return
        if self._may_send():
            self._exchange.queue(self)
        elif not self._has_input and not self._in_flight and not self._is_whole() and not self._is_finished:
            self._finish()
        self._watch()

    # Orders.

    def _may_send(self):
        """Returns whether the first order may go: its answer has room. A LOGIN goes alone, so what follows it is judged
        by its answer, and what the relay answers itself comes after the answers to what was before it."""
        if self.is_over or self._awaits_login or not self._is_whole():
            return False
        if not self._in_flight and not self._out:
            return True
        if self._held[0] == LOGIN and self._in_flight:
            return False
        return self._owed + len(self._out) + most_answered(self._held) <= LARGE_ANSWER

    def take_turn(self):
        """Sends the first order, or answers it."""
        if not self._may_send():
            return
        size = self._first_size()
        record = self._held[:size]
        del self._held[:size]
        self.orders += 1
        ppn = login_of(record) if record[0] == LOGIN else None
        if ppn is not None:
            self._log_in(record, ppn)
        else:
            if LOGIN <= record[0] <= CALL:
                job = self.jobs.get(record[2]) if record[0] != LOGIN else None
                record[2] = job.number if job else NOBODY
            self._send(record)
        self._advance()

    def _send(self, record, done=None):
        bound = most_answered(record)
        self._in_flight += 1
        self._owed += bound
        self._exchange.send(record, self, bound, done)

    def _log_in(self, record, ppn):
        """Sends a LOGIN, or refuses it."""
        number = record[2]
        old = self.jobs.get(number)
        if ppn not in ppns_of(self._relay.users, self.person):
            return self._refuse(answer_of(Kind.REFUSED, 2), f"it may not be {text_of(ppn)}")
        job = old.number if old else self._relay.new_job(self)
        if job is None:
            return self._refuse(answer_of(Kind.NO_MEMORY), "no job is left for it")
        if not old:
            self.jobs[number] = Job(job, ppn)
        self._awaits_login = True
        record[2] = job
        return self._send(record, lambda kind: self._logged_in(number, Job(job, ppn), old, kind))

    def _logged_in(self, number, job, old, kind):
        """Takes the answer to a LOGIN. A job that wasn't logged in goes back: it is as the last RESET left it."""
        self._awaits_login = False
        if self.is_over:
            return
        if kind == Kind.DONE:
            self.jobs[number] = job
            self.check_users()
        elif not old:
            del self.jobs[number]
            self._relay.free.append(job.number)

    def _refuse(self, answer, reason):
        """Refuses a LOGIN, and logs the first refusals of a connection."""
        self._answer(answer)
        self._refusals += 1
        if self._refusals <= MOST_REFUSALS:
            log(WARNING, f"refusal: {self}: {reason}")

    # Answers.

    def take_answer(self, answer, bound):
        """Takes the answer to the oldest order that was sent."""
        self._in_flight -= 1
        self._owed -= bound
        if not self.is_over:
            self._out.add(answer)

    def flush(self):
        """Writes answers, and goes on."""
        if self.is_over:
            return
        self._out.flush()
        if self._out.is_broken:
            self.end("it doesn't take answers any longer")
            return
        self._advance()
        if self._is_finished and not self._out:
            self.end("its input has ended")

    def _resume(self):
        """Writes answers when the socket takes more, or when the relay itself has made one."""
        self._is_due = False
        self.flush()
        self._exchange.pump()

    def _answer(self, answer):
        """Answers in place of the service; all orders before this one are answered."""
        self._out.add(answer)
        if not self._is_due:
            self._is_due = True
            self._loop.call_soon(self._resume)

    def check_users(self):
        """Ends the connection if the file of users, which may be a new one, doesn't allow it or one of its jobs."""
        ppns = ppns_of(self._relay.users, self.person)
        if not ppns or any(job.ppn not in ppns for job in self.jobs.values()):
            self.end("the file of users doesn't allow it any longer")

    def is_stalled(self):
        """Returns whether answers wait of which it has read nothing since the last time that this was asked."""
        is_same, self._taken = self._taken == self._out.taken, self._out.taken
        return is_same and len(self._out) > 0

    # Ends.

    def _finish(self):
        """Answers a record that breaks off, as the wire does, and gives the jobs back."""
        self._is_finished = True
        is_part = bool(self._held) and not self._relay.is_stopping
        self._held.clear()
        self._relay.take_back(self)
        self._answer(answer_of(Kind.WRONG) if is_part else b"")

    def end(self, reason):
        """Ends the connection at once. Answers that are still to come belong to nobody."""
        if self.is_over:
            return
        self.is_over = True
        self._watch()
        self._out.stop()
        self._link.close()
        more = f", {self._refusals} refusals" if self._refusals else ""
        log(INFO, f"end: {self}: {self.orders} orders{more}; {reason}")
        self._relay.forget(self)


class Relay:
    """The service of an image, its connections and its jobs."""

    def __init__(self, options, loop):
        self.options, self.loop = options, loop
        self.users = read_users(options.users)
        self.connections, self._count, self._turned_away = set(), 0, 0
        self.free = all_jobs()
        self.is_stopping = False
        self.status, self.restarts, self.control = 0, 0, Control(self)
        self._listeners, self._made = [], []
        self.backup_turn = asyncio.Lock()
        self._trace = open(options.trace, "w", encoding="ascii") if options.trace else None
        words = [options.program, "wire", options.image, "--form", str(options.form)]
        self.exchange = Exchange(loop, words, self._trace)
        self.exchange.on_fault = self._fault
        self.image = None  # device and number of the file that is served

    # The service.

    async def run(self):
        """Serves until a signal or a fault, and returns the exit status."""
        try:
            await self._start()
            self.loop.call_later(self.options.patience, self._sweep)
            while True:
                status = await self.exchange.process.ended
                self.exchange.end()
                self._drop(f"the service has ended with status {status}")
                if self.is_stopping:
                    async with self.backup_turn:  # a backup that is there is finished
                        return self.status or (0 if status in (0, 1) else 4)
                log(CRITICAL, f"fault: the service has ended with status {status}")
                if self.restarts == MOST_RESTARTS:
                    return 4
                self.restarts += 1
                self.free = all_jobs()
                await self._start()
        finally:
            self._close()
            if self._trace:
                self._trace.close()

    async def _start(self):
        """Starts the service, and listens when it answers."""
        async with self.backup_turn:  # a start may write the image
            try:
                up = self.exchange.start()
            except OSError as error:
                raise Ended(4, f"{self.options.program}: {error.strerror}") from error
            is_up = await self.exchange.is_answered(up)
        if not is_up:
            status, text = self.exchange.process.ended.result(), self.exchange.process.text
            raise Ended(3 if status == 3 else 4, f"the service didn't start: status {status}, {text or 'no answer'}")
        self.image = file_of(os.stat(self.options.image))
        if not self._listeners and not self.is_stopping:
            self._listen()
        log(NOTICE, f"start: {self.options.image} at {self.options.socket}, service {self.exchange.process.number}")

    def _fault(self):
        """Ends the relay after a fault of the disk: orders that are here get their answers, and nothing is started."""
        if not self.status:
            self.status = 4
            log(CRITICAL, "fault: the disk has failed; restart the host before the next start, so that it drops its "
                "cache")
        self.stop("the disk has failed")

    def stop(self, reason):
        """Ends the relay: no order is taken any longer, those that are here are answered, and all jobs are reset."""
        if self.is_stopping:
            return
        self.is_stopping = True
        log(NOTICE, f"end: {reason}")
        self._close()
        for connection in list(self.connections):
            connection.end_input()
        self.loop.call_later(self.options.patience, self._give_up)
        self.exchange.wake()
        self._settle()

    def _give_up(self):
        """Ends the relay without waiting for clients that don't read, and for jobs that can't be reset."""
        self._drop("the relay has ended")
        self.exchange.process.stop()

    def _settle(self):
        """Ends the service if the relay ends, and nobody and no job is left."""
        if self.is_stopping and not self.connections and len(self.free) == JOBS:
            self.exchange.process.stop()

    # Connections.

    def _listen(self):
        """Listens at the socket and at the one beside it, for status and backups; a service manager may pass both."""
        paths = [self.options.socket, control_of(self.options.socket)]
        found = passed_sockets(paths)
        if not found:
            for path, mode in zip(paths, (self.options.mode, 0o600)):
                found.append(listen_at(path, mode))
                self._made.append(path)
        self._listeners = found
        self._watch_listeners()

    def _watch_listeners(self):
        """Accepts connections, also if the system has let none in before."""
        for listener, take in zip(self._listeners, (self._accept, self.control.accept)):
            listener.setblocking(False)
            self.loop.add_reader(listener, self._take_in, listener, take)

    def _close(self):
        """Listens no longer, and removes the sockets that this process made."""
        for listener in self._listeners:
            self.loop.remove_reader(listener)
            listener.close()
        for path in self._made:
            try:
                os.remove(path)
            except OSError:
                pass
        self._listeners, self._made = [], []

    def _take_in(self, listener, take):
        """Accepts a connection, if it may enter. If the system lets none in, it is asked again when one ends."""
        try:
            link, _ = listener.accept()
        except BlockingIOError:
            return
        except OSError as error:
            log(ERROR, f"accept: {error.strerror}")
            self.loop.remove_reader(listener)
            return
        try:
            take(link)
        except (OSError, Refusal) as reason:
            self._turned_away += 1
            if self._turned_away <= MOST_TURNED_AWAY:
                log(WARNING, f"refusal: {reason}")
            link.close()

    def _accept(self, link):
        person = person_of(uid_of(link))
        if not ppns_of(self.users, person):
            raise Refusal(f"user {person.name}: the file of users has no line for it")
        if len(self.connections) >= self.options.connections:
            raise Refusal(f"user {person.name}: there are {self.options.connections} connections")
        if sum(it.person.uid == person.uid for it in self.connections) >= self.options.each:
            raise Refusal(f"user {person.name}: it has {self.options.each} connections")
        self._count += 1
        connection = Connection(self, link, self._count, person)
        self.connections.add(connection)
        log(INFO, f"entry: {connection}")

    def forget(self, connection):
        """Takes a connection that has ended off the list."""
        self.connections.discard(connection)
        self.take_back(connection)
        self._watch_listeners()
        self._settle()

    def _drop(self, reason):
        """Ends all connections at once."""
        for connection in list(self.connections):
            connection.end(reason)

    def _sweep(self):
        """Ends the connections that don't read, and begins to count anew."""
        if self._turned_away > MOST_TURNED_AWAY:
            log(WARNING, f"refusal: {self._turned_away - MOST_TURNED_AWAY} more connections")
        self._turned_away = 0
        self._watch_listeners()
        for connection in list(self.connections):
            if connection.is_stalled():
                connection.end("it doesn't read its answers")
        self.loop.call_later(self.options.patience, self._sweep)

    def read_users_again(self):
        """Reads the file of users again, and ends the connections that it doesn't allow any longer."""
        try:
            self.users = read_users(self.options.users)
        except Refusal as reason:
            log(ERROR, f"refusal: {self.options.users}: {reason}; the old one stays in force")
            return
        log(NOTICE, f"users: {self.options.users} was read again")
        for connection in list(self.connections):
            try:
                connection.person = person_of(connection.person.uid)
                connection.check_users()
            except Refusal as reason:
                connection.end(str(reason))

    # Jobs.

    def new_job(self, connection):
        """Returns a job for a connection, or None if it has as many as it may have, or its user has the share of one
        user among those who are connected, or none is left."""
        mine = [it for it in self.connections if it.person.uid == connection.person.uid]
        share = -(-JOBS // len({it.person.uid for it in self.connections}))
        is_over = len(connection.jobs) >= self.options.jobs or sum(len(it.jobs) for it in mine) >= share
        return None if is_over or not self.free else self.free.pop()

    def take_back(self, connection):
        """Resets the jobs of a connection that ends. A job is free again when that is answered."""
        jobs, connection.jobs = connection.jobs, {}
        for job in jobs.values():
            self._reset(job.number, self.exchange.process)

    def _reset(self, job, process):
        """Resets a job of a process; one that has ended has no jobs."""
        if process is self.exchange.process and not process.is_stopped:
            answered = self.exchange.ask(order(CALL, Code.RESET, job))
            answered.add_done_callback(lambda done: self._was_reset(job, process, done.result()))

    def _was_reset(self, job, process, kind):
        if process is not self.exchange.process:
            return
        if kind == Kind.NO_MEMORY:
            self.loop.call_later(1, self._reset, job, process)
            return
        self.free.append(job)
        self._settle()

def open_streams():
    """Opens standard streams that are closed, so that no file of the relay gets the number of one."""
    descriptor = 0
    while descriptor < 3:
        descriptor = os.open(os.devnull, os.O_RDWR)
    os.close(descriptor)


async def serve(options):
    """Runs a relay, and returns its exit status."""
    loop = asyncio.get_running_loop()
    try:
        relay = Relay(options, loop)
    except Refusal as reason:
        log(ERROR, f"refusal: {options.users}: {reason}")
        return 1
    for number in (signal.SIGTERM, signal.SIGINT):
        loop.add_signal_handler(number, relay.stop, f"signal {number}")
    loop.add_signal_handler(signal.SIGHUP, relay.read_users_again)
    try:
        return await relay.run()
    except Ended as ended:
        log(CRITICAL, f"end: {ended}")
        return ended.status
    except Refusal as reason:
        log(ERROR, f"refusal: {reason}")
        return 4


# Its users' side.


def join(path):
    """Joins the standard streams to a relay, in place of `filser wire IMAGE`, and returns the exit status: 0 if the
    input has ended, and 4 if the relay has ended the connection before."""
    link, ended = connected(path), threading.Event()

    def forward():
        for data in iter(lambda: os.read(0, 1 << 16), b""):
            link.sendall(data)
        ended.set()
        link.shutdown(socket.SHUT_WR)

    def forward_all():
        try:
            forward()
        except OSError:
            pass  # the relay has ended the connection, which the other direction finds too

    threading.Thread(target=forward_all, daemon=True).start()
    try:
        for data in iter(lambda: link.recv(1 << 16), b""):
            sys.stdout.buffer.write(data)
            sys.stdout.buffer.flush()
    except OSError as error:
        complain(f"{path}: {error.strerror}")
        return 4
    if not ended.is_set():
        complain(f"{path}: the relay has ended the connection")
    return 0 if ended.is_set() else 4


def parsed(words):
    """Returns the arguments; wrong ones end the program with status 2."""
    parser = argparse.ArgumentParser(prog="filser-relay", usage=__doc__.split("usage: ")[1].split("\n\n")[0],
                                     formatter_class=argparse.RawDescriptionHelpFormatter)
    parser.add_argument("words", nargs="*", help=argparse.SUPPRESS)
    parser.add_argument("--users", metavar="FILE", help="who may log in as whom")
    parser.add_argument("--program", default="filser", help="the program that serves the image [filser]")
    parser.add_argument("--form", default=1, type=int, metavar="N", help="the form of the image [1]")
    parser.add_argument("--mode", default=0o660, type=octal, help="permission bits of the socket, in octal [660]")
    parser.add_argument("--connections", default=64, type=count_of, metavar="N", help="most connections [64]")
    parser.add_argument("--each", default=32, type=count_of, metavar="N", help="most connections of one user [32]")
    parser.add_argument("--jobs", default=JOBS, type=count_of, metavar="N", help="most jobs of a connection [64]")
    parser.add_argument("--patience", default=60, type=count_of, metavar="N",
                        help="seconds after which a connection is ended that reads nothing of its answers [60]")
    parser.add_argument("--trace", metavar="FILE", help="for tests: each order that is sent, and its answer")
    parser.add_argument("--session", action="store_true", help="a session of command lines")
    parser.add_argument("--status", action="store_true", help="print what the relay does")
    parser.add_argument("--json", action="store_true", help="print it as JSON")
    parser.add_argument("--backup", metavar="FILE", help="have the relay copy the image to FILE")
    options = parser.parse_intermixed_args(words)
    asked = [bool(options.session), bool(options.status), options.backup is not None, options.words[:1] == ["wire"]]
    least, most = (2, 2) if not any(asked) or asked[3] else (1, 2 if options.session else 1)
    if sum(asked) > 1 or not least <= len(options.words) <= most or not any(asked) and not options.users:
        parser.error("these words aren't one of the five forms")
    return options


def octal(text):
    """Returns permission bits."""
    return int(text, 8) & 0o777


def count_of(text):
    """Returns a count, which is at least 1."""
    if int(text) < 1:
        raise ValueError
    return int(text)


def main():
    options = parsed(sys.argv[1:])
    if options.words[0] == "wire":
        return join(options.words[1])
    if options.session:
        return hold_session(os.path.abspath(__file__), *options.words)
    if options.status:
        told = request(options.words[0], {"ask": "status"})
        print(json.dumps(told)) if options.json else show_status(told)
        return 0
    if options.backup is not None:
        request(options.words[0], {"ask": "backup", "file": os.path.abspath(options.backup)})
        return 0
    options.image, options.socket = options.words
    open_streams()
    return asyncio.run(serve(options))


if __name__ == "__main__":
    sys.exit(main())
