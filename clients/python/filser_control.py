"""The status and the backups of a relay, which its user and root may ask for by a second socket, and those who ask.

A request is a line of JSON, as `{"ask": "status"}` or `{"ask": "backup", "file": "/path"}`, and so is the answer, which
has `refused` and the reason if there is nothing else in it.
"""

import asyncio
import fcntl
import json
import os
import secrets
import shutil
import socket
import stat
import sys
import time

from filser import order
from filser_users import JOBS, NOTICE, Refusal, log, shown, text_of, uid_of

ROOM = 5  # the kind of this order
MOST_REQUEST = 1 << 16
FICLONE = 0x40049409  # of most machines; where it is another number, the copy is a plain one


def file_of(facts):
    """Returns what tells a file from all others."""
    return facts.st_dev, facts.st_ino


def control_of(path):
    """Returns the socket for status and backups beside a socket."""
    return f"{path}.control"


class Control:
    """Answers the requests to a relay."""

    def __init__(self, relay):
        self._relay, self._tasks = relay, set()
        self._told = time.monotonic(), 0  # when the status was told last, and how many orders there were
        self._last_backup = None

    def accept(self, link):
        """Serves a request of the relay's user or of root."""
        uid = uid_of(link)
        if uid not in (0, os.geteuid()):
            raise Refusal(f"user {uid} may not ask for status and backups")
        task = self._relay.loop.create_task(self._serve(link))
        self._tasks.add(task)  # the loop alone wouldn't keep it
        task.add_done_callback(self._tasks.discard)

    async def _serve(self, link):
        reader, writer = await asyncio.open_connection(sock=link, limit=MOST_REQUEST)
        try:
            asked = json.loads(await asyncio.wait_for(reader.readline(), self._relay.options.patience))
            told = await (self._backup(asked["file"]) if asked["ask"] == "backup" else self._tell())
        except (Refusal, OSError) as reason:
            told = {"refused": getattr(reason, "strerror", None) or str(reason)}
        except (asyncio.TimeoutError, ValueError, LookupError, TypeError):
            told = {"refused": "this is no request"}
        writer.write(json.dumps(told).encode() + b"\n")
        writer.close()

    async def _tell(self):
        """Returns the status: orders a second since it was told last, or since the start; while a backup runs, the room
        is what it was before."""
        relay, exchange = self._relay, self._relay.exchange
        if exchange.is_up and not relay.backup_turn.locked():
            await exchange.is_answered(exchange.ask(order(ROOM)))
        listed = [{"number": it.number, "user": it.person.name, "orders": it.orders,
                   "jobs": [text_of(job.ppn) for _, job in sorted(it.jobs.items())]}
                  for it in sorted(relay.connections, key=lambda it: it.number)]
        before, self._told = self._told, (time.monotonic(), exchange.count)
        rate = (self._told[1] - before[1]) / max(self._told[0] - before[0], 0.001)
        return {"image": relay.options.image, "service": exchange.process.number, "restarts": relay.restarts,
                "users": len({it["user"] for it in listed}), "connections": listed, "jobs": JOBS - len(relay.free),
                "orders": exchange.count, "orders_a_second": round(rate, 1), "room": exchange.room,
                "last_backup": self._last_backup}

    async def _backup(self, path):
        """Copies the image between two calls, and returns what was made."""
        relay, exchange = self._relay, self._relay.exchange
        async with relay.backup_turn:
            with Backup(path) as backup:
                try:
                    await exchange.hold()
                    if exchange.process.is_stopped or relay.status:
                        raise Refusal("the service has ended, or the disk has failed")
                    exchange.note("copy begins")
                    await relay.loop.run_in_executor(None, backup.copy, relay.options.image, relay.image)
                    exchange.note("copy ends")
                finally:
                    exchange.release()
                await relay.loop.run_in_executor(None, backup.publish)
            self._last_backup = {"file": path, "time": time.strftime("%Y-%m-%dT%H:%M:%SZ", time.gmtime()),
                                 "bytes": backup.size, "shares_blocks": backup.is_clone}
            log(NOTICE, f"backup: {path}, {backup.size} bytes")
        return self._last_backup


class Backup:
    """A copy that gets its name when it is complete, and replaces an earlier copy then."""

    def __init__(self, path):
        if not os.path.isabs(path):
            raise Refusal("the path isn't absolute")
        folder, self._name = os.path.split(path)
        if not self._name:
            raise Refusal("the path has no name")
        self._part = f".{self._name}.{secrets.token_hex(8)}"
        self._folder = os.open(folder, os.O_RDONLY | os.O_DIRECTORY | os.O_CLOEXEC)
        self._file, self.size, self.is_clone = None, 0, False

    def __enter__(self):
        try:
            self._check_old()
            flags = os.O_WRONLY | os.O_CREAT | os.O_EXCL | os.O_NOFOLLOW | os.O_CLOEXEC
            self._file = open(os.open(self._part, flags, 0o600, dir_fd=self._folder), "wb")
        except BaseException:
            os.close(self._folder)
            raise
        return self

    def __exit__(self, *_):
        self._file.close()
        try:
            os.unlink(self._part, dir_fd=self._folder)
        except FileNotFoundError:  # it has got its name
            pass
        os.close(self._folder)

    def _check_old(self):
        """Refuses the name of anything except a file, which a copy might be, and of a file that is locked, as an image
        that is served."""
        try:
            facts = os.stat(self._name, dir_fd=self._folder, follow_symlinks=False)
        except FileNotFoundError:
            return
        if not stat.S_ISREG(facts.st_mode):
            raise Refusal("something that isn't a file has this path")
        old = os.open(self._name, os.O_RDONLY | os.O_NOFOLLOW | os.O_NONBLOCK | os.O_CLOEXEC, dir_fd=self._folder)
        try:
            fcntl.flock(old, fcntl.LOCK_SH | fcntl.LOCK_NB)
        except BlockingIOError:
            raise Refusal("the file is in use by another process") from None
        finally:
            os.close(old)

    def copy(self, path, wanted):
        """Copies the image: its blocks are shared if the file system can do that."""
        with open(path, "rb") as image:
            facts = os.fstat(image.fileno())
            if file_of(facts) != wanted:
                raise Refusal("another file than the one that is served has the image's path")
            try:
                fcntl.ioctl(self._file, FICLONE, image.fileno())
                self.is_clone = True
            except OSError:
                shutil.copyfileobj(image, self._file, 1 << 20)
                self._file.flush()
        self.size = os.fstat(self._file.fileno()).st_size
        if self.size != facts.st_size:
            raise Refusal(f"the copy has {self.size} bytes, and the image {facts.st_size}")

    def publish(self):
        """Syncs the copy, and gives it its name."""
        os.fsync(self._file.fileno())
        os.rename(self._part, self._name, src_dir_fd=self._folder, dst_dir_fd=self._folder)
        os.fsync(self._folder)


# Who asks.


def complain(text):
    """Writes a line for people."""
    sys.stderr.write(f"filser-relay: {shown(text)}\n")


def connected(path):
    """Returns a connection to a socket, or ends the program."""
    link = socket.socket(socket.AF_UNIX)
    try:
        link.connect(path)
    except OSError as error:
        complain(f"{path}: {error.strerror or error}")
        sys.exit(4)
    return link


def request(path, asked):
    """Returns the answer to a request, or ends the program."""
    with connected(control_of(path)) as link, link.makefile("rw", encoding="ascii") as stream:
        try:
            stream.write(json.dumps(asked) + "\n")
            stream.flush()
            line = stream.readline()
        except OSError:
            line = ""
    told = json.loads(line) if line else {"refused": "the relay has ended the connection"}
    if "refused" in told:
        complain(told["refused"])
        sys.exit(1)
    return told


def show_status(told):
    """Prints the status of a relay as lines."""
    copy = told["last_backup"]
    print(f"image {shown(told['image'])}, service {told['service']}, started again {told['restarts']} times")
    print(f"users {told['users']}, connections {len(told['connections'])}, jobs {told['jobs']} of {JOBS}")
    print(f"orders {told['orders']}, a second {told['orders_a_second']}, room {told['room']}")
    print(f"last backup {copy['time']} {shown(copy['file'])}" if copy else "no backup yet")
    for it in told["connections"]:
        print(" ".join([f"connection {it['number']}, {shown(it['user'])}, orders {it['orders']}, jobs", *it["jobs"]]))
