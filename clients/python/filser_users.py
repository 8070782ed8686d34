"""Who may use a relay, and as whom: the file of users, the peers of connections, the sockets that they come by, and the
log.

The file has a line for each user or group, and `#` begins a comment:

    joe: 10,20, 10,21       # the user joe may log in as [10,20] and as [10,21]
    @staff: 10,30           # and everybody in the group staff as [10,30]

A line is empty, or a name, a colon, and PPNs with a comma and at least one blank between them. A name has no blanks,
colons, commas or `#`; a PPN is two octal numbers of one to six digits, neither of them 0, with a comma and no blank
between them. Blanks (spaces and tabs) may be around a name, a colon and the list. Several lines for a name add up.
"""

import errno
import grp
import os
import pwd
import re
import socket
import stat
import struct
from collections import namedtuple

JOBS = 64  # of the service
MOST_BYTES = 1 << 20  # of a file of users
LINE = re.compile(r"[ \t]*(?:(@?[^\s:,#@][^\s:,#]*)[ \t]*:[ \t]*([^#]*?)[ \t]*)?(?:#.*)?")
PPN = re.compile(r"([0-7]{1,6}),([0-7]{1,6})")
CREDENTIALS = struct.Struct("iII")
FIRST_PASSED = 3  # the first descriptor that a service manager passes
CRITICAL, ERROR, WARNING, NOTICE, INFO = range(2, 7)  # priorities of lines of the log

Person = namedtuple("Person", "uid name names")
Person.__doc__ = "A user: the number, the name, and the names of a file of users that mean it, as `joe` and `@staff`."


class Refusal(Exception):
    """Why a file, a peer or a request is refused, in words."""


def ppn_of(text):
    """Returns the word of a PPN.

    >>> oct(ppn_of("10,20"))
    '0o10000020'
    """
    found = PPN.fullmatch(text)
    project, programmer = (int(half, 8) for half in found.groups()) if found else (0, 0)
    if not project or not programmer:
        raise Refusal(f"{shown(text)} is no PPN as 10,20")
    return project << 18 | programmer


def text_of(ppn):
    """Returns a PPN as it is printed.

    >>> text_of(0o10000020)
    '[10,20]'
    """
    return f"[{ppn >> 18:o},{ppn & 0o777777:o}]"


def shown(text):
    """Returns a text with what can't be printed escaped.

    >>> shown("A B\\n")
    'A B\\\\n'
    """
    return "".join(it if it.isprintable() else it.encode("unicode_escape").decode() for it in text)


def log(priority, text):
    """Writes a line that journald takes, with its priority; a log that can't be written stops nothing."""
    try:
        os.write(2, f"<{priority}>filser-relay: {shown(text)}\n".encode())
    except OSError:
        pass


def users_of(text):
    """Returns the PPNs of each name in the text of a file of users.

    >>> {name: [text_of(it) for it in sorted(ppns)] for name, ppns in users_of("joe: 10,20, 1,2  # both").items()}
    {'joe': ['[1,2]', '[10,20]']}
    """
    users = {}
    for number, line in enumerate(text.split("\n"), 1):
        found = LINE.fullmatch(line)
        if not found:
            raise Refusal(f"line {number}: it isn't a name, a colon and PPNs")
        name, ppns = found.groups()
        try:
            if name:
                users.setdefault(name, set()).update(ppn_of(it) for it in re.split(r",[ \t]+", ppns))
        except Refusal as reason:
            raise Refusal(f"line {number}: {reason}") from None
    return users


def read_users(path):
    """Returns the PPNs of each name in a file of users, which must be the relay's user's or root's, and which nobody
    else may write."""
    try:
        with open(path, "rb", opener=lambda name, flags: os.open(name, flags | os.O_NONBLOCK)) as file:
            facts = os.fstat(file.fileno())
            if not stat.S_ISREG(facts.st_mode):
                raise Refusal("it isn't a file")
            if facts.st_uid not in (0, os.geteuid()):
                raise Refusal(f"it belongs to user {facts.st_uid}, and not to the relay's user or root")
            if facts.st_mode & 0o022:
                raise Refusal(f"others than its owner may write it (mode {facts.st_mode & 0o7777:o})")
            data = file.read(MOST_BYTES + 1)
    except OSError as error:
        raise Refusal(error.strerror) from error
    if len(data) > MOST_BYTES:
        raise Refusal(f"it has more than {MOST_BYTES} bytes")
    try:
        return users_of(data.decode().replace("\r\n", "\n"))
    except UnicodeDecodeError as error:
        raise Refusal(f"byte {error.start + 1} isn't UTF-8") from error


def uid_of(connected):
    """Returns the number of the user at the other end of a socket, as it was when that end connected."""
    data = connected.getsockopt(socket.SOL_SOCKET, socket.SO_PEERCRED, CREDENTIALS.size)
    return CREDENTIALS.unpack(data)[1]


def person_of(uid):
    """Returns the user of a number, with the groups that the system's databases have for it."""
    try:
        entry = pwd.getpwuid(uid)
    except KeyError:
        raise Refusal(f"user {uid} has no name") from None
    names = [entry.pw_name]
    for group in os.getgrouplist(entry.pw_name, entry.pw_gid):
        try:
            names.append(f"@{grp.getgrgid(group).gr_name}")
        except KeyError:
            pass
    return Person(uid, entry.pw_name, names)


def ppns_of(users, person):
    """Returns the PPNs that a person may log in as."""
    return set().union(*(users.get(name, ()) for name in person.names))


# Sockets.


def remove_stale(path):
    """Removes a socket that nobody listens at; refuses everything else that has its path."""
    try:
        facts = os.lstat(path)
    except FileNotFoundError:
        return
    if not stat.S_ISSOCK(facts.st_mode):
        raise Refusal("something that isn't a socket has this path")
    with socket.socket(socket.AF_UNIX) as probe:
        probe.setblocking(False)
        found = probe.connect_ex(path)
    if found in (0, errno.EAGAIN):
        raise Refusal("another process listens there")
    if found != errno.ECONNREFUSED:
        raise Refusal(os.strerror(found))
    os.remove(path)


def listen_at(path, mode):
    """Returns a socket that listens at a path with these permission bits; it never has wider ones."""
    listener = socket.socket(socket.AF_UNIX)
    before = os.umask(0o777 & ~mode)
    try:
        remove_stale(path)
        listener.bind(path)
        listener.listen(64)
    except (OSError, Refusal) as error:
        listener.close()
        raise Refusal(f"{shown(path)}: {getattr(error, 'strerror', None) or error}") from error
    finally:
        os.umask(before)
    return listener


def passed_sockets(paths):
    """Returns the listening sockets that a service manager has passed for these paths, or none."""
    count, process = os.environ.pop("LISTEN_FDS", "0"), os.environ.pop("LISTEN_PID", "")
    os.environ.pop("LISTEN_FDNAMES", None)
    if process != str(os.getpid()) or count == "0":
        return []
    try:
        found = [socket.socket(fileno=FIRST_PASSED + place) for place in range(int(count))]
    except (OSError, ValueError) as error:
        raise Refusal(f"LISTEN_FDS: {error}") from error
    for listener in found:
        listener.set_inheritable(False)
    if [listener.getsockname() for listener in found] != paths:
        raise Refusal(f"LISTEN_FDS: the sockets aren't {' and '.join(map(shown, paths))}, in this order")
    return found
