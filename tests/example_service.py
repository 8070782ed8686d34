#!/usr/bin/env python3
"""Runs the commands of examples/service/README.md in a folder, as the users that their prompts name, without systemd,
and compares what they print; and reads the units.

usage: tests/example_service.py PROGRAM

A command that ends in `&` is a relay, which is waited for; `kill $relay` ends it, with status 0. In place of joe and
amy the commands are run as two users that the system has, which needs root: otherwise the script says SKIPPED and
succeeds. In what --status and the log say, numbers and the folder aren't compared.
"""
import os
import pathlib
import pwd
import re
import subprocess
import sys
import tempfile
import time

ROOT = pathlib.Path(__file__).resolve().parent.parent
SERVICE = ROOT / "examples" / "service"
LIMIT = 120


def commands():
    """Yields each command of the page, with its user and the lines that it must print."""
    command, wanted = None, []
    for line in (SERVICE / "README.md").read_text(encoding="utf-8").split("\n"):
        found = re.fullmatch(r"    (operator|joe|amy)\$ (.*)", line)
        if found or not line.startswith("    "):
            if command:
                yield (*command, wanted)
            command, wanted = found and found.groups(), []
        elif command:
            wanted.append(line[4:])


class Folder:
    """The folder of the commands, and the relay that runs there."""

    def __init__(self, program, folder):
        self.work = pathlib.Path(folder, "work")
        self.work.mkdir()
        os.chmod(folder, 0o755)
        tools = pathlib.Path(folder, "bin")
        tools.mkdir()
        (tools / "filser").symlink_to(program)
        (tools / "filser-relay").symlink_to(ROOT / "clients" / "python" / "filser_relay.py")
        (self.work / "examples").symlink_to(ROOT / "examples")
        path = f"{tools}:{os.path.dirname(sys.executable)}:/usr/local/bin:/usr/bin:/bin"
        self.environment = {"PATH": path, "HOME": folder, "PYTHONDONTWRITEBYTECODE": "1"}
        users = [it for it in pwd.getpwall() if it.pw_uid not in (0, 65534)]
        self.users = dict(zip(("joe", "amy"), users))
        self.relay = None

    def named(self, text):
        """Returns a text with the users of the system in place of those of the page."""
        return re.sub("joe|amy", lambda it: self.users[it[0]].pw_name, text)

    def run(self, user, command):
        """Returns what a command prints."""
        if command == "kill $relay":
            self.relay.terminate()
            return "" if self.relay.wait(LIMIT) == 0 else "the relay has another status than 0"
        if command.endswith("&"):
            return self.start(command[:-1])
        who = self.users.get(user)
        how = {"user": who.pw_uid, "group": who.pw_gid, "extra_groups": []} if who else {}
        done = subprocess.run(["sh", "-c", self.named(command)], cwd=self.work, env=self.environment,
                              stdin=subprocess.DEVNULL, stdout=subprocess.PIPE, stderr=subprocess.STDOUT, check=False,
                              timeout=LIMIT, **how)
        return done.stdout.decode().replace("\r\n", "\n").rstrip("\n")

    def start(self, command):
        """Starts a relay, and waits for its socket."""
        self.relay = subprocess.Popen(["sh", "-c", f"exec {command}"], cwd=self.work, env=self.environment)
        end = time.monotonic() + LIMIT
        while not (self.work / "socket.control").exists():
            if self.relay.poll() is not None or time.monotonic() > end:
                return "the relay doesn't start"
            time.sleep(0.01)
        return ""


def plain(command, text):
    """Returns what is compared."""
    if "--status" not in command and command != "cat log":
        return text
    return re.sub(r"\d+", "N", re.sub(r"/\S*/", "/", text))


def units():
    """Yields what is wrong with the units: a program or a socket that isn't the one of the page."""
    texts = {path.name: path.read_text(encoding="utf-8") for path in SERVICE.glob("filser-*.*")}
    words = "/var/lib/filser/DISK.IMG /run/filser/socket --users /etc/filser/users"
    sockets = "ListenStream=/run/filser/socket\nListenStream=/run/filser/socket.control"
    for name, part in [("filser-relay.service", words), ("filser-relay.socket", sockets),
                       ("filser-backup.timer", "OnCalendar="),
                       ("filser-backup.service", "nightly-backup /var/lib/filser /run/filser/socket")]:
        if part not in texts.get(name, ""):
            yield f"{name}: it doesn't have {part!r}"


def main():
    if len(sys.argv) != 2 or not os.access(sys.argv[1], os.X_OK):
        print("usage: tests/example_service.py PROGRAM", file=sys.stderr)
        return 2
    if os.geteuid() != 0:
        print("example_service: not root: SKIPPED")
        return 0
    count, wrong = 0, list(units())
    with tempfile.TemporaryDirectory() as folder:
        place = Folder(os.path.abspath(sys.argv[1]), folder)
        try:
            for user, command, wanted in commands():
                count += 1
                found, text = place.run(user, command), place.named("\n".join(wanted))
                if plain(command, found) != plain(command, text):
                    wrong.append(f"{user}$ {command}\nprints\n{found}\nand not\n{text}")
        finally:
            if place.relay:
                place.relay.kill()
                place.relay.wait()
    for line in wrong:
        print(line)
    print(f"example_service: {count + 4 - len(wrong)} of {count + 4} as they should be")
    return 1 if wrong or not count else 0


if __name__ == "__main__":
    sys.exit(main())
