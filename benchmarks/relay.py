#!/usr/bin/env python3
"""Measures what a UUO costs through the relay, and loads a relay with 64 jobs of 8 emulators.

usage: benchmarks/relay.py PROGRAM [SECONDS]

The client in Python does STATZ, which moves no words, and OUT, which moves a block by a ring, with the program itself
and with `filser-relay wire`, several times in turn; the table has the median of the microseconds of a UUO, and the
ratio. Then eight processes with eight jobs each write and read files for SECONDS (10 by default), and compare each
word; `filser check` must accept the image. Times are those of this machine; this isn't part of the gate.
"""
import os
import pwd
import statistics
import subprocess
import sys
import tempfile
import time

ROOT = os.path.join(os.path.dirname(os.path.abspath(__file__)), "..")
sys.path.insert(0, os.path.join(ROOT, "clients", "python"))
from filser import Code, Kind, Service, halves, iowd, sixbit  # noqa: E402

RELAY = os.path.join(ROOT, "clients", "python", "filser_relay.py")
TIMES, UUOS, EMULATORS, JOBS = 7, 300, 8, 8
OWNER = halves(0o10, 0o20)


class Machine:
    """A machine with its job at a service: a file that is written by a ring on channel 1."""

    def __init__(self, service):
        self.service, self.accumulators, self.memory = service, [0] * 16, [0] * 0o2000
        service.login(1, 0o10, 0o20, 0o2000)
        service.deposit(1, 0o200, [OWNER, 0])
        service.call(1, Code.MAKDIR, 0, 0o200)
        self.memory[0o121] = 0o1000
        self.memory[0o210:0o213] = [0, sixbit("DSK"), halves(0o300, 0)]
        self.memory[0o220:0o224] = [sixbit("FOO"), 0, 0, 0]
        for code, address in ((Code.OPEN, 0o210), (Code.ENTER, 0o220), (Code.OUT, 0)):
            self.uuo(code, address)

    def uuo(self, operation, address, changed=None):
        return self.service.uuo(1, operation << 27 | 1 << 23, address, self.accumulators, self.memory, changed=changed)

    def out(self):
        """Writes a block: always the first one, so that the file doesn't grow."""
        first = self.memory[0o300] & 0o777777
        self.memory[first + 2 : first + 130] = [first] * 128
        self.memory[0o301] = halves(0o000700, first + 1 + 128)
        self.uuo(Code.OUT, 0, (0o300, first + 0o201))
        self.uuo(Code.USETO, 1, (0o300, 0o301))

    def statz(self):
        self.uuo(0o63, 0o20000, (0o300, 0o301))


def cost(program, image):
    """Returns the microseconds of a STATZ, and of an OUT with a USETO."""
    with Service(program, image) as service:
        machine = Machine(service)
        found = []
        for act in (machine.statz, machine.out):
            began = time.perf_counter()
            for _ in range(UUOS):
                act()
            found.append((time.perf_counter() - began) / UUOS * 1e6)
    return found


def write_and_read(service, job, turn):
    """Writes a file of a job, and reads it back; returns whether all words are the same."""
    words = [turn * JOBS + job] * 128
    service.add_deposit(job, 0o210, [0o17, sixbit("DSK"), 0])
    service.add_deposit(job, 0o220, [sixbit(f"J{os.getpid() % 1000}{job}"), 0, 0, 0])
    service.add_deposit(job, 0o400, [iowd(128, 0o1000), 0])
    service.add_deposit(job, 0o1000, words)
    for code, number in ((Code.OPEN, 0o210), (Code.ENTER, 0o220), (Code.OUT, 0o400), (Code.CLOSE, 0)):
        service.add_call(job, code, 1, number)
    service.add_deposit(job, 0o223, [0])
    service.add_deposit(job, 0o1000, [0] * 128)
    for code, number in ((Code.LOOKUP, 0o220), (Code.IN, 0o400), (Code.RELEAS, 0)):
        service.add_call(job, code, 1, number)
    answers = service.send()
    return all(it.kind == Kind.DONE for it in answers) and [word for _, word in answers[-2].changes] == words


def emulate(path, seconds):
    """Works with all jobs of one emulator for a time; returns how many files were written."""
    count, end = 0, time.monotonic() + seconds
    with Service(RELAY, path) as service:
        for job in range(1, JOBS + 1):
            service.login(job, 0o10, 0o20, 0o2000)
        while time.monotonic() < end:
            for job in range(1, JOBS + 1):
                if not write_and_read(service, job, count):
                    sys.exit("an answer is wrong")
                count += 1
    print(count)


def main():
    if sys.argv[1] == "emulate":
        return emulate(sys.argv[2], float(sys.argv[3]))
    program, seconds = os.path.abspath(sys.argv[1]), sys.argv[2] if len(sys.argv) > 2 else "10"
    with tempfile.TemporaryDirectory() as folder:
        images = [os.path.join(folder, name) for name in ("A.IMG", "B.IMG")]
        for image in images:
            subprocess.run([program, "init", image, "4096"], check=True)
        users, path = os.path.join(folder, "users"), os.path.join(folder, "S")
        with open(users, "w", encoding="utf-8") as file:
            file.write(f"{pwd.getpwuid(os.geteuid()).pw_name}: 10,20\n")
        os.chmod(users, 0o644)
        words = [RELAY, images[1], path, "--users", users, "--program", program]
        with subprocess.Popen(words, stderr=subprocess.DEVNULL) as relay:
            while not os.path.exists(f"{path}.control") and relay.poll() is None:
                time.sleep(0.01)
            both = [(cost(program, images[0]), cost(RELAY, path)) for _ in range(TIMES)]
            print("microseconds\tprogram\trelay\tratio")
            for place, name in enumerate(["STATZ", "OUT and USETO"]):
                one, other = (statistics.median(pair[side][place] for pair in both) for side in (0, 1))
                print(f"{name}\t{one:.0f}\t{other:.0f}\t{other / one:.2f}")
            workers = [subprocess.Popen([sys.executable, os.path.abspath(__file__), "emulate", path, seconds],
                                        stdout=subprocess.PIPE, text=True) for _ in range(EMULATORS)]
            files = [int(it.communicate()[0] or -1) for it in workers]
            subprocess.run([RELAY, "--status", path], check=True)
            relay.terminate()
            print(f"files of {EMULATORS} emulators: {files}; the relay ended with {relay.wait()}")
        return subprocess.run([program, "check", images[1]], check=False).returncode


if __name__ == "__main__":
    sys.exit(main())
