#!/usr/bin/env python3
"""The person at the terminal of the monitor's guest: host.py -- COMMAND..

Starts a monitor whose guest's serial port is at standard input and output, or a machine that has one. Types commands to the guest's shell
(init), sends bytes and takes bytes, also slowly, and compares all of them. RECEIVED of the environment says how many it takes each time. A
monitor that sends nothing for a while is stopped. Prints a line for each thing that was tried. The last line is 'N passed, M failed', and
the status is 0 if nothing failed.
"""
import hashlib
import os
import random
import re
import subprocess
import sys
import threading
import time

sys.dont_write_bytecode = True
sys.path.insert(0, os.path.join(os.path.dirname(os.path.abspath(__file__)), "..", "..", "rust", "kernel"))
from patience import Patience

PATIENCE = 120  # seconds in which the monitor works or sleeps and sends no byte, after which it is stopped
# As much as the terminal of a guest keeps for a program that does not read yet, less the command.
SENT, ROUNDS = 3_000, 4
# As many bytes are taken out of the guest each time.
RECEIVED = int(os.environ.get("RECEIVED", "200000"))
PAUSE = 1  # seconds in which nothing is read


class Unexpected(Exception):
    """What the guest did otherwise."""


class Guest:
    """A guest's shell, and what it has sent that was not yet looked at."""

    def __init__(self, command):
        self.process = subprocess.Popen(command, stdin=subprocess.PIPE, stdout=subprocess.PIPE, bufsize=0)
        self.patience = Patience([self.process], PATIENCE)
        self.found = b""
        self.passed = 0

    def more(self, wanted):
        """Waits for bytes."""
        piece = os.read(self.process.stdout.fileno(), 65_536) if self.patience.can_read(self.process.stdout) else b""
        if not piece:
            raise Unexpected(f"{wanted} did not come, but {self.found[-300:]!r}")
        self.found += piece

    def until(self, wanted):
        """Takes what comes up to this text, and returns what is before it."""
        self.patience.renew()
        while wanted not in self.found:
            self.more(wanted)
        before, _, self.found = self.found.partition(wanted)
        return before

    def take(self, count):
        """Takes so many bytes."""
        self.patience.renew()
        while len(self.found) < count:
            self.more(f"byte {len(self.found)} of {count}")
        taken, self.found = self.found[:count], self.found[count:]
        return taken

    def type_in(self, data):
        self.process.stdin.write(data)

    def run(self, command, data=b""):
        """Runs a command, which reads these bytes. Returns what it prints."""
        self.type_in(command.encode() + b"\n" + data)
        printed = self.until(b"shell: done ")
        status = self.until(b"\n")
        if status != b"0":
            raise Unexpected(f"{command!r} ended with {status!r} and printed {printed[-300:]!r}")
        return printed.decode(errors="replace")

    def tell(self, what):
        print(f"{what}: ok", flush=True)
        self.passed += 1


def sum_of(data):
    return hashlib.md5(data).hexdigest()


def send(guest, numbers):
    """Bytes that are sent, as many as a terminal keeps, some times."""
    for _round in range(ROUNDS):
        data = numbers.randbytes(SENT)
        if sum_of(data) not in guest.run(f"head -c {SENT} | md5sum", data):
            raise Unexpected("other bytes came than were sent")


def receive(guest, how_slow):
    """Bytes that are received, to somebody who waits before he reads."""
    told = guest.run(f"head -c {RECEIVED} /dev/urandom > /bytes; md5sum < /bytes")
    guest.type_in(b"cat /bytes\n")
    time.sleep(how_slow)
    if sum_of(guest.take(RECEIVED)) not in told:
        raise Unexpected("other bytes came than were in the guest")
    guest.until(b"shell: done 0\n")


def exchange(guest, numbers):
    """Bytes each way at once."""
    told = guest.run("md5sum < /bytes")
    data = numbers.randbytes(SENT)
    guest.type_in(b"cat /bytes & head -c %d > /sent; wait\n" % SENT)
    threading.Thread(target=guest.type_in, args=(data,), daemon=True).start()
    if sum_of(guest.take(RECEIVED)) not in told:
        raise Unexpected("other bytes came than were in the guest")
    guest.until(b"shell: done 0\n")
    if sum_of(data) not in guest.run("md5sum < /sent"):
        raise Unexpected("other bytes came than were sent")


def change_speed(guest):
    for speed in "9600", "115200":
        guest.run(f"stty {speed}")
        if guest.run("stty speed").split() != [speed]:
            raise Unexpected(f"the guest has another speed than {speed}")


def interrupts(guest):
    """How many the guest's driver has served."""
    found = re.search(r"^ *4: *(\d+) .*ttyS0", guest.run("cat /proc/interrupts"), re.M)
    return int(found[1]) if found else 0


def talk(guest):
    numbers = random.Random(16550)
    guest.until(b"shell: ready\n")
    guest.tell(f"it boots: {guest.run('uname -sr').strip()}")
    send(guest, numbers)
    guest.tell(f"{ROUNDS} times {SENT} bytes are sent to it")
    receive(guest, 0)
    guest.tell(f"{RECEIVED} bytes are received")
    receive(guest, PAUSE)
    guest.tell("as many, by a slow host")
    exchange(guest, numbers)
    guest.tell("both at once")
    change_speed(guest)
    guest.tell("another speed")
    count = interrupts(guest)
    if count == 0:
        raise Unexpected("no interrupt came")
    guest.tell(f"by {count} interrupts")
    guest.type_in(b"exit\n")
    status = Patience([guest.process], PATIENCE).end(guest.process)
    if status != 0:
        raise Unexpected(f"the monitor ended with {status}")
    guest.tell("it ends when the guest resets its machine")


def main():
    guest = Guest(sys.argv[sys.argv.index("--") + 1:])
    failed = 0
    try:
        talk(guest)
    except Unexpected as problem:
        print(f"failed: {problem}")
        failed = 1
    finally:
        guest.process.kill()
        guest.process.wait()
    print(f"{guest.passed} passed, {failed} failed")
    sys.exit(failed)


main()
