#!/usr/bin/env python3
"""The person at the other end of a board's cable: host.py [by-interrupts] -- COMMAND..

Starts a machine whose serial port is at standard input and output, and which runs console.rs. Types 10,000 bytes and the mark, and
compares every byte that comes back. Does not read for a while what the machine sends then, and compares all of it. With
`by-interrupts` types another 10,000 bytes, or as many as BY_INTERRUPTS of the environment says, in bursts. Every byte that the machine
sends has to be as expected, up to the last one. A machine that sends nothing for a while is stopped, and one that has said `end` too.
Prints how long it took.
"""
import fcntl
import os
import random
import re
import subprocess
import sys
import threading
import time

sys.dont_write_bytecode = True
sys.path.insert(0, os.path.dirname(os.path.dirname(os.path.abspath(__file__))))
from patience import Patience

MARK = b"\x04"
TYPED = 10_000
TYPED_BY_INTERRUPTS = int(os.environ.get("BY_INTERRUPTS", TYPED))
PATTERN = bytes(at % 251 for at in range(65_536))
PATIENCE = 20  # seconds in which the machine works or sleeps and sends no byte, after which it is stopped
PAUSE = 1  # seconds in which the machine works and nothing is read
# As little as a pipe can hold, so that the machine notices that nobody reads.
PIPE_SIZE = 4096
# Around the sizes of a FIFO and of the rings, so that each is filled again while it is read, and runs empty.
MOST_IN_A_BURST = 600
LONGEST_PAUSE = 0.001  # seconds


class Unexpected(Exception):
    """What the machine did otherwise."""


class Machine:
    """A machine, and what it has sent that was not yet looked at."""

    def __init__(self, command):
        self.process = subprocess.Popen(command, stdin=subprocess.PIPE, stdout=subprocess.PIPE, bufsize=0)
        fcntl.fcntl(self.process.stdout, fcntl.F_SETPIPE_SZ, PIPE_SIZE)
        self.found = b""

    def more(self, seconds):
        """Waits for bytes. Whether some came."""
        if not Patience([self.process], seconds).can_read(self.process.stdout):
            return False
        piece = os.read(self.process.stdout.fileno(), PIPE_SIZE)
        self.found += piece
        return bool(piece)

    def expect(self, wanted, what):
        """Takes these bytes."""
        while len(self.found) < len(wanted) and wanted.startswith(self.found) and self.more(PATIENCE):
            pass
        if self.found.startswith(wanted):
            self.found = self.found[len(wanted):]
            return
        same = next((at for at, pair in enumerate(zip(self.found, wanted)) if pair[0] != pair[1]), len(self.found))
        if same == len(self.found):
            raise Unexpected(f"{what}: nothing more came after {same} of {len(wanted)} bytes")
        while len(self.found) < same + 200 and self.more(1):
            pass
        raise Unexpected(f"{what}: byte {same} of {len(wanted)} differs: {self.found[same:same + 200]!r}, not {wanted[same:same + 60]!r}")

    def expect_line(self, pattern):
        """Takes a line, and returns the numbers in it."""
        while self.found.count(b"\r\n") < 2 and self.more(PATIENCE):
            pass
        line = re.match(rb"\r\n(.*)\r\n", self.found)
        if not line or not re.fullmatch(pattern, line[1]):
            raise Unexpected(f"a line: {self.found[:200]!r}, not {pattern!r}")
        self.found = self.found[line.end():]
        return [int(number) for number in re.fullmatch(pattern, line[1]).groups()]

    def type_in(self, pieces):
        """Types all bytes. The machine takes them as it reads, unless it has ended."""
        try:
            for piece in pieces:
                self.process.stdin.write(piece)
                time.sleep(random.uniform(0, LONGEST_PAUSE))
        except BrokenPipeError:
            pass

    def echo(self, numbers, in_bursts):
        """Types bytes and the mark, and takes the bytes that come back."""
        typed = numbers.randbytes(TYPED_BY_INTERRUPTS if in_bursts else TYPED).replace(MARK, b"")
        pieces = bursts(typed) if in_bursts else [typed]
        threading.Thread(target=self.type_in, args=([*pieces, MARK],), daemon=True).start()
        self.expect(typed, "the echo")


def bursts(typed):
    """The bytes in pieces of random sizes. No two runs have the same."""
    done = 0
    while done < len(typed):
        size = random.randint(1, MOST_IN_A_BURST)
        yield typed[done:done + size]
        done += size


def talk(machine, by_interrupts):
    """Everything that is typed and read."""
    numbers = random.Random(16550)
    machine.expect_line(rb"console: loopback ok")
    machine.echo(numbers, in_bursts=False)
    machine.expect_line(rb"echoed by polling, errors 00")
    Patience([machine.process], PAUSE).run_out()
    machine.expect(PATTERN, "the pattern")
    stalls, = machine.expect_line(rb"sent, stalls (\d+)")
    if stalls == 0:
        raise Unexpected("the machine did not notice that nobody read")
    if by_interrupts:
        machine.expect_line(rb"by interrupts")
        machine.echo(numbers, in_bursts=True)
        interrupts, = machine.expect_line(rb"echoed by (\d+) interrupts, errors 00")
        if interrupts == 0:
            raise Unexpected("no interrupt came")
    machine.expect_line(rb"end")
    if machine.more(0.3):
        raise Unexpected(f"the machine sent {machine.found!r} behind its end")


def main():
    at = sys.argv.index("--")
    start = time.monotonic()
    machine = Machine(sys.argv[at + 1:])
    try:
        talk(machine, "by-interrupts" in sys.argv[1:at])
    except Unexpected as problem:
        print(problem)
        sys.exit(1)
    finally:
        machine.process.kill()
        machine.process.wait()
    print(f"{time.monotonic() - start:.2f} seconds")


main()
