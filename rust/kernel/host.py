#!/usr/bin/env python3
"""The person at the other end of the cable: host.py BANNER ECHOED.. -- COMMAND..

Starts a machine whose serial port is at standard input and output. Waits for the line BANNER. Then for each line ECHOED types
10,000 bytes, and waits until they come back and this line. Every byte that the machine sends has to be as expected, up to the
last one. Then the machine has to end. Prints how long it took.

The environment says more: STATUS is the status with which the machine has to end, FIRST what is typed behind the banner and
does not come back, COUNT another number of bytes, or one for each line, BURSTS=1 that they are typed in bursts with pauses, and LAST
what is typed in place of bytes before the last line, and does not come back either. A machine that sends nothing for a while is stopped.
"""
import os
import random
import subprocess
import sys
import threading
import time

sys.dont_write_bytecode = True
from patience import Patience

COUNTS = [int(count) for count in os.environ.get("COUNT", "10000").split()]
PATIENCE = 10  # seconds in which the machine works or sleeps and sends no byte, after which it is stopped
# Around the sizes of a FIFO and of the rings, so that each is filled again while it is read, and runs empty.
MOST_IN_A_BURST = 600
LONGEST_PAUSE = 0.001  # seconds


def main():
    at = sys.argv.index("--")
    lines, command = sys.argv[1:at], sys.argv[at + 1:]
    numbers = random.Random(16550)
    start = time.monotonic()
    machine = subprocess.Popen(command, stdin=subprocess.PIPE, stdout=subprocess.PIPE, bufsize=0)
    try:
        expect(machine, lines[0].encode() + b"\r\n", "the banner")
        type_in(machine, [os.environ.get("FIRST", "").encode()])
        for number, line in enumerate(lines[1:], 2):
            typed = numbers.randbytes(COUNTS[min(number - 2, len(COUNTS) - 1)])
            pieces = bursts(typed) if os.environ.get("BURSTS") else [typed]
            if number == len(lines) and "LAST" in os.environ:
                typed, pieces = b"", [os.environ["LAST"].encode()]
            threading.Thread(target=type_in, args=(machine, pieces), daemon=True).start()
            expect(machine, typed, "the echo")
            expect(machine, b"\r\n" + line.encode() + b"\r\n", "the line behind the echo")
        expect_end(machine)
    finally:
        machine.kill()
    print(f"{time.monotonic() - start:.2f} seconds")


def bursts(typed):
    """The bytes in pieces of random sizes, with a pause behind each. No two runs have the same."""
    done = 0
    while done < len(typed):
        size = random.randint(1, MOST_IN_A_BURST)
        yield typed[done:done + size]
        time.sleep(random.uniform(0, LONGEST_PAUSE))
        done += size


def type_in(machine, pieces):
    """Types all bytes. The machine takes them as it reads, unless it has ended."""
    try:
        for piece in pieces:
            machine.stdin.write(piece)
            machine.stdin.flush()
    except BrokenPipeError:
        pass


def read(machine, count):
    """Reads so many bytes, or fewer if the machine ends or sends nothing for a while."""
    found, patience = b"", Patience([machine], PATIENCE)
    while len(found) < count and patience.can_read(machine.stdout):
        piece = machine.stdout.read(count - len(found))
        if not piece:
            break
        found += piece
    return found


def expect(machine, wanted, what):
    """Reads as many bytes as are wanted, and ends unless they are those."""
    found = read(machine, len(wanted))
    if found == wanted:
        return
    same = next((i for i, pair in enumerate(zip(found, wanted)) if pair[0] != pair[1]), len(found))
    if same == len(found):
        print(f"{what}: nothing more came after {same} of {len(wanted)} bytes")
    else:
        print(f"{what}: byte {same} of {len(wanted)} differs: {found[same:same + 60]!r}, not {wanted[same:same + 60]!r}")
    sys.exit(1)


def expect_end(machine):
    """Ends unless the machine sends nothing more and ends with the status."""
    more = read(machine, 60)
    machine.stdout.close()
    status = Patience([machine], PATIENCE).end(machine)
    if more or status != int(os.environ.get("STATUS", "0")):
        print(f"the machine sent {more!r} more, and ended with status {status}")
        sys.exit(1)


main()
