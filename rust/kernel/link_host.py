#!/usr/bin/env python3
"""The cable between two machines: link_host.py LETTERS -- COMMAND..

Starts the command twice, with COM1s that are the two ends of a socket, and with COM2 at standard input and output. Waits until both
machines ask which end they are. Types to each its letter, first that of the left one. Both have to say that they sent and received
everything without an error, and to end well when both have said so and something is typed again. Prints how long it took. Each says how far
it is; if both say nothing for a while, they are stopped.
"""
import contextlib
import os
import selectors
import socket
import subprocess
import sys
import time

sys.dont_write_bytecode = True
from patience import Patience

QUESTION = b"which end of the cable?\r\n"
WANTED = b"sent 1048576, received 1048576, errors 00\r\n"
LAST = b" times\r\n"  # how the last line of each ends
PATIENCE = 60  # seconds in which the machines work or sleep and send no byte, after which they are stopped
DONE = 33  # the status of a kernel that is done


def main():
    letters, command = sys.argv[1], sys.argv[3:]
    start = time.monotonic()
    machines = []
    try:
        for end in socket.socketpair():
            with end:
                cable = ["-chardev", f"socket,id=cable,fd={end.fileno()}", "-serial", "chardev:cable", "-serial", "stdio"]
                machines.append(subprocess.Popen(command + cable, stdin=subprocess.PIPE, stdout=subprocess.PIPE, bufsize=0,
                                                 pass_fds=[end.fileno()]))
        found = [b"", b""]
        listen(machines, found, lambda text: QUESTION in text)
        for machine, letter in zip(machines, letters):
            machine.stdin.write(letter.encode())
        listen(machines, found, lambda text: LAST in text)
        for machine in machines:
            # One that has ended has said why.
            with contextlib.suppress(BrokenPipeError):
                machine.stdin.write(b"\n")
        listen(machines, found, lambda text: False)
        statuses = [Patience(machines, PATIENCE).end(machine) for machine in machines]
    finally:
        for machine in machines:
            machine.kill()
    for name, text, status in zip(("left", "right"), found, statuses):
        said = text.replace(b"\r", b"").decode(errors="replace").splitlines()[2:]
        print(f"{name}: {'; '.join(said)}")
        if WANTED not in text or status != DONE:
            sys.exit(f"{name}: status {status}")
    print(f"{time.monotonic() - start:.2f} seconds")


def listen(machines, found, is_enough):
    """Reads what both say until it is enough, or until they have ended."""
    with selectors.DefaultSelector() as selector:
        for number, machine in enumerate(machines):
            selector.register(machine.stdout, selectors.EVENT_READ, number)
        patience = Patience(machines, PATIENCE)
        while selector.get_map():
            if not patience.can_read(selector):
                sys.exit(f"nothing more was said after {found}")
            ready = selector.select(0)
            for key, _ in ready:
                piece = os.read(key.fd, 4096)
                found[key.data] += piece
                if not piece or is_enough(found[key.data]):
                    selector.unregister(key.fileobj)


main()
