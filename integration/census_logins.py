#!/usr/bin/env python3
"""Types at the two serial ports of a guest of integration/census: census_logins.py FIRST SECOND LINE

FIRST and SECOND are the sockets of QEMU's ports, LINE is the command line of examples/census/README.md. Somebody logs in at the first. The
census of that port is refused, and the login goes on. That of the second port is taken while characters are typed at the first; its registers
are then as they were. A login that is started there works. What was seen is printed, and the status is 1 if it was not that.
"""
import contextlib
import re
import socket
import sys
import time

# Longer than a busy machine takes for a step.
SECONDS = 150
# IER, LCR, MCR and SCR of the second port.
REGISTERS = "for port in 761 763 764 767; do busybox dd if=/dev/port bs=1 skip=$port count=1 2> /dev/null; done | busybox od -An -tx1"
PROMPT = "# "


class Port:
    """A serial port of the guest: what is typed there, and what comes back."""

    def __init__(self, path: str) -> None:
        self.socket = socket.socket(socket.AF_UNIX, socket.SOCK_STREAM)
        for _ in range(10 * SECONDS):
            try:
                self.socket.connect(path)
                break
            except OSError:
                time.sleep(0.1)
        self.socket.settimeout(SECONDS)
        self.unread = ""

    def type(self, text: str) -> None:
        """Types a text and the key Enter."""
        self.socket.sendall(text.encode("ascii") + b"\r")

    def expect(self, pattern: str) -> str:
        """Returns all up to the first text that is such, once it has come. Raises an OSError if it does not."""
        while not (found := re.search(pattern, self.unread)):
            received = self.socket.recv(4096)
            if not received:
                raise OSError(f"the port is closed, and this did not come: {pattern}")
            more = received.decode("ascii", "replace").replace("\r", "")
            self.unread += more
            print(more, end="")
        text, self.unread = self.unread[: found.end()], self.unread[found.end() :]
        return text

    def power_off(self) -> None:
        """Ends the guest, and waits until its port is closed: QEMU loses what it has not taken of the text once this end is closed."""
        self.type("busybox poweroff -f")
        while received := self.socket.recv(4096):
            print(received.decode("ascii", "replace").replace("\r", ""), end="")

    def log_in(self) -> None:
        """Logs in as root, who has no password."""
        self.expect("login: ")
        self.type("root")
        self.expect(PROMPT)

    def run(self, command: str) -> tuple[str, int]:
        """Runs a command, and returns what it printed, and its status."""
        # The shell's echo has `$?`, and what it prints a number.
        self.type(f"{command}; echo status:$?")
        text = self.expect(r"status:\d+\n")
        self.expect(PROMPT)
        return text, int(text.rstrip().rsplit(":", 1)[1])


def check(is_so: bool, what: str) -> None:
    """Raises an AssertionError with what is not so."""
    if not is_so:
        raise AssertionError(what)


def type_at(first: Port, second: Port, line: str) -> None:
    """Types all of it. Raises an AssertionError or an OSError that says what went wrong."""
    first.log_in()
    text, status = first.run(line.replace("2f8", "3f8"))
    check(
        status == 5 and re.search(r"port 3f8 is in use: ttyS0 is open in process \d+; nothing was accessed", text) is not None,
        "the port of the login is not refused",
    )
    text, _ = first.run("echo the login goes o$((1))n")
    check("the login goes o1n" in text, "the login does not go on behind the refusal")
    # A process has opened and closed the second port, so the kernel's driver has set it up.
    first.run("busybox stty -F /dev/ttyS1 115200")
    before, _ = first.run(REGISTERS)
    first.type(f"{line}; echo status:$?")
    first.type("echo typed mean$((1))while")
    text = first.expect(r"status:\d+\n")
    check("what is proved need not hold here: the rings\nstatus:1\n" in text, "the second port is not asked")
    first.expect("typed mean1while\n")
    first.expect(PROMPT)
    after, _ = first.run(REGISTERS)
    check(before.splitlines()[-2] == after.splitlines()[-2], "the registers of the second port are not as they were")
    first.run("(busybox setsid busybox getty -L 115200 ttyS1 vt100 < /dev/null > /dev/null 2>&1 &)")
    second.log_in()
    text, status = second.run("echo a login behind the cen$((1))sus")
    check("behind the cen1sus" in text and status == 0, "a login at the port that was asked does not work")
    _, status = second.run(line)
    check(status == 5, "the second port is not refused once somebody has logged in there")
    text, _ = first.run("echo the first still goes o$((1))n")
    check("the first still goes o1n" in text, "the first login does not go on at the end")
    first.power_off()


def main(words: list[str]) -> int:
    """Types at the ports that the words name, and returns the status."""
    if len(words) != 3 or not words[2]:
        print("usage: census_logins.py FIRST SECOND LINE", file=sys.stderr)
        return 2
    first = Port(words[0])
    second = Port(words[1])
    try:
        type_at(first, second, words[2])
    except (AssertionError, OSError) as error:
        print(f"\ncensus_logins.py: {error}")
        # The guest is not left behind, if it is still there.
        with contextlib.suppress(OSError):
            first.power_off()
        return 1
    return 0


if __name__ == "__main__":
    sys.exit(main(sys.argv[1:]))
