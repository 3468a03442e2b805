#!/usr/bin/env python3
"""The person at COM1 of Bochs: host.py BOCHS FIRMWARE DISK

Starts Bochs with a terminal at its serial port, a folder with its firmware, and a disk from which Debian's Linux boots. Logs in, has the
guest print, and types to it; each byte is compared. A machine that sends nothing for a while is stopped. Prints a line for each thing that
was tried, and ends with 1 if one of them failed.
"""
import hashlib
import os
import pty
import random
import re
import subprocess
import sys
import tempfile
import tty

sys.dont_write_bytecode = True
sys.path.insert(0, os.path.join(os.path.dirname(os.path.abspath(__file__)), "..", "..", "rust", "kernel"))
from patience import Patience

PATIENCE = 200  # seconds of the processor in which the machine sends no byte, after which it is stopped
PRINTED = 3000  # so many lines are printed
TYPED = 200  # and so many typed, of 20 characters
SETTINGS = """megs: 128
romimage: file="{firmware}/bios.bin-1.13.0"
vgaromimage: file="{firmware}/vgabios-cirrus.bin-1.13.0"
display_library: nogui
cpu: count=1, ips=100000000, reset_on_triple_fault=0
clock: sync=none, time0=1767225600
ata0: enabled=1, ioaddr1=0x1f0, ioaddr2=0x3f0, irq=14
ata0-master: type=disk, path="{disk}", mode=flat
boot: disk
com1: dev={terminal}
log: "{folder}/log"
panic: action=fatal
error: action=report
info: action=ignore
mouse: enabled=0
"""


class Unexpected(Exception):
    """What the machine did otherwise."""


class Machine:
    """A machine, and what it has sent that was not yet looked at."""

    def __init__(self, bochs: str, firmware: str, disk: str, folder: str) -> None:
        self.terminal, end = pty.openpty()
        tty.setraw(end)
        settings = os.path.join(folder, "settings")
        with open(settings, "w", encoding="utf-8") as file:
            file.write(SETTINGS.format(firmware=firmware, disk=disk, folder=folder, terminal=os.ttyname(end)))
        # The end that Bochs has stays open here, so that the terminal is there before and after it.
        self.end = end
        with open(os.path.join(folder, "said"), "wb") as said:
            self.process = subprocess.Popen([bochs, "-q", "-f", settings], stdin=subprocess.DEVNULL, stdout=said, stderr=said)
        self.patience = Patience([self.process], PATIENCE)
        self.found = b""

    def until(self, wanted: bytes) -> bytes:
        """Takes what comes up to this text, and returns what is before it."""
        self.patience.renew()
        while wanted not in self.found:
            if not self.patience.can_read(self.terminal):
                raise Unexpected(f"{wanted!r} did not come, but {self.found[-300:]!r}")
            self.found += os.read(self.terminal, 4096)
        before, _, self.found = self.found.partition(wanted)
        return before

    def type_in(self, text: bytes) -> None:
        while text:
            text = text[os.write(self.terminal, text) :]


PROMPT = b"guest# "


def log_in(machine: Machine) -> None:
    machine.until(b"login: ")
    machine.type_in(b"root\r")
    machine.until(b"Password: ")
    machine.type_in(b"geese\r")
    machine.until(PROMPT)


def answer(machine: Machine, command: str) -> list[str]:
    """Types a command, and returns the lines of its answer. What was typed is shown first."""
    machine.type_in(command.encode() + b"\r")
    # A shell that edits lines asks where the cursor is.
    shown, *lines = machine.until(PROMPT).decode(errors="replace").replace("\x1b[6n", "").split("\r\n")
    if shown != command:
        raise Unexpected(f"{command!r} was shown as {shown!r}")
    return lines[:-1]


def interrupts(machine: Machine) -> int:
    """How often the guest's handler of IRQ 4 was called."""
    found = re.search(r"4:\s+(\d+)", "\n".join(answer(machine, "grep ttyS0 /proc/interrupts")))
    if not found:
        raise Unexpected("the guest has no interrupt 4")
    return int(found[1])


def prints(machine: Machine) -> None:
    """What the guest prints is whole, and it is interrupted for it."""
    before = interrupts(machine)
    lines = answer(machine, f"seq 1 {PRINTED}")
    if lines != [str(line) for line in range(1, PRINTED + 1)]:
        raise Unexpected(f"it printed {len(lines)} lines, as {lines[-3:]}")
    if interrupts(machine) < before + PRINTED:
        raise Unexpected("it was interrupted less than once for each line")


def is_typed_to(machine: Machine) -> None:
    """What is typed at once is whole."""
    numbers = random.Random(16550)
    text = "".join(f"{numbers.randrange(1 << 76):019x}\n" for _ in range(TYPED))
    machine.type_in(b"stty -echo; cat | md5sum\r")
    machine.until(b"md5sum\r\n")
    machine.type_in(text.replace("\n", "\r").encode() + b"\x04")
    shown = machine.until(PROMPT).decode(errors="replace")
    if hashlib.md5(text.encode()).hexdigest() not in shown:
        raise Unexpected(f"it was not what was typed: {shown!r}")


def main() -> int:
    bochs, firmware, disk = sys.argv[1:]
    with tempfile.TemporaryDirectory(prefix="bochs-") as folder:
        machine = Machine(bochs, firmware, disk, folder)
        try:
            for name, part in ("Linux boots to a login", log_in), ("it prints", prints), ("it is typed to", is_typed_to):
                part(machine)
                print(f"bochs: {name}: ok", flush=True)
        except Unexpected as cause:
            print(f"bochs: failed: {cause}")
            return 1
        finally:
            machine.process.kill()
            machine.process.wait()
    return 0


if __name__ == "__main__":
    sys.exit(main())
