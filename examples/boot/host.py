#!/usr/bin/env python3
"""The person at the console of a boot loader: host.py u-boot|grub|int14|opensbi|xen|coreboot -- COMMAND..

Starts a machine whose serial port is at standard input and output, and types commands to its boot loader. Every byte of each answer has to
be as expected. A machine that sends nothing for a while is stopped. Prints a line for each thing that was tried, and ends with 1 if one
of them failed.
"""
import os
import random
import re
import subprocess
import sys
import zlib

sys.dont_write_bytecode = True
sys.path.insert(0, os.path.join(os.path.dirname(os.path.abspath(__file__)), "..", "..", "rust", "kernel"))
from patience import Patience

PATIENCE = 30  # seconds in which the machine works or sleeps and sends no byte, after which it is stopped
LINES = 40  # as many lines are echoed
RAM, UPLOADED, DUMPED = 0x80400000, 0x3000, 0x4000
OF_RECORD = 0x20  # bytes of one S-record


class Unexpected(Exception):
    """What the machine did otherwise."""


class Machine:
    """A machine, and what it has sent that was not yet looked at."""

    def __init__(self, command):
        self.process = subprocess.Popen(command, stdin=subprocess.PIPE, stdout=subprocess.PIPE, bufsize=0)
        self.patience = Patience([self.process], PATIENCE)
        self.found = b""

    def until(self, wanted):
        """Takes what comes up to this text, and returns what is before it."""
        self.patience.renew()
        while wanted not in self.found:
            piece = os.read(self.process.stdout.fileno(), 4096) if self.patience.can_read(self.process.stdout) else b""
            if not piece:
                raise Unexpected(f"{wanted!r} did not come, but {self.found[-300:]!r}")
            self.found += piece
        before, _, self.found = self.found.partition(wanted)
        return before

    def type_in(self, text):
        self.process.stdin.write(text)


class Loader:
    """A boot loader that shows a prompt at the begin of a line."""

    def __init__(self, machine, end_of_line, prompt):
        self.machine, self.end_of_line, self.prompt = machine, end_of_line, end_of_line + prompt

    def answer(self, command):
        """Types a command, and returns the lines of its answer. What was typed is shown first."""
        self.machine.type_in(command.encode() + b"\r")
        shown, *answer = self.machine.until(self.prompt).split(self.end_of_line)
        if shown != command.encode():
            raise Unexpected(f"{command!r} was shown as {shown!r}")
        return [line.decode(errors="replace") for line in answer]

    def expect(self, command, wanted):
        answer = self.answer(command)
        if answer != wanted:
            raise Unexpected(f"{command!r} was answered by {answer[:5]!r}, not by {wanted[:5]!r}")


def lines_of(count):
    """Lines of so many words."""
    numbers = random.Random(16550)
    for _line in range(LINES):
        yield " ".join(f"{numbers.randrange(1 << 20):x}" for _word in range(count))


def echo(loader, count):
    """Lines of so many words that are typed at once, and come back."""
    for words in lines_of(count):
        loader.expect(f"echo {words}", [words])


# ---- U-Boot


def hexadecimal(data, at):
    """What `md.b` prints of it."""
    for begin in range(0, len(data), 16):
        row = data[begin:begin + 16]
        text = "".join(chr(byte) if 0x20 <= byte < 0x7F else "." for byte in row)
        yield f"{at + begin:08x}: {' '.join(f'{byte:02x}' for byte in row)}  {text}"


def records(data, at):
    """S-records with four bytes of address, and the last one."""
    for begin in range(0, len(data), OF_RECORD):
        row = data[begin:begin + OF_RECORD]
        body = bytes([len(row) + 5]) + (at + begin).to_bytes(4, "big") + row
        yield f"S3{body.hex().upper()}{~sum(body) & 0xFF:02X}\r".encode()
    yield b"S70500000000FA\r"


def upload(loader, data):
    """Sends data as S-records, and has U-Boot compute its sum."""
    machine = loader.machine
    machine.type_in(b"loads\r")
    machine.until(b"Ready for S-Record download ...")
    for record in records(data, RAM):
        machine.type_in(record)
    machine.until(loader.prompt)
    size = f"{len(data):x}"
    answer = loader.answer(f"crc32 {RAM:x} {size}")
    if not answer or not answer[0].endswith(f"==> {zlib.crc32(data):08x}"):
        raise Unexpected(f"the sum of what was sent: {answer!r}")


def change_baud_rate(loader, rate):
    machine = loader.machine
    machine.type_in(f"setenv baudrate {rate}\r".encode())
    machine.until(f"Switch baudrate to {rate} bps and press ENTER ...".encode())
    machine.type_in(b"\r")
    machine.until(loader.prompt)
    loader.expect("printenv baudrate", [f"baudrate={rate}"])


def talk_to_u_boot(machine):
    machine.until(b"U-Boot 20")
    banner = b"U-Boot 20" + machine.until(b"\r\n")
    machine.until(b"stop autoboot")
    machine.type_in(b" ")
    loader = Loader(machine, b"\r\n", b"=> ")
    machine.until(loader.prompt)
    yield "it boots"
    if loader.answer("version")[:1] != [banner.decode()]:
        raise Unexpected("version is not that of the banner")
    echo(loader, 12)
    yield f"{LINES} lines that are typed at once come back"
    change_baud_rate(loader, 57600)
    change_baud_rate(loader, 115200)
    yield "another baud rate"
    data = random.Random(16550).randbytes(UPLOADED)
    upload(loader, data)
    yield f"{UPLOADED} bytes are sent to it, as S-records"
    data += bytes(DUMPED - UPLOADED)
    loader.answer(f"mw.b {RAM + UPLOADED:x} 0 {DUMPED - UPLOADED:x}")
    loader.expect(f"md.b {RAM:x} {DUMPED:x}", list(hexadecimal(data, RAM)))
    yield f"it prints {DUMPED} bytes"


# ---- GRUB


def talk_to_grub(machine):
    loader = Loader(machine, b"\n\r", b"grub rescue> ")
    machine.until(loader.prompt)
    yield "it boots"
    # Each command with its prompt is within the 80 characters of GRUB's terminal.
    echo(loader, 8)
    yield f"{LINES} lines that are typed at once come back"
    for rate in 57600, 115200:
        loader.expect(f"serial --unit=0 --speed={rate}", [])
    loader.expect("echo again", ["again"])
    yield "another baud rate"
    answer = loader.answer("serial --unit=0 --speed=80000")
    if not re.search("unsupported serial port speed", "".join(answer)):
        raise Unexpected(f"a baud rate that the chip does not have: {answer!r}")
    loader.expect("echo again", ["again"])
    yield "a baud rate that the chip does not have is refused"


# ---- SeaBIOS, OpenSBI, Xen


def type_lines(machine):
    """Types lines to a program that sends each byte back."""
    for line in lines_of(12):
        machine.type_in(line.encode() + b"\r")
        if machine.until(b"\r") != line.encode():
            raise Unexpected(f"{line!r} did not come back")
    return f"{LINES} lines that are typed at once come back"


def talk_to_int14(machine):
    machine.until(b"INT 14h sends what it receives\r\n")
    yield "a boot sector sends"
    yield type_lines(machine)


def talk_to_opensbi(machine):
    machine.until(b"OpenSBI v")
    if b"Platform Console Device     : uart8250\r\n" not in machine.until(b"\r\nTest payload running\r\n"):
        raise Unexpected("its console is another one")
    yield "it boots"
    yield type_lines(machine)


def talk_to_xen(machine):
    machine.until(b"(XEN) Xen version ")
    machine.until(b"\r\nthe domain writes what it reads\r\n")
    yield "it boots, and a domain"
    yield type_lines(machine)
    machine.type_in(b"\x01\x01\x01h")
    machine.until(b"(XEN) *** Serial input to Xen")
    machine.until(b"(XEN) 'h' pressed -> showing installed handlers\r\n")
    machine.until(b"(XEN)  key 'h' (ascii '68') => show this message\r\n")
    yield "it has the keys that are for itself"


# ---- coreboot


def talk_to_coreboot(machine):
    for stage in "bootblock", "romstage", "postcar", "ramstage":
        machine.until(f" {stage} starting (log level: ".encode())
    log = machine.until(b"Payload not loaded.\r\n")
    if set(log) - {*b"\t\r\n", *range(0x20, 0x7F)}:
        raise Unexpected(f"what is no text: {log!r}")
    yield "each of its four stages says what it does"


def main():
    loader, at = sys.argv[1], sys.argv.index("--")
    machine = Machine(sys.argv[at + 1:])
    talks = [talk_to_u_boot, talk_to_grub, talk_to_int14, talk_to_opensbi, talk_to_xen, talk_to_coreboot]
    talk = {one.__name__.removeprefix("talk_to_").replace("_", "-"): one for one in talks}[loader]
    try:
        for tried in talk(machine):
            print(f"{loader}: {tried}: ok", flush=True)
    except Unexpected as problem:
        print(f"{loader}: failed: {problem}")
        sys.exit(1)
    finally:
        machine.process.kill()
        machine.process.wait()


main()
