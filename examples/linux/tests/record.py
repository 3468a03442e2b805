#!/usr/bin/env python3
"""Records what Linux's own 8250 driver does to two serial ports of an emulated PC: record.py WORK KERNEL INITRAMFS TAP.so FOLDER

The emulator traces each access and each change of an interrupt line, and tap.c tells what comes to a port from outside. Both stand in one
log, in their order. Each part of the session becomes a recording in FOLDER, in the form that `geesetrunk audit` reads: the accesses, each
with the level of the interrupt line after it and the time, what arrived, and the modem inputs.

The first port is the console, and somebody logs in there. The second has modem lines that change. The guest's shell has a third, a PCI
card, which is not recorded.
"""
import argparse
import json
import mmap
import os
import re
import socket
import struct
import sys
import threading
import time
import tty

sys.dont_write_bytecode = True

from guest import RECEIVED, Guest, Task, stream

CONSOLE, MODEM = 0, 1
NAMES = "ttyS0", "ttyS1"
BASES, INTERRUPTS = (0x3F8, 0x2F8), (4, 3)
RTS, CTS, CARRIER, DSR = 4, 0x20, 0x40, 0x100
CONNECTED = CTS | CARRIER | DSR
PART = "64s4i"  # of tap.c: the path, the lines in and out, the breaks, and what was told last
SYNCHRONOUS = 0.00005  # seconds within which the interrupt line follows a write

USED = re.compile(r"'serial'$|interrupt #[34] |:tap_|_send_break ")
LINE = re.compile(
    r"^\d+@(?P<time>\d+\.\d+):(?:"
    r"memory_region_ops_(?P<access>read|write) cpu \d+ mr \S+ addr (?P<address>0x\w+) value (?P<value>0x\w+) size 1 name 'serial'"
    r"|x86_gsi_interrupt GSI interrupt #(?P<interrupt>\d+) level:(?P<level>\d)"
    r"|tap_arrived (?P<port>\d) (?P<byte>0x\w+)"
    r"|tap_lines (?P<lines_of>\d) (?P<lines>0x\w+)"
    r"|qmp_enter_chardev_send_break .*\"id\": \"port(?P<break_of>\d)\".*)$")


class Tap:
    """What tap.c shares with this program."""

    def __init__(self, path):
        self.path, self.size = path, struct.calcsize(PART)
        with open(path, "wb") as file:
            file.write(bytes(mmap.PAGESIZE))
        with open(path, "r+b") as file:
            self.shared = mmap.mmap(file.fileno(), mmap.PAGESIZE)


class Port:
    """The other end of a recorded port: a pseudo terminal, which is read at once."""

    def __init__(self, tap, number):
        self.tap, self.at, self.found, self.news = tap, number * tap.size, bytearray(), threading.Condition()
        self.reads = threading.Event()
        self.reads.set()
        self.end, other = os.openpty()
        tty.setraw(other)
        self.name = os.ttyname(other)
        struct.pack_into(PART, tap.shared, self.at, self.name.encode(), CONNECTED, 0, 0, -1)
        threading.Thread(target=self.read, daemon=True).start()

    def read(self):
        try:
            while piece := os.read(self.end, 512):
                with self.news:
                    self.found += piece
                    self.news.notify()
                self.reads.wait()
        except OSError:
            pass

    def put(self, lines):
        struct.pack_into("i", self.tap.shared, self.at + 64, lines)

    def outputs(self):
        return struct.unpack_from("i", self.tap.shared, self.at + 68)[0]

    def take(self, seconds):
        with self.news:
            if not self.found:
                self.news.wait(seconds)
            came, self.found = bytes(self.found), bytearray()
        return came

    def until(self, wanted, seconds=20):
        came, end = b"", time.monotonic() + seconds
        while wanted not in came and time.monotonic() < end:
            came += self.take(0.2)
        if wanted not in came:
            print(f"{self.name}: no {wanted} in {came[-300:]}", flush=True)
        return came

    def drain(self, seconds):
        """What comes until nothing has come for so long."""
        came = bytearray()
        while piece := self.take(seconds):
            came += piece
        return bytes(came)

    def send(self, out):
        while out:
            out = out[os.write(self.end, out[:256]):]

    def type(self, text, seconds=0.03):
        """Sends key by key."""
        for byte in text:
            os.write(self.end, bytes([byte]))
            time.sleep(seconds)


class Session:
    """The guest, the other ends of its ports, and where in the log each part begins."""

    def __init__(self, work, kernel, initramfs, tap, console, append):
        self.log, self.parts = f"{work}/qemu.log", []
        self.tap = Tap(f"{work}/tap")
        self.ports = [Port(self.tap, number) for number in range(len(NAMES))]
        more = ["-msg", "timestamp=on", "-trace", "memory_region_ops_*", "-trace", "x86_gsi_interrupt", "-trace", "qmp_enter_chardev_send_break",
                "-qmp", f"unix:{work}/qmp,server=on,wait=off"]
        for number, port in enumerate(self.ports):
            more += ["-chardev", f"serial,id=port{number},path={port.name}",
                     "-device", f"isa-serial,chardev=port{number},iobase={BASES[number]:#x},irq={INTERRUPTS[number]}"]
        self.begin("boot")
        self.guest = Guest(work, kernel, initramfs, more, append=append, processors=2, console=console,
                           environment={**os.environ, "TAP": self.tap.path, "LD_PRELOAD": tap})
        self.run = self.guest.run
        self.qmp = socket.socket(socket.AF_UNIX)
        self.qmp.connect(f"{work}/qmp")
        self.tell("qmp_capabilities")

    def tell(self, command, **arguments):
        self.qmp.sendall(json.dumps({"execute": command, "arguments": arguments}).encode())
        time.sleep(0.1)

    def break_to(self, number):
        """A break comes to a port."""
        self.tell("chardev-send-break", id=f"port{number}")

    def begin(self, name):
        """What follows is a part of this name."""
        self.parts.append((os.path.getsize(self.log) if os.path.exists(self.log) else 0, name))
        print(f"{time.strftime('%T')} {name}", flush=True)

    def task(self, command):
        return Task(self.guest, command)

    def end(self):
        self.guest.end()
        self.parts.append((os.path.getsize(self.log), None))


# ---- what is done

def logs_in(session):
    port = session.ports[CONSOLE]
    session.run("setsid getty -L ttyS0 115200 vt100 > /dev/null 2>&1 &")
    port.until(b"login: ")
    port.type(b"root\r")
    port.until(b"# ")
    port.type(b"tty; stty -a; cat /proc/tty/driver/serial\r")
    port.until(b"# ")
    port.drain(0.5)
    port.type(b"seq 1 400\x7f0\r", 0.01)
    port.until(b"400\r\n")
    # Stopped and gone on with, suspended and fetched back, interrupted.
    port.type(b"cat /proc/kallsyms | head -c 30000\r", 0)
    time.sleep(0.2)
    port.type(b"\x13")
    time.sleep(0.5)
    port.type(b"\x11")
    port.drain(1)
    port.type(b"sleep 100\r")
    port.type(b"\x1a")
    port.type(b"fg\r")
    port.type(b"\x03")
    port.type(b"cat /dev/zero\r")
    time.sleep(0.3)
    port.type(b"\x03")
    port.drain(1)
    # A whole paste.
    port.send(b"echo " + b"abcdefghij" * 60 + b"\r")
    port.drain(1)


def prints_much(session):
    port = session.ports[CONSOLE]
    port.type(b"head -c 75000 /dev/urandom | base64\r", 0)
    port.drain(2)


def prints_with_kernel(session):
    """The kernel's lines come between those of a program."""
    port = session.ports[CONSOLE]
    session.run("echo 7 > /proc/sys/kernel/printk")
    task = session.task("echo ready; (seq 1 3000 > /dev/ttyS0) & for n in $(seq 1 40); do echo line $n > /dev/kmsg; done; wait")
    port.drain(2)
    task.result()
    session.run("echo 3 > /proc/sys/kernel/printk")


def changes_the_console(session):
    """The speed and the frame, while the shell prints."""
    port = session.ports[CONSOLE]
    for words in "9600", "115200 cs7 parenb", "cs8 -parenb cstopb", "-cstopb 57600", "115200":
        port.type(b"stty %s; seq 1 50\r" % words.encode(), 0.01)
        port.drain(0.5)


def suspends_getty(session):
    port = session.ports[CONSOLE]
    port.type(b"exit\r")
    port.drain(0.5)
    session.run("setsid getty -L ttyS0 115200 vt100 > /dev/null 2>&1 & sleep 1; killall -STOP getty")
    port.type(b"somebody types meanwhile\r")
    time.sleep(0.5)
    session.run("killall -CONT getty")
    port.drain(1)
    session.run("killall getty")
    port.drain(0.5)


def sends_breaks(session):
    session.run("terminal break /dev/ttyS1 300")
    session.run("(echo before the break; sleep 0.1) > /dev/ttyS1; terminal break /dev/ttyS1 20; echo after > /dev/ttyS1")
    session.ports[MODEM].drain(0.5)


def receives_breaks(session):
    task = session.task("terminal marks /dev/ttyS1 12 10").ready()
    for text in b"ab", b"cd", b"ef", b"gh":
        session.ports[MODEM].send(text)
        time.sleep(0.2)
        session.break_to(MODEM)
        time.sleep(0.1)
    task.result()
    # A break and `h` is the kernel's own key on the console.
    session.run("echo 1 > /proc/sys/kernel/sysrq; sleep 2 < /dev/ttyS0 &")
    time.sleep(0.5)
    session.break_to(CONSOLE)
    session.ports[CONSOLE].type(b"h")
    session.ports[CONSOLE].drain(2.5)


def sets_speeds(session):
    for waits in 0, 1:
        session.task(f"terminal change /dev/ttyS1 12 {waits}").result()
    session.run("terminal rates /dev/ttyS1")
    session.run("for n in cs5 cs6 cs7 cs8 parenb parodd -parenb cstopb -cstopb 2400 115200; do stty -F /dev/ttyS1 $n; echo $n > /dev/ttyS1; done")
    session.ports[MODEM].drain(0.5)


def opens_and_closes(session):
    session.run("terminal cycles /dev/ttyS1 20", 120)
    session.ports[MODEM].drain(0.5)


def waits_for_cts(session):
    port = session.ports[MODEM]
    port.put(CARRIER | DSR)
    time.sleep(0.2)
    task = session.task("terminal flow /dev/ttyS1 5000").ready()
    port.drain(0.5)
    for lines in CONNECTED, CARRIER | DSR, CONNECTED:
        port.put(lines)
        time.sleep(0.1)
    task.result()
    # CTS goes off and on while much is sent.
    task = session.task("terminal flow /dev/ttyS1 30000").ready()
    for _ in range(10):
        port.put(CARRIER | DSR)
        time.sleep(0.05)
        port.put(CONNECTED)
        time.sleep(0.02)
    task.result()
    port.drain(0.5)


def changes_lines(session):
    session.run("terminal lines /dev/ttyS1 +dtr +rts -rts -dtr +rts +dtr; cat /proc/tty/driver/serial")


def lowers_rts(session):
    """A slow reader with CRTSCTS. Who sends obeys RTS."""
    port = session.ports[MODEM]
    task = session.task("stty -F /dev/ttyS1 raw -echo crtscts 115200; (echo ready; sleep 2; cat > /tmp/slow) < /dev/ttyS1 & sleep 12; killall cat")
    task.ready()
    out, end = stream(20_000, 0), time.monotonic() + 8
    while out and time.monotonic() < end:
        if port.outputs() & RTS:
            port.send(out[:64])
            out = out[64:]
        time.sleep(0.002)
    task.result()


def obeys_xoff(session):
    port = session.ports[MODEM]
    session.run("stty -F /dev/ttyS1 raw -echo ixon ixoff -crtscts 115200; sleep 1000 < /dev/ttyS1 & echo $! > /tmp/keeper")
    task = session.task("echo ready; yes 0123456789 | head -c 20000 > /dev/ttyS1")
    port.take(1)
    port.send(b"\x13")
    time.sleep(0.5)
    port.send(b"z" * 4000)
    time.sleep(0.5)
    port.send(b"\x11")
    port.drain(1)
    task.result()
    session.run("kill $(cat /tmp/keeper)")


def transfers(session):
    size = 30_000
    task = session.task(f"terminal transfer /dev/ttyS1 {size} {size} 0").ready()
    session.ports[MODEM].send(stream(size, RECEIVED))
    session.ports[MODEM].drain(1)
    print(task.result())


def sends_to_a_slow_end(session):
    """The other end takes nothing for a while, so that the transmitter stays full."""
    console, port = session.ports
    task = session.task("terminal flow /dev/ttyS1 60000").ready()
    for _ in range(6):
        port.reads.clear()
        time.sleep(0.4)
        port.reads.set()
        time.sleep(0.1)
    task.result()
    session.run("echo 7 > /proc/sys/kernel/printk")
    task = session.task("echo ready; (seq 1 8000 > /dev/ttyS0) & for n in $(seq 1 200); do echo line $n > /dev/kmsg; done; wait")
    for _ in range(6):
        console.reads.clear()
        time.sleep(0.4)
        console.reads.set()
        time.sleep(0.1)
    console.drain(1)
    task.result()
    session.run("echo 3 > /proc/sys/kernel/printk")
    # Closed, and hung up, with the transmitter full.
    session.run("stty -F /dev/ttyS1 raw -echo 115200 -clocal")
    for ends in "killall -9 head", "":
        port.reads.clear()
        task = session.task("(yes | head -c 40000) > /dev/ttyS1")
        time.sleep(0.5)
        session.run(f"{ends} true")
        port.put(CTS | DSR)
        time.sleep(0.5)
        port.reads.set()
        port.drain(0.5)
        port.put(CONNECTED)
        task.wait_for("ended", 40)
    session.run("stty -F /dev/ttyS1 clocal")


def comes_too_early(session):
    """Bytes come while the port is closed, and while it is opened."""
    port = session.ports[MODEM]
    for _ in range(5):
        port.send(b"early")
        time.sleep(0.2)
        session.run("(sleep 0.1; echo opened) < /dev/ttyS1 > /dev/ttyS1 & sleep 0.3")
        port.send(b"late")
        time.sleep(0.2)
    session.run("for n in $(seq 1 20); do stty -F /dev/ttyS1 115200; done &")
    port.type(b"typed while it is opened again and again", 0.01)
    port.drain(1)


def loops_back(session):
    session.run("terminal loop /dev/ttyS1 2000")
    session.ports[MODEM].drain(0.5)


def has_no_flow_control(session):
    """CTS falls, and the port was not told to obey it."""
    port = session.ports[MODEM]
    session.run("stty -F /dev/ttyS1 raw -echo 115200 clocal -crtscts; sleep 1000 < /dev/ttyS1 & echo $! > /tmp/keeper")
    task = session.task("echo ready; seq 1 9000 > /dev/ttyS1")
    for _ in range(5):
        port.put(CARRIER | DSR)
        time.sleep(0.1)
        port.put(CONNECTED)
        time.sleep(0.1)
    task.result()
    # With both kinds, XOFF goes out though CTS is off.
    session.run("stty -F /dev/ttyS1 crtscts ixoff ixon")
    port.put(CARRIER | DSR)
    time.sleep(0.2)
    task = session.task("echo ready; seq 1 900 > /dev/ttyS1")
    port.send(b"z" * 5000)
    time.sleep(0.5)
    port.put(CONNECTED)
    time.sleep(0.5)
    session.run("kill $(cat /tmp/keeper); stty -F /dev/ttyS1 -crtscts -ixoff -ixon")
    port.drain(1)


def crashes(session):
    """The kernel's last words come while a program prints."""
    session.run("echo 7 > /proc/sys/kernel/printk")
    session.run("(yes > /dev/ttyS0) & (sleep 1; echo c > /proc/sysrq-trigger) & true")
    session.ports[CONSOLE].drain(3)


def hangs_up(session):
    port = session.ports[MODEM]
    session.run("stty -F /dev/ttyS1 -clocal hupcl -crtscts")
    task = session.task("(yes | head -c 3000; cat) < /dev/ttyS1 > /dev/ttyS1")
    time.sleep(0.5)
    port.put(CTS | DSR)
    task.wait_for("ended", 10)
    port.put(CONNECTED)
    session.run("stty -F /dev/ttyS1 clocal")
    # A login whose line is lost.
    session.run("setsid getty 115200 ttyS1 vt100 > /dev/null 2>&1 &")
    port.until(b"login: ")
    port.type(b"root\r")
    port.until(b"# ")
    port.put(CTS | DSR)
    time.sleep(1)
    port.put(CONNECTED)
    port.drain(1)
    session.run("killall getty sh; true")


def is_another_chip(session):
    """The same chip, which the driver takes for one without FIFOs; without an interrupt; and one that it finds anew."""
    port = session.ports[MODEM]
    session.run("sleep 1 < /dev/ttyS1 & terminal find /dev/ttyS1")
    for kind, irq in ("2", "3"), ("1", "3"), ("4", "0"), ("4", "3"):
        session.run(f"terminal chip /dev/ttyS1 {kind} {irq}")
        task = session.task("terminal transfer /dev/ttyS1 600 600 0").ready()
        port.send(stream(600, RECEIVED))
        port.drain(1)
        print(task.result())
    found = session.run("grep -l 0x2f8 /sys/bus/pnp/drivers/serial/*/resources")
    device = re.search(r"serial/(00:\w+)/resources", found)[1]
    session.run(f"echo {device} > /sys/bus/pnp/drivers/serial/unbind; sleep 1; echo {device} > /sys/bus/pnp/drivers/serial/bind")
    session.run("stty -F /dev/ttyS1 raw -echo 115200; echo found again > /dev/ttyS1")
    port.drain(0.5)


def sleeps(session):
    """The machine suspends as far as its devices, and resumes."""
    session.run("sleep 20 < /dev/ttyS1 & echo $! > /tmp/keeper; echo devices > /sys/power/pm_test; echo mem > /sys/power/state; "
                "kill $(cat /tmp/keeper)", 90)
    session.run("echo slept > /dev/ttyS1; echo slept > /dev/ttyS0")
    for port in session.ports:
        port.drain(0.5)


PARTS = (("login", logs_in), ("much", prints_much), ("kernel", prints_with_kernel), ("stty", changes_the_console),
         ("getty", suspends_getty), ("lines", changes_lines), ("break-out", sends_breaks), ("break-in", receives_breaks),
         ("speeds", sets_speeds), ("cycles", opens_and_closes), ("cts", waits_for_cts), ("rts", lowers_rts), ("xoff", obeys_xoff),
         ("both-ways", transfers), ("slow", sends_to_a_slow_end), ("early", comes_too_early), ("loop", loops_back), ("hangup", hangs_up),
         ("chips", is_another_chip), ("suspend", sleeps), ("no-flow", has_no_flow_control), ("crash", crashes))


# ---- what is written

class Writer:
    """The recordings of one port."""

    def __init__(self, number, folder, told, most):
        self.number, self.folder, self.told, self.most = number, folder, told, most
        self.level, self.out, self.written = 0, [], None

    def begin(self, name):
        self.flush()
        if len(self.out) > 1:
            path = f"{self.folder}/{self.name}-{NAMES[self.number]}.recording"
            with open(path, "w", encoding="utf-8") as file:
                file.write(f"# {self.told} and its own driver, {NAMES[self.number]} of an emulated PC: {self.name}\n")
                file.writelines(f"{line}\n" for line in self.out[:self.most])
        self.name, self.out = name, []

    def put(self, words, nanoseconds):
        self.out.append(f"{words} {self.level} @{nanoseconds}")

    def flush(self):
        """A write has the level that its interrupt line has after it."""
        if self.written:
            self.put(*self.written)
        self.written = None

    def access(self, way, address, value, nanoseconds):
        self.flush()
        offset = address - BASES[self.number]
        if way == "write":
            self.written = f"W {offset} {value:02x}", nanoseconds
        else:
            self.put(f"R {offset} {value:02x}", nanoseconds)

    def line(self, level, nanoseconds, reading):
        if self.written and nanoseconds - self.written[1] < SYNCHRONOUS * 1e9:
            self.level = level
            return
        self.flush()
        changed, self.level = level != self.level, level
        if changed and not reading:
            self.out.append(f"I {level} @{nanoseconds}")

    def event(self, words, nanoseconds):
        self.flush()
        self.put(words, nanoseconds)


def write(session, folder, told, lines):
    """Writes a recording for each part and port."""
    writers = [Writer(number, folder, told, None if lines == "all" else int(lines)) for number in range(len(NAMES))]
    begin = None
    with open(session.log, encoding="utf-8", errors="replace") as log:
        rows = []
        parts, at = list(session.parts), 0
        for row in log:
            while parts and at >= parts[0][0]:
                rows.append((None, parts.pop(0)[1]))
            at += len(row.encode())
            if USED.search(row) and (match := LINE.match(row.rstrip("\n"))):
                whole, part = match["time"].split(".")
                nanoseconds = int(whole) * 10**9 + int(part.ljust(9, "0"))
                begin = begin if begin is not None else nanoseconds
                rows.append((nanoseconds - begin, match))
        rows += [(None, name) for _, name in parts]
    for index, (nanoseconds, match) in enumerate(rows):
        if nanoseconds is None:
            for writer in writers:
                writer.begin(match)
        elif match["access"]:
            address = int(match["address"], 16)
            for writer in writers:
                if 0 <= address - BASES[writer.number] < 8:
                    writer.access(match["access"], address, int(match["value"], 16), nanoseconds)
        elif match["interrupt"]:
            for writer in writers:
                if int(match["interrupt"]) == INTERRUPTS[writer.number]:
                    writer.line(int(match["level"]), nanoseconds, reads_next(rows, index, writer.number, nanoseconds))
        elif match["port"]:
            writers[int(match["port"])].event(f"A 00 {int(match['byte'], 16):02x}", nanoseconds)
        elif match["lines_of"]:
            writers[int(match["lines_of"])].event(f"M {int(match['lines'], 16):02x}", nanoseconds)
        elif match["break_of"]:
            writers[int(match["break_of"])].event("A 10 00", nanoseconds)


def reads_next(rows, index, number, nanoseconds):
    """Whether the line changes in a read, which is traced after it."""
    for later, match in rows[index + 1:index + 6]:
        if later is None or later - nanoseconds > SYNCHRONOUS * 1e9:
            return False
        if match["access"]:
            return match["access"] == "read" and 0 <= int(match["address"], 16) - BASES[number] < 8
    return False


def main():
    parser = argparse.ArgumentParser()
    for name in "work", "kernel", "initramfs", "tap", "folder":
        parser.add_argument(name)
    parser.add_argument("--console", default="ttyS0,115200")
    parser.add_argument("--append", default="loglevel=7")
    parser.add_argument("--told", default="Linux", help="which Linux this is")
    parser.add_argument("--parts", default="", help="names of parts with commas between them; else all are recorded")
    parser.add_argument("--lines", default="all", help="how many lines a recording has at most")
    words = parser.parse_args()
    os.makedirs(words.work, exist_ok=True)
    os.makedirs(words.folder, exist_ok=True)
    session = Session(words.work, words.kernel, words.initramfs, words.tap, words.console, words.append)
    try:
        for name, does in PARTS:
            if not words.parts or name in words.parts.split(","):
                session.begin(name)
                does(session)
    finally:
        session.end()
        print(f"{time.strftime('%T')} writes", flush=True)
        write(session, words.folder, words.told, words.lines)


main()
