#!/usr/bin/env python3
"""Tries u16550_tty in guests, and beside Linux's own driver on the same port:

    check.py [--whole | --debug] --lines LINES.so --firmware FIRMWARE.aml WORK KERNEL INITRAMFS
    check.py --tree TREE.dts WORK KERNEL INITRAMFS

Without --whole it makes the checks that take a minute together. Prints a line for each check, and what the two drivers came to. The last
line is 'N passed, M failed', and the status is 0 if nothing failed.

The ports of the first guest are: one whose other end is here; two that are joined, one of which shares the interrupt of the first; one with
modem lines, which lines.c gives it; one for the guest's shell, which is a PCI card, since a PC has four others; and another card, which can
be pulled out. Linux's own driver keeps that of the shell and one of the two that are joined. Another guest has one port beside that of the
shell, which its firmware switches on and off.

With --debug the kernel is one that looks after itself, and is asked what it has found.

With --tree the guest is a board of 64-bit Arm, whose device tree gets what TREE.dts adds.
"""
import argparse
import mmap
import os
import re
import struct
import sys
import time
import tty

sys.dont_write_bytecode = True

from guest import CLOCK, RECEIVED, SENT, Guest, Line, Silent, Task, Unexpected, board, stream, terminal

OWN, HERE, JOINED, OTHER, MODEM = "ttyS1", "ttyPV0", "ttyPV1", "ttyS3", "ttyPV2"
PORTS = "ports=0x2f8,0x3e8,0x3f8 irqs=3,3,4"
NOBODYS = 0x2D8  # here is neither a chip nor a driver
UNUSED_INTERRUPT = 6
SILENT = "ff"  # what is read where no chip is
PATIENCE = 10  # seconds, of terminal.c
CARD, CARD_IS, SLOT = "0000:00:04.0", "1b36 0002", "addr=4"  # how Linux names it, its numbers, and how the emulator names its slot
OF_CARD = f"/sys/bus/pci/devices/{CARD}"
KERNEL_PPS = 18  # of linux/tty.h
PULSES = 4
LONG = 1 << 20  # milliseconds
UNKNOWN, C16450, C16550A, C16750, CUSTOM_DIVISOR = 0, 2, 4, 8, 0x30  # of linux/serial_core.h and linux/tty_flags.h
FCR, MCR, AUTO_FLOW = 2, 4, 0x20  # of linux/serial_reg.h
TAKEN = ("0x2f8", "0x3e8", "0x3f8")  # Linux's own driver has these at first
RTS, DTR, CTS, CARRIER, DSR = 4, 2, 0x20, 0x40, 0x100
CONNECTED = CTS | CARRIER | DSR
# How much worse than Linux's own driver one may be, and in how many rounds what varies by a fifth from one to the next is compared.
MOST = 1.1
MOST_ROUNDS = 6
# For how many seconds a port is idle, and how many interrupts of timers more than with Linux's own driver are chance then. A look in time
# five times a second would be a hundred.
IDLE = 20
MOST_TICKS = 50
# A kernel that looks after itself is slow in an emulator. For the firmware's methods that route interrupts it takes longer than it lets them;
# and where it keeps a stack for each piece of memory, for all of them. So it has kmemleak and the like, but they are off.
HASTE = "acpi=noirq kmemleak=off no_debug_objects"
# What costs are compared: a name, the size of each write, whether it goes through the chip's loopback, and how many bytes.
COSTS = (("sent in writes of 1000", 1000, 0, 20_000), ("sent in writes of 1", 1, 0, 2000),
         ("sent and received in writes of 1000", 1000, 1, 20_000), ("sent and received in writes of 16", 16, 1, 4000),
         ("sent and received in writes of 1", 1, 1, 1000))


class Modem:
    """The modem lines of a port, and the pseudo terminal at its other end."""

    def __init__(self, work):
        path = f"{work}/lines"
        with open(path, "wb") as file:
            file.write(bytes(mmap.PAGESIZE))
        with open(path, "r+b") as file:
            self.shared = mmap.mmap(file.fileno(), mmap.PAGESIZE)
        self.environment = {"LINES": path}
        self.end, other = os.openpty()
        tty.setraw(other)
        os.set_blocking(self.end, False)
        self.name = os.ttyname(other)
        self.put(CONNECTED)

    def put(self, lines):
        self.shared[0:4] = struct.pack("<i", lines)

    def outputs(self):
        return struct.unpack_from("<i", self.shared, 4)[0]

    def breaks(self):
        return struct.unpack_from("<i", self.shared, 8)[0]

    def turns(self):
        """How many bytes went out while RTS was on, and while it was off; how many milliseconds it was on before and behind them at least;
        and how often. It starts from nothing then."""
        found = struct.unpack_from("<5i", self.shared, 12)
        self.shared[12:32] = struct.pack("<5i", 0, 0, LONG, LONG, 0)
        return found

    def receive(self, seconds, wanted=1 << 40):
        """What comes until nothing has come for so long, or these are so many bytes."""
        came, last = bytearray(), CLOCK.now()
        while CLOCK.now() - last < seconds and len(came) < wanted:
            try:
                came += os.read(self.end, 4096)
                last = CLOCK.now()
            except BlockingIOError:
                time.sleep(0.01)
        return bytes(came)


class Bench:
    """A guest with a port whose other end is here, and what was found."""

    def __init__(self, guest, work):
        self.passed, self.failed, self.log = 0, 0, ""
        self.guest, self.run = guest, guest.run
        self.here = Line(f"{work}/here")

    def judge(self, name, good, told=""):
        """Counts a check."""
        print(f"{name}: {'ok' if good else 'failed'}", flush=True)
        if good:
            self.passed += 1
        else:
            self.failed += 1
            print("".join(f"    {line}\n" for line in str(told).splitlines()[-20:]), end="", flush=True)

    def lcr(self, base):
        """What LCR of a chip at these ports shows."""
        return self.run(f"dd if=/dev/port bs=1 skip=$(({base}+3)) count=1 2> /dev/null | hexdump -e '1/1 \"%02x\"'").strip()

    def take_log(self):
        """What the kernel has said since the last time. It is kept for the check that nothing is wrong."""
        news = self.run("dmesg -c")
        self.log += news
        return news

    def wrong(self):
        """What the kernel has said until now that the driver is wrong, or it itself."""
        self.take_log()
        return re.findall(r".*(?:WARNING|\bBUG|Oops|INFO: trying to register|ODEBUG|Unknown symbol|ttyPV.: [a-z_]+:).*", self.log)

    def task(self, command):
        return Task(self.guest, command)

    def transfer(self, device, send, receive, seconds=60, line=None):
        """So many bytes each way at once. Returns whether all came at both ends, and what the guest says."""
        line = line or self.here
        line.drain(0.2)
        task = self.task(f"terminal transfer /dev/{device} {send} {receive} 1").ready()
        came = line.exchange(stream(receive, RECEIVED), send, 10)
        told = task.result(seconds)
        good = came == stream(send, SENT) and f"received {receive} of {receive}, wrong 0, overruns 0" in told
        return good and "lost in the tty layer 0" in told, f"{told}here came {len(came)}, right: {came == stream(send, SENT)}"


class Ports(Bench):
    """A PC with many ports."""

    CARD = "pci-serial,chardev=card,id=card"

    def __init__(self, given, work, processors):
        self.whole = given.whole
        self.modem = Modem(work)
        self.trace = f"{work}/trace"
        ports = []
        for name, chardev, base, interrupt in (
                ("here", f"socket,path={work}/here,server=on,wait=off", 0x2F8, 3),
                ("joined", f"socket,path={work}/joined,server=on,wait=off", 0x3E8, 3),
                ("other", f"socket,path={work}/joined,server=off", 0x2E8, 7),
                ("modem", f"serial,path={self.modem.name}", 0x3F8, 4)):
            ports += ["-chardev", f"{chardev},id={name}", "-device", f"isa-serial,chardev={name},iobase={base:#x},irq={interrupt}"]
        ports += ["-chardev", f"socket,path={work}/card,server=on,wait=off,id=card", "-device", f"{self.CARD},{SLOT}"]
        super().__init__(Guest(work, given.kernel, given.initramfs, [*ports, "-D", self.trace],
                               append=f"console={HERE},115200 {HASTE if given.debug else ''}",
                               processors=processors,
                               environment={**os.environ, **self.modem.environment, "LD_PRELOAD": given.lines}), work)
        self.card = Line(f"{work}/card")
        self.devices = {base: self.find(base) for base in TAKEN}

    def find(self, base):
        """The device to which Linux's own driver is bound."""
        found = self.run(f"grep -l {base} /sys/bus/pnp/drivers/serial/*/resources")
        return re.search(r"serial/(00:\w+)/resources", found)[1]

    def own_driver(self, way):
        """Lets Linux's own driver have these ports, or not: bind or unbind."""
        for device in self.devices.values():
            self.run(f"echo {device} > /sys/bus/pnp/drivers/serial/{way}")

    def insert(self, more=""):
        return self.run(f"insmod /modules/u16550_tty.ko {PORTS} {more}; dmesg | tail -20")


class Counted(Bench):
    """A PC whose processor takes a nanosecond of its own time for each instruction, however long the emulator takes. What it sends goes
    nowhere: who would read it may come late, and then less is sent at once."""

    def __init__(self, given, work):
        super().__init__(Guest(work, given.kernel, given.initramfs,
                               ["-chardev", f"socket,path={work}/here,server=on,wait=off,id=here", "-chardev", "null,id=nowhere",
                                "-device", "isa-serial,chardev=nowhere,iobase=0x2f8,irq=3", "-icount", "shift=0"]), work)


class Switched(Bench):
    """A PC whose firmware describes one port alone, beside that of the shell, and switches it on and off. Linux counts it as the first behind
    the four of a PC."""

    def __init__(self, given, work):
        super().__init__(Guest(work, given.kernel, given.initramfs,
                               ["-chardev", f"socket,path={work}/here,server=on,wait=off,id=here",
                                "-device", f"pci-serial,chardev=here,{SLOT}", "-acpitable", f"file={given.firmware}"],
                               append=HASTE if given.debug else "", console="ttyS5", shell="ttyS5", processors=2), work)


class Board(Bench):
    """The board that QEMU calls `virt`, with two chips that its device tree describes. They are those of cards on PCI: on this board the I/O
    ports of cards are a part of memory, and Linux gives the first card the first of those that it gives away. The second has a device below
    it, which sends back what comes."""

    def __init__(self, given, work):
        self.trace = f"{work}/trace"
        ports = ["-D", self.trace]
        for place, name in enumerate(("here", "echo"), 1):
            ports += ["-chardev", f"socket,path={work}/{name},server=on,wait=off,id={name}",
                      "-device", f"pci-serial,chardev={name},addr={place}"]
        super().__init__(Guest(work, given.kernel, given.initramfs, ports,
                               console="ttyAMA0", shell="ttyAMA0", processors=2, machine=board(given.tree, work)), work)
        self.echo = Line(f"{work}/echo")


# ---- the checks: each is given the bench, and says what it found

def takes_no_port_of_another(bench):
    told = bench.insert()
    bench.judge("a port that another driver has is left alone", told.count("belong to another driver") == 3, told)
    bench.run("rmmod u16550_tty")


def finds_chips(bench):
    bench.own_driver("unbind")
    told = bench.insert()
    bench.judge("three chips are found, and pass the loopback test", told.count("has passed the loopback test") == 3, told)


def has_an_early_console(bench):
    """On a chip that it sets up, and on one as another has left it."""
    bench.here.drain(0.2)
    told = bench.run("for baud in 115200 0; do insmod /modules/early_text.ko baud=$baud; rmmod early_text; done")
    came = bench.here.drain(0.5)
    bench.judge("the early console writes, on a chip that it sets up and on one that was", came == b"an early text\r\n" * 2, f"{told}{came}")
    found, told = divisors(bench, "insmod /modules/early_text.ko baud=9600; rmmod early_text")
    bench.here.drain(0.5)
    bench.judge("its speed is set", found == [12], f"{found}{told}")


def insert_with(bench, ports):
    """Inserts the module with these ports instead."""
    bench.run("rmmod u16550_tty")
    bench.take_log()
    return bench.run(f"insmod /modules/u16550_tty.ko {ports}; dmesg")


def insert_again(bench):
    bench.run("rmmod u16550_tty")
    bench.insert()


def belongs_to_a_device(bench):
    """Without parameters the module has the devices that firmware describes. They are unbound and bound while programs use their ports."""
    told = insert_with(bench, "")
    found = dict(re.findall(r"(ttyPV\d): a chip at (0x\w+) with interrupt \d+ has passed", told))
    port = next((name for name, base in found.items() if base == "0x2f8"), HERE)
    good, moved = bench.transfer(port, 500, 500)
    bench.judge("a port is found for each device that firmware describes", sorted(found.values()) == sorted(TAKEN) and good, told + moved)
    way = f"echo {bench.devices['0x2f8']} > /sys/bus/pnp/drivers/u16550_tty"
    task = bench.task(f"stty -F /dev/{port} raw -echo; echo ready; cat < /dev/{port}").ready()
    told = bench.run(f"{way}/unbind; ls /dev/ttyPV*")
    ended = task.result()
    bench.judge("unbound while a program receives: it is hung up, and the terminal and the region are gone",
                "ended" in ended and f"/dev/{port}" not in told and "02f8-02ff" not in regions(bench), f"{told}{ended}{regions(bench)}")
    told = bench.run(f"for n in $(seq 1 20); do {way}/bind; echo $n > /dev/{port}; {way}/unbind; done; {way}/bind; ls /dev/ttyPV*")
    good, moved = bench.transfer(port, 500, 500)
    bench.judge("bound again, it is there again, and works", good and f"/dev/{port}" in told, told + moved)
    insert_again(bench)


def is_switched_by_firmware(bench):
    """The port is switched off when a driver leaves its device. Who takes its ports alone finds nothing there."""
    device = bench.run("grep -l SWIT /sys/bus/pnp/devices/*/firmware_node/path").strip().removesuffix("/firmware_node/path")
    way = f"echo {os.path.basename(device)} > /sys/bus/pnp/drivers"
    # At boot the chip's card and its device are both found, and the card has the port in the end.
    told = bench.run(f"echo {CARD} > /sys/bus/pci/drivers/serial/unbind; {way}/serial/unbind; {way}/serial/bind; "
                     f"{terminal(device)}; sed -n '2s/io \\(0x[0-9a-f]*\\).*/\\1/p' {device}/resources")
    number, base = told.split()[-2:]
    good, told = bench.transfer(number, 5000, 5000)
    bench.judge("Linux's own driver has the port, which is on", good and bench.lcr(base) != SILENT, told)
    told = bench.run(f"{way}/serial/unbind; head -n 1 {device}/resources")
    told += bench.run(f"insmod /modules/u16550_tty.ko ports={base} irqs=11; dmesg | tail -n 5; rmmod u16550_tty")
    bench.judge("when that leaves it, firmware switches it off, and its ports alone are of no use",
                "state = disabled" in told and bench.lcr(base) == SILENT and f"no chip at {base}: there is no device" in told, told)
    told = bench.run(f"insmod /modules/u16550_tty.ko; dmesg | tail -n 5; head -n 1 {device}/resources")
    good, moved = bench.transfer(HERE, 5000, 5000)
    bench.judge("without a parameter its device is found, switched on, and works",
                f"{HERE}: a chip at {base} with interrupt 11 has passed" in told and "state = active" in told and good, told + moved)
    told = bench.run(f"for n in $(seq 1 10); do {way}/u16550_tty/unbind; {way}/u16550_tty/bind; echo $n > /dev/{HERE}; done")
    good, moved = bench.transfer(HERE, 500, 500)
    bench.judge("ten times off and on, it works", good, told + moved)
    told = bench.run(f"rmmod u16550_tty; head -n 1 {device}/resources; {way}/serial/bind; {terminal(device)}")
    good, moved = bench.transfer(told.split()[-1], 500, 500)
    wrong = bench.wrong()
    bench.judge("it is off without the module, and Linux's own driver can have it again", "state = disabled" in told and good and not wrong,
                "\n".join([told + moved, *wrong]))


def flows_by_itself(bench):
    """A chip that can do flow control itself does, with both drivers, while the user wants that."""
    device, way = "/sys/bus/platform/devices/3eff1000.serial", "echo 3eff1000.serial > /sys/bus/platform/drivers"
    found = {}
    for driver, command in (OWN, ":"), (HERE, f"{way}/of_serial/unbind; insmod /modules/u16550_tty.ko"):
        name = bench.run(f"{command}; {terminal(device)}").strip()
        found[driver] = [any(value & AUTO_FLOW for value in written(bench, MCR, f"stty -F /dev/{name} {words}")[0])
                         for words in ("-crtscts", "crtscts", "-crtscts", "-crtscts")]
    bench.run(f"rmmod u16550_tty; {way}/of_serial/bind")
    # The third opens a port that still has flow control.
    bench.judge("with `auto-flow-control` the chip does it while the user wants flow control, as with Linux's own driver",
                found[OWN] == found[HERE] == [False, True, True, False], found)


def has_a_device_below(bench):
    """A device below a port is found with both drivers, and is talked to over it. The port then is no terminal."""
    way = "echo 3eff1008.serial > /sys/bus/platform/drivers"
    came = {}
    for driver, command in ("of_serial", ":"), ("u16550_tty_of", f"{way}/of_serial/unbind; {way}/u16550_tty_of/bind"):
        told = bench.run(f"{command}; insmod /modules/echo.ko; ls /sys/bus/serial/devices /sys/bus/serial/drivers/echo")
        bench.echo.send(stream(3000, RECEIVED))
        came[driver] = bench.echo.exchange(b"", 3000, 5)
        bench.run("rmmod echo")
    bench.judge("a device that the device tree describes below a port is talked to over it, as with Linux's own driver",
                came["of_serial"] == came["u16550_tty_of"] == stream(3000, RECEIVED), f"{told}{[len(one) for one in came.values()]}")


def is_in_a_device_tree(bench):
    """A chip with registers in memory, which a node describes, without a parameter."""
    device = "/sys/bus/platform/devices/3eff1000.serial"
    own = bench.run(terminal(device)).strip()
    good, told = bench.transfer(own, 5000, 5000)
    bench.judge("Linux's own driver has the chip of the device tree", good, told)
    way = "echo 3eff1000.serial > /sys/bus/platform/drivers"
    told = bench.run(f"{way}/of_serial/unbind; insmod /modules/u16550_tty.ko; dmesg | tail -n 5; cat /sys/class/tty/{HERE}/io_type; "
                     "grep u16550_tty /proc/iomem")
    good, moved = bench.transfer(HERE, 50_000, 50_000)
    bench.judge("without a parameter the module has it, with its region, and works",
                f"{HERE}: a chip at 0x3eff1000 with interrupt " in told and "3eff1000-3eff1007 : u16550_tty" in told and good, told + moved)
    bench.judge("its interrupt comes", "does not come" not in bench.take_log())
    task = bench.task(f"stty -F /dev/{HERE} raw -echo; echo ready; cat < /dev/{HERE}").ready()
    told = bench.run(f"{way}/u16550_tty_of/unbind; ls /dev/ttyPV*; grep u16550_tty /proc/iomem")
    ended = task.result()
    bench.judge("unbound while a program receives: it is hung up, and the terminal and the region are gone", told.strip() ==
                "ls: /dev/ttyPV*: No such file or directory" and "ended" in ended, told + ended)
    told = bench.run(f"for n in $(seq 1 10); do {way}/u16550_tty_of/bind; echo $n > /dev/{HERE}; {way}/u16550_tty_of/unbind; done; "
                     f"{way}/u16550_tty_of/bind")
    good, moved = bench.transfer(HERE, 500, 500)
    bench.judge("bound again, it works", good, told + moved)


def is_given_back(bench):
    told = bench.run("rmmod u16550_tty; echo 3eff1000.serial > /sys/bus/platform/drivers/of_serial/bind; "
                     + terminal("/sys/bus/platform/devices/3eff1000.serial"))
    good, moved = bench.transfer(told.split()[-1], 500, 500)
    wrong = bench.wrong()
    bench.judge("without the module Linux's own driver can have it again, and nothing was wrong", good and not wrong,
                "\n".join([told + moved, *wrong]))


def is_unbound(bench):
    """The same with a port that the user has named: its device is one of the platform."""
    way = "echo u16550_tty.1 > /sys/bus/platform/drivers/u16550_tty"
    told = bench.run(f"{way}/unbind; ls /dev/ttyPV*")
    bench.judge("a port that was named is unbound, alone", f"/dev/{JOINED}" not in told and f"/dev/{HERE}" in told, told)
    told = bench.run(f"{way}/bind; ls /dev/ttyPV*")
    bench.judge("it has the same number when it is bound again", f"/dev/{JOINED}" in told, told)
    others = "/sys/bus/platform/devices/pcspkr"
    told = bench.run(f"echo u16550_tty > {others}/driver_override; echo pcspkr > /sys/bus/platform/drivers/u16550_tty/bind; "
                     f"[ -e {others}/driver ] && echo bound; ls /dev/ttyPV*")
    bench.judge("another device of the platform is refused", "bound" not in told and told.count("/dev/ttyPV") == 3, told)


def has_a_card(bench):
    """A card is given to the module by its numbers, though it is switched off. Then it is pulled out, with both drivers."""
    told = bench.run(f"echo {CARD} > /sys/bus/pci/drivers/serial/unbind; printf '\\0' | "
                     f"dd of=/sys/bus/pci/devices/{CARD}/config bs=1 seek=4 conv=notrunc 2> /dev/null; "
                     f"echo {CARD_IS} > /sys/bus/pci/drivers/u16550_tty/new_id; {terminal(OF_CARD)}")
    name = (told.split() or [HERE])[0]
    good, moved = bench.transfer(name, 500, 500, line=bench.card)
    bench.judge("a card is had by its numbers, and is switched on", good and name.startswith("ttyPV"), told + moved)
    this = pull_out(bench, name)
    bench.judge("when it is pulled out, its terminal is hung up and gone", this == ("write error: Input/output error", "ended", ""), this)
    put_in(bench)
    own = pull_out(bench, bench.run(terminal(OF_CARD)).strip())
    # Its node stays, without a chip: it has made as many as the kernel's command line says.
    bench.judge("so it is with Linux's own driver", own[:2] == this[:2], own)
    put_in(bench)


def put_in(bench):
    """Puts the card in. Linux's own driver has it then, since it was there first."""
    end = CLOCK.now() + PATIENCE
    # The emulator still has one that was pulled out, until the guest has let it go.
    while "rror" in bench.guest.tell_monitor(f"device_add {bench.CARD},{SLOT}") and CLOCK.now() < end:
        time.sleep(0.1)
    bench.run(f"n=0; until [ -n \"$({terminal(OF_CARD)})\" ] || [ $n = 100 ]; do n=$((n+1)); usleep 100000; done")


def pull_out(bench, name):
    """Pulls the card out. Returns how a program that writes ended, how one that reads, and whether the terminal is there."""
    bench.run(f"stty -F /dev/{name} raw -echo clocal 115200")
    writer = bench.task(f"exec 5<> /dev/{name}; echo ready; "
                        "for n in $(seq 1 100); do echo $n >&5 || break; usleep 100000; done").ready()
    # Both have the terminal open before: a program that comes too late finds none.
    reader = bench.task(f"exec 5< /dev/{name}; echo ready; cat <&5").ready()
    bench.guest.tell_monitor("device_del card")
    wrote, read = (task.result(30).split("\n") for task in (writer, reader))
    bench.run(f"n=0; while [ -e /sys/bus/pci/devices/{CARD} ] && [ $n != 100 ]; do n=$((n+1)); usleep 100000; done")
    return wrote[1].removeprefix("sh: "), read[1].split()[0], bench.run(f"ls /dev/{name} 2> /dev/null").strip()


def is_pulled_out(bench):
    """The same with a card whose ports the user has named: the bus tells the module nothing."""
    bench.run(f"echo {CARD} > /sys/bus/pci/drivers/serial/unbind")
    base = int(bench.run(f"head -n 1 /sys/bus/pci/devices/{CARD}/resource").split()[0], 0)
    told = insert_with(bench, f"ports={base:#x} irqs={bench.run(f'cat /sys/bus/pci/devices/{CARD}/irq').strip()}")
    ended = pull_out(bench, HERE)
    log = bench.take_log()
    wanted = f"{HERE}: the chip is gone: who uses the port is hung up"
    bench.judge("a card whose ports were named is pulled out: who uses it is hung up, and the kernel's log says so",
                ended == ("write error: Input/output error", "ended", f"/dev/{HERE}") and wanted in log, f"{told}{ended}{log}")
    bench.run(f"echo x > /dev/{HERE}")
    bench.judge("and it cannot be used any more", bench.guest.status != 0)
    bench.take_log()
    # This is what is wanted here.
    bench.log = bench.log.replace("init: there is no device", "")
    put_in(bench)
    insert_again(bench)


def loses_interrupts(bench):
    """Somebody else looks at ISR behind each byte that is sent, so that the transmitter's interrupt never comes."""
    bench.run("insmod /modules/faults.ko fault=stolen")
    good, told = bench.transfer(HERE, 5000, 0)
    bench.run("rmmod faults")
    bench.judge("all is sent, though no interrupt of the transmitter comes", good, told)
    good, told = bench.transfer(HERE, 500, 500)
    bench.judge("when they come again, the port goes on", good, told)


def times_pulses(bench):
    """With both drivers."""
    bench.run("insmod /modules/pps-ldisc.ko")
    counts, told = {}, ""
    for device, port in (OWN, "ttyS0"), (HERE, MODEM):
        give(bench, device)
        task = bench.task(f"terminal discipline /dev/{port} {KERNEL_PPS}").ready()
        for _ in range(PULSES):
            for lines in CTS | DSR, CONNECTED:
                bench.modem.put(lines)
                time.sleep(0.3)
        found = bench.run("cat /sys/class/pps/pps0/assert /sys/class/pps/pps0/clear; killall terminal") + task.result()
        counts[device] = re.findall(r"#(\d+)", found)
        told += found
    bench.judge("kernel PPS has the time of each pulse on DCD, as with Linux's own driver",
                counts[OWN] == counts[HERE] == [str(PULSES)] * 2, told)


def leaves_processors_asleep(bench):
    """How often the timers of both processors interrupt in twenty seconds, with an idle port open. Not less than with none open."""
    counts = {}
    for device in OWN, HERE:
        give(bench, device)
        bench.run(f"stty -F /dev/{device} raw -echo 115200 clocal; sleep 1000 < /dev/{device} & echo $! > /tmp/keeper; sleep 1")
        counts[device] = ticks(bench)
        bench.run("kill $(cat /tmp/keeper)")
    bench.judge(f"an idle port leaves processors asleep: {counts[HERE]} interrupts of their timers, with Linux's own driver {counts[OWN]}",
                counts[HERE] <= counts[OWN] + MOST_TICKS)


def ticks(bench):
    count = "grep LOC: /proc/interrupts"
    before, after = ([int(word) for word in line.split() if word.isdigit()]
                     for line in bench.run(f"{count}; sleep {IDLE}; {count}", 4 * IDLE).strip().split("\n"))
    return sum(after) - sum(before)


def both_work(bench, device, size):
    """So many bytes each way over a port, and meanwhile over the two that are joined."""
    # Both are open and set up before the first sends.
    bench.run(f"for port in {JOINED} {OTHER}; do stty -F /dev/$port raw -echo 115200; sleep 1000 < /dev/$port & done; "
              "jobs -p > /tmp/keepers")
    tasks = [bench.task(f"terminal transfer /dev/{one} {size} {size} 0 {SENT}") for one in (JOINED, OTHER)]
    good, told = bench.transfer(device, size, size, 120)
    for task in tasks:
        ended = task.result(120)
        told += ended
        good = good and f"sent {size} of {size}, received {size} of {size}, wrong 0, overruns 0" in ended
    bench.run("kill $(cat /tmp/keepers)")
    return good, told


def shares_an_interrupt(bench):
    """Two ports on one line of a controller that detects edges, and each of the two alone."""
    good, told = both_work(bench, HERE, 60_000 if bench.whole else 20_000)
    bench.judge("two ports share an interrupt, and both move bytes", good, told)
    good, told = bench.transfer(HERE, 2000, 2000)
    bench.judge("the first goes on when the second is closed", good, told)


def needs_no_interrupt(bench):
    told = insert_with(bench, "ports=0x2f8 irqs=0")
    good, more = bench.transfer(HERE, 5000, 5000, 120)
    bench.judge("without an interrupt a timer looks at the port", good, told + more)
    told = insert_with(bench, f"ports=0x2f8 irqs={UNUSED_INTERRUPT}")
    good, more = bench.transfer(HERE, 5000, 5000, 120)
    more += bench.run("dmesg")
    wanted = f"{HERE}: a timer looks at the port from now on, since its interrupt does not come: interrupt {UNUSED_INTERRUPT}"
    bench.judge("with a wrong interrupt too, and the kernel's log says so", good and wanted in more, told + more)
    insert_again(bench)


def regions(bench):
    """The I/O ports that the module has."""
    return bench.run("grep u16550_tty /proc/ioports").split()[::3]


def moves_a_port(bench):
    told = insert_with(bench, "ports=0x2f8 irqs=3")
    more = bench.run(f"terminal set /dev/{HERE} port=0x2e8")
    good, moved = bench.transfer(HERE, 500, 500)
    bench.judge("a port is not moved to one that another driver has, and goes on where it is",
                "set: Device or resource busy, type 4, port 0x2f8" in more and good, told + more + moved)
    more = bench.run(f"terminal set /dev/{HERE} port=0x3e8; grep . /proc/ioports")
    task = bench.task(f"stty -F /dev/{OTHER} raw -echo 115200; echo ready; head -c 6 /dev/{OTHER}").ready()
    bench.here.drain(0.2)
    bench.run(f"stty -F /dev/{HERE} raw -echo 115200; echo moved > /dev/{HERE}")
    came = task.wait_for("moved", 10)
    here = bench.here.drain(0.3)
    bench.judge("a port is moved to another chip, with its region",
                "set: done, type 4, port 0x3e8" in more and "moved" in came and not here and regions(bench) == ["03e8-03ef"],
                f"{more}{came}{here}{regions(bench)}")
    # Linux's own driver can have the port that was left. Then there are two drivers, each on its own chip.
    bench.run(f"echo {bench.devices['0x2f8']} > /sys/bus/pnp/drivers/serial/bind")
    good, told = bench.transfer(OWN, 500, 500)
    more = bench.run(f"terminal set /dev/{HERE} port=0x2f8")
    bench.judge("the port that was left can be had by Linux's own driver, and then not be had back",
                good and "set: Device or resource busy, type 4, port 0x3e8" in more, told + more)
    bench.run(f"echo {bench.devices['0x2f8']} > /sys/bus/pnp/drivers/serial/unbind")
    more = bench.run(f"terminal set /dev/{HERE} port=0x2f8")
    good, told = bench.transfer(HERE, 500, 500)
    bench.judge("moved back, it works", good and "port 0x2f8" in more, told + more)


def finds_no_chip(bench):
    told = insert_with(bench, "ports=0x2f8 irqs=3")
    told += bench.run(f"terminal set /dev/{HERE} port={NOBODYS:#x}; terminal find /dev/{HERE}; terminal set /dev/{HERE}")
    bench.judge("where no chip is found the port has no type and no region",
                f"type {UNKNOWN}, port {NOBODYS:#x}" in told and not regions(bench), told)
    more = bench.run(f"stty -F /dev/{HERE} 9600 2>&1; stty -F /dev/{HERE} 115200; echo a > /dev/{HERE}; "
                     f"terminal set /dev/{HERE} port=0x2f8 type={C16550A}") + bench.take_log()
    # This is what is wanted here.
    bench.log = bench.log.replace("init: there is no device", "")
    good, moved = bench.transfer(HERE, 500, 500)
    bench.judge("a chip is named again, and works; nothing was freed that was not had",
                good and f"set: done, type {C16550A}, port 0x2f8" in more and "nonexistent" not in more and regions(bench) == ["02f8-02ff"],
                more + moved)
    insert_again(bench)


def is_another_chip(bench):
    more = bench.run(f"terminal set /dev/{HERE} type={C16450}")
    good, told = bench.transfer(HERE, 3000, 3000)
    bench.judge("as a 16450 the port works, without a FIFO", good and f"set: done, type {C16450}" in more, more + told)
    more = bench.run(f"terminal set /dev/{HERE} type=17; terminal set /dev/{HERE} type={C16550A}")
    good, told = bench.transfer(HERE, 3000, 3000)
    bench.judge("another type is refused",
                good and f"set: Invalid argument, type {C16450}" in more and f"set: done, type {C16550A}" in more, more + told)


def accesses(bench, way, command):
    """The accesses of a command, and what it says: read or write, as registers and values."""
    with open(bench.trace, "wb"):
        pass
    bench.guest.tell_monitor(f"trace-event serial_{way} on")
    told = bench.run(command)
    bench.guest.tell_monitor(f"trace-event serial_{way} off")
    with open(bench.trace, encoding="utf-8", errors="replace") as trace:
        found = re.findall(rf"serial_{way} {way} addr 0x0(\d) val 0x(\w+)", trace.read())
    return [(int(register), int(value, 16)) for register, value in found], told


def written(bench, wanted, command):
    """The values that a command has written to a register, and what it says."""
    found, told = accesses(bench, "write", command)
    return [value for register, value in found if register == wanted], told


def divisors(bench, command):
    """The low bytes of the divisors that a command has written."""
    writes, told = accesses(bench, "write", command)
    found, latch = [], False
    for register, value in writes:
        if register == 3:
            latch = value & 0x80
        elif register == 0 and latch:
            found.append(value)
    return found, told


def has_a_divisor_of_its_own(bench):
    divisor = 77
    found, told = divisors(bench, f"terminal set /dev/{HERE} flags={CUSTOM_DIVISOR:#x} divisor={divisor}; stty -F /dev/{HERE} 38400; "
                                  f"stty -F /dev/{HERE}")
    bench.judge("with spd_cust 38,400 baud is the divisor that the user has set",
                found[-1:] == [divisor] and "speed 38400 baud" in told, f"{found}{told}")
    found, told = divisors(bench, f"terminal set /dev/{HERE} flags=0; stty -F /dev/{HERE} 115200; stty -F /dev/{HERE} 38400")
    bench.judge("without it, it is 3", found[-1:] == [3], f"{found}{told}")


def goes_faster(bench):
    """With a faster clock there are higher rates, with both drivers."""
    last = {}
    for device in OWN, HERE:
        give(bench, device)
        bench.run(f"terminal set /dev/{device} baud_base=921600")
        last[device] = [divisors(bench, f"stty -F /dev/{device} {rate}; stty -F /dev/{device} speed") for rate in (9600, 230400, 921600)]
        bench.run(f"terminal set /dev/{device} baud_base=115200; stty -F /dev/{device} 115200")
        # What the kernel says on its console meanwhile, as of an interrupt that came late, stands in front of the speed.
        last[device] = [(found[-1:], told.split()[-1:]) for found, told in last[device]]
    bench.judge("with a clock eight times as fast 230,400 and 921,600 baud have their divisors, as with Linux's own driver",
                last[OWN] == last[HERE] == [([96], ["9600"]), ([4], ["230400"]), ([1], ["921600"])], last)


def sets_a_trigger(bench):
    """From how many characters on the chip interrupts, with both drivers."""
    told = {}
    for device in OWN, HERE:
        give(bench, device)
        file = f"/sys/class/tty/{device}/rx_trig_bytes"
        told[device] = written(bench, FCR, f"cat {file}; sleep 1000 < /dev/{device} & for n in 1 4 7 8 13 14 255 0 256 x; do "
                               f"echo $n > {file}; echo $? $(cat {file}); done 2> /dev/null; kill $!")[1]
    found, _ = written(bench, FCR, f"(echo 14 > {file}; sleep 0.2) < /dev/{HERE}")
    bench.judge("rx_trig_bytes says and sets from how many characters on the chip interrupts, as with Linux's own driver",
                told[OWN] == told[HERE] and found[-2:-1] == [0xC1], f"{told}{found}")
    bench.run(f"echo 8 > {file}")


def has_larger_fifos(bench):
    """A chip that is a 16750 once it was told: faults.c makes it of the emulator's. The transmitter's FIFO is 64 then."""
    counts, told = {}, ""
    for fifos in 16, 64:
        if fifos == 64:
            told += bench.run(f"insmod /modules/faults.ko fault=fifos; terminal find /dev/{HERE}; terminal set /dev/{HERE}; "
                              f"cat /sys/class/tty/{HERE}/xmit_fifo_size")
        reads, more = accesses(bench, "read", f"stty -F /dev/{HERE} raw -echo 115200 clocal; head -c 6400 /dev/zero > /dev/{HERE}")
        counts[fifos] = sum(register == 2 for register, _ in reads)
        told += more
    bench.here.drain(0.3)
    good, more = bench.transfer(HERE, 20_000, 20_000)
    bench.judge("a 16750 is found, is told that its FIFOs are to hold 64, and has bursts of 64",
                f"type {C16750}," in told and "\n64\n" in told and good and counts[64] < counts[16] / 2, f"{told}{more}{counts}")
    bench.here.drain(0.3)
    told = bench.run(f"rmmod faults; insmod /modules/faults.ko fault=fifos; cat /sys/module/faults/parameters/has_64 < /dev/{HERE}")
    bench.judge("one that has forgotten it is told again when the port is opened", told == "Y\n", told)
    found = [any(value & AUTO_FLOW for value in written(bench, MCR, f"stty -F /dev/{HERE} {words}")[0])
             for words in ("crtscts", "-crtscts", "-crtscts")]
    bench.judge("it does flow control itself while the user wants that", found == [True, True, False], found)
    told = bench.run(f"rmmod faults; terminal find /dev/{HERE}; terminal set /dev/{HERE}; cat /sys/class/tty/{HERE}/xmit_fifo_size")
    good, more = bench.transfer(HERE, 2000, 2000)
    bench.judge("a 16550A is found again, with its FIFOs", f"type {C16550A}," in told and "\n16\n" in told and good, told + more)


def loops_back(bench):
    told = bench.run(f"terminal loop /dev/{HERE} 100")
    came = bench.here.drain(0.3)
    bench.judge("with TIOCM_LOOP what is sent comes back, and nothing goes out",
                "loop: sent 100, came 100" in told and not came, f"{told}{came}")
    good, told = bench.transfer(HERE, 500, 500)
    bench.judge("without it again, it goes out", good, told)


def sleep_and_wake(bench):
    """Suspends the machine to memory, and wakes it up. The chips have no power meanwhile."""
    bench.guest.count += 1
    bench.guest.shell.send(b"echo deep > /sys/power/mem_sleep; echo mem > /sys/power/state\n")
    end = CLOCK.now() + 60
    # Not before it sleeps: the emulator forgets what would wake up a machine that is awake.
    while "suspended" not in (status := bench.guest.tell_monitor("info status")):
        if CLOCK.now() > end:
            raise Silent(f"the machine does not sleep: {status}")
        time.sleep(0.1)
    bench.guest.tell_monitor("system_wakeup")
    bench.guest.read_until(rb"shell: done %d (\d+)\r?\n" % bench.guest.count, 120)


def hears_after_sleep(bench):
    bench.own_driver("unbind")
    for more, console_sleeps in ("", "Y"), ("console=1", "N"):
        bench.run(f"rmmod u16550_tty; echo {console_sleeps} > /sys/module/printk/parameters/console_suspend")
        bench.insert(more)
        bench.here.drain(0.5)
        task = bench.task(f"terminal transfer /dev/{HERE} 0 3000 0").ready()
        sleep_and_wake(bench)
        if not more:
            # The program in the guest counts its looks, and not only its seconds: else it has given up here, and receives nothing.
            bench.guest.stall(PATIENCE + 1)
        bench.here.drain(0.5)
        bench.here.exchange(stream(3000, RECEIVED), 0, 10)
        told, wrong = task.result(60), bench.wrong()
        bench.judge(f"a port that is open hears after suspend to memory{', also a console that does not sleep' if more else ''}",
                    "received 3000 of 3000, wrong 0, overruns 0" in told and not wrong, "\n".join([told, *wrong]))


def moves_bytes(bench):
    size = 5_000_000 if bench.whole else 200_000
    good, told = bench.transfer(HERE, size, size, 600)
    bench.judge(f"{size} bytes each way at once, compared at both ends", good, told)


def sets_rates(bench):
    told = bench.run(f"terminal rates /dev/{HERE}")
    wanted = "50:50 110:110 134:134 300:300 9600:9600 31250:28800 38400:38400 57600:57600 74880:57600 100000:115200 115200:115200"
    bench.judge("a rate that the chip does not have becomes the nearest, and is read back", wanted in told, told)
    wanted = "9600:9600 125000:115200 9600:9600 4000000:115200 9600:9600 1:2"
    bench.judge("also one beyond its fastest and its slowest", wanted in told, told)


def opens_and_closes(bench):
    told = bench.run(f"terminal cycles /dev/{HERE} 100", 120)
    bench.judge("opened and closed 100 times, with a byte each time", "cycles: 100, wrong 0" in told, told)
    came = bench.here.drain(1)
    bench.judge("each of these bytes came", came == b"x" * 100, came)


def changes_speed(bench):
    for waits, name in (0, "at once"), (1, "behind what was sent"):
        bench.here.drain(0.3)
        task = bench.task(f"terminal change /dev/{HERE} 40 {waits}").ready()
        came = bench.here.exchange(b"", 40 * 256, 5)
        told = task.result()
        bench.judge(f"the speed changes after each 256 bytes, {name}: all come", came == stream(40 * 256, SENT), f"{told}{len(came)} came")


def changes_speed_while_receiving(bench):
    task = bench.task(f"terminal transfer /dev/{HERE} 0 40000 0").ready()
    bench.run(f"for n in $(seq 1 100); do stty -F /dev/{HERE} 57600; stty -F /dev/{HERE} 115200; done > /dev/null 2>&1 &")
    out = stream(40_000, RECEIVED)
    for at in range(0, len(out), 100):
        bench.here.send(out[at:at + 100])
        time.sleep(0.004)
    told = task.result()
    bench.judge("200 changes of speed while 40,000 bytes come: none is lost", "received 40000 of 40000, wrong 0" in told, told)


def has_modem_lines(bench):
    bench.modem.put(0)
    off = bench.run(f"terminal lines /dev/{MODEM} +rts +dtr")
    raised = bench.modem.outputs()
    bench.modem.put(CONNECTED)
    on = bench.run(f"terminal lines /dev/{MODEM} +dtr -dtr +rts")
    good = ("+dtr: rts 1 dtr 1 cts 0 dsr 0 cd 0" in off and raised & (RTS | DTR) == RTS | DTR and
            "-dtr: rts 1 dtr 0 cts 1 dsr 1 cd 1" in on)
    bench.judge("modem lines go out and come in", good, f"{off}{on}{raised}")


def waits_for_cts(bench):
    bench.modem.put(CARRIER | DSR)
    bench.modem.receive(0.2)
    task = bench.task(f"terminal flow /dev/{MODEM} 5000").ready()
    held = bench.modem.receive(0.5)
    bench.modem.put(CONNECTED)
    came = bench.modem.receive(10, 5000)
    told = task.result()
    bench.judge("without CTS nothing is sent, and all when CTS comes", not held and came == stream(5000, SENT),
                f"{told}{len(held)} before, {len(came)} after")


def sends_at_a_bus(bench):
    """RS-485: RTS switches the transceiver, and no byte goes out while it is off."""
    bench.run(f"stty -F /dev/{MODEM} raw -echo clocal -crtscts 115200")
    for before, behind in (0, 0), (60, 40):
        bench.modem.receive(0.2)
        bench.modem.turns()
        task = bench.task(f"terminal bus /dev/{MODEM} {before} {behind} 700 5").ready()
        came = bench.modem.receive(10, 3500)
        told = task.result()
        sent, lost, was_before, was_behind, turns = bench.modem.turns()
        # It is switched on too when the program leaves the bus, and perhaps when it opens the port.
        good = came == stream(3500, SENT) and (sent, lost) == (3500, 0) and 5 < turns < 8
        good = good and was_before >= before and was_behind >= behind
        bench.judge(f"at a bus RTS is on while bytes go out, {before} ms before and {behind} ms behind them, and off otherwise",
                    good and "bus: sent 3500" in told,
                    f"{told}{len(came)} came, {sent} with RTS, {lost} without, before {was_before}, behind {was_behind}, {turns} turns")
    told = bench.run(f"terminal lines /dev/{MODEM} +rts")
    bench.judge("without a bus RTS is the program's again", "+rts: rts 1" in told and bench.modem.outputs() & RTS, told)


def sends_breaks(bench):
    before = bench.modem.breaks()
    bench.run(f"terminal break /dev/{MODEM} 20")
    bench.judge("a break is sent", bench.modem.breaks() > before)


def send_with_breaks(bench, pieces):
    """Sends these, with a break behind each but the last. Each goes another way into the emulator, so each waits for the one before."""
    for piece in pieces[:-1]:
        bench.here.send(piece)
        time.sleep(0.2)
        bench.guest.tell_monitor("chardev-send-break here")
    bench.here.send(pieces[-1])


def marks_breaks(bench):
    pieces = b"ab", b"cd", b"", b"ef"
    # PARMRK without IGNBRK and BRKINT: a break is 377, 0, 0.
    for iflag, name, wanted in (
            (0o10, "breaks among bytes are marked where they came", "61 62 ff 00 00 63 64 ff 00 00 ff 00 00 65 66"),
            (0, "without PARMRK a break is a zero", "61 62 00 63 64 00 00 65 66"),
            (0o1, "with IGNBRK there is none", "61 62 63 64 65 66")):
        task = bench.task(f"terminal marks /dev/{HERE} {len(wanted.split())} {iflag:o}").ready()
        send_with_breaks(bench, pieces)
        told = task.result()
        bench.judge(name, f"marks: {wanted}, overruns 0, parity 0, frame 0, breaks 3" in told, told)


def obeys_xoff(bench):
    text = b"0123456789\n" * 9000
    bench.here.drain(0.2)
    # This keeps the port open until all has come: a last close by somebody who was killed drops what waits.
    bench.run(f"stty -F /dev/{HERE} raw -echo ixon ixoff -crtscts 115200; sleep 1000 < /dev/{HERE} & echo $! > /tmp/keeper")
    task = bench.task(f"echo ready; yes 0123456789 | head -c {len(text)} > /dev/{HERE}").ready()
    before = bench.here.exchange(b"", 2000, 10)
    bench.here.send(b"\x13")
    # What is under way when XOFF comes.
    late = bench.here.drain(0.5)
    held = bench.here.drain(0.7)
    # Nobody reads. So XOFF has to go out, before all that waits, and while this end has stopped what is sent.
    bench.here.send(b"z" * 4000)
    answer = bench.here.drain(1)
    bench.here.send(b"\x11")
    rest = bench.here.exchange(b"", len(text) - len(before) - len(late) - len(held), 5)
    task.result()
    bench.run("kill $(cat /tmp/keeper)")
    told = f"{len(before)}, {len(late)}, held {len(held)}, {answer}, {len(rest)}"
    bench.judge("XOFF stops what is sent, XON goes on, and nothing is lost", not held and before + late + rest == text, told)
    bench.judge("XOFF goes out while what is sent is stopped", answer == b"\x13", told)


def sends_xoff(bench):
    task = bench.task(f"stty -F /dev/{HERE} raw -echo ixoff -crtscts 115200; (echo ready; sleep 5; cat) < /dev/{HERE} > /tmp/slow &"
                      f" sleep 2; cat /tmp/slow | head -1; sleep 15; killall cat").ready()
    out = stream(60_000, 0).translate(bytes(0x71 if byte in (0x11, 0x13) else byte for byte in range(256)))
    time.sleep(1)
    sent, said, stopped, end = 0, b"", False, time.monotonic() + 15
    while sent < len(out) and time.monotonic() < end:
        news = bench.here.take(0.02)
        said += news
        if news:
            stopped = news[-1:] == b"\x13"
        if not stopped:
            bench.here.send(out[sent:sent + 256])
            sent += 256
    task.result(60)
    length = int(bench.run("wc -c < /tmp/slow").split()[0]) - len("ready\n")
    bench.judge("a slow reader sends XOFF and XON, and loses nothing", b"\x13" in said and b"\x11" in said and length == len(out),
                f"sent {sent}, said {said}, the reader has {length}")


def hangs_up(bench):
    bench.run(f"stty -F /dev/{MODEM} -clocal -crtscts")
    task = bench.task(f"cat /dev/{MODEM}")
    time.sleep(0.5)
    bench.modem.put(CTS | DSR)
    told = task.wait_for("ended", 10)
    bench.judge("without a carrier the terminal is hung up", "ended" in told, told)
    bench.modem.put(CONNECTED)
    bench.run(f"stty -F /dev/{MODEM} clocal")


def logs_in(bench):
    bench.run(f"setsid getty -L {HERE} 115200 vt100 > /dev/null 2>&1 &")
    came = bench.here.until(b"login: ", 20)
    bench.here.send(b"root\n")
    came += bench.here.until(b"# ", 20)
    bench.here.send(b"tty; seq 1 300 | md5sum\n")
    came += bench.here.until(b"  -", 10)
    bench.here.send(b"cat /dev/zero\n")
    time.sleep(0.5)
    bench.here.send(b"\x03")
    bench.here.drain(1)
    bench.here.send(b"echo still $((40+2))\n")
    after = bench.here.until(b"still 42", 10)
    bench.here.send(b"exit\n")
    bench.here.drain(0.5)
    bench.run("killall getty sh 2> /dev/null")
    bench.judge("login, a command, and a command that is interrupted by ^C",
                b"/dev/ttyPV0" in came and b"bf4fa7116e26846bba3502a134f9bcba" in came and b"still 42" in after, came + after)


def moves_files(bench):
    if bench.run("which rz sz").count("/") < 2:
        print("skipped lrzsz: its package cannot be had")
        return
    bench.run("head -c 200000 /dev/urandom > /tmp/file; mkdir -p /tmp/in")
    bench.run(f"for port in {JOINED} {OTHER}; do stty -F /dev/$port raw -echo 115200; done")
    for sender, receiver in (JOINED, OTHER), (OTHER, JOINED):
        task = bench.task(f"cd /tmp/in; (rz -b -q < /dev/{receiver} > /dev/{receiver} 2> /dev/null &); sleep 0.5; "
                          f"sz -b -q /tmp/file < /dev/{sender} > /dev/{sender} 2> /dev/null; sleep 1; cmp /tmp/file /tmp/in/file; "
                          "echo compared $?; rm /tmp/in/file")
        told = task.result(120)
        bench.judge(f"zmodem from {sender} to {receiver}", "compared 0" in told, told)


def carries_ip(bench):
    if not bench.run("which pppd"):
        print("skipped pppd: its package cannot be had")
        return
    bench.run("for m in slhc crc-ccitt ppp_generic ppp_async; do insmod /modules/$m.ko; done; mknod /dev/ppp c 108 0")
    options = "115200 nodetach local noauth nocrtscts"
    task = bench.task(f"(unshare -n pppd /dev/{OTHER} {options} 10.0.0.2:10.0.0.1 > /tmp/far 2>&1 &); "
                      f"(pppd /dev/{JOINED} {options} 10.0.0.1:10.0.0.2 > /tmp/near 2>&1 &); "
                      "n=0; until ifconfig ppp0 2> /dev/null | grep -q 10.0.0.2 || [ $n = 30 ]; do n=$((n+1)); sleep 1; done; "
                      "ping -c 5 -s 1000 10.0.0.2; cat /tmp/near; killall pppd; sleep 2")
    told = task.result(120)
    bench.judge("pppd, and five packets there and back", "5 packets transmitted, 5 packets received" in told, told)


def compares(bench):
    """The same transfers with Linux's own driver and with this one, on one port."""
    alone, both = {}, {OWN: 0, HERE: 0}
    for count in range(1, MOST_ROUNDS + 1):
        for device in OWN, HERE:
            give(bench, device)
            if count == 1:
                alone[device] = one_way(bench, device)
            both[device] += both_ways(bench, device)
        if count > 1 and both[HERE] <= MOST * both[OWN]:
            break
    name = f"interrupts for a thousand bytes, both ways, {count} rounds"
    for device in OWN, HERE:
        alone[device][name] = both[device] / count
    for what, own in alone[OWN].items():
        this = alone[HERE][what]
        bench.judge(f"{what}: {this:.3f}, where Linux's own driver has {own:.3f}", this <= MOST * own)


def costs(bench):
    """Instructions for a byte, with the system calls, in one guest: with Linux's own driver, and with this one."""
    found = {}
    for device in OWN, HERE:
        if device == HERE:
            bench.run("echo $(basename $(dirname $(grep -l 0x2f8 /sys/bus/pnp/drivers/serial/*/resources))) > "
                      "/sys/bus/pnp/drivers/serial/unbind; insmod /modules/u16550_tty.ko")
        for name, size, loops, count in COSTS:
            # The first run brings what the next ones find in the caches of the kernel, and a tick of the clock may fall into any.
            told = [bench.run(f"terminal cost /dev/{device} {count} {size} {loops}", 300) for _ in range(4)]
            found[device, name] = min(float(text.removeprefix("cost: ")) for text in told)
    for name, *_ in COSTS:
        own, this = found[OWN, name], found[HERE, name]
        bench.judge(f"instructions for a byte {name}: {this:.1f}, in Linux's own driver {own:.1f}", this <= own)


def give(bench, device):
    """Lets one of the drivers have the ports."""
    bench.run("rmmod u16550_tty 2> /dev/null")
    bench.own_driver("bind" if device == OWN else "unbind")
    if device == HERE:
        bench.insert()


def one_way(bench, device):
    """Accesses and interrupts a byte, in one direction. Both directions have to be whole."""
    found = {}
    for name, send, receive in ("sent", 1 << 16, 0), ("received", 0, 1 << 16):
        with open(bench.trace, "wb"):
            pass
        before = bench.guest.interrupts(3)
        for event in "serial_read", "serial_write":
            bench.guest.tell_monitor(f"trace-event {event} on")
        good, told = bench.transfer(device, send, receive)
        for event in "serial_read", "serial_write":
            bench.guest.tell_monitor(f"trace-event {event} off")
        with open(bench.trace, encoding="utf-8", errors="replace") as trace:
            found[f"accesses for a byte {name}"] = sum("serial_" in line for line in trace) / (1 << 16)
        bench.judge(f"{device}: 65,536 bytes {name}", good, told)
    # Not of those sent: the emulator's transmitter is empty at once, so that one interrupt sends as much as there is.
    found["interrupts for a thousand bytes received"] = 1000 * (bench.guest.interrupts(3) - before) / (1 << 16)
    return found


def both_ways(bench, device):
    """Interrupts for a thousand bytes, when bytes go both ways. How many each one serves depends on what else the machine does."""
    size = 300_000
    before = bench.guest.interrupts(3)
    good, told = bench.transfer(device, size, size, 300)
    bench.judge(f"{device}: {size} bytes each way at once", good, told)
    return 1000 * (bench.guest.interrupts(3) - before) / (2 * size)


def is_a_console(bench):
    bench.run("rmmod u16550_tty")
    bench.here.drain(0.2)
    bench.insert("console=1")
    bench.here.drain(1)
    bench.run("echo 7 > /proc/sys/kernel/printk")
    task = bench.task(f"stty -F /dev/{HERE} raw -echo 115200; (yes abcdefgh | head -c 30000 > /dev/{HERE}) & "
                      "for n in $(seq 1 50); do echo line $n > /dev/kmsg; done; wait")
    came = bench.here.drain(3)
    task.result()
    # Not before: what the other processor still has to write would be left out.
    bench.run("echo 3 > /proc/sys/kernel/printk")
    lines = re.findall(rb"\[ *\d+\.\d+\] line (\d+)\r\n", came)
    rest = re.sub(rb"\[ *\d+\.\d+\] [^\n]*\n", b"", came)
    bench.judge("the kernel's lines come whole while a program sends, and all of the program's bytes too",
                lines == [b"%d" % n for n in range(1, 51)] and rest == (b"abcdefgh\n" * 4000)[:30_000],
                f"{len(rest)} bytes, and these lines: {b' '.join(lines).decode()}")
    told = bench.run("rmmod u16550_tty; grep ttyPV /proc/interrupts")
    bench.judge("removed while it is a console, it leaves no handler behind", not told.strip(), told)
    bench.insert("console=1")
    told = bench.run(f"uname -r; grep {HERE} /proc/consoles")
    is_new = [int(part) for part in re.match(r"(\d+)\.(\d+)", told).groups()] >= [6, 12]
    bench.judge("it writes from anywhere at once where Linux can have that", ("N" in told.split("(")[1].split(")")[0]) == is_new, told)
    told = bench.run("insmod /modules/faults.ko fault=watchdog; echo 7 > /proc/sys/kernel/printk; echo a text > /dev/kmsg; sleep 0.5; "
                     "echo 3 > /proc/sys/kernel/printk; rmmod faults; dmesg | tail -n 3")
    found = re.search(r"the watchdog was told (\d+) times", told)
    bench.judge("it tells the watchdog with each character that all is well", found and int(found[1]) >= len("a text"), told)


def gives_up_a_broken_chip(bench):
    """On the port to which the kernel's log goes."""
    task = bench.task(f"(echo ready; sleep 3) < /dev/{HERE}").ready()
    bench.run("insmod /modules/faults.ko fault=stuck; echo 7 > /proc/sys/kernel/printk")
    bench.here.send(b"a")
    time.sleep(1)
    told = bench.run("rmmod faults; echo 3 > /proc/sys/kernel/printk; dmesg | tail -3")
    task.result()
    came = bench.here.drain(0.5)
    wanted = f"{HERE}: the chip interrupts without end, and may not until the port is opened or set again: an interrupt without a name"
    bench.judge("a chip that interrupts without end is given up, and the kernel's log says so, also on this port",
                wanted in told and wanted.encode() in came, f"{told}{came}")
    # A console's port stays open.
    bench.run(f"stty -F /dev/{HERE} 9600; stty -F /dev/{HERE} 115200")
    good, told = bench.transfer(HERE, 1000, 1000)
    bench.judge("set again, the port works", good, told)


def debugs(bench):
    """A module that is built for a kernel with kgdb. In the emulator's transmitter there is always room."""
    bench.run("rmmod u16550_tty; insmod /modules/debugged.ko ports=0x2f8 irqs=3")
    # The port is open until all this is done, however long that takes.
    bench.run(f"sleep 1000 < /dev/{HERE} & echo $! > /tmp/keeper")
    bench.here.drain(0.3)
    bench.run("insmod /modules/faults.ko fault=debugger module=debugged")
    stop = bench.task(f"stty -F /dev/{HERE} 9600")
    came = bench.here.until(b"stopped\n", 60)
    bench.here.send(b"g")
    came += bench.here.until(b"g", 60)
    told = stop.result() + bench.run("rmmod faults; kill $(cat /tmp/keeper); usleep 200000")
    good, more = bench.transfer(HERE, 500, 500)
    bench.judge("a debugger talks from the middle of a call, and the port goes on",
                came.endswith(b"stopped\ng") and good, f"{came}{told}{more}")
    bench.run("rmmod debugged")
    bench.insert()


def packet(text):
    """What a debugger sends: a text, and the sum of its characters."""
    return b"$%s#%02x" % (text, sum(text) & 0xFF)


def ask(bench, text):
    """Asks the kernel's debugger something, and returns what it answers."""
    bench.here.send(packet(text))
    came, end = b"", CLOCK.now() + 20
    while not (found := re.search(rb"\$([^#]*)#..", came)) and CLOCK.now() < end:
        came += bench.here.take(0.2)
    bench.here.send(b"+")
    return found[1] if found else came


def talks_to_gdb(bench):
    """The kernel is stopped, and a debugger looks at it over the port, in the protocol of gdb."""
    banner = bench.run("grep ' linux_banner$' /proc/kallsyms").split()[0].encode()
    bench.run(f"stty -F /dev/{HERE} raw -echo 115200; sleep 1000 < /dev/{HERE} & echo $! > /tmp/keeper; "
              f"echo {HERE} > /sys/module/kgdboc/parameters/kgdboc")
    bench.here.drain(0.3)
    # Not before the shell has said that it is done.
    task = bench.task("sleep 2; echo g > /proc/sysrq-trigger")
    bench.here.drain(5)
    why, registers, text = ask(bench, b"?"), ask(bench, b"g"), ask(bench, b"m%s,d" % banner)
    ended = ask(bench, b"D")
    told = task.result() + bench.run("echo > /sys/module/kgdboc/parameters/kgdboc; kill $(cat /tmp/keeper); usleep 200000")
    good, moved = bench.transfer(HERE, 500, 500)
    bench.judge("a debugger stops the kernel, reads its registers and its memory over the port, and lets it go on",
                why[:1] in (b"S", b"T") and len(registers) > 100 and bytes.fromhex(text.decode()) == b"Linux version" and ended == b"OK" and good,
                f"{why}{registers}{text}{ended}{told}{moved}")


def is_removed_while_busy(bench):
    task = bench.task(f"terminal transfer /dev/{HERE} 10000000 0 0").ready()
    bench.here.exchange(b"", 50_000, 5)
    told = bench.run("rmmod u16550_tty; lsmod")
    bench.here.drain(0.3)
    ended = task.result()
    bench.judge("removed while a program sends: it is hung up", "u16550_tty" not in told and "hangup" in ended, told + ended)
    wrong = bench.wrong()
    bench.judge("the kernel and the driver have found nothing wrong until here", not wrong, "\n".join(wrong))


def is_silent(bench):
    """What a kernel that looks after itself has found until here. It looks at locks no more once it has found something."""
    told = bench.run("rmmod u16550_tty; grep debug_locks /proc/lockdep_stats")
    wrong = bench.wrong()
    bench.judge("the kernel has found no memory that is not the module's, and no lock out of order, and still looks",
                re.search(r"debug_locks: +1\n", told) and not wrong, "\n".join([told, *wrong]))


def finds_what_is_planted(bench):
    bench.insert()
    # In this order: who has found memory that was freed looks at locks no more.
    told = bench.run("dmesg -c > /dev/null; for fault in locked freed; do insmod /modules/faults.ko fault=$fault; rmmod faults; done; "
                     "dmesg -c")
    bench.judge("it finds memory that was freed, and a lock out of order, where they are planted",
                "BUG: KASAN" in told and "possible recursive locking" in told, told)
    bench.run("rmmod u16550_tty")


def writes_in_a_panic(bench):
    """Ends the guest, and comes last."""
    bench.insert("console=1")
    bench.here.drain(0.5)
    # The first access comes when the port is opened, in `init`. The guest then stops, and does not start again.
    bench.run(f"echo 0 > /proc/sys/kernel/panic; insmod /modules/faults.ko fault=panic; (sleep 0.5; : > /dev/{HERE}) &")
    came = bench.here.until(b"---[ end Kernel panic - not syncing: in the middle of a call ]---", 30)
    bench.judge("the text of a panic in the middle of a call arrives, with a stack trace through the library",
                came.count(b"in the middle of a call") == 2 and b" u16550_init_with+" in came and b" startup+" in came, came)


QUICK = (takes_no_port_of_another, finds_chips, has_an_early_console, belongs_to_a_device, is_unbound, has_a_card, is_pulled_out, shares_an_interrupt,
         needs_no_interrupt, loses_interrupts, moves_a_port, finds_no_chip, is_another_chip, has_a_divisor_of_its_own, goes_faster, sets_a_trigger,
         has_larger_fifos, loops_back, moves_bytes, sets_rates, changes_speed, has_modem_lines, times_pulses, waits_for_cts, sends_at_a_bus,
         sends_breaks, marks_breaks, obeys_xoff, logs_in, is_a_console, gives_up_a_broken_chip, is_removed_while_busy, writes_in_a_panic)
WHOLE = (takes_no_port_of_another, finds_chips, has_an_early_console, belongs_to_a_device, is_unbound, has_a_card, is_pulled_out, shares_an_interrupt,
         needs_no_interrupt, loses_interrupts, moves_a_port, finds_no_chip, is_another_chip, has_a_divisor_of_its_own, goes_faster, sets_a_trigger,
         has_larger_fifos, loops_back, moves_bytes, sets_rates, opens_and_closes, changes_speed, changes_speed_while_receiving, has_modem_lines,
         times_pulses, waits_for_cts, sends_at_a_bus, sends_breaks, marks_breaks, obeys_xoff, sends_xoff, hangs_up, logs_in, moves_files, carries_ip,
         compares, leaves_processors_asleep, debugs, is_a_console, gives_up_a_broken_chip, is_removed_while_busy, writes_in_a_panic)

# Checks of a machine that sleeps have a guest of their own, with one processor: an emulated PC with two may wake up broken. When it wakes,
# its firmware, SeaBIOS, starts the second processor, while its own memory is protected against writing. So it does not wait until that one
# has come, and cannot free the lock at which that one waits for it. The second processor stays there until Linux resets it. If it comes
# late it does not find the firmware at all, and runs what is at 0x10000: the beginning of the kernel's file.
#
# While it is at the lock, QEMU 7.2 at times gives the first processor flags that no instruction sets, such as dffee26e. Then Linux traps at
# single steps, and comes to a double fault: it resets the machine, or hangs. With Linux 6.12 that was 18 of 59 awakenings, most of them with
# Linux's own driver alone. It was none with one processor, with two in one thread of QEMU, with QEMU 10, or with Linux 6.1.
ASLEEP = (hears_after_sleep,)

# Those in a kernel that looks after itself, which has no network.
DEBUG = (*QUICK[:-2], talks_to_gdb, is_removed_while_busy, is_silent, finds_what_is_planted, writes_in_a_panic)

# Those of a PC whose firmware switches a port on and off, and of a board with a device tree.
SWITCHED = (is_switched_by_firmware,)
COUNTED = (costs,)
BOARD = (flows_by_itself, is_in_a_device_tree, has_a_device_below, sets_rates, opens_and_closes, changes_speed,
         loops_back, marks_breaks, obeys_xoff, logs_in, is_given_back)


def make(checks, machine):
    """Makes checks in a guest. Returns how many things passed and failed.

    An emulator that a signal ends has a fault of its own, whatever the guest did: QEMU 7.2 did so once on a busy machine, behind a card that
    was pulled out. Its checks are made once more, from the first on, and that is said."""
    for is_last in (False, True):
        bench = machine()
        try:
            for check in checks:
                try:
                    check(bench)
                except (Unexpected, OSError, TypeError, ValueError, IndexError) as wrong:
                    bench.judge(check.__name__, False, wrong)
                    if isinstance(wrong, Silent) or bench.guest.process.poll() is not None:
                        break
            has_crashed = (bench.guest.process.poll() or 0) < 0
        finally:
            bench.guest.end()
        if is_last or not has_crashed:
            break
        print("the emulator was ended by a signal: its checks are made once more")
    return bench.passed, bench.failed


def machines(given):
    """Each machine, and the checks that it is for."""
    def work(name):
        os.makedirs(f"{given.work}/{name}", exist_ok=True)
        return f"{given.work}/{name}"

    if given.tree:
        return [(lambda: Board(given, work("board")), BOARD)]
    if given.debug:
        return [(lambda: Ports(given, work("ports"), 2), DEBUG),
                (lambda: Switched(given, work("switched")), (*SWITCHED, is_silent) if given.firmware else ())]
    return [(lambda: Ports(given, work("ports"), 2), WHOLE if given.whole or given.only else QUICK),
            (lambda: Switched(given, work("switched")), SWITCHED if given.firmware else ()),
            (lambda: Counted(given, work("counted")), COUNTED if given.whole or given.only else ()),
            (lambda: Ports(given, work("asleep"), 1), ASLEEP)]


def main():
    parser = argparse.ArgumentParser()
    parser.add_argument("--whole", action="store_true")
    parser.add_argument("--debug", action="store_true")
    parser.add_argument("--only", help="the names of checks, with commas")
    parser.add_argument("--lines", help="what lines.c is built into")
    parser.add_argument("--firmware", help="what firmware.asl is built into")
    parser.add_argument("--tree", help="what a board has beside the emulator's own")
    for name in "work", "kernel", "initramfs":
        parser.add_argument(name)
    given = parser.parse_args()
    passed = failed = 0
    for machine, checks in machines(given):
        if given.only:
            checks = [check for check in checks if check.__name__ in given.only.split(",")]
        if checks:
            more_passed, more_failed = make(checks, machine)
            passed, failed = passed + more_passed, failed + more_failed
    print(f"{passed} passed, {failed} failed")
    return failed > 0


if __name__ == "__main__":
    sys.exit(main())
