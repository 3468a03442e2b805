#!/usr/bin/env python3
"""Whether the checks find a line of the driver that is gone, or another one in its place:

    planted.py build FOLDER TO STRIP MAKE..     builds the module with each of PLANTED, of the sources in FOLDER
    planted.py run [--tree TREE.dts] [--lines LINES.so] WORK KERNEL INITRAMFS

Each check of check.py that PLANTED names is made in a guest, with the module as it is, and has to pass. Then it is made with each of its
lines, and has to fail in the way that PLANTED names. Most checks do the same with Linux's own driver. Where one does not, BESIDE asks in the
same guest what that driver does. The last line is 'N passed, M failed', and the status is 0 if nothing failed.
"""
import argparse
import os
import re
import subprocess
import sys
from typing import Callable, NamedTuple

sys.dont_write_bytecode = True

import check as checks
from check import CARD, OWN, Board, Ports
from guest import Guest, Unexpected


class Plant(NamedTuple):
    """A line, what stands in its place, the check that is to fail, and what of that fails: the beginning of its name."""
    name: str
    file: str
    old: str
    new: str
    check: Callable
    fails: str


PLANTED = [
    Plant("no file rx_trig_bytes", "tty.c", "\tline->port.attr_group = &attribute_group;\n", "",
          checks.sets_a_trigger, "rx_trig_bytes says and sets"),
    Plant("a trigger level that the chip is not told", "tty.c",
          "\t\tstatus = u16550_set_trigger_level(&line->uart, line->config.fifo_trigger_level);\n", "\t\tstatus = U16550_OK;\n",
          checks.sets_a_trigger, "rx_trig_bytes says and sets"),
    Plant("a level that is not rounded", "tty.c", "wanted < 4 ? 1 : wanted < 8 ? 4 : wanted < 14 ? 8 : 14;", "wanted;",
          checks.sets_a_trigger, "rx_trig_bytes says and sets"),
    Plant("a 16750 that is not told that its FIFOs hold 64", "tty.c",
          "int status = u16550_enable_64_byte_fifos(&line->uart, &enabled);", "int status = U16550_OK;",
          checks.has_larger_fifos, "a 16750 is found"),
    Plant("FIFOs that are not measured", "tty.c", "status = u16550_find_fifo_size(&line->uart, &size);", "status = U16550_OK;",
          checks.has_larger_fifos, "a 16750 is found"),
    Plant("bursts of 16 for any FIFO", "tty.c", "return u16550_set_fifo_size(&line->uart, rounddown_pow_of_two(size));", "return U16550_OK;",
          checks.has_larger_fifos, "a 16750 is found"),
    Plant("a 16750 that is told once, and not when it is opened", "tty.c", "\t\tu16550_enable_64_byte_fifos(&line->uart, &enabled);\n", "\t\t;\n",
          checks.has_larger_fifos, "one that has forgotten it"),
    Plant("a 16750 that does no flow control", "tty.c", "\tline->has_auto_flow |= enabled;\n", "",
          checks.has_larger_fifos, "it does flow control itself"),
    Plant("the clock of a PC for any chip", "tty.c", "divisor ? 16 * divisor : line->port.uartclk;", "divisor ? 16 * divisor : FREQUENCY;",
          checks.goes_faster, "with a clock eight times as fast"),
    Plant("no rate that is not exact", "tty.c", "u16550_nearest(&config, 1000, &config)", "u16550_nearest(&config, 1, &config)",
          checks.sets_rates, "a rate that the chip does not have"),
    Plant("a rate that is read back as it was asked for", "tty.c", "\t\ttty_termios_encode_baud_rate(new, baud, baud);\n", "\t\t;\n",
          checks.sets_rates, "a rate that the chip does not have"),
    Plant("no rate beyond the chip's", "tty.c", "\tif (asked && asked != had)\n", "\tif (0)\n",
          checks.sets_rates, "also one beyond its fastest"),
    Plant("no interrupt for PPS", "tty.c", "\t\tport->flags |= UPF_HARDPPS_CD;\n", "\t\t;\n",
          checks.times_pulses, "kernel PPS has the time"),
    Plant("nobody is told that DCD changed", "tty.c", "\t\tuart_handle_dcd_change(port, msr & UART_MSR_DCD);\n", "\t\t;\n",
          checks.times_pulses, "kernel PPS has the time"),
    Plant("no RS-485", "tty.c", "\tif (!line->is_design_ware) {\n\t\tline->port.rs485_config", "\tif (false) {\n\t\tline->port.rs485_config",
          checks.sends_at_a_bus, "at a bus RTS is on while bytes go out, 0 ms"),
    Plant("no delay before the first byte at a bus", "tty.c", "line->turn = rs485->delay_rts_before_send ? TURNS : SENDS;", "line->turn = SENDS;",
          checks.sends_at_a_bus, "at a bus RTS is on while bytes go out, 60 ms"),
    Plant("no delay behind the last byte at a bus", "tty.c", "wait_at_bus(line, rs485->delay_rts_after_send,", "wait_at_bus(line, 0,",
          checks.sends_at_a_bus, "at a bus RTS is on while bytes go out, 60 ms"),
    Plant("a transceiver that is never given back", "tty.c", "\twait_at_bus(line, 0, line->port.frame_time);\n}\n\n/* Forgets", "}\n\n/* Forgets",
          checks.sends_at_a_bus, "at a bus RTS is on while bytes go out, 0 ms"),
    Plant("who uses a chip that is gone is not hung up", "tty.c", "\t\ttty_port_tty_hangup(&line->port.state->port, false);\n", "",
          checks.is_pulled_out, "is_pulled_out: not ended"),
    Plant("nobody asks whether the chip is gone", "tty.c", "failed(line, \"is_gone\", u16550_is_gone(&line->uart, &is_gone));", "",
          checks.is_pulled_out, "is_pulled_out: not ended"),
    Plant("a card that leaves its terminal", "pci.c", "\tu16550_tty_remove(&device->dev);\n", "",
          checks.has_a_card, "when it is pulled out"),
    Plant("an interrupt that somebody else has taken is waited for", "tty.c", "\thas_found |= send_what_waits(line);\n", "",
          checks.loses_interrupts, "all is sent, though no interrupt"),
    Plant("an idle port wakes a processor for each look", "tty.c", "\t\tmod_timer(&line->idle_timer, jiffies + LOOK);\n",
          "\t\tmod_timer(&line->timer, jiffies + LOOK);\n",
          checks.leaves_processors_asleep, "an idle port leaves processors asleep"),
    Plant("an early console that sends nothing", "early.c", "\tu16550_send_bytes_exact(&uart, &character, 1, NULL);\n", "\t;\n",
          checks.has_an_early_console, "the early console writes"),
    Plant("an early console that sets nothing up", "early.c", "status == U16550_OK ? u16550_init_with(&uart, &config, &setup) : status;", "status;",
          checks.has_an_early_console, "its speed is set"),
    Plant("a console that writes by a thread alone, or with a lock", "tty.c", ".flags = CON_PRINTBUFFER | CON_NBCON,", ".flags = CON_PRINTBUFFER,",
          checks.is_a_console, "it writes from anywhere at once"),
    Plant("a watchdog that is not told", "tty.c", "\ttouch_nmi_watchdog();\n", "",
          checks.is_a_console, "it tells the watchdog with each character"),
    Plant("a panic in the middle of a call, without a second driver", "tty.c", "\tif (context->unsafe_takeover)\n\t\ttake_over(line);\n", "",
          checks.writes_in_a_panic, "the text of a panic in the middle of a call arrives"),
    Plant("a console that cannot write at once", "tty.c", "\t.write_atomic = write_atomic,\n", "",
          checks.writes_in_a_panic, "the text of a panic in the middle of a call arrives"),
    Plant("a chip that is not told to do flow control", "tty.c", "\t\toutputs |= U16550_MCR_AUTO_FLOW;\n", "\t\t;\n",
          checks.flows_by_itself, "with `auto-flow-control` the chip does it"),
    Plant("flow control that the user does not want", "tty.c", "line->has_auto_flow && (new->c_cflag & CRTSCTS);", "line->has_auto_flow;",
          checks.flows_by_itself, "with `auto-flow-control` the chip does it"),
    Plant("a port of another device's, which has none below it", "tty.c", "\tline->port.dev = device;\n", "\tline->port.dev = device->parent;\n",
          checks.has_a_device_below, "a device that the device tree describes below a port"),
]
OF_THE_BOARD = checks.flows_by_itself, checks.has_a_device_below
# What begins without the module, and what ends the guest.
WITHOUT_MODULE = checks.flows_by_itself, checks.writes_in_a_panic
LAST = checks.writes_in_a_panic,


def planted(is_board, only):
    """Those of a board or of a PC, with their numbers."""
    return [(number, plant) for number, plant in enumerate(PLANTED)
            if (plant.check in OF_THE_BOARD) == is_board and (not only or plant.check.__name__ in only.split(","))]


def module_of(plant):
    """The module that has the file."""
    return "early_text" if plant.file == "early.c" else "u16550_tty"


# ---- building

def build(given):
    os.makedirs(given.to, exist_ok=True)
    for number, plant in planted(given.board, given.only):
        folder = f"{given.folder}/{module_of(plant)}"
        path = f"{folder}/{plant.file}"
        with open(path, encoding="utf-8") as file:
            text = file.read()
        if text.count(plant.old) != 1:
            sys.exit(f"planted.py: this is {text.count(plant.old)} times in {plant.file}: {plant.old}")
        try:
            with open(path, "w", encoding="utf-8") as file:
                file.write(text.replace(plant.old, plant.new))
            subprocess.run([*given.make, f"M={folder}", "modules"], check=True)
            subprocess.run([given.strip, "-g", "-o", f"{given.to}/{number}.ko", f"{folder}/{module_of(plant)}.ko"], check=True)
        finally:
            with open(path, "w", encoding="utf-8") as file:
                file.write(text)
    return False


# ---- what Linux's own driver does in the same guest

def faults_of_own(bench, fault):
    """Makes a fault in the accesses of Linux's own driver to the chip whose other end is here. Another function has the same name, below."""
    reads, writes = (bench.run(f"grep ' {name}$' /proc/kallsyms | tail -n 1").split()[0] for name in ("io_serial_in", "io_serial_out"))
    return bench.run(f"insmod /modules/faults.ko fault={fault} reads_at=0x{reads} writes_at=0x{writes} base=0x2f8")


def rates_beside(bench):
    """It says that the rate is the one that was asked for, and one beyond its fastest leaves the one before."""
    return bench.run(f"terminal rates /dev/{OWN}")


def bus_beside(bench):
    """It has none at the ports of a PC."""
    return bench.run("terminal bus /dev/ttyS0 0 0 700 5 2>&1")


def fifos_beside(bench):
    """Debian's takes a 16750 for a 16550A. One that the user names so is not told that its FIFOs hold 64, and does no flow control."""
    told = "found: " + faults_of_own(bench, "fifos") + bench.run(f"terminal find /dev/{OWN} > /dev/null; terminal set /dev/{OWN}")
    told += "named: " + bench.run(f"terminal set /dev/{OWN} type={checks.C16750}; echo 64 once opened: "
                                  f"$(cat /sys/module/faults/parameters/has_64 < /dev/{OWN})")
    values, _ = checks.written(bench, checks.MCR, f"stty -F /dev/{OWN} crtscts; stty -F /dev/{OWN} -crtscts")
    bench.run(f"rmmod faults; terminal set /dev/{OWN} type={checks.C16550A}")
    return f"{told}flow control: {any(value & checks.AUTO_FLOW for value in values)}\n"


def lost_interrupt_beside(bench):
    """It waits for ever."""
    told = faults_of_own(bench, "stolen")
    good, more = bench.transfer(OWN, 5000, 0)
    bench.run("rmmod faults")
    return f"{told}all came: {good}\n{more}"


def gone_beside(bench):
    """Nobody hangs up who reads."""
    bench.run(f"echo {CARD} > /sys/bus/pci/drivers/serial/unbind")
    base = int(bench.run(f"head -n 1 /sys/bus/pci/devices/{CARD}/resource").split()[0], 0)
    irq = bench.run(f"cat /sys/bus/pci/devices/{CARD}/irq").strip()
    told = bench.run(f"terminal set /dev/{NOBODYS_NUMBER} baud_base=115200 port={base:#x} irq={irq} type={checks.C16550A}")
    try:
        told += str(checks.pull_out(bench, NOBODYS_NUMBER))
    except Unexpected as wrong:
        told += str(wrong)
    bench.run(f"killall cat; terminal set /dev/{NOBODYS_NUMBER} type=0 port=0 irq=0")
    checks.put_in(bench)
    return told + "\n"


def console_beside(bench):
    """That of the shell is its console: no text is written from anywhere at once, and the watchdog is told once for each."""
    told = bench.run("uname -r; cat /proc/consoles")
    return told + bench.run("insmod /modules/faults.ko fault=watchdog module=serial8250; echo 7 > /proc/sys/kernel/printk; "
                            "echo a text > /dev/kmsg; sleep 0.5; echo 3 > /proc/sys/kernel/printk; rmmod faults; dmesg | tail -n 1")


def early_beside(bench):
    """In a kernel that has it from its start, which is another guest. The other end of its port is a file."""
    work = f"{bench.guest.work}/early"
    os.makedirs(work)
    guest = Guest(work, bench.given.kernel, bench.given.initramfs,
                  ["-chardev", f"file,path={work}/heard,id=heard", "-device", "isa-serial,chardev=heard,iobase=0x2f8,irq=3"],
                  append="earlycon=uart8250,io,0x2f8,115200 ignore_loglevel")
    guest.end()
    with open(f"{work}/heard", encoding="utf-8", errors="replace") as file:
        return file.readline()


# A terminal of Linux's own driver that has no chip.
NOBODYS_NUMBER = "ttyS6"
# Of each check that does not compare the two: what is run with Linux's own driver, and what it comes to.
BESIDE = {
    checks.has_an_early_console: (early_beside, r"ignoring loglevel setting"),
    checks.sets_rates: (rates_beside, r"31250:31250 .* 125000:9600 9600:9600 4000000:9600 "),
    checks.has_larger_fifos: (fifos_beside, r"found: set: done, type 4,[^:]*named: set: done, type 8,.*\n64 once opened: N\nflow control: False"),
    checks.sends_at_a_bus: (bus_beside, r"TIOCSRS485: Inappropriate ioctl for device"),
    checks.is_pulled_out: (gone_beside, r"set: done, type 4, .*\nnot ended"),
    checks.loses_interrupts: (lost_interrupt_beside, r"all came: False"),
    checks.is_a_console: (console_beside, r"ttyS4 +-W- \(EC  p a\)(.*\n)+.*the watchdog was told 1 times"),
}


# ---- running

class Host:
    """A guest for checks, which is started when there is none."""

    def __init__(self, given):
        self.given, self.bench, self.judged = given, None, []
        self.guests = self.passed = self.failed = 0

    def count(self, name, good, told):
        """Counts what was to be found, and shows what was judged."""
        self.passed, self.failed = self.passed + bool(good), self.failed + (not good)
        print(f"{name}: {'ok' if good else 'failed'}\n{told}", end="", flush=True)

    def end(self):
        if self.bench:
            self.bench.guest.end()
        self.bench = None

    def start(self):
        self.guests += 1
        work = f"{self.given.work}/{self.guests}"
        os.makedirs(work)
        self.bench = Board(self.given, work) if self.given.tree else Ports(self.given, work, 2)
        self.bench.judge = lambda name, good, told="": self.judged.append((name, good, str(told)))
        self.bench.given = self.given
        self.bench.run("mkdir /modules/sound; cp /modules/*.ko /modules/sound")

    def clean(self):
        """Leaves nothing of the check before. Linux's own driver has each port."""
        bench = self.bench
        bench.run("killall sleep cat head dd yes stty terminal 2> /dev/null; rmmod faults; rmmod echo; rmmod early_text; rmmod u16550_tty; "
                  "cp /modules/sound/*.ko /modules")
        if self.given.tree:
            bench.run("for port in 3eff1000 3eff1008; do echo $port.serial > /sys/bus/platform/drivers/of_serial/bind; done")
        else:
            bench.own_driver("bind")
            bench.modem.put(checks.CONNECTED)
        bench.here.drain(0.2)
        bench.take_log()
        bench.log = ""

    def make(self, check, module="", path=""):
        """Makes a check with the module as it is, or with another one. Returns what it has judged."""
        self.judged = []
        try:
            if not self.bench:
                self.start()
            self.clean()
            if path:
                self.bench.run(f"cp {path} /modules/{module}.ko")
            if not self.given.tree:
                self.bench.own_driver("unbind")
            if check not in WITHOUT_MODULE:
                self.bench.run(f"insmod /modules/u16550_tty.ko {'' if self.given.tree else checks.PORTS}")
            check(self.bench)
        except (Unexpected, OSError, TypeError, ValueError, IndexError) as wrong:
            self.judged.append((f"{check.__name__}: {wrong}", False, ""))
            self.end()
        if check in LAST:
            self.end()
        return self.judged

    def ask(self, question):
        """Asks something of Linux's own driver, in the guest in which the check was made."""
        if not self.bench:
            self.start()
        self.clean()
        return question(self.bench)


def shown(judged):
    """What was judged, with why it failed."""
    return "".join(f"    {name}: {'ok' if good else 'failed'}\n" + ("" if good else "".join(f"        {line}\n" for line in told.splitlines()[-8:]))
                   for name, good, told in judged)


def try_check(host, check, plants):
    """Makes a check with the module as it is, and with each of the lines that it is to find; and asks what Linux's own driver does there."""
    judged = host.make(check)
    host.count(f"{check.__name__} passes with the module as it is", judged and all(good for _, good, _ in judged), shown(judged))
    for number, plant in plants:
        judged = host.make(check, module_of(plant), f"/modules/planted/{number}.ko")
        found = any(name.startswith(plant.fails) and not good for name, good, _ in judged)
        host.count(f"{check.__name__} finds {plant.name}", found, shown(judged))
    if check in BESIDE:
        ask, wanted = BESIDE[check]
        told = host.ask(ask)
        host.count(f"{check.__name__} beside Linux's own driver", re.search(wanted, told) is not None,
                   "".join(f"    {line}\n" for line in told.splitlines()))


def run(given):
    os.makedirs(given.work, exist_ok=True)
    plants, host = planted(bool(given.tree), given.only), Host(given)
    for check in dict.fromkeys(plant.check for _, plant in plants):
        try_check(host, check, [(number, plant) for number, plant in plants if plant.check == check])
    host.end()
    print(f"{host.passed} passed, {host.failed} failed")
    return host.failed > 0


def main():
    parser = argparse.ArgumentParser()
    parts = parser.add_subparsers(required=True)
    part = parts.add_parser("build")
    part.add_argument("--only", help="the names of checks, with commas")
    part.add_argument("--board", action="store_true", help="what is tried on a board")
    for name in "folder", "to", "strip":
        part.add_argument(name)
    part.add_argument("make", nargs=argparse.REMAINDER)
    part.set_defaults(do=build)
    part = parts.add_parser("run")
    part.add_argument("--only", help="the names of checks, with commas")
    part.add_argument("--lines", help="what lines.c is built into")
    part.add_argument("--tree", help="what a board has beside the emulator's own")
    for name in "work", "kernel", "initramfs":
        part.add_argument(name)
    part.set_defaults(do=run, debug=False, whole=False)
    given = parser.parse_args()
    return given.do(given)


if __name__ == "__main__":
    sys.exit(main())
