#!/usr/bin/env python3
"""Runs one script of serial programs over Linux's own driver and over u16550_tty, in one guest:

    clients.py [--firmware FIRMWARE.aml] WORK KERNEL INITRAMFS
    clients.py --tree TREE.dts WORK KERNEL INITRAMFS

The guest is, one after the other, each of a PC whose firmware describes the port, one whose firmware switches the port on and off, and one in
which it is a card's; or with --tree a board of 64-bit Arm whose device tree describes it. The module finds it without a parameter. The port is
joined to that of another card. Each step of SCRIPT is run with Linux's own driver, and then with the module. What a step prints is to be the
same. Where the module does otherwise, DIFFERENCES has the lines of both and the reason, and a difference that is there no more is a failure
too. A step whose program is not in the guest is skipped by name. The last line is 'N passed, M failed', and the status is 0 if nothing failed.
"""
import argparse
import difflib
import os
import re
import sys
from typing import NamedTuple

sys.dont_write_bytecode = True

from guest import Guest, Task, Unexpected, board, terminal

MODULE = "ttyPV0"

SPEEDS = "50 75 110 134 150 200 300 600 1200 1800 2400 4800 9600 19200 38400 57600 115200 230400 460800"
FRAMES = ("cs5 -parenb -cstopb", "cs6 parenb -parodd cstopb", "cs7 parenb parodd -cstopb", "cs8 parenb -parodd cmspar",
          "cs8 parenb parodd cmspar", "cs8 -parenb -cmspar cstopb", "cs8 -cstopb")
SETTINGS = ("spd_hi", "spd_vhi", "spd_shi", "spd_warp", "spd_cust divisor 24", "spd_normal divisor 0", "low_latency", "^low_latency",
            "close_delay 30", "closing_wait 300", "closing_wait infinite", "baud_base 57600", "baud_base 115200", "session_lockout",
            "^session_lockout", "baud_base 1")
# Those that say which chip it is, and where. A card's, or that of a board, is where it is.
PLACES = ("uart 16450", "uart 8250", "uart 16550A", "irq 0", "irq 3", "uart none", "port 0x2f8 irq 3 uart 16550A", "port 0x3f8", "port 0x2e0",
          "port 0x2f8", "autoconfig", "irq 4000")
# MIN and TIME of a terminal, in tenths of a second, and what comes meanwhile.
READS = ((1, 0, "a byte", "echo -n a > /dev/FAR;"), (4, 0, "two and two", "echo -n ab > /dev/FAR; sleep 0.5; echo -n cd > /dev/FAR;"),
         (0, 3, "nothing", ""), (0, 9, "a byte", "echo -n a > /dev/FAR;"), (5, 3, "a byte", "echo -n a > /dev/FAR;"), (0, 0, "nothing", ""))

# A file that kermit and zmodem carry.
FILE = "head -c 20000 /dev/urandom > /tmp/file"
KERMIT = "set modem type none, set carrier-watch off, set flow-control none, set file type binary, set quiet on"

# The other end's bytes go into a file, until nothing comes any more; and somebody keeps the port open.
COLLECT = "stty -F /dev/FAR raw -echo; (cat /dev/FAR > /tmp/far &); sleep 0.5; "
KEEP = "sleep 3000 < /dev/PORT & "


def shown(command):
    """Prints what a command says, and how it ended."""
    return f"{command} 2>&1; echo status $?"


def received(receiver, command):
    """Receives a file by one command, in a folder of its own, which another command sends."""
    return (f"rm -rf /tmp/in; mkdir /tmp/in; (cd /tmp/in; {receiver} &); sleep 1; {command}; echo status $?; sleep 1; "
            "cmp /tmp/file /tmp/in/file; echo compared $?")


def zmodem(sender, receiver):
    return received(f"rz -b -q < /dev/{receiver} > /dev/{receiver} 2> /dev/null",
                    f"sz -b -q /tmp/file < /dev/{sender} > /dev/{sender} 2> /dev/null")


def kermit(sender, receiver):
    line = "kermit -Y -C '{}, set line /dev/{}, set speed 115200, {}, exit' > /dev/null 2>&1"
    return received(line.format(KERMIT, receiver, "receive"), line.format(KERMIT, sender, "send /tmp/file"))


def reads(least, tenths, send):
    """How many bytes one read returns."""
    return (f"stty -F /dev/PORT raw -echo min {least} time {tenths}; {KEEP}(dd if=/dev/PORT of=/tmp/read bs=100 count=1 2> /dev/null; "
            f"echo read $(wc -c < /tmp/read) > /tmp/size) & reader=$!; sleep 0.4; {send} wait $reader; kill %1; cat /tmp/size")


def setserial(words):
    """Sets something, and shows all."""
    return f"setserial {words}", "setserial", shown(f"setserial /dev/PORT {words}") + "; " + shown("setserial -a /dev/PORT")


def breaks_that_come(guest, port, far):
    """What a program reads when a break comes among bytes, with PARMRK, without, and with IGNBRK. The emulator makes it: a cable of
    sockets carries none."""
    told = ""
    for iflag, count in ("10", 7), ("0", 5), ("1", 4):
        task = Task(guest, f"terminal marks /dev/{port} {count} {iflag}").ready()
        guest.run(f"stty -F /dev/{far} raw -echo; echo -n ab > /dev/{far}; sleep 0.5")
        guest.tell_monitor("chardev-send-break near")
        guest.run(f"echo -n cd > /dev/{far}")
        told += task.result()
    return told


# The name of a step, the program that it needs beside busybox, and what is run: PORT is the port, and FAR its other end; or a function. The
# steps go on from each other.
SCRIPT = [
    ("settings", None, shown("terminal set /dev/PORT") + "; for f in type port irq uartclk flags custom_divisor close_delay closing_wait "
     "io_type iomem_base iomem_reg_shift xmit_fifo_size; do echo $f $(cat /sys/class/tty/PORT/$f); done"),
    ("setserial shows", "setserial", shown("setserial -a /dev/PORT")),
    ("setserial -G", "setserial", "setserial /dev/PORT skip_test; " + shown("setserial -G /dev/PORT")),
    *(setserial(words) for words in SETTINGS),
    ("speeds are read back", None, f"for s in {SPEEDS}; do " + shown("stty -F /dev/PORT $s") + "; stty -F /dev/PORT speed; done; "
     "stty -F /dev/PORT 115200"),
    ("frames are read back", None, "; ".join(
        f"stty -F /dev/PORT {frame}; stty -F /dev/PORT -a | grep -oE '.?(cs[5-8]|parenb|parodd|cmspar|cstopb)' | tr '\\n' ' '; echo"
        for frame in FRAMES)),
    ("bytes at every speed", None, COLLECT + "stty -F /dev/PORT raw -echo; " + KEEP +
     f"for s in {SPEEDS}; do stty -F /dev/FAR $s 2> /dev/null; stty -F /dev/PORT $s 2> /dev/null; echo at $s > /dev/PORT; done; sleep 1; "
     "kill $!; killall cat; cat /tmp/far; stty -F /dev/FAR 115200; stty -F /dev/PORT 115200"),
    ("setserial spd_cust sets the divisor", "setserial", "setserial /dev/PORT spd_cust divisor 12; stty -F /dev/PORT 38400; "
     "stty -F /dev/PORT speed; stty -F /dev/FAR 9600; (head -c 5 /dev/FAR > /tmp/far &); sleep 0.3; echo four > /dev/PORT; sleep 1; "
     "cat /tmp/far; setserial /dev/PORT spd_normal divisor 0; stty -F /dev/FAR 115200; stty -F /dev/PORT 115200"),
    ("what 38,400 baud becomes", "setserial", "for f in spd_hi spd_vhi spd_shi 'spd_cust divisor 24' 'spd_normal divisor 0'; do "
     "setserial /dev/PORT $f; stty -F /dev/PORT 38400 2>&1; stty -F /dev/PORT speed; done; stty -F /dev/PORT 115200"),
    ("modem lines", None, shown("terminal lines /dev/PORT +rts +dtr -rts -dtr +dtr +rts")),
    ("loopback", None, shown("terminal loop /dev/PORT 200")),
    ("breaks that are sent", None, shown("terminal break /dev/PORT 50")),
    ("breaks that come", None, breaks_that_come),
    ("a change of speed behind each 256 bytes", None, COLLECT + "terminal change /dev/PORT 20 1; sleep 1; killall cat; wc -c < /tmp/far"),
    ("two readers", None, "stty -F /dev/PORT raw -echo min 1 time 0; (cat /dev/PORT > /tmp/one &); (cat /dev/PORT > /tmp/two &); "
     "sleep 0.5; cat /tmp/file > /dev/FAR; sleep 2; killall cat; cat /tmp/one /tmp/two | wc -c"),
    ("a reader that is killed, and the next", None, "(cat /dev/PORT > /tmp/one &); sleep 0.3; killall cat; "
     "(head -c 5 /dev/PORT > /tmp/two &); sleep 0.3; echo next > /dev/FAR; sleep 0.5; cat /tmp/two"),
    *((f"MIN {least} TIME {tenths}, {what}", None, reads(least, tenths, send)) for least, tenths, what, send in READS),
    ("canonical", None, "stty -F /dev/PORT sane -echo 115200; (head -n 1 /dev/PORT > /tmp/read &); sleep 0.4; "
     r"printf 'abc\177d\rxyz' > /dev/FAR; sleep 0.5; cat /tmp/read; stty -F /dev/PORT raw -echo min 1 time 0"),
    ("XOFF and XON", None, "stty -F /dev/PORT raw -echo ixon; stty -F /dev/FAR -ixon; " + KEEP + COLLECT +
     r"printf '\023' > /dev/FAR; sleep 0.3; echo held > /dev/PORT & sleep 0.5; echo before $(wc -c < /tmp/far); "
     r"printf '\021' > /dev/FAR; sleep 0.5; echo after $(wc -c < /tmp/far); kill %1; killall cat; stty -F /dev/PORT -ixon"),
    ("flushed input", None, "stty -F /dev/PORT raw -echo min 0 time 5; " + KEEP + "echo lost > /dev/FAR; sleep 0.5; "
     "terminal transfer /dev/PORT 0 0 0; (dd if=/dev/PORT bs=100 count=1 2> /dev/null | wc -c); kill %1; stty -F /dev/PORT min 1 time 0"),
    ("zmodem out", "sz", zmodem("PORT", "FAR")),
    ("zmodem in", "sz", zmodem("FAR", "PORT")),
    ("kermit out", "kermit", kermit("PORT", "FAR")),
    ("kermit in", "kermit", kermit("FAR", "PORT")),
    ("picocom", "picocom", "stty -F /dev/FAR raw -echo 9600; (head -c 5 /dev/FAR > /tmp/far; echo -n heard > /dev/FAR) & "
     "sleep 0.3; picocom -q -b 9600 -t hello -x 1500 /dev/PORT < /dev/null 2>&1; echo status $?; cat /tmp/far; stty -F /dev/FAR 115200"),
    ("what the kernel counts", None, "cat /proc/tty/driver/DRIVER | grep -i 'BASE' | sed 's/^[0-9]*: //; s/[rt]x:[0-9]*//g'"),
    ("what the kernel's log says", None, "dmesg -c | grep -E 'WARNING|BUG|Oops|overrun|too much work'"),
]

# Before this step those of PLACES are made, where a port can be elsewhere.
BEGIN = SCRIPT.index(setserial("baud_base 1"))

# The steps in which the module does otherwise, in all places or in one: as an expression for the lines of Linux's own driver, `-`, and of the
# module, `+`; and why.
DIFFERENCES = {
    "settings": (r"-flags 0x1[01]000040\n\+flags 0x10000000\n",
                 "Linux's own driver believes the firmware that there is a chip, and skips a test; of a card it knows that its interrupt is shared"),
    ("in a tree", "settings"): (r"-flags 0xB9000000\n\+flags 0x30000000\n",
                                "Linux's own driver lets nobody change the type on a board, and knows that the interrupt is shared"),
    ("in a tree", "setserial shows"): ("", ""),
    "setserial shows": (r"-.*Flags: spd_normal skip_test\n\+.*Flags: spd_normal\n", "the same"),
    "setserial uart 8250": (r"-status 0\n-.*UART: 8250,.*\n\+.*Invalid argument\n\+status 1\n\+.*UART: 16450,.*\n",
                            "the module drives no chip without a scratch register"),
}


class Place(NamedTuple):
    """A guest with a port: its terminal with Linux's own driver, that of its other end, and what gives it to the module."""
    guest: Guest
    own: str
    far: str
    give: str
    script: list


CARD, FAR_CARD = "0000:00:04.0", "0000:00:05.0"
INSERT = "insmod /modules/u16550_tty.ko"


def joined(work, near):
    """Two ports that are joined: this one, and that of a card."""
    return ["-chardev", f"socket,id=near,path={work}/joined,server=on,wait=off", "-device", f"{near},chardev=near",
            "-chardev", f"socket,id=far,path={work}/joined,server=off", "-device", "pci-serial,chardev=far,addr=5"]


def terminal_of(guest, card):
    return guest.run(terminal(f"/sys/bus/pci/devices/{card}")).strip()


def described(given):
    """A port of a PC that firmware describes."""
    guest = Guest(given.work, given.kernel, given.initramfs, joined(given.work, "isa-serial,iobase=0x2f8,irq=3"), processors=2)
    device = re.search(r"serial/(00:\w+)/resources", guest.run("grep -l 0x2f8 /sys/bus/pnp/drivers/serial/*/resources"))[1]
    return Place(guest, "ttyS1", terminal_of(guest, FAR_CARD), f"echo {device} > /sys/bus/pnp/drivers/serial/unbind; {INSERT}",
                 [*SCRIPT[:BEGIN], *(setserial(words) for words in PLACES), *SCRIPT[BEGIN:]])


def switched(given):
    """One that firmware switches on and off. At boot its chip's card and its device are both found, and the card has the port in the end."""
    guest = Guest(given.work, given.kernel, given.initramfs,
                  [*joined(given.work, "pci-serial,addr=4"), "-acpitable", f"file={given.firmware}"],
                  console="ttyS5", shell="ttyS5", processors=2)
    device = guest.run("grep -l SWIT /sys/bus/pnp/devices/*/firmware_node/path").strip().removesuffix("/firmware_node/path")
    way = f"echo {os.path.basename(device)} > /sys/bus/pnp/drivers/serial"
    told = guest.run(f"echo {CARD} > /sys/bus/pci/drivers/serial/unbind; {way}/unbind; {way}/bind; {terminal(device)}")
    return Place(guest, told.split()[-1], terminal_of(guest, FAR_CARD), f"{way}/unbind; {INSERT}", SCRIPT)


def card(given):
    """One of a card, which the module has by its numbers."""
    guest = Guest(given.work, given.kernel, given.initramfs, joined(given.work, "pci-serial,addr=4"), processors=2)
    return Place(guest, terminal_of(guest, CARD), terminal_of(guest, FAR_CARD),
                 f"echo {CARD} > /sys/bus/pci/drivers/serial/unbind; {INSERT}; echo 1b36 0002 > /sys/bus/pci/drivers/u16550_tty/new_id", SCRIPT)


def in_a_tree(given):
    """One in memory, which a device tree describes."""
    guest = Guest(given.work, given.kernel, given.initramfs, joined(given.work, "pci-serial,addr=1"), console="ttyAMA0", shell="ttyAMA0",
                  processors=2, machine=board(given.tree, given.work))
    own = guest.run(terminal("/sys/bus/platform/devices/3eff1000.serial")).strip()
    return Place(guest, own, terminal_of(guest, FAR_CARD), f"echo 3eff1000.serial > /sys/bus/platform/drivers/of_serial/unbind; {INSERT}",
                 SCRIPT)


def normal(text, port, far):
    """What does not depend on which of the two ports it is."""
    text = re.sub(r", Line \d+,", ", Line 0,", text.replace(port, "PORT").replace(far, "FAR"))
    return re.sub(r"^sh: .*\n|^\[\d+\].*\n", "", text, flags=re.M)


def without_alarms(text):
    """A text without what the kernel wrote between its lines. An interrupt that comes when its handler has just gone is told at the most
    urgent level, which cannot be kept from the console. In a guest on a busy machine that happens to Linux's own driver now and then."""
    return re.sub(r"^\[ *\d+\.\d+\] __common_interrupt: .* No irq handler for vector\n", "", text, flags=re.M)


def play(place, port, driver, programs):
    """What each step prints."""
    guest, told = place.guest, {}
    # Where its registers are, as the kernel writes that.
    base = guest.run(f"cat /sys/class/tty/{port}/port /sys/class/tty/{port}/iomem_base | sed 's/^0x//' | grep -v '^0$'").strip()
    for name, program, words in place.script:
        if program and program not in programs:
            continue
        if callable(words):
            text = words(guest, port, place.far)
        else:
            words = words.replace("PORT", port).replace("FAR", place.far).replace("DRIVER", driver).replace("BASE", base)
            text = guest.run(words, 120)
        told[name] = normal(text, port, place.far)
    return told


def changes(own, module):
    """The lines in which two texts differ."""
    return "".join(f"{line}\n" for line in difflib.unified_diff(own.splitlines(), module.splitlines(), n=0, lineterm="")
                   if not line.startswith(("---", "+++", "@@")))


def compare(name, place):
    """Runs the script with both drivers. Returns how many steps passed and failed."""
    passed = failed = 0
    programs = place.guest.run("cd /bin; ls").split()
    for program in sorted({program for _, program, _ in place.script if program} - set(programs)):
        print(f"skipped the steps with {program}: it is not in the guest")
    place.guest.run(f"mkdir -p /var/lock /tmp; {FILE}; dmesg -c > /dev/null")
    own = play(place, place.own, "serial", programs)
    place.guest.run(f"{place.give}; dmesg -c > /dev/null")
    module = play(place, MODULE, "u16550_tty", programs)
    for step, text in own.items():
        # Of the module nothing is left out: an alarm of its own would be a difference.
        found, (wanted, reason) = changes(without_alarms(text), module[step]), DIFFERENCES.get((name, step), DIFFERENCES.get(step, ("", "")))
        good = re.fullmatch(wanted, found) is not None
        print(f"{name}, {step}: {'ok' if good else 'failed'}{f' (differs: {reason})' if good and found else ''}", flush=True)
        passed, failed = passed + good, failed + (not good)
        if not good:
            print("".join(f"    {line}\n" for line in f"{found}is not the difference that is listed:\n{wanted}".splitlines()), end="")
    return passed, failed


def main():
    parser = argparse.ArgumentParser()
    parser.add_argument("--firmware", help="what firmware.asl is built into")
    parser.add_argument("--tree", help="what a board has beside the emulator's own")
    for name in "work", "kernel", "initramfs":
        parser.add_argument(name)
    given = parser.parse_args()
    places = [in_a_tree] if given.tree else [described, *([switched] if given.firmware else []), card]
    work, passed, failed = given.work, 0, 0
    for find in places:
        given.work = f"{work}/{find.__name__}"
        os.makedirs(given.work, exist_ok=True)
        place = None
        try:
            place = find(given)
            more_passed, more_failed = compare(find.__name__.replace("_", " "), place)
            passed, failed = passed + more_passed, failed + more_failed
        except (Unexpected, OSError, TypeError, IndexError) as wrong:
            print(f"the script: failed\n    {wrong}")
            failed += 1
        finally:
            if place:
                place.guest.end()
    print(f"{passed} passed, {failed} failed")
    return failed > 0


if __name__ == "__main__":
    sys.exit(main())
