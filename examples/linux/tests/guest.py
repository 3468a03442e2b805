"""Linux in an emulator, the other ends of its serial ports, and what runs in it."""
import glob
import re
import select
import signal
import socket
import subprocess
import threading
import time
from typing import NamedTuple

SENT, RECEIVED = 3, 9  # the streams of terminal.c
PIECE = 4096
BOOT = 180  # seconds


def stream(count, seed):
    """The bytes that terminal.c sends and expects."""
    return bytes((n * 167 + (n >> 8) * 13 + (n >> 16) * 7 + seed) & 0xFF for n in range(count))


def terminal(device):
    """A command that prints the terminal of a device, which is some folders below it in a newer kernel."""
    return f"find {device}/ -path '*/tty/tty*' -prune 2> /dev/null | sed 's,.*/,,'"


class Unexpected(Exception):
    """What the guest did otherwise."""


class Silent(Unexpected):
    """The guest, or its emulator, does not answer. It can be asked nothing more."""


class Clock:
    """Time in which the emulator, or this program, could do something. While their threads wait for a processor, one after the other, it all
    but stands still, so that a bound of so many seconds is a bound on what was done, and not on what else the machine does. It goes on by a
    twentieth, so that each wait has an end."""

    def __init__(self):
        self.process, self.time, self.waited, self.spent = None, time.monotonic(), {}, 0

    def now(self):
        time_now, waited = time.monotonic(), {}
        for path in glob.glob(f"/proc/{self.process}/task/*/schedstat") + glob.glob("/proc/self/task/*/schedstat"):
            try:
                with open(path, encoding="ascii") as file:
                    waited[path] = int(file.read().split()[1]) / 1e9
            except (OSError, IndexError):
                pass  # the thread has ended, or the kernel does not tell
        without = sum(waited[path] - self.waited.get(path, waited[path]) for path in waited)
        self.spent += max((time_now - self.time) / 20, time_now - self.time - without)
        self.time, self.waited = time_now, waited
        return self.spent


CLOCK = Clock()


class Line:
    """The other end of a serial port. It reads whatever comes at once: a guest that sends byte by byte soon fills a socket."""

    def __init__(self, path):
        end = time.monotonic() + 20
        while True:
            self.socket = socket.socket(socket.AF_UNIX)
            try:
                self.socket.connect(path)
                break
            except OSError:
                if time.monotonic() > end:
                    raise
                time.sleep(0.05)
        self.found, self.news = bytearray(), threading.Condition()
        threading.Thread(target=self.read, daemon=True).start()

    def read(self):
        try:
            while piece := self.socket.recv(1 << 16):
                with self.news:
                    self.found += piece
                    self.news.notify()
        except OSError:
            pass  # the guest has ended; who waits for more sees that

    def take(self, seconds):
        """What has come. Waits so long for something."""
        with self.news:
            if not self.found:
                self.news.wait(seconds)
            came, self.found = bytes(self.found), bytearray()
        return came

    def exchange(self, out, wanted, idle):
        """Sends, and receives so many bytes at once. Ends when nothing has moved for so many seconds. Returns what came."""
        came, sent, last = bytearray(), 0, CLOCK.now()
        while (sent < len(out) or len(came) < wanted) and CLOCK.now() - last < idle:
            piece = self.take(0 if sent < len(out) else 0.05)
            came += piece
            moved = len(piece)
            if sent < len(out) and select.select([], [self.socket], [], 0.01)[1]:
                moved = self.socket.send(out[sent:sent + PIECE], socket.MSG_DONTWAIT)
                sent += moved
            if moved:
                last = CLOCK.now()
        return bytes(came)

    def send(self, out):
        """Sends, and leaves what comes."""
        self.socket.sendall(out)

    def drain(self, seconds):
        """What comes until nothing has come for so long."""
        return self.exchange(b"", 1 << 40, seconds)

    def until(self, wanted, seconds):
        """What comes, up to these bytes."""
        came, end = b"", CLOCK.now() + seconds
        while wanted not in came and CLOCK.now() < end:
            came += self.take(0.2)
        return came


class Task:
    """A command that runs in the guest beside others. What it prints is in a file there."""

    def __init__(self, guest, command):
        guest.tasks += 1
        self.guest, self.file = guest, f"/tmp/task{guest.tasks}"
        guest.run(f"({command}; echo ended $?) > {self.file} 2>&1 &")

    def text(self):
        return self.guest.run(f"cat {self.file}")

    def wait_for(self, word, seconds):
        """Waits until a line begins with this, and returns what was printed until then."""
        tries = f"n=0; until grep -q '^{word}' {self.file} || [ $n = {int(seconds * 10)} ]; do n=$((n+1)); usleep 100000; done"
        return self.guest.run(f"{tries}; cat {self.file}", seconds * 3 + 30)

    def ready(self):
        """Waits until the port is open and set up."""
        self.wait_for("ready", 30)
        return self

    def result(self, seconds=60):
        text = self.wait_for("ended", seconds)
        if "\nended " not in text and not text.startswith("ended "):
            raise Unexpected(f"not ended after {seconds} seconds: {text}")
        return text


class Machine(NamedTuple):
    """An emulated machine, with a port for a shell, which is named when Linux is started."""
    emulator: list
    shell: list
    append: str


# The shell's port is that of a PCI card. no_timer_check: a processor that the machine has no time for sees no tick of the timer, and Linux
# would panic. earlyprintk: a panic before the console is there is heard too, on the card, which is the first device of the bus that is not
# the board's own.
PC = Machine(["qemu-system-x86_64", "-cpu", "max", "-m", "512"], ["-device", "pci-serial,chardev=shell"],
             "no_timer_check earlyprintk=pciserial,00:02.0,115200")


def board(more, work):
    """The board that QEMU calls `virt`, with what is added to its device tree. Its shell is at a port of another kind."""
    emulator = ["qemu-system-aarch64", "-cpu", "cortex-a72", "-m", "512"]
    subprocess.run([*emulator, "-smp", "2", "-machine", f"virt,dumpdtb={work}/own.dtb"], check=True, capture_output=True)
    told = subprocess.run(["dtc", "-q", "-I", "dtb", "-O", "dts", f"{work}/own.dtb"], check=True, capture_output=True).stdout
    with open(more, "rb") as file:
        told += file.read()
    subprocess.run(["dtc", "-q", "-I", "dts", "-O", "dtb", "-o", f"{work}/tree.dtb", "-"], input=told, check=True)
    return Machine([*emulator, "-machine", "virt", "-dtb", f"{work}/tree.dtb"], ["-serial", "chardev:shell"], "")


class Guest:
    """A guest with a shell, which runs one line after the other. On a PC its port is the fifth."""

    def __init__(self, work, kernel, initramfs, more, append="", processors=1, environment=None, console="ttyS4", shell="ttyS4", machine=PC):
        self.work, self.tasks, self.count, self.found, self.monitor = work, 0, 0, b"", None
        # What the kernel does not know is a variable of the first program.
        append = f"console={console} shell={shell} 8250.nr_uarts=8 panic=-1 quiet {machine.append} {append}"
        with open(f"{work}/qemu.log", "wb") as log:
            self.process = subprocess.Popen(
                [*machine.emulator, "-accel", "tcg", "-smp", str(processors), "-display", "none",
                 "-nodefaults", "-no-reboot", "-kernel", kernel, "-initrd", initramfs, "-append", append,
                 "-chardev", f"socket,id=shell,path={work}/shell,server=on,wait=on", *machine.shell,
                 "-monitor", f"unix:{work}/monitor,server=on,wait=off", *more],
                stdin=subprocess.DEVNULL, stderr=log, env=environment)
        CLOCK.process = self.process.pid
        self.shell = Line(f"{work}/shell")
        self.read_until(rb"shell: ready\r?\n", BOOT)

    def read_until(self, pattern, seconds):
        """What the shell prints before this."""
        end = CLOCK.now() + seconds
        while not (match := re.search(pattern, self.found)):
            if self.process.poll() is not None or CLOCK.now() > end:
                raise Silent(f"the guest's shell: no {pattern}, {self.state()}. Its console ends with:\n"
                             f"{self.found[-1500:].decode(errors='replace')}")
            self.found += self.shell.take(0.2)
        before, self.found = self.found[:match.start()], self.found[match.end():]
        self.last = match
        return before.decode(errors="replace").replace("\r", "")

    def state(self):
        """What the emulator does, and what it has said."""
        with open(f"{self.work}/qemu.log", encoding="utf-8", errors="replace") as log:
            said = log.read().strip()
        ended = self.process.poll()
        return ("the emulator runs" if ended is None else f"the emulator ended with {ended}") + f" {said}".rstrip()

    def run(self, command, seconds=60):
        """Runs a command, and returns what it prints."""
        self.count += 1
        self.shell.send(f"{command}\n".encode())
        text = self.read_until(rb"shell: done %d (\d+)\r?\n" % self.count, seconds)
        self.status = int(self.last[1])
        return text

    def stall(self, seconds):
        """Stops the emulator for so long, as a machine does that has no time for it: the guest's clock goes on meanwhile."""
        self.process.send_signal(signal.SIGSTOP)
        time.sleep(seconds)
        self.process.send_signal(signal.SIGCONT)

    def tell_monitor(self, command):
        """Runs a command of the emulator."""
        if not self.monitor:
            self.monitor = socket.socket(socket.AF_UNIX)
            self.monitor.settimeout(20)
            self.monitor.connect(f"{self.work}/monitor")
            self.monitor_text()
        self.monitor.sendall(command.encode() + b"\n")
        return self.monitor_text()

    def monitor_text(self):
        text = b""
        while not text.endswith(b"(qemu) "):
            piece = self.monitor.recv(PIECE)
            if not piece:
                self.process.wait(20)
                raise Silent(f"the emulator's monitor: {self.state()}")
            text += piece
        return text.decode(errors="replace")

    def interrupts(self, number):
        """How many interrupts there were."""
        for row in self.run("cat /proc/interrupts").splitlines():
            words = row.split()
            if words and words[0] == f"{number}:":
                return sum(int(word) for word in words[1:] if word.isdigit())
        return 0

    def end(self):
        self.process.terminate()
        self.process.wait()
