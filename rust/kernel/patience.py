"""How long to wait for a machine that sends nothing: by what it does, and not by a clock.

On a busy computer a machine may get no processor for a long time, and be well all the same. So a second counts only if the machine had what
it needs: it used a second of the processor, or all of its threads slept. A machine that waits for a processor loses nothing by it.
"""
import os
import select
import time

LOOK = 0.1  # seconds from one look at a machine to the next
# A machine that neither works, nor sleeps, nor sends, as one that a debugger holds, is given up after so many times its seconds.
MOST = 100


def threads(number):
    """The states of a process's threads: R runs or waits for a processor, S sleeps. None if there is no such process."""
    states = []
    for thread in os.listdir(f"/proc/{number}/task"):
        try:
            with open(f"/proc/{number}/task/{thread}/stat", encoding="utf-8", errors="replace") as file:
                states.append(file.read().rpartition(")")[2].split()[0])
        except FileNotFoundError:
            # It has ended meanwhile.
            pass
    return states


def used(number):
    """The seconds of the processor that a process has used."""
    with open(f"/proc/{number}/stat", encoding="utf-8", errors="replace") as file:
        words = file.read().rpartition(")")[2].split()
    return (int(words[11]) + int(words[12])) / os.sysconf("SC_CLK_TCK")


class Patience:
    """What is left of the patience with a machine, or with machines that wait for each other."""

    def __init__(self, machines, seconds):
        self.numbers, self.seconds = [machine.pid for machine in machines], seconds
        self.renew()

    def renew(self):
        """To be called when something was sent."""
        self.slept, self.began, self.work = 0.0, time.monotonic(), self.worked()

    def worked(self):
        return sum(used(number) for number in self.numbers if os.path.exists(f"/proc/{number}/stat"))

    def is_lost(self):
        """Looks at the machines once. They were given this look's time, if all of them slept."""
        if not os.path.isdir("/proc/self/task"):
            return time.monotonic() - self.began > self.seconds
        states = [state for number in self.numbers if os.path.isdir(f"/proc/{number}/task") for state in threads(number)]
        if all(state in "SZ" for state in states):
            self.slept += LOOK
        return (self.slept > self.seconds or self.worked() - self.work > self.seconds
                or time.monotonic() - self.began > MOST * self.seconds)

    def run_out(self):
        """Waits until it is lost, whatever is sent: a pause in which the machine works, on a busy computer too."""
        while not self.is_lost():
            time.sleep(LOOK)

    def can_read(self, file):
        """Waits until there is something to read, or the end. Whether there is."""
        while not select.select([file], [], [], LOOK)[0]:
            if self.is_lost():
                return False
        self.renew()
        return True

    def end(self, machine):
        """Waits for the end of a machine. Returns its status, or None."""
        while machine.poll() is None:
            time.sleep(LOOK)
            if self.is_lost():
                return None
        return machine.returncode
