"""What the scripts of this folder share: files by their content, what is kept of earlier proofs and tests on this machine, commands that
count, and how their time is told.

A script here imports it by `sys.dont_write_bytecode = True; import gate`: Python looks beside the script first.
"""
import contextlib
import fcntl
import functools
import hashlib
import json
import os
import pathlib
import re
import subprocess
import sys
import tempfile
import threading
import time
from collections.abc import Callable, Iterable, Iterator, Sequence
from typing import Any, NamedTuple, NoReturn

TOP = pathlib.Path(__file__).resolve().parent.parent
COUNTED = re.compile(r"^(\d+) passed, (\d+) failed")
# The committed counts, and a line of them.
COUNTS = TOP / ".ci" / "counts"
LEAST = re.compile(r"^ *(\d+) ([^,]+)(?:, (\d+) without (.+))?$")
# How a line names what failed.
FAILURE = re.compile(r"FAILED|: failed\b")
BEGAN = time.monotonic()


def store() -> pathlib.Path:
    """Returns the folder of what is kept: for each user of a machine, and beside no checkout, so that clones share it. Without a home that
    can be written to it is a folder for temporary files, and another user's is never taken."""
    caches = pathlib.Path(os.environ.get("XDG_CACHE_HOME") or pathlib.Path.home() / ".cache")
    for folder in (caches / "geesetrunk", pathlib.Path(tempfile.gettempdir()) / f"geesetrunk-{os.geteuid()}"):
        with contextlib.suppress(OSError):
            folder.mkdir(0o700, parents=True, exist_ok=True)
            if folder.stat().st_uid == os.geteuid() and os.access(folder, os.W_OK):
                return folder
    return pathlib.Path(tempfile.mkdtemp(prefix="geesetrunk-"))


STORE = store()
# Whether nothing counts that an earlier run kept. What is kept can be written by each process of a user: so a test, an example or a build
# script of a change could say that the change passed. The machine that lands changes has CI=true, and the nightly says CI=full. The eraser
# and ./prove ask for the second word.
IS_ANEW = os.environ.get("CI") in ("true", "full") or bool(os.environ.get("GEESETRUNK_ANEW"))
if IS_ANEW:
    os.environ["GEESETRUNK_ANEW"] = "1"


def sum_of(*told: object) -> str:
    """Returns a sum of texts, numbers, lists and tuples of them."""
    return hashlib.sha256(repr(told).encode()).hexdigest()


def files() -> dict[str, str]:
    """Returns a sum of the content of each file of the checkout, by its name. Git is asked for names alone: those that it knows, and those
    that it would add. What it is told to ignore is made by commands."""
    listed = subprocess.run(
        ["git", "-C", TOP, "ls-files", "-z", "--cached", "--others", "--exclude-standard"], capture_output=True, check=True
    ).stdout
    found = {}
    for name in sorted({os.fsdecode(one) for one in listed.split(b"\0") if one}):
        path = TOP / name
        if path.is_symlink():
            found[name] = f"link {os.readlink(path)}"
        elif path.is_file():
            found[name] = f"{os.access(path, os.X_OK)} {hashlib.sha256(path.read_bytes()).hexdigest()}"
    return found


# ---- what is kept on this machine


def kept(kind: str, key: str) -> dict[str, Any] | None:
    """Returns what was kept under a key, or None. One that is not whole counts for nothing."""
    if IS_ANEW:
        return None
    with contextlib.suppress(OSError, ValueError, KeyError, TypeError):
        told: dict[str, Any] = json.loads((STORE / kind / key).read_text(encoding="utf-8"))
        if told["key"] == key:
            os.utime(STORE / kind / key)
            return told
    return None


def keep(kind: str, key: str, told: dict[str, Any], most: int = 5000) -> None:
    """Keeps what is told under a key: written apart and renamed, so that nobody reads half of it. Of each kind as many are kept as `most`,
    and those that were not read for the longest time go first. Nothing is kept on a full disk."""
    folder, name = STORE / kind, None
    with contextlib.suppress(OSError):
        folder.mkdir(0o700, parents=True, exist_ok=True)
        try:
            with tempfile.NamedTemporaryFile("w", dir=folder, prefix="new-", delete=False, encoding="utf-8") as made:
                name = made.name
                json.dump({"key": key, **told}, made)
            os.replace(name, folder / key)
        except OSError:
            if name:
                os.unlink(name)
            raise
        entries = sorted((one.stat().st_mtime, one.path) for one in os.scandir(folder))
        for _, path in entries[: max(len(entries) - most, 0)]:
            with contextlib.suppress(OSError):
                os.unlink(path)


@contextlib.contextmanager
def in_turn(name: str, what: str) -> Iterator[bool]:
    """Waits while another run on this machine has the lock of this name, and says so. Gives whether it had to wait. The lock of a process
    that dies is free."""
    folder = STORE / "locks"
    folder.mkdir(0o700, parents=True, exist_ok=True)
    with open(folder / name, "w", encoding="utf-8") as lock:
        has_waited = False
        try:
            fcntl.flock(lock, fcntl.LOCK_EX | fcntl.LOCK_NB)
        except BlockingIOError:
            has_waited = True
            print(f"{what}: another run on this machine does the same; waiting for it", flush=True)
            fcntl.flock(lock, fcntl.LOCK_EX)
        yield has_waited


# ---- commands


class Least(NamedTuple):
    """How many a command counts at least, and how many if it skips what it `needs`, which not every machine can install. One that needs
    nothing may skip, and counts as many."""

    whole: int = 1
    few: int = 1
    needs: str = ""

    def line(self, words: str) -> str:
        return f"{self.whole:>5} {words}" + (f", {self.few} without {self.needs}" if self.needs else "")


@functools.cache
def leasts() -> dict[str, Least]:
    """Returns what the committed counts say, by the words of each command."""
    told: dict[str, Least] = {}
    for line in COUNTS.read_text(encoding="utf-8").splitlines():
        found = LEAST.match(line)
        if found:
            told[found[2]] = Least(int(found[1]), int(found[3] or found[1]), found[4] or "")
        elif line and not line.startswith("#"):
            sys.exit(f".ci/counts: neither a count with a command nor a comment: {line}")
    return told


class Command:
    """A command of the repository that counts what passed: its words, the commands that it waits for, and how much it gives way to others.

    A command that counts less than its line of `.ci/counts` has failed, and one without a line if it tests nothing."""

    def __init__(self, words: str, after: Sequence[str] = (), nice: int = 0) -> None:
        self.words, self.after, self.nice = words, after, nice
        self.least, self.has_counted = leasts().get(words, Least()), False
        self.passed = self.failed = self.skipped = 0
        self.wall = self.cpu = 0.0
        self.status, self.is_running = "not run", False
        self.lines: list[str] = []

    def run(self, out: Callable[[str], None] | None = None, counts: bool = True) -> None:
        """Runs the command and counts what it came to. With `out` each line is handed to that at once."""
        start, self.lines, self.is_running = time.monotonic(), [], True
        began = subprocess.Popen(
            ["nice", "-n", str(self.nice), *self.words.split()],
            cwd=TOP,
            stdin=subprocess.DEVNULL,
            stdout=subprocess.PIPE,
            stderr=subprocess.STDOUT,
            text=True,
            errors="replace",
        )
        assert began.stdout
        for line in began.stdout:
            self.lines.append(line.rstrip("\n"))
            if out:
                out(self.lines[-1])
        _, status, used = os.wait4(began.pid, 0)
        began.returncode = os.waitstatus_to_exitcode(status)
        self.is_running, self.wall, self.cpu = False, time.monotonic() - start, used.ru_utime + used.ru_stime
        counted = COUNTED.match(self.lines[-1]) if self.lines else None
        if counted:
            self.passed, self.failed = int(counted[1]), int(counted[2])
        self.skipped = sum(line.startswith("skipped") for line in self.lines)
        # One that fails without counting a failure is a failure, and so is one that was cut off before it counted.
        self.failed = self.failed or int(began.returncode != 0 or counts and not counted)
        self.has_counted = counts and not self.failed
        least = self.enough(self.skipped > 0)
        self.status = "failed" if self.failed else "passed" if self.passed or not counts else f"tested nothing: it needs {self.least.needs}"
        if self.has_counted and self.passed < least:
            self.fail(f"{self.passed} counted, and {least} is the least: are checks gone?")

    def enough(self, skips: bool) -> int:
        """Returns how many it has to count."""
        return self.least.few if skips else self.least.whole

    def fail(self, why: str) -> None:
        """Counts one failure, for a reason that the command does not say itself."""
        self.failed, self.status = max(self.failed, 1), f"failed: {why}"
        self.lines.append(f"FAILED: {why}")


# ---- how time is told


class Prover(NamedTuple):
    """A prover that runs: what it proves, its processor seconds with those of its ended children, and when it began."""

    what: str
    cpu: float
    began: float


def ticks(stat: list[str]) -> tuple[float, float]:
    """Returns the processor seconds of a process with its ended children, and when it began, of the words of its stat behind its name."""
    hertz = os.sysconf("SC_CLK_TCK")
    return sum(int(stat[at]) for at in (11, 12, 13, 14)) / hertz, int(stat[19]) / hertz


def provers(root: int) -> dict[int, Prover]:
    """Returns the provers that run below a process: by their number what each proves, its processor seconds and when it began."""
    told: dict[int, Prover] = {}
    parents: dict[int, int] = {}
    for number in filter(str.isdecimal, os.listdir("/proc")):
        with contextlib.suppress(OSError, IndexError, ValueError):
            stat = pathlib.Path(f"/proc/{number}/stat").read_text(encoding="utf-8", errors="replace").rpartition(")")[2].split()
            parents[int(number)] = int(stat[1])
            words = pathlib.Path(f"/proc/{number}/cmdline").read_bytes().decode(errors="replace").split("\0")
            if os.path.basename(words[0]) == "rattle" and "--crate-name" in words:
                name = words[words.index("--crate-name") + 1]
                what = "its tests" if "--test" in words else "" if words[1] == "build" else "a wrong body"
                told[int(number)] = Prover(f"{name}: {what}" if what else name, *ticks(stat))
    # A prover forks copies of itself: they are counted by the first.
    found: dict[int, Prover] = {}
    for process, one in told.items():
        above, seen = parents.get(process), set[int]()
        while above and above != root and above not in told and above not in seen:
            seen.add(above)
            above = parents.get(above)
        if above == root:
            found[process] = one
    return found


class Clock:
    """Says each minute what is running, and adds up what each proof takes. `running` returns the commands that run."""

    def __init__(self, say: Callable[[str], None], running: Callable[[], list[str]], minute: float = 60) -> None:
        self.say, self.running, self.minute = say, running, minute
        self.proofs: dict[str, tuple[int, float, float]] = {}
        self.last: dict[int, Prover] = {}
        self.over = threading.Event()
        self.thread = threading.Thread(target=self.watch, daemon=True)

    def __enter__(self) -> "Clock":
        self.thread.start()
        return self

    def __exit__(self, *_: object) -> None:
        self.over.set()
        self.thread.join()
        self.note({})

    def note(self, found: dict[int, Prover]) -> None:
        """Adds up the provers that have ended. What one does in its last second is not seen."""
        for number in self.last.keys() - found.keys():
            what, cpu, began = self.last[number]
            count, wall, used = self.proofs.get(what, (0, 0.0, 0.0))
            self.proofs[what] = count + 1, wall + time.clock_gettime(time.CLOCK_BOOTTIME) - began, used + cpu
        self.last = found

    def watch(self) -> None:
        told = time.monotonic()
        while not self.over.wait(1):
            with contextlib.suppress(OSError):
                self.note(provers(os.getpid()))
            if time.monotonic() - told >= self.minute:
                told = time.monotonic()
                proving = sorted({what for what, *_ in self.last.values()})
                names = [*self.running(), *([f"the prover on {', '.join(proving)}"] if proving else [])]
                self.say(f"{time.monotonic() - BEGAN:6.0f} s: at work: {'; '.join(names) or 'nothing'}")

    def table(self) -> list[str]:
        """Returns the rows of the proofs that took longest."""
        rows = sorted(self.proofs.items(), key=lambda one: -one[1][2])
        head = [f"\n| {'proof':<42} | times | seconds | cpu s |", f"|{'-' * 44}|{'-' * 7}|{'-' * 9}|{'-' * 7}|"] if rows else []
        return head + [f"| {what:<42} | {count:>5} | {wall:>7.0f} | {cpu:>5.0f} |" for what, (count, wall, cpu) in rows]


def table(commands: Iterable[Command]) -> list[str]:
    """Returns the rows of commands with what each counted and took."""
    head = [f"\n| {'command':<42} | passed | failed | skipped | seconds | cpu s |", f"|{'-' * 44}|{'-' * 8}|{'-' * 8}|{'-' * 9}|{'-' * 9}|{'-' * 7}|"]
    return head + [
        f"| {one.words[:42]:<42} | {one.passed:>6} | {one.failed:>6} | {one.skipped:>7} | {one.wall:>7.0f} | {one.cpu:>5.0f} |" f" {one.status}"
        for one in commands
    ]


def what_failed(commands: Iterable[Command], most: int = 10) -> list[str]:
    """Returns of each command that failed the lines that name what did, or its last ones if none does: who has the end of a log alone is to
    know why."""
    told = []
    for one in (one for one in commands if one.failed):
        named = [line for line in one.lines if FAILURE.search(line)] or one.lines[-most:]
        told += [f"{one.words}: {line[:300]}" for line in named[:most]]
        told += [f"{one.words}: and {len(named) - most} more"] if len(named) > most else []
    return told


def last_line(commands: Sequence[Command]) -> str:
    """Returns what all commands came to. What was skipped is counted only if something was."""
    passed, failed, skipped = (sum(getattr(one, what) for one in commands) for what in ("passed", "failed", "skipped"))
    return f"{passed} passed, {failed} failed" + (f", {skipped} skipped" if skipped else "")


def main_of(call: Callable[[], int | None]) -> NoReturn:
    """Ends the script with the status that a call returns; a reader of its output that leaves, or Ctrl-C, ends it without a trace."""
    try:
        sys.exit(call())
    except (BrokenPipeError, KeyboardInterrupt):
        os._exit(130)
