"""The crates of crates.txt, and how the kit proves and builds each: for `./prove`, and for the scripts of `.ci` that prove.

What is made of a crate is kept for each user of the machine, under the sum of all that it was made from. A script imports this by
`sys.path.insert(0, ".../tools/common"); import proving`.
"""
from __future__ import annotations

import concurrent.futures
import contextlib
import hashlib
import json
import os
import re
import shutil
import subprocess
import sys
import tempfile
import time
from collections.abc import Callable

ROOT = os.path.dirname(os.path.dirname(os.path.dirname(os.path.abspath(__file__))))
if not shutil.which("rt"):
    sys.exit("prove: there is no command `rt`: this needs the kit")
KIT = os.path.dirname(subprocess.run(["rt", "doc"], check=True, capture_output=True, text=True).stdout.strip())
CORES = len(os.sched_getaffinity(0))


def read(name: str) -> bytes:
    with open(name, "rb") as file:
        return file.read()


class Crate:
    """A line of crates.txt, whose libraries have lines above it."""

    def __init__(self, line: str, crates: dict[str, Crate]) -> None:
        self.name, _, uses = line.partition(":")
        self.line = line
        self.folder = os.path.join(ROOT, "crates", self.name)
        self.is_program = os.path.exists(os.path.join(self.folder, "src", "main.rt"))
        self.uses: list[Crate] = [crates[used] for used in uses.split() if used in crates]
        self.of_kit = ["std", *(used for used in uses.split() if used not in crates)]
        self.below: list[Crate] = list(dict.fromkeys(one for used in self.uses for one in (*used.below, used)))

    def files(self) -> dict[str, bytes]:
        """Returns the contents of the crate's files but its tests, by their paths."""
        walks = (os.walk(os.path.join(self.folder, part)) for part in ("src", "specs", "proofs"))
        names = sorted(os.path.join(top, file) for walk in walks for top, _, files in walk for file in files)
        return {name: read(name) for name in names if "/src/tests" not in name}

    def size(self) -> int:
        """Returns how many bytes of code the crate has. Lemmas take little of a proof's time."""
        return sum(len(text) for name, text in self.files().items() if name.endswith(".rt"))

    def sum(self) -> str:
        """Returns a sum of all that the crate is proved from: its files, its line of crates.txt, the kit, and the libraries below as they
        were built. The file `format` of a library has the sums of its others."""
        libraries = [(one.name, read(os.path.join(one.made(), "format"))) for one in self.below]
        inputs = [read(os.path.join(KIT, "KIT-ID")), self.line, list(self.files().values()), libraries]
        names = [os.path.relpath(name, self.folder) for name in self.files()]
        return hashlib.sha256(repr((names, inputs)).encode()).hexdigest()

    def made(self) -> str:
        """Returns the file or folder that is made of the crate."""
        parts = [self.name] if self.is_program else ["rlib", f"{self.name}.rlib"]
        return os.path.join(self.folder, "out", *parts)


def reading(crate: Crate, jobs: int, made: Callable[[Crate], str] = Crate.made) -> list[str]:
    """Returns the words by which the kit's compiler reads a crate, over the libraries below it, each at the place that `made` says."""
    root = "src/main.rt" if crate.is_program else "src/lib.rt"
    words = [root, "--crate-name", crate.name, "--jobs", str(jobs)]
    words += ["--antt-project", f"{KIT}/rattle/logic/antt-project.json", "--logic-built", f"{KIT}/logic_built"]
    rlibs = {name: f"{KIT}/rlibs/{name}.rlib" for name in crate.of_kit} | {one.name: made(one) for one in crate.uses}
    words += [word for name, rlib in rlibs.items() for word in ("--extern", f"{name}={rlib}")]
    folders = dict.fromkeys([f"{KIT}/rlibs", *(os.path.dirname(made(one)) for one in crate.below)])
    words += [word for folder in folders for word in ("-L", f"dependency={folder}")]
    return words


def commands(crate: Crate, jobs: int) -> list[list[str]]:
    """Returns the commands that prove and build a crate."""
    words, tools = [f"{KIT}/bin/rattle", "build", *reading(crate, jobs)], ["--toolchain", f"{KIT}/toolchain"]
    if crate.is_program:
        link = [f"{KIT}/bin/rattle-link", "--target", "x86_64-unknown-linux-gnu", *tools, "-o", crate.made(), f"{crate.made()}.o"]
        return [[*words, *tools, "-o", f"{crate.made()}.o"], [*link, f"{KIT}/c/libos_c.a", f"{KIT}/c/liblibc_c.a"]]
    return [[*words, "--statements", "-o", crate.made()]]


def is_kept(crate: Crate, found: str) -> bool:
    """Returns whether what is made of a crate was made by an earlier run from files with this sum."""
    made, kept = crate.made(), f"{crate.made()}.sum"
    is_newer = os.path.exists(made) and os.path.exists(kept) and os.path.getmtime(made) <= os.path.getmtime(kept)
    return is_newer and read(kept) == found.encode()


# What was made on this machine: beside no checkout, and only for this user. The most that it may hold, in bytes.
STORE = os.path.join(os.environ.get("XDG_CACHE_HOME") or os.path.expanduser("~/.cache"), "geesetrunk", "proved")
STORE_MOST = 6_000_000_000


def sums_of(top: str) -> list[list[str]]:
    """Returns the names and sums of all files of what is made, a file or a folder."""
    if os.path.isfile(top):
        return [["", hashlib.sha256(read(top)).hexdigest()]]
    walked = ((at, name) for at, _, names in os.walk(top) for name in names)
    files = sorted(os.path.join(at, name) for at, name in walked)
    return [[os.path.relpath(file, top), hashlib.sha256(read(file)).hexdigest()] for file in files]


def copy_of(made: str, to: str) -> None:
    """Copies what is made of a crate: a file or a folder."""
    if os.path.isdir(made):
        shutil.copytree(made, to)
    else:
        shutil.copy2(made, to)


def take(crate: Crate, found: str) -> bool:
    """Takes what an earlier run on this machine made of files with this sum, and returns whether it could. One that is not as it was
    written counts for nothing, and with GEESETRUNK_ANEW none does: each process of the user could have written it."""
    if os.environ.get("GEESETRUNK_ANEW"):
        return False
    at = os.path.join(STORE, f"{crate.name}-{found}")
    try:
        if os.lstat(STORE).st_uid != os.geteuid():
            return False
        with open(os.path.join(at, "made.json"), encoding="utf-8") as file:
            told = json.load(file)
        if told["sum"] != found or sums_of(os.path.join(at, "made")) != told["files"]:
            return False
        shutil.rmtree(crate.made(), ignore_errors=True)
        os.makedirs(os.path.dirname(crate.made()), exist_ok=True)
        copy_of(os.path.join(at, "made"), crate.made())
        # It is newer than its sources, for what asks by time whether it is to be made again.
        os.utime(crate.made())
        os.utime(at)
        if sums_of(crate.made()) != told["files"]:
            return False
        # A program may have been left by another build than that of its sum.
        with open(f"{crate.made()}.sum", "w", encoding="utf-8") as file:
            file.write(found)
        return True
    except (OSError, ValueError, KeyError, TypeError):
        return False


def keep(crate: Crate, found: str) -> None:
    """Keeps what was made, written apart and renamed, so that another run takes all of it or nothing. A full disk keeps nothing."""
    at = os.path.join(STORE, f"{crate.name}-{found}")
    with contextlib.suppress(OSError):
        os.makedirs(STORE, 0o700, exist_ok=True)
        room = tempfile.mkdtemp(prefix=f"new-{os.getpid()}-", dir=STORE)
        try:
            copy_of(crate.made(), os.path.join(room, "made"))
            with open(os.path.join(room, "made.json"), "w", encoding="utf-8") as file:
                json.dump({"sum": found, "files": sums_of(os.path.join(room, "made"))}, file)
            # One of the same sum that is there was not whole, or else it would have been taken.
            shutil.rmtree(at, ignore_errors=True)
            os.rename(room, at)
        finally:
            shutil.rmtree(room, ignore_errors=True)
        shrink()


def shrink() -> None:
    """Drops what runs left that were killed, and what was longest unused while there is too much."""
    entries = []
    for name in os.listdir(STORE):
        path, maker = os.path.join(STORE, name), re.match(r"new-(\d+)-", name)
        if maker:
            if not os.path.exists(f"/proc/{maker[1]}"):
                shutil.rmtree(path, ignore_errors=True)
            continue
        walked = [os.path.join(at, one) for at, _, names in os.walk(path) for one in names]
        with contextlib.suppress(OSError):
            entries.append((os.stat(path).st_mtime, path, sum(os.path.getsize(one) for one in walked)))
    much = sum(size for _, _, size in entries)
    for _, path, size in sorted(entries):
        if much <= STORE_MOST:
            break
        much -= size
        shutil.rmtree(path, ignore_errors=True)


def prove(crate: Crate, jobs: int, niceness: int, is_anew: bool) -> int:
    """Proves a crate over the libraries below and builds it, unless that is kept. Returns 0, or the status of the command that failed."""
    try:
        found = crate.sum()
    except FileNotFoundError as cause:
        print(f"{crate.name}: not proved: there is no {cause.filename}")
        return 1
    if not is_anew:
        if is_kept(crate, found):
            return 0
        if take(crate, found):
            print(f"{crate.name}: kept, proved of the same files on this machine", flush=True)
            return 0
    start = time.monotonic()
    if not crate.is_program:
        # With it goes the stamp by which `rt` takes a library for its own.
        shutil.rmtree(os.path.dirname(crate.made()), ignore_errors=True)
    os.makedirs(os.path.dirname(crate.made()), exist_ok=True)
    for command in commands(crate, jobs):
        command = ["nice", "-n", str(niceness), *command]
        run = subprocess.run(command, cwd=crate.folder, stdout=subprocess.PIPE, stderr=subprocess.STDOUT, text=True, check=False)
        if run.returncode:
            print(f"{run.stdout}{crate.name}: not proved", flush=True)
            return run.returncode
    # What was changed meanwhile is proved again.
    if crate.sum() == found:
        with open(f"{crate.made()}.sum", "w", encoding="utf-8") as file:
            file.write(found)
        keep(crate, found)
    print(f"{crate.name}: proved in {time.monotonic() - start:.0f} s", flush=True)
    return 0


def prove_all(crates: list[Crate], is_anew: bool = False) -> int:
    """Proves crates side by side, each once those below it are proved. The one that the longest chain of others waits for is first, and
    has the most of the processor. Returns the first status that is not 0."""

    def chain(crate: Crate) -> int:
        return crate.size() + max((chain(above) for above in crates if crate in above.below), default=0)

    order = sorted(crates, key=chain, reverse=True)
    waiting, status = [*order], 0
    running: dict[concurrent.futures.Future[int], Crate] = {}
    with concurrent.futures.ThreadPoolExecutor(len(crates) or 1) as pool:
        while running or waiting and not status:
            unproved = {*waiting, *running.values()}
            ready = [crate for crate in waiting if not status and unproved.isdisjoint(crate.below)]
            is_alone = len(running) + len(ready) == 1
            for crate in ready:
                waiting.remove(crate)
                # Each crate begins and ends on one core: two jobs for each of those side by side leave less of the others idle than one.
                jobs = CORES if is_alone else 2
                running[pool.submit(prove, crate, jobs, 3 * order.index(crate), is_anew)] = crate
            for ended in concurrent.futures.wait(running, return_when=concurrent.futures.FIRST_COMPLETED).done:
                del running[ended]
                status = status or ended.result()
    return status


def crates_of() -> dict[str, Crate]:
    """Returns the crates of crates.txt by name."""
    crates: dict[str, Crate] = {}
    with open(os.path.join(ROOT, "crates.txt"), encoding="utf-8") as file:
        for line in file:
            if line.strip() and not line.startswith("#"):
                crate = Crate(line.strip(), crates)
                crates[crate.name] = crate
    return crates
