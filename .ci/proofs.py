"""Proofs by interface: what a crate above can know of a library, and what is kept of proofs on this machine so that no more is proved
again.

A crate is proved from its own files and from the interfaces of the libraries below it: their public items, definitions, contracts and the
statements of their theorems. No proof above can name a body or a proof behind these. So a crate's key is a sum of its own files, the kit,
its line of crates.txt, and the interfaces below; and a crate whose key was proved is not proved again, although bodies below it have
changed.

What lands is proved by `rt ci`, from nothing, and trusts nothing of this. Everything is in gate.STORE/change, for each user of a machine:
what is read is written apart and renamed before, so that several clones may work at once.
"""
import contextlib
import hashlib
import json
import os
import re
import shutil
import subprocess
import sys
import tempfile
from collections.abc import Callable, Iterator, Mapping, Sequence
from typing import Any

import gate

sys.path.insert(0, str(gate.TOP / "tools" / "common"))
from proving import KIT, Crate, read, reading

# Where the library of a crate is.
Made = Callable[[Crate], str]
# The interface of each crate by its name, as a sum.
Faces = Mapping[str, str]
STORE = os.path.join(gate.STORE, "change")
# The most that libraries and what checks kept may hold, in bytes, and what is left free on the disk.
MOST, LEAVES = 8_000_000_000, 4_000_000_000
# What the kit makes of a function beside what its own list of aids calls private: its code, its layout, its proof, what links it.
OF_A_BODY = {"Code", "Layout", "Proof", "TheLink"}
# The lines of a library's `format` that sum up files, name those of the libraries that it was built over, or say how it was.
SUMS = re.compile(rb"(sum|checked|needs|over|carries|incremental|free|free-alone|lists-free)\b")
# Files of a proof that is written by hand, in the folder of its function.
ANSWERS = {"Answers.antt", "Invariants.antt", "Proof.antt"}
PROVED_LINE = re.compile(
    r"^(by-macro: .*|\w+ \S+: proved|logic \S+: libraries=.*|(statements|library|crate) \w+: modules .*|so far: .*" r"|logic=proved .*)\n", re.M
)


# ---- interfaces


def made_of(rlib: str) -> tuple[dict[str, str], dict[str, set[str]]]:
    """Returns what the kit made of the crate's functions: the sum of each module by its name, and the functions with the modules that
    their lists call private."""
    with open(os.path.join(rlib, "toolchain", "made.json"), encoding="utf-8") as file:
        index = [json.loads(line) for line in file if line.strip()]
    texts = read(os.path.join(rlib, "lang", "antt", "made.json"))
    sums: dict[str, str] = {}
    functions: dict[str, set[str]] = {}
    for name, start, size, found, *_ in index:
        sums[name] = found
        text = texts[start : start + size]
        if text.startswith(b'{"Parts":'):
            told = json.loads(text)["Parts"]
            functions[name] = {aid for aid, is_public in told["aids"] if not is_public} | OF_A_BODY
            # The private ones change with the body.
            told["aids"] = [aid for aid, is_public in told["aids"] if is_public]
            sums[name] = gate.sum_of(told)
    return sums, functions


def is_of_a_body(name: str, functions: Mapping[str, set[str]]) -> bool:
    """Returns whether a module is one of those that a function keeps for itself, or links the whole crate."""
    parts = name.split("/")
    return name == "proofs/TheLink" or any(parts[at] in functions.get("/".join(parts[:at]), ()) for at in range(1, len(parts)))


def face_of(rlib: str) -> str:
    """Returns a sum of a library's interface. It is the same whether the library holds its proofs or its statements alone."""
    sums, functions = made_of(rlib)
    told: list[object] = [*sorted((name, found) for name, found in sums.items() if not is_of_a_body(name, functions))]
    for part in ("interface", "lang/antt/specs", "lang/antt/specs.antt", "lang/antt/proofs", "lang/antt/proofs.antt"):
        path = os.path.join(rlib, part)
        alone = (os.path.dirname(path), list[str](), [os.path.basename(path)])
        walked = os.walk(path) if os.path.isdir(path) else iter([alone])
        for at, folders, names in walked:
            folders.sort()
            for name in sorted(names):
                file = os.path.join(at, name)
                of = os.path.relpath(at, os.path.join(rlib, "lang", "antt"))
                if os.path.isfile(file) and not (name in ANSWERS and of in functions):
                    told.append((os.path.relpath(file, rlib), hashlib.sha256(read(file)).hexdigest()))
    told.append([line for line in read(os.path.join(rlib, "format")).splitlines() if not SUMS.match(line)])
    return gate.sum_of(told)


# ---- what is known of a crate


def own_sum(crate: Crate) -> str:
    """Returns a sum of all that a crate's proof reads but its libraries. Its tests are none of it."""
    texts = [(os.path.relpath(name, crate.folder), text) for name, text in crate.files().items()]
    return gate.sum_of(1, read(os.path.join(KIT, "KIT-ID")), crate.line, texts)


def key_of(crate: Crate, faces: Faces) -> str:
    """Returns the sum of all that a crate's proof can know, with the interfaces of the libraries below."""
    return gate.sum_of(own_sum(crate), [(one.name, faces[one.name]) for one in crate.below])


def exact_of(crate: Crate, exacts: Mapping[str, str]) -> str:
    """Returns a sum of a crate with all that is in the libraries below."""
    return gate.sum_of(own_sum(crate), [exacts[one.name] for one in crate.below])


def verdict(crate: Crate, key: str) -> dict[str, Any] | None:
    """Returns what is known of a crate with this key, if it was proved: its interface, and what it stood on then."""
    return gate.kept("change/verdicts", f"{crate.name}-{key}")


def keep_verdict(crate: Crate, key: str, face: str, exact: str, by: str) -> None:
    gate.keep("change/verdicts", f"{crate.name}-{key}", {"face": face, "exact": exact, "by": by})


def is_proved(crate: Crate, faces: Faces) -> bool:
    """Returns whether the crate was proved of these files over these interfaces, by `rt ci` or by a check of ours on this machine."""
    return bool(verdict(crate, key_of(crate, faces)))


def functions_of(crate: Crate, rlib: str) -> list[str]:
    """Returns the functions of a library by the names that a check prints."""
    return [f"{crate.name}::{name.removeprefix('proofs/').replace('/', '::')}" for name in made_of(rlib)[1]]


# ---- libraries


def place_of(crate: Crate, name: str) -> str:
    return os.path.join(STORE, "libraries", f"{crate.name}-{name}", f"{crate.name}.rlib")


def name_of_face(crate: Crate, faces: Faces) -> str:
    return f"{crate.name}-{gate.sum_of(faces[crate.name], [(one.name, faces[one.name]) for one in crate.below])}"


def names_below(crate: Crate, faces: Faces) -> dict[str, str | None]:
    """Returns the names of the libraries that are kept of these interfaces below a crate."""
    told = {one.name: gate.kept("change/faces", name_of_face(one, faces)) for one in crate.below}
    return {name: one["library"] if one else None for name, one in told.items()}


def library(crate: Crate, faces: Faces) -> str | None:
    """Returns where a library of the crate with this interface is, or None. One that was built over other libraries than are kept now of
    the interfaces below is none: the kit takes no library of statements over others than its own, and would check another anew."""
    told = gate.kept("change/faces", name_of_face(crate, faces))
    if told and told["over"] == names_below(crate, faces):
        path = place_of(crate, told["library"])
        with contextlib.suppress(OSError):
            if hashlib.sha256(read(os.path.join(path, "format"))).hexdigest() == told["library"]:
                os.utime(os.path.dirname(path))
                return path
    return None


def link_or_copy(one: str, other: str) -> None:
    """Gives a file a second name. The kit removes the files of a library, and those that a check kept, before it makes them anew."""
    try:
        os.link(one, other)
    except OSError:
        shutil.copy2(one, other)


def keep_library(crate: Crate, faces: Faces, rlib: str) -> None:
    """Keeps a library as the one of this interface. It replaces an older one."""
    name = hashlib.sha256(read(os.path.join(rlib, "format"))).hexdigest()
    to = os.path.dirname(place_of(crate, name))
    if not os.path.isdir(to):
        with apart(os.path.dirname(to)) as room:
            shutil.copytree(rlib, os.path.join(room, f"{crate.name}.rlib"), copy_function=link_or_copy)
            with contextlib.suppress(OSError):
                os.rename(room, to)
    gate.keep("change/faces", name_of_face(crate, faces), {"library": name, "over": names_below(crate, faces)})


@contextlib.contextmanager
def apart(folder: str) -> Iterator[str]:
    """Gives a new folder in this one, which is to be renamed. What is left of it is removed."""
    os.makedirs(folder, 0o700, exist_ok=True)
    room = tempfile.mkdtemp(prefix=f"new-{os.getpid()}-", dir=folder)
    try:
        yield room
    finally:
        shutil.rmtree(room, ignore_errors=True)


def shrink() -> None:
    """Drops what killed runs left, and what was longest unused while there is too much, or too little room."""
    entries = []
    for kind in ("libraries", "work"):
        folder = os.path.join(STORE, kind)
        for name in os.listdir(folder) if os.path.isdir(folder) else ():
            path, maker = os.path.join(folder, name), re.match(r"new-(\d+)-", name)
            if maker:
                if not os.path.exists(f"/proc/{maker[1]}"):
                    shutil.rmtree(path, ignore_errors=True)
                continue
            size = sum(one.stat().st_size for at, _, _ in os.walk(path) for one in os.scandir(at) if one.is_file())
            entries.append((os.stat(path).st_mtime, path, size))
    much = sum(size for *_, size in entries)
    for _, path, size in sorted(entries):
        if much <= MOST and shutil.disk_usage(STORE).free >= LEAVES:
            break
        much -= size
        shutil.rmtree(path, ignore_errors=True)


# ---- the prover


def copy_of_work(folder: str, to: str) -> None:
    """Copies what a check kept: by links, since a check replaces such a file and changes none."""

    def copy(one: str, other: str) -> None:
        if one.endswith(".oantt"):
            link_or_copy(one, other)
        else:
            shutil.copy2(one, other)

    shutil.copytree(folder, to, copy_function=copy, dirs_exist_ok=True)


@contextlib.contextmanager
def work_of(crate: Crate) -> Iterator[str]:
    """Gives a folder of this process with what the last check of the crate on this machine kept, or what `rt check` kept in this checkout.
    What is in it afterwards is what the next check begins with. Such a folder never decides what is proved, only how fast."""
    folder = os.path.join(STORE, "work", crate.name)
    with apart(os.path.dirname(folder)) as room:
        with contextlib.suppress(OSError, shutil.Error):
            begin = next((it for it in (folder, os.path.join(crate.folder, "out", "incremental")) if os.path.isdir(it)), None)
            if begin:
                copy_of_work(begin, room)
        yield room
        old = f"{room}-old"
        with contextlib.suppress(OSError):
            if os.path.isdir(folder):
                os.rename(folder, old)
            os.rename(room, folder)
        shutil.rmtree(old, ignore_errors=True)


def prove(
    crate: Crate, made: Made, work: str | None = None, rlib: str | None = None, cwd: str | None = None, jobs: int = 2, only: Sequence[str] = ()
) -> tuple[int, str, float]:
    """Runs the prover on a crate, over the libraries that `made` names and what earlier checks kept in a folder, if one is given, and
    builds the library if a place for it is given. With `only` it proves no more than these functions and what they call. Returns the
    status, what was said, and the seconds of the processor."""
    words = [f"{KIT}/bin/rattle", "build" if rlib else "check", *reading(crate, jobs, made)]
    words += [*(["--incremental", work] if work else []), *(word for name in only for word in ("--only", name))]
    run = subprocess.Popen(
        [*words, *(["-o", rlib] if rlib else [])],
        cwd=cwd or crate.folder,
        stdin=subprocess.DEVNULL,
        stdout=subprocess.PIPE,
        stderr=subprocess.STDOUT,
        text=True,
        errors="replace",
    )
    assert run.stdout
    out = run.stdout.read()
    _, status, used = os.wait4(run.pid, 0)
    run.returncode = os.waitstatus_to_exitcode(status)
    return run.returncode, out, used.ru_utime + used.ru_stime


def is_library(crate: Crate) -> bool:
    return not crate.is_program


def told(out: str) -> str:
    """Returns what a check said but that this and that is proved."""
    return PROVED_LINE.sub("", out).strip("\n")
