"""Wrong bodies: which there are, in which function each is, and what the prover says of it.

Those of a crate are in its file `wrong-bodies`, which docs/WRONG_BODIES.md explains.

Many edits are tried in one check of a copy of the crate, each in the body of another function. A body is no part of what other functions
are proved from, which is contracts, so each is judged by what the prover says of its own function alone: an error in the proof of that
function, or that no proof of it was found. One whose function only waits for another that is refused is tried in a later check, without
that one. What a batch does not refuse, and what is not in the body of one function, is tried in a check of its own. So a batch gives only
the verdict 'refused', and if anything else is refused in it than what is edited, it gives none.

No edit is to blame where the crate is not proved as it stands. So that is known first: from `rt ci`, or from a check. Where it is known, a
batch proves the functions with edits and what they call, and no others, since these are proved whatever is in a body. What is tried alone
is tried with the whole crate, and such a check begins with what a check of the crate as it stands has kept. The verdict on an edit is kept
for each user of the machine by all that it can depend on: the edit, the interfaces below, and the crate without the bodies and proofs of
other functions.
"""
import collections
import functools
import os
import re
import shutil
import tempfile
from collections.abc import Callable, Collection, Sequence
from typing import NamedTuple

import gate
import proofs
from proofs import Faces, Made
from proving import CORES, KIT, Crate, read
from wrong_bodies import pairs, sections

# How many edits a check tries at most. More make a check that runs out of memory or time dearer.
BATCH = 80
PARTS = ("src", "specs", "proofs")
# The verdicts that are the same wherever the same is tried.
SETTLED = ("refused", "proved", "does not compile", "is not there", "only a name", "only a limit")
# A function's head, as rt fmt lays it out, and what the kit says of a function and of a place.
HEAD = re.compile(r'^( *)(?:pub(?:\([a-z]+\))? )?(const )?(?:unsafe )?(?:extern "C" )?fn (\w+)')
SAID = re.compile(r"^(?:fn|impl) (\S+?): (proved|not proved|no proof|could not tell)(.*)$", re.M)
ERROR = re.compile(r"^(?:\./)?(src|specs|proofs)/([^\s:]+):\d+:\d+: error: ?(.*(?:\n  .*)*)", re.M)
# An error of a proof file that names what the edit took away, a text that the prover cannot read, and a limit of its own, as `rt must-fail`
# tells them apart.
NAMES = re.compile(r"has no field|is not in scope|has no `|was not admitted")
UNREAD = re.compile(r"is not in scope|has no field|is no name|operand is missing|expected the end|cannot continue")
LIMIT = re.compile(
    r"antt ran out of (stack|the (steps|memory) that the check of one declaration may)" r"|(outgrew the memory|stopped at the step) limit \("
)


# A change of a file: its name, the text that is replaced, and the new one.
Change = tuple[str | None, str | None, str]
# Whoever is told of each check.
Say = Callable[[str], None]


def text_of(name: str) -> str:
    with open(name, encoding="utf-8") as file:
        return file.read()


# ---- edits


class Edit:
    """A wrong body: the texts that it replaces, and the function in whose body all of them are, if there is one."""

    def __init__(self, crate: Crate, name: str, text: str, is_in_gate: bool) -> None:
        self.crate, self.name, self.text, self.is_in_gate = crate, name, text, is_in_gate
        self.label = f"{crate.name}/{name}"
        self.pairs = [*pairs(self.text)]
        self.place = place(crate, self.pairs)

    def change(self, texts: dict[str, str]) -> bool:
        """Makes the edit in the texts of the crate's files, and returns whether each text that it replaces is there once. Else it changes
        none of them."""
        changed = dict(texts)
        for file, old, new in self.pairs:
            if not file or not old or changed.get(file, "").count(old) != 1:
                return False
            changed[file] = changed[file].replace(old, new)
        texts.update(changed)
        return bool(self.pairs)

    def apply(self, folder: str) -> bool:
        """Makes the edit in a copy of the crate, and returns whether each text that it replaces is there once."""
        paths = {file: os.path.join(folder, file) for file, *_ in self.pairs if file}
        texts = {file: text_of(path) for file, path in paths.items() if os.path.isfile(path)}
        if not self.change(texts):
            return False
        for file, text in texts.items():
            with open(paths[file], "w", encoding="utf-8") as to:
                to.write(text)
        return True

    def key(self, faces: Faces) -> str:
        """Returns a sum of all that the verdict on the edit can depend on."""
        below = [(one.name, faces[one.name]) for one in self.crate.below]
        kit = read(os.path.join(KIT, "KIT-ID"))
        return gate.sum_of(2, kit, self.crate.line, self.text, below, around(self.crate, self.place))


def edits_of(crate: Crate) -> list[Edit]:
    """Returns the wrong bodies of a crate."""
    path = os.path.join(crate.folder, "wrong-bodies")
    return [Edit(crate, name, text, is_in_gate) for name, is_in_gate, text in sections(path)] if os.path.isfile(path) else []


# ---- the functions of a source


class Body(NamedTuple):
    """A function of a source that has a body: the line of its head, and the first and last line of the body."""

    name: str
    is_const: bool
    line: int
    first: int
    last: int


def bodies(text: str) -> list[Body]:
    """Returns the functions of a source that have a body. rt fmt has put its braces at the head's own indent, or the first of them behind
    the head."""
    lines, at = text.split("\n"), 0
    found: list[Body] = []
    while at < len(lines):
        head = HEAD.match(lines[at])
        if head:
            # A comment between two clauses ends nothing, whatever its last sign is.
            ends = (it for it in range(at, len(lines)) if lines[it].endswith(("{", ";", "{}")) and not lines[it].lstrip().startswith("//"))
            first = next(ends, at)
            last = next((it for it in range(first, len(lines)) if lines[it] == f"{head[1]}}}"), None)
            if lines[first].endswith("{") and last is not None:
                found.append(Body(head[3], bool(head[2]), at + 1, first + 2, last))
                at = last
        at += 1
    return found


def owner(text: str, line: int) -> str:
    """Returns the type, and the trait behind it, of the `impl` that a line is in, as the kit names it; nothing for a free function."""
    lines = text.split("\n")
    for at in range(line - 2, -1, -1):
        if lines[at].startswith("}"):
            return ""
        if re.match(r"impl\b", lines[at]):
            head, depth, bare = " ".join(lines[at:line]).split("{")[0][len("impl") :].replace("->", ""), 0, ""
            for letter in head:
                depth += (letter == "<") - (letter == ">")
                bare += letter if depth == 0 and letter != ">" else ""
            named = re.match(r"\s*(?:\w+::)*(\w+)\s*(?:for\s+&?\s*(?:mut\s+)?(?:\w+::)*(\w+))?", bare)
            return (named[2] or "") + named[1] if named else ""
    return ""


class Place:
    """A function with a body: its file, its name, the `impl` that it is in, and its text, contract included."""

    def __init__(self, crate: Crate, file: str, body: Body, text: str) -> None:
        self.crate, self.file = crate, file
        self.name, self.is_const, self.line, self.first, self.last = body
        self.owner = owner(text, self.line)
        lines = text.split("\n")
        self.text = "\n".join(lines[self.line - 1 : self.last + 1])
        # Functions of a cycle have one proof.
        self.is_in_cycle = "#[cycle" in "\n".join(lines[max(self.line - 6, 0) : self.line])

    def key(self) -> tuple[str, str, str]:
        return self.file, self.owner, self.name

    def is_mirror(self) -> bool:
        """Whether the one clause is that the result is the definition of the function's name. Then the body is this definition in other
        syntax, and no contract could say more: that a wrong body is refused shows something of the prover, and nothing of ours."""
        lines = [line for line in self.text.split("\n")[: self.first - self.line] if not line.lstrip().startswith("//")]
        clauses = re.split(r"^ +ensures\*?(?: \w+)? \{", "\n".join(lines), flags=re.M)[1:]
        return len(clauses) == 1 and bool(re.match(rf"\s*result(?:\.\w+)?\s*≡\s*(?:\w+\.)*{self.name}\b[^≡×→⊎{{]*\}}", clauses[0]))

    def module(self) -> list[str]:
        return [] if self.file in ("src/lib.rt", "src/main.rt") else self.file[len("src/") : -len(".rt")].split("/")

    def in_module(self) -> str:
        """Returns the kit's name of the function if it, or its type, stands in the module of its file."""
        return "::".join([self.crate.name, *self.module(), *([self.owner] if self.owner else []), self.name])

    def told(self, names: Collection[str]) -> str | None:
        """Returns the kit's name of the function, if one alone of the names fits."""
        module, exact = self.module(), [self.in_module()]
        # A method stands in the module of its type, and behind its types if only some of a generic type have it.
        ends = [rf"::{self.owner}(\+\S+)?::{self.name}$"] if self.owner else []
        found = [it for it in names if it in exact] or [it for it in names if any(re.search(end, it) for end in ends)]
        # The same name in two modules: that of the file.
        here = "::".join([self.crate.name, *module]) + "::"
        found = found if len(found) < 2 else [it for it in found if it.startswith(here)]
        return found[0] if len(found) == 1 else None


@functools.lru_cache(maxsize=None)
def source(crate: Crate, file: str) -> tuple[str, list[Place]]:
    """Returns the text of a source, and its functions. It is read once in a run."""
    text = text_of(os.path.join(crate.folder, file))
    return text, [Place(crate, file, body, text) for body in bodies(text)]


@functools.lru_cache(maxsize=None)
def sources(crate: Crate) -> list[str]:
    """Returns the names of a crate's files but its tests, in its folder."""
    return sorted(os.path.relpath(name, crate.folder) for name in crate.files())


def place(crate: Crate, changes: Sequence[Change]) -> Place | None:
    """Returns the one function in whose body all these changes are, or None."""
    found: dict[tuple[str, str, str], Place] = {}
    for file, old, _ in changes:
        if not (file and old and file.startswith("src/") and os.path.isfile(os.path.join(crate.folder, file))):
            return None
        text, functions_of = source(crate, file)
        if text.count(old) != 1:
            return None
        line = text.count("\n", 0, text.index(old)) + 1
        one = next((it for it in functions_of if it.first <= line <= it.last), None)
        if not one or one.is_in_cycle:
            return None
        found[one.key()] = one
    return next(iter(found.values())) if len(found) == 1 else None


def functions(crate: Crate) -> dict[str, str]:
    """Returns a sum of the text of each function of a crate, its contract included, by its file and name."""
    found = (one for name in sources(crate) if name.endswith(".rt") for one in source(crate, name)[1])
    return {"::".join(one.key()): gate.sum_of(one.text) for one in found}


@functools.lru_cache(maxsize=None)
def without_bodies(crate: Crate, name: str, kept: tuple[str, str, str] | None) -> str:
    """Returns a sum of a source without the bodies of its functions but one. A const function may be part of a type, so its body stays.
    Where a function stands in its file is no part of it."""
    text, functions_of = source(crate, name)
    lines = text.split("\n")
    for one in functions_of:
        if one.key() != kept and not one.is_const:
            lines[one.first - 1 : one.last] = [""] * (one.last - one.first + 1)
    return gate.sum_of([line for line in lines if line])


@functools.lru_cache(maxsize=None)
def file_sum(crate: Crate, name: str) -> str:
    return gate.sum_of(read(os.path.join(crate.folder, name)))


def around(crate: Crate, one: Place | None) -> list[tuple[str, str]]:
    """Returns what an edit in the body of this function can depend on, of the crate's files: all but the bodies of other functions, and
    the files of their proofs. Of an edit that is elsewhere: all."""
    found = []
    for name in sources(crate):
        folder, file = os.path.split(name)
        if one and file in proofs.ANSWERS and os.path.basename(folder) != one.name:
            continue
        is_blanked = one and name.endswith(".rt")
        kept = one.key() if one and name == one.file else None
        found.append((name, without_bodies(crate, name, kept) if is_blanked else file_sum(crate, name)))
    return found


# ---- verdicts


class Prover:
    """The prover, asked about copies of a crate with edits, over the libraries that `made` names. It begins with what an earlier check kept
    in a folder, if there is something."""

    def __init__(self, crate: Crate, made: Made, faces: Faces, work: str, say: Say) -> None:
        self.crate, self.made, self.work, self.say = crate, made, work, say
        self.is_known = proofs.is_proved(crate, faces)
        self.is_seeded: bool | None = None
        # The functions as a check prints them. A program has no library, and so no list of them.
        rlib = made(crate) if proofs.is_library(crate) else None
        self.names = proofs.functions_of(crate, rlib) if rlib and os.path.isdir(rlib) else []

    def name_of(self, edit: Edit) -> str | None:
        """Returns the name by which a check can be asked for the function of an edit alone, or None. Of a program it is the likely one: a
        check of a name that is none says so at once."""
        if not (self.is_known and edit.place):
            return None
        return edit.place.told(self.names) if self.names else edit.place.in_module()

    def is_proved(self) -> bool:
        """Returns whether the crate is proved as it stands."""
        return self.is_known or self.seed()

    def seed(self) -> bool:
        """Proves the crate as it stands, once, for its edits to begin with, and returns whether it is proved."""
        if self.is_seeded is None:
            status, out, took = proofs.prove(self.crate, self.made, self.work, jobs=CORES)
            self.is_seeded = not status
            self.say(
                f"{self.crate.name}: the crate as it stands, for its edits to begin with: {took:.0f} cpu s"
                if self.is_seeded
                else f"{proofs.told(out)}\n{self.crate.name} is not proved as it stands, so nothing can be said of its edits"
            )
        return self.is_seeded

    def check(self, batch: Sequence[Edit], only: Sequence[str] = ()) -> tuple[int, str, float]:
        """Returns the status of a check of a copy of the crate with all edits of a batch, of the whole crate or of these functions, what
        the prover said, and the seconds of the processor."""
        if not only and not self.seed():
            return 1, "", 0.0
        with tempfile.TemporaryDirectory(prefix="edits-") as room:
            for part in PARTS:
                if os.path.isdir(os.path.join(self.crate.folder, part)):
                    shutil.copytree(os.path.join(self.crate.folder, part), os.path.join(room, part))
            if not all(edit.apply(room) for edit in batch):
                return 1, "", 0.0
            work = os.path.join(room, "work")
            proofs.copy_of_work(self.work, work)
            return proofs.prove(self.crate, self.made, work, cwd=room, only=only)


def folder_of(name: str) -> str:
    """Returns the folder of a function's proof, by the kit's name of the function."""
    return "/".join(name.split("::")[1:]) + "/"


def judged(batch: Sequence[Edit], out: str) -> dict[Edit, str]:
    """Returns what a check says of each edit of a batch."""
    said = {name: (verdict, rest) for name, verdict, rest in SAID.findall(out)}
    errors = [(part, path, text) for part, path, text in ERROR.findall(out)]
    verdicts: dict[Edit, str] = {}
    edited: set[str] = set()
    for edit in batch:
        assert edit.place
        name = edit.place.told(said)
        if name:
            edited.add(folder_of(name))
        _, rest = said.get(name or "", ("", ""))
        own = [text for part, path, text in errors if name and part == "proofs" and path.startswith(folder_of(name))]
        if "`search` did not prove" in rest or any(not NAMES.search(text) for text in own):
            verdicts[edit] = "refused"
        elif "it calls" in rest or "it waits" in rest:
            verdicts[edit] = "waits"
        else:
            # Proved, only a name, no verdict, or no line.
            verdicts[edit] = "alone"
    # A body is no part of what others are proved from. If another function is refused, what an edit is to blame for cannot be told.
    others = [path for part, path, _ in errors if part != "proofs" or not any(path.startswith(folder) for folder in edited)]
    others += [name for name, (_, rest) in said.items() if "`search` did not prove" in rest and folder_of(name) not in edited]
    return dict.fromkeys(batch, "alone") if others and len(batch) > 1 else verdicts


def judged_alone(edit: Edit, status: int, out: str) -> str:
    """Returns what a check says of the only edit in it, as `rt must-fail` judges."""
    if not out:
        return "is not there"
    errors, changed = ERROR.findall(out), {file for file, *_ in edit.pairs}
    for part, path, text in errors:
        plain = re.sub(r"`[^`]*`", "", text)
        if (part != "proofs" or f"{part}/{path}" in changed) and (not text.startswith("`") or UNREAD.search(plain)):
            return "does not compile"
    if status == 0:
        return "proved"
    if re.search(r"^logic=not-proved", out, re.M):
        told = [(part, text) for part, _, text in errors]
        is_search = any("`search` did not prove" in rest for _, _, rest in SAID.findall(out))
        is_name = told and not is_search and all(part == "proofs" and NAMES.search(text) for part, text in told)
        return "only a name" if is_name else "refused"
    if LIMIT.search(out):
        return "only a limit"
    return "does not compile" if re.search(r"\berror\[[\w-]+\]", out) else "not tried"


def together(left: Sequence[Edit], most: int) -> list[Edit]:
    """Returns edits of different functions that can be made one after the other, at most so many. An edit may write a text that another
    replaces, which then is there twice: the other one is for a later check."""
    files = {file for edit in left for file, *_ in edit.pairs if file}
    texts = {file: source(left[0].crate, file)[0] for file in files}
    batch: dict[tuple[str, str, str], Edit] = {}
    for edit in left:
        assert edit.place
        if len(batch) < most and edit.place.key() not in batch and edit.change(texts):
            batch[edit.place.key()] = edit
    return [*batch.values()] or [*left[:1]]


def in_batches(prover: Prover, left: list[Edit], is_narrow: bool, settle: Callable[[Edit, str], None], seconds: dict[Edit, float]) -> list[Edit]:
    """Tries edits that are each in the body of a function, many in one check: of these functions and what they call, or of the whole crate.
    Settles those that are refused, and returns those that are to be tried alone."""
    say, crate, most = prover.say, prover.crate, BATCH
    alone: list[Edit] = []
    while left:
        batch = together(left, most)
        _, out, took = prover.check(batch, only=[name for name in map(prover.name_of, batch) if name] if is_narrow else ())
        if not SAID.search(out):
            # One does not compile: half of them, and then the other.
            if len(batch) == 1:
                alone += batch
                left.remove(batch[0])
            half, most = batch[: len(batch) // 2], max(len(batch) // 2, 1)
            left = half + [edit for edit in left if edit not in half]
            say(f"{crate.name}: {len(batch)} edits in a check that does not compile")
            continue
        found = judged(batch, out)
        if all(verdict == "waits" for verdict in found.values()):
            found = dict.fromkeys(found, "alone")
        say(f"{crate.name}: {len(batch)} edits in a check of {took:.0f} cpu s: {sum(it == 'refused' for it in found.values())} refused")
        for edit, one in found.items():
            seconds[edit] += took / len(batch)
            if one != "waits":
                left.remove(edit)
                if one == "alone":
                    alone.append(edit)
                else:
                    settle(edit, one)
        # Those that waited come first, without those that they waited for.
        left.sort(key=lambda edit: found.get(edit) != "waits")
        most = min(2 * most, BATCH)
    return alone


def tried(crate: Crate, edits: Sequence[Edit], made: Made, faces: Faces, say: Say) -> tuple[dict[Edit, str], dict[Edit, float]]:
    """Tries edits of a crate over the libraries that `made` names, with these interfaces. Returns the verdict on each, and its processor
    seconds; `say` is told of each check. Without a verdict is everything if the crate is not proved as it stands."""
    verdicts: dict[Edit, str] = {}
    seconds: dict[Edit, float] = collections.defaultdict(float)

    def settle(edit: Edit, verdict: str) -> None:
        """Keeps the verdict at once, so that a run which is stopped loses only the check that it was in."""
        verdicts[edit] = verdict
        keep(edit, faces, verdict)

    with proofs.work_of(crate) as work:
        prover = Prover(crate, made, faces, work, say)
        if not prover.is_proved():
            return dict.fromkeys(edits, "not tried"), seconds
        narrow = [edit for edit in edits if prover.name_of(edit)]
        wide = [edit for edit in edits if edit.place and edit not in narrow]
        alone = [edit for edit in edits if not edit.place]
        alone += in_batches(prover, narrow, True, settle, seconds)
        alone += in_batches(prover, wide, False, settle, seconds)
        for edit in alone:
            # Nothing can be said of an edit if the crate as it stands is not proved, or if that check was stopped.
            if not prover.seed():
                settle(edit, "not tried")
                continue
            status, out, took = prover.check([edit])
            settle(edit, judged_alone(edit, status, out))
            seconds[edit] += took
            say(f"{edit.label}: alone: {verdicts[edit]}")
    return verdicts, seconds


def known(edit: Edit, faces: Faces) -> str | None:
    """Returns the verdict that was kept on an edit, or None."""
    told = gate.kept("edits", edit.key(faces))
    return told["verdict"] if told else None


def keep(edit: Edit, faces: Faces, verdict: str) -> None:
    if verdict in SETTLED:
        gate.keep("edits", edit.key(faces), {"verdict": verdict, "edit": edit.label}, most=20_000)


def row(edit: Edit, verdict: str, seconds: float | None = None) -> str:
    return f"{edit.label:<64} {verdict:<17} {'kept' if seconds is None else f'{seconds:5.1f}'}"
