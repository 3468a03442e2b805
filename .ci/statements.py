"""What the theorems say: of each law its statement, and every definition that it reaches, from a checkout or from a commit.

A statement is a clause of a contract with the conditions of its function, the function's signature and the `impl` that it is in; or a
definition of `specs/`; or one part of a record there, with the record's parameters. From it each name is followed to what it means: to
definitions, and to what code declares: types with their fields and cases, what an `impl` says of a type in `ghost` lines (its view and its
steps), traits with the contracts of their calls, and constants. Names of std and of the kit's crates end a path. Comments and layout are
left out, and so are bodies and proofs. A name may be followed to more than it means, where a variable has the name of a definition: so the
list may have too much, but not too little.
"""
from __future__ import annotations

import collections
import functools
import hashlib
import pathlib
import re
import subprocess
from collections.abc import Callable, Iterable, Iterator
from typing import NamedTuple

TOP = pathlib.Path(__file__).resolve().parent.parent
EVIDENCE = "docs/EVIDENCE.md"


# What a name leads to: its path, its name, its text as it is laid out, and the file that says what its own names mean.
class Item(NamedTuple):
    path: str
    name: str
    text: str
    scope: Scope


# A law: the name by which docs/EVIDENCE.md calls it, and its statement.
class Law(NamedTuple):
    name: str
    item: Item


# A crate and a name of it, or a path and a name; the path, the name and the text of an item; a clause: kind, name, text.
Pair = tuple[str, str]
Key = tuple[str, str, str]
Clause = tuple[str, str, str]

WORD = r"[A-Za-z_][A-Za-z0-9_']*"
NAMED = re.compile(rf"(?<![\w.'])({WORD})((?:\.{WORD})*)")
IMPORT = re.compile(r"^ *(?:pub )?(?:ghost )?use Rattle\.(\w+)\.specs\.([\w.]+?)(?:\.\{([^}]*)\}| as (\w+))?;?$", re.M)
RUST_USE = re.compile(r"^ *(pub )?use (\w+)::([^;]*);", re.M)
DEFINED = re.compile(r"^(?:abbrev|unfoldable)(?: pub)? ([^\s:]+)|^(?:pub )?(?:record|data) (?:pub )?([^\s:]+)")
PART = re.compile(rf"^  (?:pub )?({WORD}) :")
CASES = re.compile(rf"^  ((?:{WORD} )+):", re.M)
HEAD = re.compile(
    r"(?:pub(?:\([a-z]+\))? )?(?:unsafe )?(?:extern \"C\" )?" r"(const fn|fn|struct|enum|trait|impl|const|type|ghost)\b(?:<[^{;]*?>(?= ))? ?(\w*)"
)
# An item that ends with a semicolon, at whatever indentation.
SHORT = re.compile(r"(?:pub(?:\([a-z]+\))? )?(?:use|const (?!fn)|type|mod|ghost)\b")
CLAUSE = re.compile(r"\s*((requires|ensures)\*?(?: (\w+))? )\{")


def plain(text: str, mark: str) -> str:
    """A text without comments, which begin with this mark."""
    lines = [line for line in text.split("\n") if not line.lstrip().startswith(mark)]
    return "\n".join(re.sub(rf" +{mark} .*$", "", line).rstrip() for line in lines).strip("\n")


def closing(text: str, at: int) -> int:
    """The offset behind the braces that open at this offset."""
    depth = 0
    for i in range(at, len(text)):
        depth += {"{": 1, "}": -1}.get(text[i], 0)
        if depth == 0:
            return i + 1
    return len(text)


class Scope:
    """A file, and what the names that it imports lead to: (crate, path behind `specs`, name)."""

    def __init__(self, path: str, text: str) -> None:
        self.path, self.crate = path, path.split("/")[1]
        self.names = collections.defaultdict[str, set[tuple[str, str, str]]](set)
        self.aliases = collections.defaultdict[str, set[tuple[str, str]]](set)
        self.rust: dict[str, str] = {}
        for crate, module, names, alias in IMPORT.findall(text):
            if names:
                for one in names.split(","):
                    of, _, here = one.strip().partition(" as ")
                    self.names[here or of].add((crate, module, of))
            else:
                self.aliases[alias or module.split(".")[-1]].add((crate, module))
        # What it passes on of another crate.
        self.passed: dict[str, str] = {}
        for is_passed, crate, names in RUST_USE.findall(text):
            for word in re.findall(r"\w+", names):
                self.rust[word] = self.crate if crate in ("crate", "super", "self") else crate
                if is_passed and self.rust[word] != self.crate:
                    self.passed[word] = crate


def chunks(lines: list[str]) -> Iterator[list[str]]:
    """The items of a source, as rt fmt lays them out: from a line without indentation to the one that ends it."""
    at = 0
    while at < len(lines):
        line = lines[at]
        if not line or line[0] in " })#{":
            at += 1
            continue
        end, is_short = at, SHORT.match(line)
        while end < len(lines) - 1 and not is_end(lines[end], is_short):
            end += 1
        yield lines[at : end + 1]
        at = end + 1


def is_end(line: str, is_short: re.Match[str] | None) -> bool:
    """Whether a line ends an item."""
    return line.endswith(";") if is_short else line[:1] not in ("", " ") and line.endswith((";", "}", "},"))


def inside(lines: list[str]) -> list[str]:
    """The lines of an `impl` or a trait, without their indentation."""
    return [line[4:] for line in lines[1:-1]]


def contract(text: str) -> tuple[str, list[Clause]]:
    """A function's signature, and its clauses: kind, name, text."""
    first = re.search(r"^ +(?:requires|ensures)\b", text, re.M)
    if not first:
        return text.split("{")[0], []
    at, clauses = first.start(), list[Clause]()
    while found := CLAUSE.match(text, at):
        end = closing(text, found.end() - 1)
        clauses.append((found[2], found[3] or "", text[found.start(1) : end]))
        at = end
    return text[: first.start()].rstrip(), clauses


class Statements:
    """The statements of some sources: `read` returns the text of each of these paths."""

    def __init__(self, paths: list[str], read: Callable[[str], str]) -> None:
        self.read = read
        # By crate and module of specs/: the definitions, and which definition a case of `data` belongs to.
        self.modules, self.homes = dict[Pair, dict[str, Item]](), dict[Pair, dict[str, str]]()
        # What code declares, by crate: types, constants, and what an `impl` says of a type.
        self.types, self.constants, self.ghosts = (collections.defaultdict[Pair, list[Item]](list) for _ in range(3))
        # Functions with contracts by name: (item of the whole, conditions, clauses).
        self.functions, self.tests = (collections.defaultdict[str, list[tuple[Item, list[Clause]]]](list) for _ in range(2))
        self.scopes, self.crates, self.passed = dict[str, Scope](), set[str](), dict[Pair, str]()
        # What each item names.
        self.uses: dict[Key, list[Item]] = {}
        for path in paths:
            if re.fullmatch(r"crates/\w+/specs/\w+\.antt", path):
                self.specs(path)
            elif re.fullmatch(r"crates/\w+/src/.*\.rt", path):
                self.source(path)

    # ---- reading

    def specs(self, path: str) -> None:
        text = plain(self.read(path), "--")
        scope = self.scopes[path] = Scope(path, text)
        key = (scope.crate, pathlib.PurePath(path).stem)
        self.crates.add(scope.crate)
        found, homes, name = dict[str, list[str]](), dict[str, str](), None
        for line in text.split("\n"):
            begins = DEFINED.match(line)
            if begins:
                name = begins[1] or begins[2]
                found[name] = []
            if line.startswith(("use ", "pub use ", "infix")):
                name = None
            if name:
                found[name].append(line)
        self.modules[key] = {name: Item(path, name, "\n".join(lines).strip("\n"), scope) for name, lines in found.items()}
        for name, lines in found.items():
            homes[name] = name
            if re.match(r"(pub )?data", lines[0]):
                homes.update((case, name) for cases in CASES.findall("\n".join(lines)) for case in cases.split())
        self.homes[key] = homes

    def source(self, path: str) -> None:
        text = plain(self.read(path), "//")
        scope = self.scopes[path] = Scope(path, text)
        self.crates.add(scope.crate)
        self.passed |= {(scope.crate, name): crate for name, crate in scope.passed.items()}
        for lines in chunks(text.split("\n")):
            self.declared(scope, lines, "")

    def declared(self, scope: Scope, lines: list[str], owner: str) -> None:
        """Keeps what an item declares. `owner` is the head of the `impl` or of the trait that it is in."""
        found, text, crate = HEAD.match(lines[0]), "\n".join(lines), scope.crate
        if not found:
            return
        kind, name = found[1], found[2]
        if kind in ("fn", "const fn"):
            self.function(scope, name, text, owner)
        elif "/tests" in scope.path:
            return
        elif kind in ("struct", "enum", "type") and not owner:
            self.types[crate, name].append(Item(scope.path, name, text, scope))
        elif kind == "trait":
            calls = []
            for one in chunks(inside(lines)):
                head, clauses = contract("\n".join(one))
                calls += ["\n".join([head.rstrip(";"), *(clause for *_, clause in clauses)])]
                self.declared(scope, one, lines[0])
            self.types[crate, name].append(Item(scope.path, name, "\n".join([lines[0], *calls, "}"]), scope))
        elif kind == "impl":
            self.implementation(scope, lines)
        elif kind == "const":
            of = self.target(owner) if owner else ""
            self.constants[crate, f"{of}.{name}" if of else name].append(Item(scope.path, f"{of}.{name}" if of else name, text, scope))

    def target(self, head: str) -> str:
        """The type that an `impl` is of."""
        bare = head.split(" for ")[-1] if " for " in head else re.sub(r"^impl(<.*?>(?= ))?", "", head)
        return next(iter(re.findall(r"\w+", bare)), "")

    def implementation(self, scope: Scope, lines: list[str]) -> None:
        begin = next(at for at, line in enumerate(lines) if line.endswith(("{", "{}")))
        head = " ".join(line.strip() for line in lines[: begin + 1]).rstrip("{} ")
        for one in chunks(inside(lines[begin:])):
            ghost = re.match(r"ghost (\w+)( =|:)", one[0])
            if ghost and "Prim.search" not in "".join(one):
                self.ghosts[scope.crate, self.target(head)].append(Item(scope.path, f"{ghost[1]} of {head}", "\n".join(one), scope))
            elif not ghost:
                self.declared(scope, one, head)

    def function(self, scope: Scope, name: str, text: str, owner: str) -> None:
        head, clauses = contract(text)
        if any(kind == "ensures" for kind, *_ in clauses):
            head = f"{owner}\n{head}" if owner else head
            of = self.tests if "/tests" in scope.path else self.functions
            of[name].append((Item(scope.path, name, head, scope), clauses))

    # ---- what a name leads to

    def of_specs(self, crate: str, module: str, name: str, met: tuple[Pair, ...] = ()) -> list[Item]:
        """What a module of specs/ gives by a name, its own or one that it passes on."""
        key = (crate, module)
        if key in met or key not in self.modules:
            return []
        if name in self.homes[key]:
            return [self.modules[key][self.homes[key][name]]]
        scope = self.scopes[f"crates/{crate}/specs/{module}.antt"]
        return [one for place in scope.names.get(name, ()) for one in self.imported(*place, (*met, key))]

    def of_type(self, crate: str, name: str) -> list[Item]:
        found = [*self.types.get((crate, name), ()), *self.ghosts.get((crate, name), ())]
        if not found and (crate, name) in self.passed:
            return self.of_type(self.passed[crate, name], name)
        return found

    def of_constants(self, crate: str, path: str, names: list[str]) -> list[Item]:
        """What constants a path gives, which ends with `TheConstants` or with a type behind that."""
        modules, _, of = path.partition("TheConstants")
        name = ".".join([*of.strip(".").split("."), *names]).strip(".")
        found = self.constants.get((crate, name), ())
        file = f"crates/{crate}/src/{modules.strip('.').replace('.', '/')}.rt"
        return [one for one in found if one.path == file] or [*found]

    def imported(self, crate: str, module: str, name: str, met: tuple[tuple[str, str], ...] = ()) -> list[Item]:
        """What an import of a name leads to."""
        if crate not in self.crates:
            return []
        if not module.startswith("declared"):
            return self.of_specs(crate, module, name, met)
        path = module.removeprefix("declared").strip(".")
        if "TheConstants" in path:
            return self.of_constants(crate, path, [name]) or self.of_constants(crate, f"{path}.{name}", [])
        if "TheVariants" in path:
            return self.of_type(crate, path.split(".")[path.split(".").index("TheVariants") - 1])
        return self.of_type(crate, name) or self.of_type(crate, path.split(".")[-1])

    def meant(self, scope: Scope, head: str, behind: list[str]) -> list[Item]:
        """What a name of a file leads to: `head`, with the names behind it."""
        found: list[Item] = []
        for crate, module in scope.aliases.get(head, ()):
            if crate in self.crates and behind:
                constants = self.of_constants(crate, module.removeprefix("declared").strip("."), behind[:1]) if "TheConstants" in module else []
                found += constants or self.imported(crate, module, behind[0])
            elif crate in self.crates:
                found += self.imported(crate, module, module.split(".")[-1])
        for place in scope.names.get(head, ()):
            found += self.imported(*place)
        if scope.path.endswith(".antt"):
            found += self.of_specs(scope.crate, pathlib.PurePath(scope.path).stem, head)
        elif head[0].isupper():
            crate = scope.rust.get(head, scope.crate)
            own = [one for one in self.constants.get((crate, head), ()) if one.path == scope.path or crate != scope.crate]
            found += self.of_type(crate, head) + own
        if behind and head[0].isupper():
            crates = {one.scope.crate for one in found} | {scope.crate}
            found += [one for crate in crates for one in self.constants.get((crate, f"{head}.{behind[0]}"), ())]
        return found

    def uses_of(self, item: Item) -> list[Item]:
        """What a text names, each once."""
        key = item[:3]
        if key not in self.uses:
            found, own = dict[Key, Item](), item.scope.path
            # What is declared here is not named here.
            text = re.sub(rf"\b(fn|const|type|struct|enum|trait|record(?: pub)?) {WORD}", r"\1", item.text)
            text = re.sub(rf"({WORD})::", r"\1.", text)
            for head, behind in NAMED.findall(text):
                for one in self.meant(item.scope, head, behind.strip(".").split(".") if behind else []):
                    found.setdefault(one[:3], one)
            if own.endswith(".antt"):
                for name in self.modules[item.scope.crate, pathlib.PurePath(own).stem].keys() | item.scope.names.keys():
                    if "◌" in name and name.strip("◌") in text:
                        for one in self.meant(item.scope, name, []):
                            found.setdefault(one[:3], one)
            found.pop(key, None)
            self.uses[key] = [*found.values()]
        return self.uses[key]

    def reached(self, item: Item, follows: Callable[[Item], bool] = lambda one: True) -> list[tuple[Item, int]]:
        """All that a statement reaches through items of this kind, nearest first: each, and how many steps away it is."""
        found, now, steps = {item[:3]: (item, 0)}, [item], 0
        while now:
            steps += 1
            behind = []
            for one in now:
                for use in self.uses_of(one):
                    if use[:3] not in found and follows(use):
                        found[use[:3]] = (use, steps)
                        behind.append(use)
            now = behind
        return list(found.values())

    def find(self, key: Pair) -> Item | None:
        """What a path and a name mean here, if anything does."""
        path, name = key
        if path.endswith(".antt"):
            return self.modules.get((path.split("/")[1], pathlib.PurePath(path).stem), {}).get(name)
        declared = (*self.types.values(), *self.constants.values(), *self.ghosts.values())
        return next((one for items in declared for one in items if (one.path, one.name) == key), None)

    # ---- laws

    def candidates(self, name: str) -> list[Item]:
        """The statements that a name of docs/EVIDENCE.md may mean."""
        of, _, part = name.partition(".")
        found = []
        for item, clauses in self.functions.get(of) or self.tests.get(of) or []:
            said = (
                [clause for _, named, clause in clauses if named == part] if part else [clause for kind, _, clause in clauses if kind != "requires"]
            )
            if said:
                text = "\n".join([item.text, *(clause for kind, _, clause in clauses if kind == "requires"), *said])
                found.append(Item(item.path, name, text, item.scope))
        for key, members in self.modules.items():
            if of in members and (not part or self.part(members[of], part)):
                text = self.part(members[of], part) if part else members[of].text
                found.append(Item(members[of].path, name, text, members[of].scope))
        return found

    def part(self, item: Item, part: str) -> str:
        """A part of a record, behind the record's head; nothing if it has none of this name."""
        lines = item.text.split("\n")
        begin = next((at for at, line in enumerate(lines) if (found := PART.match(line)) and found[1] == part), None)
        if begin is None:
            return ""
        head = [*lines[: next(at for at, line in enumerate(lines) if line.endswith("where")) + 1]] if "where" in item.text else []
        end = next((at for at in range(begin + 1, len(lines)) if PART.match(lines[at])), len(lines))
        return "\n".join([*head, *lines[begin:end]])

    def laws(self, rows: list[tuple[list[str], set[str]]]) -> tuple[list[Law], list[str], list[Law]]:
        """The laws that rows of the page of evidence name, in order; the names that lead to none; and the definitions that no contract says
        which rows name. A name that stands for several is that of the crates to which its row leads, and a definition is no
        candidate if no such contract reaches it and another one is reached."""
        found, lost, said = dict[Pair, Law](), list[str](), set[Pair]()
        named = [(name, crates) for names, crates in rows for name in names]
        of = {name: self.candidates(name) for name, _ in named}
        for items in of.values():
            for item in items:
                if item.path.endswith(".rt"):
                    said |= {(one.path, one.name) for one, _ in self.reached(item)[1:]}
        is_said = {one: one.path.endswith(".rt") or (one.path, one.name.split(".")[0]) in said for items in of.values() for one in items}
        for name, crates in named:
            some = [one for one in of[name] if one.scope.crate in crates] or of[name]
            if not some:
                lost.append(name)
            for one in [one for one in some if is_said[one]] or some:
                found.setdefault((one.path, one.name), Law(name, one))
        laws = [found[key] for key in sorted(found)]
        return laws, lost, [law for law in laws if not is_said[law.item]]

    def terms(self, item: Item) -> list[Item]:
        """What a statement says by itself: the statement, the facts that it names, those that these name, and so on."""
        return [one for one, _ in self.reached(item, is_fact)]


def is_fact(item: Item) -> bool:
    """Whether an item of specs/ says that something is so of its arguments, and is no state, no value and no type."""
    if not item.path.endswith(".antt"):
        return False
    lines = item.text.split("\n")
    end = next((at for at in range(1, len(lines)) if lines[at] and lines[at][0] != " "), len(lines))
    head = " ".join(" ".join(lines[:end]).split())
    if re.match(r"(pub )?(record|data) ", head):
        return not re.match(r"(pub )?(record|data) (pub )?\S+ : Type \d where", head) or bool(re.search("[≡≢≤]", item.text))
    if not re.search(r"[→:] (Type( \d| \{\d\})?|Language|\w*Doing)$", head):
        return False
    return "→" in head or ") :" in head or bool(re.search("[≡≢≤×⊎→]", item.text[len("\n".join(lines[:end])) :]))


def digest(items: Iterable[Item]) -> str:
    """A short sum of statements, definitions and declarations, whatever their order and layout."""
    told = sorted(f"{one.path}\n{one.name}\n{' '.join(one.text.split())}" for one in items)
    return hashlib.sha256("\n\n".join(told).encode()).hexdigest()[:12]


@functools.cache
def evidence() -> str:
    """The page of evidence with its rows, which git does not have: they are made of the comments at the laws."""
    ran = subprocess.run([TOP / ".ci" / "terms", "--page", EVIDENCE], capture_output=True, text=True, check=True)
    return ran.stdout


def rows_of(text: str) -> Iterator[tuple[list[str], set[str]]]:
    """The rows of the page of evidence: the names by which a promise is said, and the crates to which their links and those of its wrong
    bodies lead."""
    head: list[str] = []
    for line in text.split("\n"):
        cells = [cell.strip() for cell in line.strip("|").split("|")]
        if line.startswith("| what is promised |"):
            head = cells
        elif line.startswith("| ") and "it is said by" in head and len(cells) == len(head):
            named = dict(zip(head, cells))
            quoted = re.findall(r"`([^`\n]+)`", named["it is said by"])
            yield quoted, set(re.findall(r"\]\(\.\./crates/(\w+)/", named["it is said by"] + named.get("refused", "")))


def now() -> Statements:
    """The statements of the checkout."""
    paths = sorted(str(path.relative_to(TOP)) for path in (TOP / "crates").rglob("*") if path.suffix in (".rt", ".antt"))
    return Statements(paths, lambda path: (TOP / path).read_text(encoding="utf-8"))


def git(*words: str) -> str | None:
    ran = subprocess.run(["git", "-C", str(TOP), *words], capture_output=True, text=True, check=False)
    return ran.stdout if ran.returncode == 0 else None


def at(commit: str) -> Statements | None:
    """The statements of a commit; nothing if git does not have it."""
    listed = git("ls-tree", "-r", "--name-only", commit, "crates")
    if listed is None:
        return None
    paths = [path for path in listed.split("\n") if re.fullmatch(r"crates/\w+/(specs/\w+\.antt|src/.*\.rt)", path)]
    ran = subprocess.run(
        ["git", "-C", str(TOP), "cat-file", "--batch"],
        input="".join(f"{commit}:{path}\n" for path in paths).encode(),
        capture_output=True,
        check=True,
    )
    texts, at_byte = {}, 0
    for path in paths:
        end = ran.stdout.index(b"\n", at_byte)
        size = int(ran.stdout[at_byte:end].split()[2])
        texts[path] = ran.stdout[end + 1 : end + 1 + size].decode("utf-8")
        at_byte = end + 1 + size + 1
    return Statements(paths, texts.__getitem__)
