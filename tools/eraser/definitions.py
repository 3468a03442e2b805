"""The definitions of the contracts, in `crates/*/specs`: each with the comment above it, its text, and the definitions that it uses.

A comment stands above each definition, or above the first of several that it is about. A file begins with a comment that says what it
defines. A comment with an empty line behind it says why, and is about no definition. A place is (crate, module, name), as
`("uart_16550", "Init", "Inits")`.
"""
import collections
import functools
import pathlib
import re
from collections.abc import Container, Iterator
from typing import NamedTuple

# A crate, a module of its specs/, and a name.
Place = tuple[str, str, str]


# `words` are the comment. `shares` says that the comment stands above an earlier definition, and is about this one too.
class Definition(NamedTuple):
    place: Place
    words: str
    shares: bool
    text: str
    line: int
    uses: list[Place]


DEFINED = re.compile(r"^(?:abbrev|unfoldable)(?: pub)? ([^\s:]+)|^(?:pub )?(?:record|data) (?:pub )?([^\s:]+)")
MODULE = re.compile(r"^pub mod (\w+)", re.M)
USE = re.compile(r"^ *(?:ghost )?use Rattle\.(\w+)\.specs\.(\w+)(?:\.\{([^}]*)\}| as (\w+))", re.M)
NAME = re.compile(r"(?<![\w.])(?:(\w+)\.)?([A-Za-z_]\w*'?)")


def path_of(place: tuple[str, ...]) -> str:
    """The file of a definition or of a module."""
    return f"crates/{place[0]}/specs/{place[1]}.antt"


def comment_above(lines: list[str], at: int) -> str:
    """The comment that ends above a line. The fixity of an operator may stand between them."""
    while at > 0 and lines[at - 1].startswith("infix"):
        at -= 1
    first = at
    while first > 0 and lines[first - 1].startswith("--"):
        first -= 1
    return " ".join(line.removeprefix("--").strip() for line in lines[first:at])


def heading(lines: list[str]) -> str:
    """The comment at the beginning of a file, which says what it defines."""
    end = next((at for at, line in enumerate(lines) if not line.startswith("--")), 0)
    return comment_above(lines, end)


def of_file(crate: str, module: str, lines: list[str]) -> Iterator[Definition]:
    """The definitions of a file, without what they use."""
    words = ""
    for at, line in enumerate(lines):
        found = DEFINED.match(line)
        if not found:
            continue
        own = comment_above(lines, at)
        words = own or words
        end = next((i for i in range(at + 1, len(lines)) if lines[i].startswith(("--", "infix")) or DEFINED.match(lines[i])), len(lines))
        text = "\n".join(lines[at:end]).strip()
        yield Definition((crate, module, found[1] or found[2]), words, not own, text, at + 1, [])


def imported(text: str) -> tuple[dict[str, Place], dict[str, tuple[str, str]]]:
    """What a text's `use` lines give: places by name, and (crate, module) by the name of a module."""
    places, modules = dict[str, Place](), dict[str, tuple[str, str]]()
    for crate, module, names, other in USE.findall(text):
        if other:
            modules[other] = (crate, module)
        for name in re.findall(r"[^\s,]+(?: as [^\s,]+)?", names):
            of, _, here = name.partition(" as ")
            places[here or of] = (crate, module, of)
    return places, modules


def cited(code: str, places: dict[str, Place], modules: dict[str, tuple[str, str]], known: Container[Place]) -> list[Place]:
    """The definitions that a piece of code names, in the order in which it does."""
    found: list[Place] = []
    for head, name in NAME.findall(code):
        place = (*modules[head], name) if head in modules else None if head else places.get(name)
        if place and place in known and place not in found:
            found.append(place)
    return found


class Definitions:
    """The definitions of some crates: `known` by place, `headings` by (crate, module), and the `files` that they are in, as bytes by
    name, as `uart_16550/specs/Init.antt`."""

    def __init__(self, root: pathlib.Path, crates: tuple[str, ...]) -> None:
        self.known, self.headings = dict[Place, Definition](), dict[tuple[str, str], str]()
        self.files, texts = dict[str, bytes](), dict[tuple[str, str], str]()
        for crate in crates:
            for module in modules_of(root, crate):
                name = path_of((crate, module))
                data = (root / name).read_bytes()
                self.files[name.removeprefix("crates/")], texts[crate, module] = data, data.decode("utf-8")
        raw: list[Definition] = []
        for (crate, module), text in texts.items():
            lines = text.split("\n")
            self.headings[crate, module] = heading(lines)
            raw += of_file(crate, module, lines)
        places_of = collections.defaultdict[tuple[str, str], dict[str, Place]](dict)
        for one in raw:
            places_of[one.place[:2]][one.place[2]] = one.place
        known = {one.place for one in raw}
        given = {module: imported(text) for module, text in texts.items()}
        for one in raw:
            places, modules = given[one.place[:2]]
            uses = cited(one.text, {**places, **places_of[one.place[:2]]}, modules, known)
            self.known[one.place] = one._replace(uses=[place for place in uses if place != one.place])


def modules_of(root: pathlib.Path, crate: str) -> list[str]:
    """The modules of a crate's specs/, in their order."""
    listed = root / "crates" / crate / "specs" / "Lib.antt"
    return MODULE.findall(listed.read_text(encoding="utf-8")) if listed.exists() else []


@functools.cache
def read(root: pathlib.Path, crates: tuple[str, ...]) -> Definitions:
    """The definitions of these crates."""
    return Definitions(root, crates)
