"""Where names stand in the sources of the repository: functions with their clauses, definitions with their parts, tests, and wrong bodies.

A page of the site that shows a source has a place for each of them, and what a document names in backquotes leads there.
"""

from __future__ import annotations

import collections
import pathlib
import re
from collections.abc import Iterable, Iterator

# What declares a name in a line of a file with this ending or of this name, and what declares a part of the name above it.
FUNCTION = re.compile(r"^\s*(?:#\[test\]\s*)?(?:pub(?:\([a-z]+\))? )?(?:const )?(?:unsafe )?(?:extern \"C\" )?fn (\w+)")
CLAUSE = re.compile(r"^\s*ensures\*? (\w+) \{")
DEFINITION = re.compile(r"^(?:pub )?(?:abbrev|unfoldable|record|data) (?:pub )?(\w+)")
PART = re.compile(r"^  pub (\w+) :")
EDIT = re.compile(r"^\[(\w+)\]")
PYTHON = re.compile(r"^(?:    )?(?:def|class) (\w+)")
NEVER = re.compile(r"(?!)")
KINDS = {".rt": (FUNCTION, CLAUSE), ".rs": (FUNCTION, CLAUSE), ".antt": (DEFINITION, PART), "wrong-bodies": (EDIT, NEVER), ".py": (PYTHON, NEVER)}
# A name that leads somewhere wherever it stands: with an underscore or a capital. Plain words are names of too much.
TELLING = re.compile(r"(?=\w*[_A-Z])[A-Za-z]\w*")
# Files whose names are looked for. Those of made sources stand in what they are made of.
SEARCHED = re.compile(r"crates/\w+/(?:src|specs)/.*\.(?:rt|antt)|(?:rust|examples)/(?!proved/\w+/src/).*/tests/.*\.rs")

Path = pathlib.PurePath


def names(path: Path, text: str) -> Iterator[tuple[int, str]]:
    """The names that a file declares, each with its line: `f`, and `f.clause` for a part of it. Lines are counted from 1."""
    whole, part = KINDS.get(path.suffix or path.name, (NEVER, NEVER))
    name = ""
    for number, line in enumerate(text.split("\n"), 1):
        if found := whole.match(line):
            name = found[1]
            yield number, name
        elif (found := part.match(line)) and name:
            yield number, f"{name}.{found[1]}"


def crate_of(path: Path) -> str | None:
    """The crate that a file is of, if it is in one."""
    return path.parts[1] if len(path.parts) > 2 and path.parts[0] == "crates" else None


def declared(name: str) -> str:
    """A name as its file declares it: without the path before it and the arguments behind it."""
    return name.partition("(")[0].rpartition("::")[2]


class Places:
    """The files that declare each name."""

    def __init__(self, texts: Iterable[tuple[Path, str]]) -> None:
        self.files: dict[str, list[Path]] = collections.defaultdict(list)
        for path, text in texts:
            if SEARCHED.fullmatch(str(path)):
                for name in dict.fromkeys(name for _, name in names(path, text)):
                    self.files[name].append(path)

    def of(self, name: str, page: Path) -> Path | None:
        """The one file that a page means by a name, as `f`, `f.clause`, `laws::f` or `f(true)`: that of its own crate, else the laws, else the
        driver, else the only one. None if it may be several."""
        name = declared(name)
        if not TELLING.fullmatch(name.partition(".")[0]):
            return None
        found = self.files.get(name, [])
        for some in (
            [path for path in found if crate_of(path) and crate_of(path) == crate_of(page)],
            [path for path in found if path.stem == "laws"],
            [path for path in found if crate_of(path) == "uart_16550"],
            found,
        ):
            if some:
                return some[0] if len(some) == 1 else None
        return None
