"""Reads files of wrong bodies, `crates/NAME/wrong-bodies`. docs/WRONG_BODIES.md says what they hold. Needs no kit."""
import re
from collections.abc import Iterator

# The line above a wrong body: its name, and whether the gate tries it each time.
HEADING = re.compile(r"^\[(\w+)\]( in the gate)?\n", re.M)


def sections(path: str) -> Iterator[tuple[str, bool, str]]:
    """Yields what a file of wrong bodies has: the name of each, whether the gate tries it each time, and its text."""
    with open(path, encoding="utf-8") as file:
        # Nothing is in front of the first heading.
        _, *parts = HEADING.split(file.read())
    for name, mark, text in zip(parts[::3], parts[1::3], parts[2::3]):
        yield name, bool(mark), text.rstrip("\n") + "\n"


def pairs(text: str) -> Iterator[tuple[str | None, str | None, str]]:
    """Yields the changes that an edit makes, as the kit reads them: file, old text, new text."""
    file = old = None
    for line in text.split("\n"):
        if line.startswith("file: "):
            file = line[len("file: ") :].strip()
        elif line.startswith("old: "):
            old = line[len("old: ") :]
        elif line.startswith("new:"):
            yield file, old, line[len("new:") :].removeprefix(" ")
