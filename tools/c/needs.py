"""What the objects of the C need of a compiler's own library: what the table of c/README.md says of families of processors."""
import fnmatch
import pathlib
import re
from collections.abc import Iterable

PAGE = pathlib.Path(__file__).resolve().parent.parent.parent / "c" / "README.md"
BEGIN, END = "<!-- looked at by tools/c/compare -->", "<!-- until here -->"
# What linkers have themselves, and what AVR's gcc asks of a start for constants.
OF_LINKERS = {"_GLOBAL_OFFSET_TABLE_", ".TOC.", "__do_copy_data"}


def of_page() -> dict[str, dict[str, set[str]]]:
    """The names that the page has, by the family and by the source."""
    text = PAGE.read_text(encoding="utf-8")
    table = text[text.index(BEGIN) : text.index(END, text.index(BEGIN))]
    head, _, *rows = ([cell.strip() for cell in line.strip("| ").split("|")] for line in table.splitlines() if line.startswith("|"))
    sources = [cell.strip("`") for cell in head[1:]]
    return {row[0]: {source: set(re.findall("`([^`]+)`", cell)) for source, cell in zip(sources, row[1:])} for row in rows}


def unknown(needed: Iterable[str], named: Iterable[str]) -> list[str]:
    """Those names that are needed and not on the page, where a `*` stands for any number."""
    return sorted(one for one in needed if not any(fnmatch.fnmatchcase(one, name) for name in named))


def unneeded(needed: Iterable[str], named: Iterable[str]) -> list[str]:
    """Those names that are on the page and not needed."""
    return sorted(name for name in named if not fnmatch.filter(needed, name))


def of_object(listed: str) -> set[str]:
    """The names that `nm -u` lists."""
    return {line.split()[-1] for line in listed.splitlines()} - OF_LINKERS
