"""What could hide code from one of two readers: comments and braces in a clause, signs of clauses with another meaning, and documentation
of which rustdoc makes a test. Each function gives the cause for which a text is refused, or nothing."""
from __future__ import annotations

import re
from typing import TYPE_CHECKING

if TYPE_CHECKING:
    from tokens import Token

# Where a comment of ANTT begins and ends.
COMMENT = re.compile(r"\{-|-\}|--")

# The braces of a clause: those of a record, and the level of the type `Unit`.
RECORD = re.compile(r"\brecord(?:\s+[\w.]+)?$")
LEVEL = re.compile(r"\bUnit \{0\}")

# Where the signs of clauses come from.
SIGNS_OF_STD = "ghost use Rattle.std.specs.Prelude."

DOCUMENTATION = re.compile(r"//(?:!|/(?!/))")
FENCE = re.compile(r"//[/!] ```$")
OTHER_FENCE = re.compile(r"```|~~~")
INDENTED = re.compile(r"//[/!] {4}")


def comment(text: str) -> str | None:
    """Why a clause or a ghost item is refused for a comment: a brace in it does not count in Rattle, and would end the clause here."""
    found = COMMENT.search(text)
    return f"`{found[0]}` in a clause" if found else None


def braces(text: str) -> str | None:
    """Why a clause or a ghost item is refused for its braces."""
    text = LEVEL.sub("", text)
    for at, letter in enumerate(text):
        if letter == "{" and not is_record(text[:at].rstrip()):
            return "braces in a clause that are no record's"
    return None


def is_record(before: str) -> bool:
    """Whether braces behind this text are those of `record`, `record NAME`, `record (..)` or `record (..).NAME`."""
    before = re.sub(r"(?<=\))(\.\w+)+$", "", before)
    if not before.endswith(")"):
        return RECORD.search(before) is not None
    depth = 0
    for at in range(len(before) - 1, -1, -1):
        depth += {")": 1, "(": -1}.get(before[at], 0)
        if depth == 0:
            return re.search(r"\brecord$", before[:at].rstrip()) is not None
    return False


def in_ghost_use(text: str) -> str | None:
    """Why a `ghost use` is refused. A guard is for the words of a clause, whose signs mean what std says."""
    if "◌" in text and not text.startswith(SIGNS_OF_STD):
        return "signs of clauses that are not std's"
    return None


def in_documentation(comments: list[Token]) -> tuple[Token, str] | None:
    """The comment that is refused and why: a fence of another form than `documentation` knows, or text that is indented as code is."""
    inside, last = False, ""
    for comment in comments:
        if not DOCUMENTATION.match(comment.text):
            continue
        if comment.text[:3] != last:
            inside, last = False, comment.text[:3]
        if FENCE.match(comment.text):
            inside = not inside
        elif OTHER_FENCE.search(comment.text):
            return comment, "a fence of another form"
        elif not inside and INDENTED.match(comment.text):
            return comment, "documentation that is indented, which is code"
    return None
