"""Refuses, in the code of a file that is left, words and macros that the table does not let through, and a `usize` of 64 bits."""
from __future__ import annotations

import bisect
import re
from collections.abc import Iterable
from typing import TYPE_CHECKING

if TYPE_CHECKING:
    from items import File

# Rules that keep what they rewrite as code.
REWRITES = ("allocator",)
# Words that end no value, so that a sign behind one is of what follows.
KEYWORDS = """
as async await become box break const continue crate do dyn else enum extern final fn for gen if impl in let loop macro match mod move mut
pub ref return static struct super trait try type typeof union unsafe unsized use virtual where while yield
""".split()


class Spans:
    """Parts of a text, of which one tells quickly whether an offset is in any."""

    def __init__(self, spans: Iterable[tuple[int, int]]) -> None:
        self.starts, self.ends = list[int](), list[int]()
        for start, end in sorted(spans):
            if self.ends and start <= self.ends[-1]:
                self.ends[-1] = max(self.ends[-1], end)
            else:
                self.starts.append(start)
                self.ends.append(end)

    def __contains__(self, offset: int) -> bool:
        at = bisect.bisect_right(self.starts, offset) - 1
        return at >= 0 and offset < self.ends[at]


def check(file: File) -> None:
    gone = Spans((edit.start, edit.end) for edit in file.edits if edit.rule not in REWRITES and edit.end > edit.start)
    for at, token in enumerate(file.code):
        word, before, after = token.text, file.word(at - 1), file.word(at + 1)
        if token.start in gone:
            continue
        if token.kind in ("clause", "ghost", "ghost use"):
            file.refuse(f"a {token.kind} that no rule drops", at)
        if word in ("&", "*") and after in ("raw", "const", "mut") and (word, after) != ("&", "mut"):
            file.refuse("a raw pointer", at)
        if file.has_narrow_targets and token.kind == "number":
            check_number(file, at)
        if token.kind != "word":
            continue
        if word in file.table.WORDS:
            file.refuse(f"the word `{word}`", at)
        if file.has_narrow_targets and (before == "usize" or file.words(at - 2, at) == "usize ::" and word in ("MAX", "BITS")):
            file.refuse("a limit of `usize`", at)
        if after == "!" and file.word(at + 2) in ("(", "[", "{") and word not in file.table.MACROS:
            file.refuse(f"the macro `{word}`", at)


def check_number(file: File, at: int) -> None:
    """A number above 65,535 is none of `usize`: it is a constant of another type, or it is listed."""
    if file.number(at) <= 0xFFFF or file.word(at) in file.table.LARGE.get(file.name, []):
        return
    if not re.fullmatch(r": u(32|64) =", file.words(at - 3, at)):
        file.refuse("a number above 65,535 that may be a `usize`", at)
