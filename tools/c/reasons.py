"""The reasons that stand inside of functions of the source, in front of the same statement of the C. A statement is known by what it does first
that both have: an access of a register, a call, or the setting of a member. So a reason has a place where a function does as many such things in
C as in the source; else it has none."""
from __future__ import annotations

import dataclasses
import re
import textwrap
from collections.abc import Sequence

# What a statement does, in the source and in C. A register that is read or written counts by its name.
IN_SOURCE = re.compile(
    r"\bwrite_register\(\s*offsets::(?P<written>\w+)|\bread_(?:register|plain)\(\s*offsets::(?P<read>\w+)"
    r"|\.(?P<shown>ier|isr|lcr|mcr|spr)\(\)|\bself\.(?P<member>\w+) = |\b(?P<test>if|match)\b|\b(?P<loop>for|while|loop)\b|\b(?P<call>\w+)\("
)
IN_C = re.compile(
    r"\buart_(?:device_)?write(?:_register)?\((?:[\w&>-]+, )?UART_(?P<written>\w+)"
    r"|\buart_(?:device_)?read(?:_register)?\((?:[\w&>-]+, )?UART_(?P<read>\w+)"
    r"|\buart_(?P<shown>ier|isr|lcr|mcr|spr)\(|(?:->|\.)(?P<member>\w+) = |\b(?P<test>if|switch) \(|\b(?P<loop>for|while) \(|\buart_(?P<call>\w+)\("
)
# What has no name: a test, and a loop. By these a place is known only if nothing with a name is there.
TEST, LOOP = NAMELESS = ("test", "loop")
# How many lines behind a reason are looked at.
FAR = 3


@dataclasses.dataclass(frozen=True)
class Reason:
    """A reason, and what the lines behind it do, each with how often the function has done that before, and how often it does it in all."""

    lines: tuple[str, ...]
    does: tuple[tuple[str, int, int], ...]


def done(found: re.Match[str]) -> str:
    """What is done, in words that are the same for the source and for C."""
    if found["written"]:
        return f"write {found['written']}"
    if found["read"] or found["shown"]:
        return f"read {(found['read'] or found['shown']).upper()}"
    if found["test"] or found["loop"]:
        return TEST if found["test"] else LOOP
    return f"set {found['member']}" if found["member"] else f"call {found['call']}"


def bare(text: str) -> str:
    """A text in which comments have become spaces, so that places stay."""
    return re.sub(r"//[^\n]*", lambda one: " " * len(one[0]), text)


def of_body(text: str) -> list[Reason]:
    """The reasons in the body of a function of the source."""
    code, out = bare(text), list[Reason]()
    all_done = [(found.start(), done(found)) for found in IN_SOURCE.finditer(code)]
    for found in re.finditer(r"(?m)^(?: *// [^\n]*\n)+", text):
        end = found.end()
        lines = code[end:].split("\n")[:FAR]
        # What is inside of a block is done under a condition, or often.
        opens = next((order for order, line in enumerate(lines) if line.endswith("{")), FAR)
        behind = "\n".join(lines[: opens + 1])
        does = [
            (what, sum(1 for at, other in all_done if at < place and other == what), sum(1 for _, other in all_done if other == what))
            for place, what in all_done
            if end <= place < end + len(behind)
        ]
        does.sort(key=lambda one: one[0] in NAMELESS)
        out.append(Reason(tuple(re.sub(r"^ *// ?", "", line) for line in found[0].splitlines()), tuple(does)))
    return out


def same(what: str, other: str) -> bool:
    """Whether what C does is what the source does. A call of C has the name of its type in front."""
    return other == what or what.startswith("call ") and other.startswith("call ") and other.endswith(f"_{what.removeprefix('call ')}")


def place_of(reason: Reason, body: Sequence[str]) -> int | None:
    """The line of the body of a function in C that a reason stands in front of, or None."""
    lines = [(order, done(found)) for order, line in enumerate(body) for found in IN_C.finditer(line)]
    for what, before, in_all in reason.does:
        places = [order for order, other in lines if same(what, other)]
        if len(places) == in_all:
            return begins(body, places[before])
    return None


def begins(body: Sequence[str], order: int) -> int | None:
    """The line at which the statement of a line begins, or None if it is a branch of another one."""
    while order > 0 and not re.search(r"[;{}:]$|\*/$", body[order - 1]):
        if re.match(r"\s*(?:if|for|while|else)\b.*\)$|\s*else$", body[order - 1]) and body[order - 1].count("(") == body[order - 1].count(")"):
            return None
        order -= 1
    return order


def with_reasons(body: Sequence[str], found: Sequence[tuple[Reason, Sequence[str]]], width: int) -> list[str]:
    """The lines of a body with its reasons, each of which is given with its words in C."""
    at = dict[int, list[str]]()
    for reason, words in found:
        place = place_of(reason, body)
        if place is not None:
            at[place] = [*at.get(place, []), *words]
    out = list[str]()
    for order, line in enumerate(body):
        if order in at:
            out += in_comment(at[order], len(line) - len(line.lstrip()), width)
        out.append(line)
    return out


def in_comment(words: Sequence[str], indent: int, width: int) -> list[str]:
    """Words as a comment of C at this place."""
    room, space = width - indent, " " * indent
    lines = textwrap.wrap(" ".join(words), room - len("/*  */"), break_long_words=False, break_on_hyphens=False)
    if len(lines) == 1:
        return [f"{space}/* {lines[0]} */"]
    lines = textwrap.wrap(" ".join(words), room - len(" * "), break_long_words=False, break_on_hyphens=False)
    return [f"{space}/*", *(f"{space} * {line}" for line in lines), f"{space} */"]
