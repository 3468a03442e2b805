"""Contracts in ACSL of the functions of u16550.c, which Frama-C reads: which numbers a function returns, and what it has written then. Those of the
header are made of the table of the interface. Those of the code that is proved are made of its types, and of the clauses of its contracts that are
about numbers and lengths alone: the others speak of a chip."""
from __future__ import annotations

import re
import textwrap
from collections.abc import Iterator

import calls
import syntax as c
from header import LICENCE
from interface import number, proved_name, type_of
from library import Library, Written
from representation import INT
from table import ByHand, Call, Wrong

TOP = f"""{LICENCE}/*
 * Contracts of the functions of u16550.c in ACSL, for Frama-C: which numbers they return, what they have written then, that a misuse makes no
 * access, and what is proved of numbers and lengths in their source. Include it behind u16550.c.
 *
 * Made by tools/c/emit. Do not edit.
 */

/* Whether an access was made: the functions of the device set it. */
extern uint8_t uart_was_reached;
"""
MISUSE_OR_OK = "U16550_OTHER_LAYOUT <= \\result <= U16550_OK"
# What no call returns, as the header says.
NEVER = {number(one.name) for group in calls.NUMBERS for one in group.members if one.note == "no call returns this"}
SIGNS = {"\u2264": "<=", "\u2261": "==", "\u2262": "!="}
# The words of a clause about numbers: a power of two numbers, the length of a slice, a number, a name, a sign.
WORD = re.compile(r"(\d+) \^ (\d+)|length (\w+)(?:\.\w+)?|(\d+)|([a-z]\w*)|([\u2264\u2261\u2262<()+*-])|\s+")
WIDTH = 140


def text(library: Library) -> str:
    known = {one.name: one for one in library.order}
    rows = [
        one for section in calls.SECTIONS for group in section.groups for one in group.calls if not isinstance(one, ByHand) or one.returns == "int"
    ]
    own = [contract(clauses_of(one), prototype(one)) for one in library.called() if any(clauses_of(one))]
    # In brackets, since some of these names are those of macros too.
    of_header = [contract(clauses_of_row(one, known), f"int (u16550_{one.name})({one.takes});") for one in rows]
    return "\n".join([TOP, *own, *of_header])


def contract(clauses: Iterator[str], declared: str) -> str:
    """A contract, and the declaration that it is of."""
    lines = [line for one in clauses for line in wrapped(one)]
    return "\n".join(["/*@", *lines, "*/", *c.wrapped(declared), ""])


def wrapped(clause: str) -> list[str]:
    """The lines of a clause, which ends one only in front of `||`."""
    kept = clause.replace(" ", "\0").replace("\0||", " ||")
    return [line.replace("\0", " ") for line in textwrap.wrap(kept, WIDTH, initial_indent="  ", subsequent_indent="    ", break_long_words=False)]


def prototype(one: Written) -> str:
    return f"static {c.declared(one.result, one.name)}({', '.join(c.declared(part.of, part.known_name()) for part in one.parameters) or 'void'});"


def returns(ok: str, errors: list[str]) -> str:
    """The clause that a function returns one of these numbers."""
    return f"ensures returns: {' || '.join([ok, *(is_number(one) for one in dict.fromkeys(errors) if one not in NEVER)])};"


def is_number(name: str) -> str:
    return f"\\result == {name}"


# What is proved.


def clauses_of(one: Written) -> Iterator[str]:
    """The clauses of a function that is proved."""
    names = {part.known_name() for part in one.parameters}
    for clause in one.source.requires if one.source else ():
        if said := of_numbers(clause, names):
            yield f"requires {said};"
    is_ok = is_number("U16550_OK")
    if one.result is INT and one.errors:
        yield returns(is_ok, one.errors)
    for out, pointer in zip(one.form.outs if one.form else (), one.pointers):
        is_set, is_not_set = (is_ok, "\\result != U16550_OK") if one.result is INT else ("\\result", "!\\result")
        if not out.is_struct():
            yield f"ensures written: {is_not_set if 'error' in out.path else is_set} ==> \\initialized({pointer.known_name()});"
    for clause in one.source.ensures if one.source and one.form is None and not one.shift else ():
        if said := of_numbers(clause, {*names, "result"}):
            yield f"ensures {said};"


def of_numbers(clause: tuple[str, str], names: set[str]) -> str | None:
    """A clause in ACSL with its name, if it is about nothing but numbers, lengths and these names."""
    name, said = clause
    out, at = list[str](), 0
    while at < len(said):
        found = WORD.match(said, at)
        if not found:
            return None
        at = found.end()
        base, power, slice_of, literal, word, sign = found.groups()
        if slice_of or word:
            word = f"{slice_of}_len" if slice_of else word
            if word not in names:
                return None
            out.append("\\result" if word == "result" else word)
        elif power:
            out.append(str(int(base) ** int(power)))
        elif literal or sign:
            out.append(literal or SIGNS.get(sign, sign))
    return f"{f'{name}: ' if name else ''}{' '.join(out)}"


# What the header has.


def clauses_of_row(row: Call | ByHand, known: dict[str, Written]) -> Iterator[str]:
    """The clauses of a function of the header."""
    proved = known.get(proved_name(row)) if isinstance(row, Call) else None
    yield returns(MISUSE_OR_OK, [number(one) for one in named_by(row)] + (proved.errors if proved else []))
    yield "ensures misuse: \\result < U16550_OK ==> uart_was_reached == \\old(uart_was_reached);"
    for name in [row.gives] if row.gives else ["dll", "dlm"] if isinstance(row, Call) and row.pair else []:
        if not type_of(row, name).startswith("struct "):
            yield f"ensures written: {is_number('U16550_OK')} ==> \\initialized({name});"
    if row.gives and proved and proved.source and re.search(r"\bbool\b", proved.source.result):
        yield f"ensures flag: {is_number('U16550_OK')} ==> *{row.gives} == 0 || *{row.gives} == 1;"
    if row.stalls:
        yield f"ensures written: \\result >= U16550_OK && {row.stalls} != \\null ==> \\initialized({row.stalls});"


def named_by(row: Call | ByHand) -> list[str]:
    """The names of the errors that a row has."""
    if isinstance(row, Call):
        return [one for one in (row.none, row.false) if one]
    members = {group.enum: [one.name for one in group.members] for group in calls.NUMBERS}
    all_names = {one for names in members.values() for one in names}
    if wrong := [one for one in row.errors.split() if one not in members and one not in all_names]:
        raise Wrong(f"calls.py: {row.name} returns {wrong[0]}, which is no error")
    return [name for one in row.errors.split() for name in members.get(one, [one])]
