"""The parts of the pair u16550 that a program can do without: each is left out by a macro, with what no other part needs."""

from __future__ import annotations

import itertools
import pathlib
import re
import sys

sys.path.insert(0, str(pathlib.Path(__file__).resolve().parent.parent.parent / "c"))

import only

# The calls of each part, by its macro. A call that is in none is always there.
PARTS = {
    "U16550_OMIT_RINGS": r"ring_\w+|line_handle|note_errors|end_notes",
    "U16550_OMIT_BUS": r"bus_\w+",
    "U16550_OMIT_DESIGN_WARE": r"\w*design_ware\w*",
    "U16550_OMIT_MEMORY": "new_mmio_wide",
    "U16550_OMIT_TIMES": r"nearest|\w+_clocks|characters_in|handler_budget|spin_limit_for|(clocks|nanoseconds)_(within|covering)",
    "U16550_OMIT_LOOPBACK": "test_loopback",
    "U16550_OMIT_TEXT": "text",
}


def macros_of(call: str) -> frozenset[str]:
    """Returns the macro of a call's part, if it is in one."""
    return frozenset(macro for macro, calls in PARTS.items() if re.fullmatch(f"u16550_(?:{calls})", call))


def condition(macros: frozenset[str]) -> str:
    """Returns the line that asks for what some parts need."""
    if len(macros) == 1:
        return f"#ifndef {min(macros)}\n"
    return f"#if {' || '.join(f'!defined({one})' for one in sorted(macros))}\n"


def with_conditions(items: list[only.Item], needed: dict[str, frozenset[str]]) -> str:
    """Returns a text in which each item stands behind the condition of the parts that need it; of a name that is not in `needed`, each does."""

    def of(item: only.Item) -> frozenset[str]:
        found = [needed.get(name, frozenset()) for name in item.names]
        return frozenset() if item.is_directive or not found or not all(found) else frozenset().union(*found)

    out = []
    for macros, some in itertools.groupby(items, of):
        text = "".join(one.text for one in some)
        if macros:
            blank = "\n" if text.startswith("\n") else ""
            text = f"{blank}{condition(macros)}{text.removeprefix(blank)}#endif\n"
        out.append(text)
    return "".join(out)


def divided(source: str, header: str) -> tuple[str, str]:
    """Returns the two files, in which each part is behind its macro."""
    calls = only.calls_of(header)
    items = only.items_of(source)
    always = only.reached(items, [one for one in calls if not macros_of(one)])
    needed: dict[str, frozenset[str]] = {}
    for macro in PARTS:
        for name in only.reached(items, [one for one in calls if macro in macros_of(one)]) - always:
            needed[name] = needed.get(name, frozenset()) | {macro}
    of_header = only.items_of(header)
    return with_conditions(items, needed), with_conditions(of_header, {one: macros_of(one) for one in calls})
