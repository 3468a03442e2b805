"""The tables of the program, as `erase tables` prints them. tools/eraser/README.md shows two of them."""
import re
from collections.abc import Iterable, Sequence

import attacks
import foreign
import table

NAME = "tools/eraser/README.md"
NAMED = re.compile(r"`erase tables ([a-z-]+)`")
BLOCK = re.compile(r"(<!-- eraser: ([a-z-]+) -->\n).*?(?=<!-- end -->\n)", re.DOTALL)


def rows(head: list[str], lines: Iterable[Sequence[str]]) -> str:
    return "".join(f"| {' | '.join(line)} |\n" for line in [head, ["---"] * len(head), *lines])


def code(text: str) -> str:
    return f"`{text}`"


def last(path: str, count: int) -> str:
    return "::".join(path.split("::")[-count:])


def guard(path: str, entry: table.Guard) -> list[str]:
    """A row for a function that requires something."""
    tests = "tests it, and panics" if entry.test else "no test"
    if entry.tested_by:
        tests = f"{code(entry.tested_by.split('::')[-1])} tests it"
    clauses = ", ".join(code(re.sub(r"^requires (\w+ )?\{ (.*) \}$", r"\2", one)) for one in entry.clauses)
    return [code(last(path, 2)), clauses, tests, entry.reason or ""]


def blocks() -> dict[str, str]:
    of_types: dict[str, list[str]] = {}
    for path in table.CONSTANT:
        of_types.setdefault(path.split("::")[-2], []).append(path.split("::")[-1])
    constant = [[code(name), ", ".join(map(code, sorted(names)))] for name, names in of_types.items()]
    by_hand: dict[str, list[str]] = {}
    for name in table.BY_HAND:
        by_hand.setdefault(name.split("/")[0], []).append(name.split("/src/")[1].replace(".rt", ".rs"))
    return {
        "rules": rows(["rule", "in the source", "in Rust"], table.RULES),
        "packages": rows(
            ["crate", "is part of", "by hand behind"],
            [
                [code(name), "users' programs" if name in table.SHIPS else "our programs", ", ".join(map(code, by_hand.get(name, [])))]
                for name in table.CRATES
            ],
        ),
        "guards": rows(["function", "requires", "in Rust", "why"], [guard(*one) for one in table.GUARDS.items()]),
        "attacks": rows(["attack", "found by"], attacks.table()),
        "constant": rows(["type", "`const fn` in Rust"], constant),
        "let-through": rows(
            ["of its kind, only"],
            [
                ["macros: " + ", ".join(code(f"{name}!") for name in table.MACROS)],
                ["attributes: " + ", ".join(map(code, table.ATTRIBUTES))],
                ["derives: " + ", ".join(map(code, table.DERIVES))],
                ["of core, of the kit and of libraries, methods: " + ", ".join(map(code, foreign.METHODS))],
                ["of these, by a path: " + ", ".join(code(f"{head}::{name}") for head, names in foreign.PATHS.items() for name in names)],
            ],
        ),
    }


def unknown(text: str) -> list[str]:
    """The tables that the page names and that are none."""
    return [name for name in NAMED.findall(text) if name not in blocks()]


def written(text: str) -> str:
    """The page with its tables written anew."""
    made = blocks()
    return BLOCK.sub(lambda found: found[1] + made[found[2]], text)
