#!/usr/bin/env python3
"""Makes of a pair of files of C one that has some calls alone: only.py [--to FOLDER] [--pair NAME] CALL ..

    only.py --to board u16550_new_mmio u16550_init u16550_send_bytes_exact u16550_receive_bytes

writes board/u16550.c and board/u16550.h, with these calls and what they need, from the files that lie beside this one. All else is as it was: the
structs, and so `U16550_LAYOUT`, and the text of each function. A CALL is a function of the header; one that is not there is an error, and nothing is
written then. NAME is `u16550` (the default) or `uart_port`.
"""
from __future__ import annotations

import argparse
import pathlib
import re
import sys
from collections.abc import Iterable, Iterator
from dataclasses import dataclass, field

FOLDER = pathlib.Path(__file__).resolve().parent
COMMENT = re.compile(r"/\*.*?\*/|\"(?:\\.|[^\"\\])*\"", re.S)
ATTRIBUTE = re.compile(r"#if [^\n]*\n__attribute__[^\n]*\n#endif\n")
NAME = re.compile(r"\b[A-Za-z_]\w*\b")


@dataclass
class Item:
    """Something at the top level of a file of C, with the comment above it."""

    text: str
    # Whether a compiler's preprocessor reads it, and how it is called there, if it defines something.
    is_directive: bool = False
    names: set[str] = field(default_factory=set)
    needs: set[str] = field(default_factory=set)


def bare(text: str) -> str:
    """Returns a text without its comments and texts in quotes."""
    return COMMENT.sub(" ", text)


def parts(text: str) -> Iterator[tuple[str, bool]]:
    """Returns the texts at the top level of a file in order, each with all comments and empty lines above it, and whether it is a directive."""
    held: list[str] = []
    at = 0
    lines = iter(text.splitlines(keepends=True))
    for line in lines:
        held.append(line)
        if line.startswith("#if") and ATTRIBUTE.match(text, at := text.index(line, at)):
            held += [next(lines), next(lines)]
            continue
        if not line.strip():
            continue
        if line.startswith("/*"):
            while "*/" not in held[-1]:
                held.append(next(lines))
            continue
        is_directive = line.startswith(("#", 'extern "C" {', "}"))
        code = line
        while code.rstrip().endswith("\\") if is_directive else not is_whole(bare(code)):
            held.append(next(lines))
            code += held[-1]
        yield "".join(held), is_directive
        held = []
    if held:
        yield "".join(held), True


def is_whole(code: str) -> bool:
    """Returns whether code at the top level ends here: a definition, a declaration, or a macro that stands for some."""
    code = code.strip()
    if code.count("{") != code.count("}") or code.count("(") != code.count(")"):
        return False
    return code.endswith((";", "}")) or re.fullmatch(r"[A-Z_0-9]+\(.*\)", code, re.S) is not None


@dataclass
class Macro:
    """A macro with parameters."""

    parameters: list[str]
    body: str

    def expanded(self, arguments: list[str]) -> str:
        """Returns what stands in the place of a use."""
        given = dict(zip(self.parameters, arguments))
        body = NAME.sub(lambda found: given.get(found[0], found[0]), self.body.replace("\\\n", "\n"))
        return re.sub(r"\s*##\s*", "", body)


def macros_of(texts: Iterable[str]) -> dict[str, Macro]:
    """Returns the macros with parameters that directives define."""
    found = {}
    for text in texts:
        define = re.search(r"#define (\w+)\(([\w, ]*)\)\s([\s\S]*)", bare(text))
        if define:
            found[define[1]] = Macro([one.strip() for one in define[2].split(",")], define[3])
    return found


def uses(text: str, macros: dict[str, Macro]) -> Iterator[str]:
    """Returns what stands for the macros in a text."""
    for found in re.finditer(r"\b([A-Z]\w*)\(", text):
        if found[1] in macros:
            depth, at, arguments = 1, found.end(), [""]
            while depth and at < len(text):
                one = text[at]
                depth += (one == "(") - (one == ")")
                if one == "," and depth == 1:
                    arguments.append("")
                elif depth:
                    arguments[-1] += one
                at += 1
            yield macros[found[1]].expanded([one.strip() for one in arguments])


def names_in(code: str) -> set[str]:
    """Returns the names that code at the top level gives something: a function, a type, an array, or the numbers of an enum."""
    code = code.strip()
    names = set(re.findall(r"^(?:static )?(?:const )?(?:struct|enum) (\w+)\s*(?:\{|;)", code))
    if re.match(r"enum\b[^;()]*\{", code):
        return names | set(re.findall(r"\b([A-Z]\w*)\s*(?==|,|\})", code[code.index("{") :] + "}"))
    if re.match(r"struct \w+ \{", code):
        return names
    function = re.match(r"[^={;]*?\b((?:uart|u16550)_\w+)\)?\s*\(", code)
    array = re.match(r"[^({;=]*?\b(\w+)\[", code)
    found = function or array
    return names | ({found[1]} if found else set())


def items_of(text: str) -> list[Item]:
    """Returns what a file has at its top level."""
    found = [Item(one, is_directive) for one, is_directive in parts(text)]
    macros = macros_of(one.text for one in found if one.is_directive)
    for item in found:
        code = bare(item.text)
        expanded = list(uses(code, macros))
        if item.is_directive:
            item.names = set(re.findall(r"#define (\w+)", code))
        elif re.match(r"\s*[A-Z_0-9]+\(", code):
            # Of what a macro stands for each part has a name.
            for one in expanded:
                for part, _ in parts(re.sub(r"(?<=[;}])\s*(?=static|struct)", "\n", one.strip()) + "\n"):
                    item.names |= names_in(bare(part))
        else:
            item.names = names_in(code)
        item.needs = set(NAME.findall(" ".join([code, *expanded])))
    return found


def reached(items: list[Item], roots: Iterable[str]) -> set[str]:
    """Returns all names that something needs which has these names."""
    needs: dict[str, set[str]] = {}
    for item in items:
        for name in item.names:
            needs[name] = needs.get(name, set()) | item.needs | item.names
    found: set[str] = set()
    left = [*roots]
    while left:
        name = left.pop()
        if name not in found:
            found.add(name)
            left += needs.get(name, ())
    return found


def without_empty(text: str) -> str:
    """Returns a text without conditions of the preprocessor around nothing."""
    while True:
        shorter = re.sub(r"#if[^\n]*\n(?:#el[^\n]*\n|\s)*#endif[^\n]*\n", "", text)
        if shorter == text:
            return re.sub(r"\n{3,}", "\n\n", text)
        text = shorter


def calls_of(header: str) -> set[str]:
    """Returns the functions that a header declares."""
    return {
        name
        for item in items_of(header)
        if not item.is_directive and re.search(r"\)\s*;\s*\Z", bare(item.text)) and not re.match(r"\s*(?:enum|struct) \w+ \{", bare(item.text))
        for name in item.names
    }


def only(source: str, header: str, calls: list[str]) -> tuple[str, str]:
    """Returns the source and the header with these calls alone."""
    known = calls_of(header)
    missing = [one for one in calls if one not in known]
    if missing:
        raise ValueError(f"the header has no {', '.join(missing)}")
    items, declared = items_of(source), items_of(header)
    # A call may be a macro of the header, which needs another one.
    kept = reached([*items, *(one for one in declared if one.is_directive)], calls)
    of_source = "".join(one.text for one in items if one.is_directive or not one.names or one.names & kept)
    gone = known - kept
    of_header = "".join(one.text for one in declared if one.is_directive or not one.names or not one.names <= gone)
    return without_empty(of_source), without_empty(of_header)


def main() -> None:
    words = argparse.ArgumentParser(prog="only.py", usage=__doc__)
    words.add_argument("--to", type=pathlib.Path, default=pathlib.Path("."))
    words.add_argument("--pair", choices=["u16550", "uart_port"], default="u16550")
    words.add_argument("calls", nargs="+", metavar="CALL")
    given = words.parse_args()
    files = [FOLDER / f"{given.pair}{end}" for end in (".c", ".h")]
    if given.to.resolve() == FOLDER:
        sys.exit("only.py: --to is the folder of the files themselves")
    try:
        source, header = (one.read_text(encoding="ascii") for one in files)
        made = only(source, header, given.calls)
    except ValueError as cause:
        sys.exit(f"only.py: {cause}")
    given.to.mkdir(parents=True, exist_ok=True)
    for one, text in zip(files, made):
        (given.to / one.name).write_text(text, encoding="ascii")


if __name__ == "__main__":
    main()
