"""The header, from the table of the interface. What is in no row of it is in header_c.h."""
from __future__ import annotations

from collections.abc import Callable, Sequence
from typing import TypeAlias

import calls
from table import ByHand, Call, Enum, Struct

# What a header says of a function in front of it.
Proved: TypeAlias = "Callable[[Call | ByHand], str]"

# How far to the right the remarks of numbers and of fields begin, and how long a line is.
NUMBER, FIELD, WIDTH = 33, 39, 128
# What each file that users copy begins with. Without the folder of the repository nothing else tells what they may do with it.
LICENCE = """/* SPDX-FileCopyrightText: 2025 Philipp Schuster, 2026 Geesetrunk */
/* SPDX-License-Identifier: MIT OR Apache-2.0 */
"""


def comment(text: str) -> str:
    """A text as a comment, on one line if it fits."""
    lines = text.strip("\n").split("\n") if text else []
    if not lines:
        return ""
    if len(lines) == 1 and len(lines[0]) <= WIDTH:
        return f"/* {lines[0]} */\n"
    return "/*\n" + "".join(f" * {one}".rstrip() + "\n" for one in lines) + " */\n"


def remarked(line: str, remark: str, column: int) -> str:
    """A line with a remark behind it."""
    return f"{line.ljust(column)} /* {remark} */" if remark else line


def enum_of(name: str, about: str, members: Sequence[tuple[str, int | str, str]]) -> str:
    """An enum. `members` are names, numbers and remarks."""
    if len(members) == 1:
        only, number, remark = members[0]
        whole = f"enum u16550_{name} {{ U16550_{only} = {number} }};"
        return comment(about) + (f"{whole} /* {remark} */" if remark else whole) + "\n"
    lines = [
        remarked(f"    U16550_{one} = {number}" + ("" if at == len(members) - 1 else ","), remark, NUMBER)
        for at, (one, number, remark) in enumerate(members)
    ]
    return comment(about) + f"enum u16550_{name} {{\n" + "\n".join(lines) + "\n};\n"


def numbers() -> str:
    """What functions return, and the functions that tell it."""
    enums = [enum_of(one.enum, one.about, [(member.name, member.value, member.told()) for member in one.members]) for one in calls.NUMBERS]
    return "\n".join(enums)


def bits(one: Enum) -> list[tuple[str, int | str, str]]:
    return [(member.name, f"{member.value:#04x}" if one in calls.BITS else member.value, member.note) for member in one.members]


def types() -> str:
    """The data."""
    out = []
    for one in [*calls.TYPES, *calls.BITS]:
        if isinstance(one, Enum):
            out.append(enum_of(one.name, one.about, bits(one)))
            continue
        lines = [remarked(f"    {field.declared};", field.note, FIELD) for field in one.members]
        out.append(comment(one.about) + f"struct u16550_{one.name} {{\n" + "\n".join(lines) + "\n};\n")
    return "\n".join(out)


def declared(call: Call | ByHand) -> str:
    """The declaration of a function."""
    result = f"{call.returns if isinstance(call, ByHand) else 'int'} "
    first = f"{result.replace('* ', '*')}u16550_{call.name}("
    whole = f"{first}{call.takes});"
    if len(whole) <= WIDTH:
        return whole
    cut = whole.rindex(", ", 0, WIDTH)
    return whole[: cut + 1] + "\n" + " " * len(first) + whole[cut + 2 :]


def functions(proved: Proved) -> str:
    """The functions, each with what is proved of it."""
    out = []
    for section in calls.SECTIONS:
        head = f"/* --------------------------------------------------------------- {section.title}"
        about = "".join(f" * {one}".rstrip() + "\n" for one in section.about.strip().split("\n"))
        out.append(head + (f"\n *\n{about} */\n" if section.about else " */\n"))
        if section.lines:
            out.append(section.lines.strip() + "\n")
        out += [comment(group.about) + "".join(proved(one) + declared(one) + "\n" for one in group.calls) for group in section.groups]
    return "\n".join(out)


def structs() -> str:
    """A member for each struct of the header that a program may have."""
    names = [*(one.name for one in calls.TYPES if isinstance(one, Struct)), "design_ware", "bus", "notes"]
    return "".join(f"    struct u16550_{one} {one};\n" for one in names) + "    struct u16550 driver;\n"


def makers() -> str:
    """The functions that make a driver, each behind the look at the layout."""
    groups = [group for section in calls.SECTIONS if section.title == "making a driver" for group in section.groups]
    names = [one.name for group in groups for one in group.calls if one.name.startswith(("new", "from_state"))]
    return "".join(f"#define u16550_{one}(...) U16550_LAID_OUT(u16550_{one}(__VA_ARGS__))\n" for one in names)


def version(number: str) -> str:
    """The version as a text, and as a number that grows: that of the release on the way to which it is."""
    major, minor, patch = map(int, number.removesuffix("-dev").split("."))
    return (
        f'/* The version of this header. u16550_version returns that of the library. */\n#define U16550_VERSION "{number}"\n'
        f"#define U16550_VERSION_NUMBER {major * 10000 + minor * 100 + patch}\n"
    )


def filled(template: str, number: str, kept: str, proved: Proved) -> str:
    """A template with what the table says."""
    parts = {
        "RULES": "".join(f" * {one}".rstrip() + "\n" for one in calls.RULES.strip().split("\n")),
        "VERSION": version(number),
        "NUMBERS": numbers(),
        "TYPES": types(),
        "KEPT": kept,
        "HANDLE": comment(calls.HANDLE),
        "CHIP": comment(calls.CHIP),
        "NOTES": comment(calls.NOTES),
        "BUS": comment(calls.BUS),
        "CALLS": functions(proved),
        "STRUCTS": structs(),
        "MAKERS": makers(),
    }
    for name, text in parts.items():
        template = template.replace(f"@{name}@", text)
    return template


def of_c(template: str, number: str, kept: str, proved: dict[str, list[str]]) -> str:
    """The header of the C. `kept` are the types that a driver is made of, and `proved` the words on a function, by its name."""

    def told(call: Call | ByHand) -> str:
        lines = proved.get(call.name) or proved.get(f"config_{call.name}") or []
        return comment("\n".join(lines)) if lines else ""

    return LICENCE + filled(template, number, kept, told)
