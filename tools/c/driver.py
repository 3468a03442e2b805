"""The pair u16550: the driver with its rings, and the functions of its header as a layer around them; and what its tests have of the table of
the interface."""
from __future__ import annotations

import pathlib
import re
import sys
import textwrap
import tomllib
from collections.abc import Iterator

import called
import calls
import compilers
import contracts
import each
import header
import interface
import names
import parts
import table
from comments import WIDTH, Said
from kit import program_of
from library import Library, Unknown
from port import named_in
from representation import proved_lines
from said import SAID
from tree import DEVICE

FOLDER = pathlib.Path(__file__).resolve().parent
ROOT = FOLDER.parent.parent
# What Frama-C gets beside the source.
CONTRACTS = "tests/eva/contracts.h"
# The crates whose functions stay functions in C.
OWN = ("uart_spec", "uart_16550", "uart_design_ware", "uart_rs485", "uart_ring")
# Types of the source that the header has already, part for part.
PUBLIC = {
    ("Named", "uart_spec::received::Received", ()): "u16550_received",
    ("Named", "uart_spec::dump::ConfigRegisterDump", ()): "u16550_dump",
    ("Named", "uart_design_ware::kept::KeptCharacter", ()): "u16550_received",
    ("Named", "uart_ring::ring::service::Handled", ()): "u16550_handled",
}
RING = ("Named", "uart_ring::ring::Uart16550Ring", (DEVICE,))
DESIGN_WARE = ("Named", "uart_design_ware::state::DesignWare", (DEVICE,))
BUS = ("Named", "uart_rs485::bus::HalfDuplex", (DEVICE,))
NOTES = ("Named", "uart_ring::notes::ErrorNotes", (DEVICE,))
# The types of the code that is proved which the structs of the header are made of.
IN_HEADER = (RING, DESIGN_WARE, NOTES, BUS)
# Functions that implement traits, by which callers call them; and one that is inside of a call of rings over notes of errors.
OF_TRAITS = re.compile(r"::embedded_io::|::DesignWareBackend::|::ErrorNotesBackend::|::drop_taken$")
# What the part of an error is called that C has behind a pointer.
NAMED = {"done": "*stalled_at", "set_line": "uart_set_line"}
# What is by hand, in front of what is made of the table, and behind the first part of it.
GUARDS, BY_HAND = ["guards"], ["bottom", "memory", "design_ware", "notes", "bus"]
TOP = f"""{header.LICENCE}/*
 * u16550.c - a driver for serial chips of the 16550 family, with rings for interrupts. u16550.h says how it is used.
 *
 * Made by tools/c/emit from the code that is proved. Do not edit. Names and comments are those of its source, and what is computed
 * is taken from what the proofs are about.
 *
 * The functions uart_* are the code that is proved. They check nothing that is proved never to happen, if their caller keeps what
 * they ask for. The functions u16550_* at the end are that caller: they check what the program gives, and refuse what must not be.
 */
#include "u16550.h"

{compilers.NO_TABLE}"""
# The functions that have a switch of many cases, or what is in the place of a call of one.
SWITCHES = ("uart_interrupt_type_from_bits", "uart_ring_serve", "uart_ring_serve_up_to")


def text_of(name: str) -> str:
    return (FOLDER / name).read_text(encoding="ascii")


def version() -> str:
    """The version of the repository: that of the package of the driver."""
    manifest = (ROOT / "rust" / "uart_16550" / "Cargo.toml").read_text(encoding="utf-8")
    return str(tomllib.loads(manifest)["package"]["version"])


def of_table() -> dict[str, str]:
    """The file that needs no proof, by its path: each call, for tests."""
    table.check(calls)
    return {"c/tests/each.h": each.text()}


def wanted(library: Library, text: str) -> Iterator[str]:
    """The functions of our crates that a text of C calls, by their C names."""
    called = set(re.findall(r"\b(uart_\w+)\(", text))
    for name in library.forest.program.functions:
        information = library.source.find(name) if name.split("::")[0] in OWN else None
        if information and (information.is_public or OF_TRAITS.search(name)) and library.name_of((name, (), ())) in called:
            yield name


def made(folder: pathlib.Path | None) -> tuple[dict[str, str], Library]:
    """The texts of the header and of the source, and the library that was translated."""
    table.check(calls)
    library = Library(
        program_of(OWN, folder, "./prove uart_ring && ./prove uart_design_ware && ./prove uart_rs485"), names.Source(ROOT, OWN), PUBLIC, OWN, "U16550"
    )
    library.types.told, library.types.failures = interface.told()
    library.types.silent = set(calls.SILENT)
    library.types.calls = frozenset(one.name for section in calls.SECTIONS for group in section.groups for one in group.calls)
    library.said = library.types.said = Said(NAMED, SAID)
    library.words |= dict.fromkeys(SWITCHES, "static UART_NO_TABLE")
    interface.complete(library.types)
    for one in IN_HEADER:
        library.types.put_into_header(one)
    guards, by_hand = ("\n".join(text_of(f"layer_{one}.c") for one in which) for which in (GUARDS, BY_HAND))
    for name in sorted(wanted(library, by_hand + interface.rows())):
        try:
            library.want(name)
        except Unknown as cause:
            sys.exit(f"emit: {name}: {cause}")
    for one in IN_HEADER:
        library.types.c(one)
    if unused := library.said.unused(SAID):
        sys.exit(f"emit: said.py: no comment says {unused[0]!r}")
    codes, rows, functions = interface.codes(library.types), interface.layer(library.forms), library.text()
    in_header = [text for name, text in library.types.declarations if name.startswith("u16550_core")]
    texts = [text_of("layer_arithmetic.c"), text_of("layer_top.c"), functions, guards, codes, by_hand, rows, interface.texts()]
    own = named_in([one for one in library.types.declarations if not one[0].startswith("u16550_core")], "\n".join(texts))
    # What the header calls it.
    proved = {
        one.name.removeprefix("uart_"): proved_lines([in_the_header(one.name, said) for said in one.proved]) for one in library.order if one.proved
    }
    header_text = header.of_c(text_of("header_c.h"), version(), "\n".join(in_header), proved)
    source = [TOP + constants(library, header_text, "\n".join(texts)), "\n".join(own), *texts]
    of_source, of_header = parts.divided("\n".join(source), header_text)
    return {"u16550.h": of_header, "u16550.c": compilers.with_limits(of_source) + compilers.functions(), CONTRACTS: contracts.text(library)}, library


def in_the_header(name: str, said: str) -> str:
    """What is proved of a function as the header says it of the call: that returns a number, and has an answer behind a pointer."""
    answer = {"uart_is_gone": "*gone is 1"}.get(name, "the result is U16550_OK")
    return said.replace("*stalled_at", "*done").replace("the result is true", answer)


def constants(library: Library, header_text: str, code: str) -> str:
    """The offsets of registers, and those bits of the code that the header has not."""
    shown = {name: int(value, 16) for name, value in re.findall(r"\b(U16550_\w+) = (0x[0-9a-f]+)", header_text)}
    for name, value in library.bits.items():
        if shown.get(name, value) != value:
            sys.exit(f"emit: {name} is {shown[name]:#x} in the header, and {value:#x} in what is proved")
    offsets = [f"    UART_{name} = {value}" for name, value in sorted(library.offsets.items(), key=lambda one: (one[1], one[0]))]
    hidden = {name: value for name, value in library.bits.items() if name not in shown and re.search(rf"\b{name}\b", code)}
    bits = [f"    {name} = {value:#04x}" for name, value in sorted(hidden.items(), key=in_order)]
    return (
        numbers_of(library, code)
        + "\n/* Where the registers are. */\nenum {\n"
        + ",\n".join(offsets)
        + "\n};\n\n/* Bits of registers that the header does not need. */\nenum {\n"
        + ",\n".join(bits)
        + "\n};\n"
    )


def in_order(one: tuple[str, int]) -> list[str | int]:
    """What names are sorted by: a number within one counts as such."""
    return [int(part) if part.isdigit() else part for part in re.split(r"(\d+)", one[0])]


def numbers_of(library: Library, code: str) -> str:
    """The numbers of the source that the code names, in groups, with what is said of them. One that is more than an enum has where an int has 16
    bits is a macro."""
    out, left = list[str](), {name for name in library.numbers if re.search(rf"\b{name}\b", code)}
    for about, members in called.NUMBER_GROUPS:
        mine = [name for one in members.split() if (name := f"UART_{one}") in left]
        left -= set(mine)
        numbers, macros = list[str](), list[str]()
        for name in mine:
            value = library.numbers[name]
            said = textwrap.wrap(called.ABOUT_NUMBERS.get(name, library.about_numbers.get(name, "")), WIDTH)
            if "(" in value:
                macros.append(header.comment("\n".join(said)) + f"#define {name} {f'({value})' if value.startswith('(') else value}\n")
            else:
                numbers.append(textwrap.indent(header.comment("\n".join(said)), "    ") + f"    {name} = {value}")
        if mine:
            out.append(f"/* {about} */\n{''.join(macros)}" + ("enum {\n" + ",\n".join(numbers) + "\n};\n" if numbers else ""))
    if left:
        sys.exit(f"emit: called.py has {min(left)} in none of its groups")
    return "\n".join(out)
