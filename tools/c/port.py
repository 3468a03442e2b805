"""The pair uart_port: the chip and the port for monitors, with the functions that the headers in crates/uart_c declare."""
from __future__ import annotations

import collections
import pathlib
import re
import sys
import textwrap

import compilers
import names
from header import LICENCE
from kit import program_of
from library import Known, Library, Unknown
from names import snake, sought
from translate import Program, Type
from tree import Key

FOLDER = pathlib.Path(__file__).resolve().parent
ROOT = FOLDER.parent.parent
# The crates whose functions stay functions in C. The last has the functions of the header.
OWN = ("uart_spec", "uart_events", "uart_chip", "uart_live", "uart_virtual", "uart_c")
EXPORTS = "uart_c"
# A function of no more lines is `inline`: a call of a port goes through some thirty, and a compiler would call a dozen of them.
SHORT = 20
# What a call of a port does last. In the place of its calls little of it is left, and a compiler would not put it there by itself: that is a
# seventh of a call.
ALWAYS = ["uart_port_report", "uart_finish", "uart_conclude"]
# The last of them is some 290 bytes of code in each place. These functions share one that is out of line. Two of them are seldom called, and a byte
# that is written and taken takes no more than it took, since a write by the longer way does not stand beside it any more.
SHARED, SHARE = "uart_conclude", ["uart_port_receive_one", "uart_port_set_lines", "uart_port_take_output"]
# What is large, and would stand in two places, or beside what is done often: as what a write of MCR does beside those of the other registers,
# for which a compiler then has registers enough.
APART = ["uart_is_sound", "uart_change_lines", "uart_write_slowly", "uart_chip_renew_modem"]
# The functions that have a switch of many cases, or what is in the place of a call of one.
SWITCHES = {"uart_pending_interrupt": "static", **dict.fromkeys(("uart_read_register", "uart_write_register"), "static UART_APART")}
# What is done once, or when somebody plugs a cable. A compiler makes such a function small.
SELDOM = [f"uart_{of}_{name}" for of in ("chip", "port") for name in ("new", "new_sized", "load", "save", "set_lines")]
INLINE = """/* For a function that is to stand in the place of its calls, unless it is to be small. */
#if defined(__GNUC__) && !defined(__OPTIMIZE_SIZE__)
#define UART_INLINE static inline __attribute__((always_inline))
#else
#define UART_INLINE static inline
#endif

/* For a function that is not to stand there: it would take registers from what is done often, or be there in many places. */
#if defined(__GNUC__) && !defined(__OPTIMIZE_SIZE__)
#define UART_APART __attribute__((__noinline__))
#else
#define UART_APART
#endif

/* For a function that is seldom called: it is to be small, also where all else is to be fast. */
#if defined(__GNUC__)
#define UART_SELDOM __attribute__((__cold__))
#else
#define UART_SELDOM
#endif

"""
# The registers at the eight offsets, as they are read and as they are written.
READ, WRITTEN = "DATA IER ISR LCR MCR LSR MSR SPR".split(), "DATA IER FCR LCR MCR LSR MSR SPR".split()
INCLUDE = ROOT / "crates" / EXPORTS / "include"
GUARD = "UART_PORT_H"
INTRODUCTION = f"""{LICENCE}/*
 * uart_port.h - a 16550A or 16450 serial chip in software, and a serial port for virtual machine monitors over it.
 *
 * Made by tools/c/emit from the code that is proved, and from the headers in crates/uart_c. Do not edit.
 *
 * This is uart_port.c and uart_port.h alone: C99 that needs stddef.h and stdint.h, and in uart_port.c stdbool.h, and nothing else. It
 * allocates nothing, has no variables, calls no function of yours, and nothing calls itself. All state is in structs of the caller, and
 * two threads may call it at once as long as no struct is in both calls. Whatever bytes a struct holds, each function is defined and
 * stays within it.
 *
 * A pointer that is null is refused, also one to an array of length 0: the call does nothing, and returns the status that says so, or 0 if
 * it returns none. Any other pointer must be valid and aligned. Pointers that a function writes through must not overlap with its others.
 *
 * 'Proved' says what a call returns and leaves, by the name of the clause, in the words of the definitions. It is proved of the code that
 * this is made from, which the C is compared with.
 */
"""
TOP = f"""{LICENCE}/*
 * uart_port.c - a 16550A or 16450 serial chip in software, and a serial port for monitors. uart_port.h says how it is used.
 *
 * Made by tools/c/emit from the code that is proved. Do not edit. Names and comments are those of its source, and what is computed
 * is taken from what the proofs are about.
 *
 * The functions of the header check all that they are given, of pointers that they are not null. The others check nothing that is proved
 * never to happen. Those that write and read a chip as bytes are by hand, and not proved.
 */
#include "uart_port.h"

#include <stdbool.h>

"""


def exported(folder: pathlib.Path | None) -> tuple[Program, dict[str, str]]:
    """The program, and the functions of the header by their names there."""
    program, header = program_of(OWN, folder, f"./prove {EXPORTS}"), Header.read()
    exports = {f.split("::")[-1]: f for f in program.functions if f.startswith(f"{EXPORTS}::") and f.split("::")[-1] in header.prototypes}
    missing = sorted(set(header.prototypes) - set(exports))
    if missing:
        sys.exit(f"emit: the header has {', '.join(missing)}, and {EXPORTS} has not")
    return program, exports


def made(folder: pathlib.Path | None) -> tuple[dict[str, str], Library]:
    """The texts of the header and of the source."""
    (program, exports), header, source = exported(folder), Header.read(), names.Source(ROOT, OWN)
    public = {
        ("Named", name, ()): snake(name.split("::")[-1])
        for name in program.types
        if name.startswith(f"{EXPORTS}::") and f"struct {snake(name.split('::')[-1])} {{" in header.text
    }
    library = translated(program, source, public, exports, header, {}, {})
    clashes, known = library.clashes(), dict[Key, Known]()
    if clashes:
        library = translated(program, source, public, exports, header, clashes, known)
    # What is left out of a function may leave one constant for those that it calls.
    while more := library.constants():
        known = {key: known.get(key, {}) | more.get(key, {}) for key in known.keys() | more.keys()}
        library = translated(program, source, public, exports, header, clashes, known)
    missing = library.words.keys() - {one.name for one in library.called()}
    if missing:
        sys.exit(f"emit: there is no {', '.join(sorted(missing))} to be apart or seldom")
    for name, value in library.bits.items():
        if header.numbers.get(name, value) != value:
            sys.exit(f"emit: {name} is {header.numbers[name]:#x} in the header, and {value:#x} in what is proved")
    own = named_in(library.types.declarations, library.text())
    texts = [
        TOP + INLINE + compilers.NO_TABLE + constants(library, header.numbers),
        "\n".join(own),
        shared(inlined(guarded(library.text()))),
        guarded(header.functions_by_hand()),
    ]
    return {"uart_port.h": header.made(library), "uart_port.c": "\n".join(texts) + compilers.functions("product")}, library


def translated(
    program: Program,
    source: names.Source,
    public: dict[Type, str],
    exports: dict[str, str],
    header: Header,
    clashes: dict[Key, str],
    known: dict[Key, Known],
) -> Library:
    """The functions of the header and all that they need, with these names for those that would have one with another, and without the
    parameters that are known."""
    library = Library(program, source, public, OWN, "UART", clashes, known)
    library.registers, library.returned = header.registers, header.statuses
    library.short, library.apart = SHORT, "static UART_APART"
    library.words = {
        **dict.fromkeys(APART, library.apart),
        **dict.fromkeys(SELDOM, "UART_SELDOM"),
        **{name: f"{words} UART_NO_TABLE" for name, words in SWITCHES.items()},
    }
    for name, function in exports.items():
        library.export(function, name, header.prototypes[name])
    for function in exports.values():
        try:
            library.want(function)
        except Unknown as cause:
            sys.exit(f"emit: {function}: {cause}")
    return library


def guarded(text: str) -> str:
    """A text whose functions of the header refuse null."""

    def guard(found: re.Match[str]) -> str:
        pointers = re.findall(r"\*(\w+)(?=,|$)", re.sub(r"\s+", " ", found[3]))
        if not pointers:
            return found[0]
        result = found[1].split()[-1]
        refused = "" if result == "void" else " NULL" if found[1].endswith("*") else f" {NULL_STATUS[found[2]]}" if result == "uint32_t" else " 0"
        test = " || ".join(f"{one} == NULL" for one in pointers)
        return f"{found[0]}    if ({test})\n        return{refused};\n"

    # An inline function of the header is one of a port alone.
    return re.sub(
        r"(?m)^((?:static inline (?=[^\n]*\(const struct uart_port \*port\)))?(?!static)\w[\w ]*?(?:[ *]\*?|\n))(uart_\w+)\(([^(){};]*)\)\n\{\n",
        guard,
        text,
    )


def inlined(text: str) -> str:
    """A text in which the functions that are to be inlined in any case say so."""
    for name in ALWAYS:
        text, count = re.subn(rf"(?m)^static inline (?=[\w ]+\n?{name}\()", "UART_INLINE ", text)
        if count != 1:
            sys.exit(f"emit: there is no {name} to be inlined")
    return text


def shared(text: str) -> str:
    """A text in which the functions of SHARE call one that is out of line, in the place of one that is inlined."""
    found = sought(rf"(?m)^UART_INLINE void\n{SHARED}\(([^()]*)\)\n\{{\n[\s\S]*?^\}}\n", text)
    name, given = f"{SHARED}_apart", ", ".join(re.findall(r"\w+(?=,|$)", found[1]))
    comment = "/* The same, for calls that are not to have all of it in their place. */"
    made = f"\n{comment}\nstatic UART_APART void\n{name}({found[1]})\n{{\n    {SHARED}({given});\n}}\n"
    text = text[: found.end()] + made + text[found.end() :]
    for one in SHARE:
        text, count = re.subn(rf"(?m)(^[^\n]*\b{one}\([^;{{}}]*\)\n\{{\n(?:(?!\}}\n).*\n)*?    ){SHARED}\(", rf"\1{name}(", text)
        if count != 1:
            sys.exit(f"emit: {one} has {count} calls of {SHARED}, and not one")
    return text


def named_in(declarations: list[tuple[str, str]], text: str) -> list[str]:
    """The declarations of the types that a text names, and of those that they are made of."""
    out = list[str]()
    for name, declaration in reversed(declarations):
        if re.search(rf"\b(struct|enum) {name}\b", text):
            out.insert(0, declaration)
            text += declaration
    return out


def constants(library: Library, known: dict[str, int]) -> str:
    bits = [f"    {name} = {value:#04x}" for name, value in sorted(library.bits.items()) if name not in known]
    return "/* Bits that are in no interface. */\nenum {\n" + ",\n".join(bits) + "\n};\n" if bits else ""


def proved_of(library: Library, name: str) -> list[str]:
    """What is proved of a function of the header, as lines. That a struct which has one value for each meaning keeps it is said once."""
    function = next((library.source.find(one) for one, (its, _) in library.exports.items() if its == name), None)
    clauses = library.source.clauses(function, is_plain) if function else []
    told = [f"Proved{f', {clause}' if clause else ''}: {words.replace('`', '')}." for clause, words in clauses if clause != "canonical"]
    return [line for one in told for line in textwrap.wrap(one, 110, subsequent_indent="    ", break_long_words=False)]


def is_plain(definition: names.Definition | None) -> bool:
    """Whether a definition says only how C has a value."""
    return definition is not None and (
        definition[:2] in ((EXPORTS, "State"), (EXPORTS, "Queue"), (EXPORTS, "Port")) or definition[1:] == ("Bits", "flag")
    )


def padded(text: str) -> str:
    """A text whose structs have no place for bytes of a compiler's own: so they are the same whatever it is told, as by -fpack-struct."""
    for last, padding in PADDING.items():
        if text.count(f"{last}\n}};\n") != 1:
            sys.exit(f"emit: {text.count(last)} structs of the header end with {last!r}, and not one")
        text = text.replace(f"{last}\n}};\n", f"{last}\n{padding}\n}};\n")
    return text


class Header:
    """The header of the pair, of that of chip and port and of that which writes and reads a chip as bytes."""

    @classmethod
    def read(cls) -> Header:
        return cls(*((INCLUDE / f"uart_16550{one}.h").read_text(encoding="ascii") for one in ("", "_state")))

    def __init__(self, library: str, state: str) -> None:
        start = library.index("/* What most functions return.")
        end = library.rindex("#ifdef __cplusplus")
        self.text, self.state = padded(library[start:end].rstrip() + "\n"), state
        # The functions of the header, with the names of their parameters.
        self.prototypes = {
            found[1]: [sought(r"\w+$", one.strip())[0] for one in found[2].split(",")]
            for found in re.finditer(r"(?m)^\w[\w ]*?\*?\b(uart_\w+)\(([^()]*)\);", self.text)
        }
        # The registers and bits by their names.
        self.numbers = {found[1]: int(found[2], 0) for found in re.finditer(r"(?m)^#define (UART_\w+) (0x[0-9a-f]+|\d+)\b", self.text)}

        offsets = {found[1]: int(found[2]) for found in re.finditer(r"(?m)^#define UART_OFFSET_(\w+) (\d)\b", self.text)}
        self.registers = [{offsets[name]: f"UART_OFFSET_{name}" for name in one} for one in (READ, WRITTEN)]
        statuses = sought(r"enum uart_status \{(.*?)\};", self.text, re.S)[1]
        self.statuses = {int(found[2]): found[1] for found in re.finditer(r"(\w+) = (\d+)", statuses)}

    def made(self, library: Library) -> str:
        """The text of the header."""
        text = "\n".join(
            [
                INTRODUCTION + f"#ifndef {GUARD}\n#define {GUARD}\n",
                OTHER,
                "#include <stddef.h>\n#include <stdint.h>\n",
                CPLUSPLUS,
                self.text + SIZES,
                self.declared_state(),
                CPLUSPLUS_END,
                "#endif\n",
            ]
        )

        def told(found: re.Match[str]) -> str:
            lines = proved_of(library, found[2])
            if not lines:
                return found[0]
            comment = found[1].rstrip()
            inner = sought(r"\A/\*\s(.*?)\s*\*/\Z", comment, re.S)[1] if comment.count("\n") == 0 else None
            if inner is not None:
                comment = f"/*\n * {inner}\n */"
            comment = comment[: -len(" */")].rstrip() + "\n *\n" + "".join(f" * {one}\n" for one in lines) + " */\n"
            return comment + found[3]

        for before, status in BEFORE_NULL.items():
            if text.count(before) != 1:
                sys.exit(f"emit: the header has {before!r} {text.count(before)} times, and not once")
            text = text.replace(before, before + status)
        text = guarded(text)
        return re.sub(r"(?m)((?:^/\*(?:(?!\*/)[\s\S])*\*/\n))(?=\w[^\n]*\b(uart_\w+)\()(\w[^\n]*)", told, text)

    def declared_state(self) -> str:
        """What is declared of a chip as bytes: the numbers, and the functions that are called."""
        start = self.state.index("/* How many bytes a state is")
        end = self.state.index("/* ------------------------------------------------------------------ the layout")
        called = self.state[self.state.index("/* --------------------------------------------------------------- what is called") :]
        called = re.sub(r"(?m)^static inline (\w[^{]*?)\n\{\n.*?^\}\n", r"\1;\n", called, flags=re.S | re.M)
        called = called[: called.index("#ifdef __cplusplus")].rstrip() + "\n"
        called = re.sub(r"/\* -+ what is called\n \*\n", "/*\n", called)
        return STATE + self.state[start:end].rstrip() + "\n\n" + called

    def functions_by_hand(self) -> str:
        """The functions that write and read a chip as bytes."""
        start = self.state.index("enum uart_state_layout {")
        end = self.state.rindex("#ifdef __cplusplus")
        text = self.state[start:end].rstrip() + "\n"
        text = re.sub(r"(?m)^static inline (?=\w+ (?:uart_chip_to_bytes|uart_chip_to_bytes_sized|uart_chip_from_bytes)\()", "", text)
        text = text.replace("static inline ", "static ")
        return BY_HAND + text


# The statuses that refuse null, by functions, and what they are added behind.
NULL_STATUS = collections.defaultdict(
    lambda: "UART_NULL_POINTER", uart_chip_to_bytes="UART_STATE_NULL_POINTER", uart_chip_from_bytes="UART_STATE_NULL_POINTER"
)
BEFORE_NULL = {
    "UART_BAD_PORT = 6,   /* the saved data are those of no port */\n": "    UART_NULL_POINTER = 7, /* a pointer is null: nothing was done */\n",
    "UART_STATE_BAD_VALUE = 6,    /* a byte that its field cannot have: the offset of the byte */\n": (
        "    UART_STATE_NULL_POINTER = 7, /* a pointer is null: nothing is written */\n"
    ),
}
# What is behind the last member of a struct, in the place of the bytes that a compiler puts there on 64 bits.
PADDING = {
    "    struct uart_wire wire;": "    uint8_t padding[5];",
    "    uint8_t cuts;            /* characters are cut to the word length of LCR */": "    uint8_t padding[2];",
    "    uint8_t has_room;        /* offer input again: there was no room, and there is now. It is told once, when nothing waits */": (
        "#if SIZE_MAX > 0xffffffff\n    uint8_t padding[4];\n#endif"
    ),
    "    struct uart_told told;": "    uint8_t padding[4];",
}
SIZES = """
/* No compiler puts bytes of its own into these, whatever it is told: a program and a library have them alike. */
typedef char uart_port_layout[sizeof(struct uart_chip) == 624 && sizeof(struct uart_port) == 632 &&
                              sizeof(struct uart_todo) == (sizeof(size_t) > 4 ? 16 : sizeof(size_t) + 4) ? 1 : -1];
"""
OTHER = """#ifdef UART_16550_H
#error "uart_16550.h declares the same: include one of the two"
#endif
"""
CPLUSPLUS = """#ifdef __cplusplus
extern "C" {
#endif
"""
CPLUSPLUS_END = """#ifdef __cplusplus
}
#endif
"""
STATE = """/* ------------------------------------------------------------------ a chip as bytes
 *
 * For a file, for another machine, or for a monitor in Rust, whose crate uart_16550_chip reads and writes the same bytes. The layout is
 * in STATE.md of that crate. To save a port, call uart_port_save and then uart_chip_to_bytes. To restore one, call
 * uart_chip_from_bytes and then uart_port_load. Of a chip without a port it is uart_chip_save and uart_chip_load. Of one with FIFOs of more
 * than 16 characters it is uart_chip_to_bytes_sized in the place of uart_chip_to_bytes.
 *
 * These functions are by hand, not proved, and move bytes alone.
 */

"""
BY_HAND = """/* --------------------------------------------------------------- what is by hand: a chip as bytes */

"""
