"""Refuses arithmetic on `usize` that 32 bits do not hold: in Rattle it has 64, and in Rust those of the target.

No tool knows the types here. So each product, each shift and each sum that saturates is listed, with the type that it has. What `!` is of
has to be declared with another type, or is listed too. `foreign.py` is about the names.
"""
import functools
import re
from typing import NamedTuple

import foreign
from items import File
from words import KEYWORDS

# What is multiplied, shifted or added: the file, the words around the sign or the call, and why no target makes a difference.
U8, U16, U32, U64 = "of u8", "of u16", "of u32", "of u64"
OF_A_SLICE = "counts bytes of a slice, and says what it does above usize::MAX"
AT_MOST = "no more than what is before it, and not below 0"
OF_A_PLACE = "a place in a blob: what does not fit is behind its end, and refused"
AT_MOST_PLACES = "of at most 16 nodes, and what is below 0 is refused"
OF_ADDRESSES = "an address: `new` refuses what does not fit"
LISTED = {
    "uart_spec/src/baud.rt": {
        "16 * (": "of u32 or u64, as the factors behind it",
        ") * baud_rate": "of u32 or u64, as what is before it",
        "baud_rate * divisor": U32,
        ") * factor": U64,
        "ticks * below": U64,
        "below * above": U64,
        "2 * product": U64,
        "frequency * (": U64,
    },
    "uart_spec/src/config.rt": {"ticks * divisor": U64, "1000 * exact": U64, "u64 * exact": U64, "exact . abs_diff": U64},
    "uart_spec/src/dump.rt": {"256 * self": U16},
    "uart_original/src/dump.rt": {"256 * self": U16},
    "uart_spec/src/checked.rt": {"TICKS_PER_BIT * (": U32, "ticks . checked_mul": U32, "? . checked_mul": U32},
    "uart_spec/src/timing.rt": {
        "2 * config": U64,
        "8 * (": U64,
        ") * divisor": U64,
        "u64 * halves": U64,
        ") * character": U64,
        ") . checked_mul": U64,
        ") * times": U64,
        "whole . checked_add": U64,
        "before_clocks . saturating_add": U64,
        "4 * access_clocks": U64,
        "4 * self": U64,
        "frequency . saturating_sub": U32,
        "most . checked_sub": U64,
        ") * self": U64,
        ") * (": U64,
    },
    "uart_spec/src/layout.rt": {
        "8 * self": "of u8",
        "base . checked_add": "of u16, or an address: what does not fit is refused",
        "usize * stride": OF_ADDRESSES,
    },
    "uart_spec/src/registers/fifo_control.rt": {") << 6": U8, "0 >> 6": U8},
    "uart_spec/src/registers/line_control.rt": {") << 3": U8, "0 >> 3": U8},
    "uart_16550/src/driver/configured.rt": {"256 * dlm": U16},
    "uart_16550/src/mmio.rt": {"SPR * stride": OF_ADDRESSES, ") . checked_add": OF_ADDRESSES, "usize * self": OF_ADDRESSES},
    "uart_16550/src/pio.rt": {"base . checked_add": U16},
    "uart_16550/src/tty.rt": {"done . saturating_add": OF_A_SLICE},
    "uart_design_ware/src/parameters.rt": {"16 * mode": U16},
    "uart_design_ware/src/kept.rt": {"cells . rotate_left": "of a slice: moves its cells, by one"},
    "uart_discovery/src/bytes.rt": {"sum . wrapping_add": U8},
    "uart_discovery/src/numbers.rt": {"value * 16": U64, "value * 10": U32},
    "uart_discovery/src/pci.rt": {") * 0x1_0000": U32, ") * 0x100": U32, ") * 0x1_0000_0000": U64, ") * u64": U64, "address . checked_add": U64},
    "uart_discovery/src/tree/address.rt": {
        "at . checked_add": OF_A_PLACE,
        ") * 0x1_0000_0000": U64,
        "address . checked_sub": U64,
        "to . checked_add": U64,
        "4 * inner": "at most 8",
        "4 * (": "at most 24",
    },
    "uart_discovery/src/tree/blob.rt": {"at . checked_add": OF_A_PLACE},
    "uart_discovery/src/tree/console.rt": {"? . checked_add": U64},
    "uart_discovery/src/tree/interrupt.rt": {"count . wrapping_add": U8},
    "uart_discovery/src/tree/node.rt": {"depth . checked_add": U32, "depth . checked_sub": U32},
    "uart_discovery/src/tree/path.rt": {
        "count . checked_add": OF_A_PLACE,
        "count . checked_sub": AT_MOST_PLACES,
        "last . checked_sub": AT_MOST_PLACES,
    },
    "uart_discovery/src/tree/ports.rt": {"left . checked_sub": "of ports that are passed over, and 0 ends it"},
    "uart_chip/src/controlling.rt": {"u16 * 256": U16},
    "uart_chip/src/receiver.rt": {"4 * char_ticks": U16},
    "uart_chip/src/receiving.rt": {"ticks . saturating_add": U32, ") . saturating_sub": AT_MOST},
    "uart_chip/src/transmitter.rt": {"overflows . saturating_add": U64},
    "uart_chip/src/wire.rt": {"limit . saturating_sub": AT_MOST},
    "uart_ring/src/ring/storm.rt": {"rounds . saturating_sub": U32},
    "uart_live/src/fixed.rt": {"2 * WIRE_ROOM": "128"},
    "uart_live/src/sound.rt": {"u32 * char_ticks": U32},
    "uart_virtual/src/port.rt": {"spare . saturating_sub": U8},
    "uart_language/src/fields.rt": {"16 * digit_value": U8},
    "uart_language/src/numbers.rt": {"value * 10": U64},
    "uart_judges/src/audit/findings.rt": {"sent . saturating_add": U64, ") * 256": U16, "now . saturating_sub": U64},
    "uart_judges/src/audit/frequent.rt": {"waiting . saturating_sub": U8},
    "uart_judges/src/audit/history.rt": {"left . saturating_add": U64, "waiting . saturating_add": U8, "waiting . saturating_sub": U8},
    "uart_judges/src/audit/of_chip.rt": {"waiting . saturating_sub": U8},
    "uart_judges/src/audit/step.rt": {") * 256": U64, ") * CHARACTER_TIME": U64, "CHARACTER_TIME * held": U64, "now . saturating_sub": U64},
    "uart_judges/src/audit/unread.rt": {"count . saturating_sub": AT_MOST},
    "uart_judges/src/findings/verifying.rt": {"64 * 1024": "2^26, the most bytes of a trace", "1024 * 1024": "a part of the same"},
    "uart_judges/src/recording/fields.rt": {"seconds * SECOND": U64, "microseconds * MICROSECOND": U64},
    "uart_port/src/noted.rt": {"port . saturating_sub": U16},
}
# A parameter of a type that is a number, which is no other name for its type.
A_CONSTANT = re.compile(r"\bconst \w+ : usize\b")
# Functions of slices, queues and iterators that give a `usize`.
COUNTS = ["len", "count", "capacity", "position"]
# What `!` may be of: a `bool`, or bits of a number that has as many everywhere.
BITS = ["bool", "u8", "u16", "u32", "u64"]
# Values whose type is not written, of which `!` is taken: the file, and the names. Each is a `bool`.
NEGATED = {
    "uart_ring/src/ring/transmit.rt": ["is_empty"],
    "uart_chip/src/controlling.rt": ["is_full"],
    "uart_virtual/src/port.rt": ["signal"],
    "uart_judges/src/audit/findings.rt": ["is_set"],
    "uart_judges/src/audit/history.rt": ["is_up"],
}


# The names that are declared as `usize`, and those that are declared with a type of BITS.
class Kinds(NamedTuple):
    counts: set[str]
    bits: set[str]


def check(file: File, kinds: Kinds) -> None:
    """`kinds` has the names that are declared, in any file that this one may name."""
    check_forms(file)
    for at in negations(file):
        if not is_of_bits(file, at + 1, kinds):
            file.refuse("`!` of what may be a `usize`", at)


@functools.lru_cache(maxsize=None)
def check_forms(file: File) -> None:
    """Refuses the forms that one looks at in one file alone."""
    for at, token in enumerate(file.code):
        word, after = token.text, file.word(at + 1)
        if word == "isize" or token.kind == "number" and word.endswith("isize"):
            file.refuse("`isize`", at)
        if word == "as" and after == "_":
            file.refuse("`as _`", at)
        if word == "type" and "usize" in A_CONSTANT.sub("", file.words(at, file.semicolon(at))).split():
            file.refuse("another name for `usize`", at)
        if word == "as" and after == "Self":
            file.refuse("`as Self`, which may be `usize`", at)
        site = operation(file, at)
        if site and site not in LISTED.get(file.name, {}) and not is_small(site):
            file.refuse(f"`{site}` is not listed with its type", at)


@functools.lru_cache(maxsize=None)
def negations(file: File) -> list[int]:
    """Where `!` is an operation: it stands behind no value, as that of a macro does, and behind no `#`."""
    return [at for at, token in enumerate(file.code) if token.text == "!" and file.word(at - 1) != "#" and not is_value(file, at - 1)]


def is_value(file: File, at: int) -> bool:
    """Whether a value can end here, so that a sign behind it stands between two values."""
    return file.kind(at) == "number" or file.kind(at) == "word" and file.word(at) not in KEYWORDS or file.word(at) in (")", "]", "}")


def is_of_bits(file: File, at: int, kinds: Kinds) -> bool:
    """Whether the value that begins here is no `usize`, by the last of its names: one that is declared or listed, or a method of core."""
    first, last = at, ""
    while file.kind(at) == "word" and file.word(at) not in KEYWORDS or file.word(at) in (".", "::", "(", "[", "&", "*"):
        if file.word(at) in ("(", "["):
            if not last:
                return is_of_bits(file, at + 1, kinds)
            at = file.closing(at)
        elif file.kind(at) == "word":
            last = file.word(at)
        at += 1
    if last in kinds.counts:
        return False
    if at == first + 1 and last.islower() and file.word(at) != "!":
        return is_parameter_of_bits(file, first) or last in NEGATED.get(file.name, [])
    return last in foreign.TRUTHS or last in kinds.bits and last not in foreign.OF_ANY_TYPE


def is_parameter_of_bits(file: File, at: int) -> bool:
    """Whether the name at this index is a parameter of its function with a type of BITS, and no `let` gives it to something else."""
    form = next((form for form in file.forms if form.start < at < form.close), None)
    if form is None:
        return False
    is_declared = re.search(rf"\b{file.word(at)} : ({'|'.join(BITS)})\b", file.words(form.start, form.behind))
    return bool(is_declared) and not re.search(rf"\blet (mut )?{file.word(at)}\b", file.words(form.body, at))


def names(files: list[File]) -> Kinds:
    """The names that are declared as `usize` or as bits in these files: parameters, fields, constants, and functions with this result."""
    ones = [declared(file) for file in files]
    return Kinds({*COUNTS}.union(*(one.counts for one in ones)), set[str]().union(*(one.bits for one in ones)))


@functools.lru_cache(maxsize=None)
def declared(file: File) -> Kinds:
    """Those that one file declares."""
    found = Kinds(set(), set())
    for at in range(len(file.code)):
        name, kind = file.word(at), ""
        if file.kind(at) == "word" and file.word(at + 1) == ":":
            kind = file.word(at + 2)
        elif name == "fn":
            parameters = file.behind_generics(at + 2)
            close = file.closing(parameters) if file.word(parameters) == "(" else parameters
            name, kind = file.word(at + 1), file.word(close + 2) if file.word(close + 1) == "->" else ""
        if kind == "usize":
            found.counts.add(name)
        elif kind in BITS:
            found.bits.add(name)
    return found


def operation(file: File, at: int) -> str | None:
    """The product, shift or call at this index as it is listed, or nothing."""
    word, after = file.word(at), file.word(at + 1)
    if file.kind(at) == "word":
        is_call = file.word(at - 1) in (".", "::") and after in ("(", "::")
        return file.words(at - 2, at + 1) if is_call and foreign.AT_A_SITE.fullmatch(word) else None
    if file.kind(at) != "sign" or not is_value(file, at - 1):
        return None
    if word in ("*", "*="):
        return file.words(at - 1, at + 2)
    is_pair = word in ("<", ">") and after in (word, f"{word}=") and file.code[at].end == file.code[at + 1].start
    is_shift = is_pair and (word == "<" or not closes_brackets(file, at))
    return f"{file.word(at - 1)} {word}{after} {file.word(at + 2)}" if is_shift else None


def closes_brackets(file: File, at: int) -> bool:
    """Whether the two signs `>` at this index close the brackets of types. A shift has a value behind it, and no `Name<Name<` in front."""
    if file.word(at + 1) == ">=" or file.kind(at + 2) == "number":
        return False
    if file.kind(at + 2) == "word" and file.word(at + 2) not in KEYWORDS or file.word(at + 2) in ("&", "*", "!", "-", "["):
        return False
    depth, here = 2, at
    while depth and here and file.word(here - 1) not in ("&&", "||", "==", "!=", "<=", ">=", ";", "{", "}"):
        here -= 1
        depth += {">": 1, "<": -1}.get(file.word(here), 0)
    is_of_type = re.search("[a-z]", file.word(here - 1)) or file.word(here - 1) == "::"
    return depth == 0 and bool(is_of_type)


def is_small(site: str) -> bool:
    """Whether both sides are numbers, and the result is no more than 65,535."""
    found = re.fullmatch(r"([0-9][0-9_]*) (\*|<<) ([0-9][0-9_]*)", site)
    if not found:
        return False
    one, other = (int(found[side].replace("_", "")) for side in (1, 3))
    return (one * other if found[2] == "*" else one << min(other, 64)) <= 0xFFFF
