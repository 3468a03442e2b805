"""The comments of the source in the words of C: a call has the name that a program calls it by, and an error its number."""
from __future__ import annotations

import dataclasses
import re
import textwrap
from collections.abc import Mapping, Sequence

# A name of the source in a comment, perhaps with a link.
NAME = re.compile(r"\[?`([^`]*)`\]?(?:\([^)]*\))?")
# What the calls on a type are called, before their own names; the types themselves are not in C.
TYPES = {"Uart16550": "", "Uart16550Ring": "ring_", "HalfDuplex": "bus_", "Config": "", "Direction": "direction_"}
OF_CRATES = {"uart_ring": "ring_", "uart_rs485": "bus_", "uart_design_ware": "design_ware_"}
# What has another name, or is no name in C.
OTHERWISE = {
    "Config::DEFAULT": "that of u16550_default_config",
    "Config::is_computable": "uart_config_is_computable",
    "Setup::DEFAULT": "{ 1, U16550_WAIT_LAST, 0x0b }",
    "FifoSize::Sixteen": "16",
    "FifoSize": "size",
    "MCR::READY": "DTR, RTS and OUT2",
    "Idle": "U16550_HANDLE_IDLE",
    "Custom": "U16550_CORE_BAUD_RATE_CUSTOM",
    "Custom(9600)": "U16550_CORE_BAUD_RATE_CUSTOM with 9600",
    "Baud9600": "U16550_CORE_BAUD_RATE_BAUD9600",
    "VecDeque::as_slices": "uart_byte_queue_parts",
    "usize": "size_t",
    "usize::MAX": "SIZE_MAX",
    "LinePort::handled": "handled",
    "into_inner": "u16550_bus_end",
    "config().interrupts": "the interrupts of the configuration",
    "None": "none",
    "MAX_CAPACITY": "U16550_MAX_CAPACITY",
    "MAX_INTERRUPTS": "U16550_MAX_INTERRUPTS",
    "BadCapacity": "U16550_RING_BAD_CAPACITY",
    "OutOfMemory": "U16550_RING_OUT_OF_MEMORY",
    "DeviceNotPresent": "U16550_INIT_DEVICE_NOT_PRESENT",
    "InvalidBaudRate": "a number that tells of the baud rate",
    "Stalled": "U16550_INIT_STALLED",
    "NoCapacity": "U16550_SEND_NO_CAPACITY",
    "calc_divisor": "uart_calc_divisor",
    "checked_divisor": "uart_checked_divisor",
    "lower_line": "uart_ring_lower_line",
    "raise_line": "uart_ring_raise_line",
    "handle_ports": "u16550_line_handle",
    "handle_line": "u16550_line_handle",
    "from_integer": "uart_baud_rate_from_bps",
    "new_with_backend": "u16550_new",
    "Uart16550Tty::from_inner": "u16550_write_text",
    "from_inner": "u16550_write_text",
}
# What is a member of a struct, or a parameter, and a call too.
MEMBERS = {"spin_limit", "fifo_size", "fifo_enabled", "config", "limit", "number", "interrupts", "urgent", "stuck", "frequency", "isr"}
# What is said otherwise in C, or not at all.
IDLE = (
    (r"\s+of\s+(?:the\s+traits\s+in\s+)?\[?`embedded_io`\]?", ""),
    (r",?\s+through\s+\[?`inner_mut`\]?", ""),
    (r",?\s+and\s+leaves\s+no\s+path\s+to\s+its\s+panic", ""),
    (r"if\s+that\s+would\s+panic:\s+if\b", "if"),
    (r"\s+A\s+flag\s+and\s+not\s+a\s+callback:\s+a\s+callback\s+would[\s\w,]*\.", ""),
    (r"\b2 \^ 64 - 1\b", "SIZE_MAX"),
    (r";\s+wrap\s+the\s+driver\s+with\s+`Uart16550Tty::from_inner`\s+instead\s+of\s+constructing\s+a\s+terminal", ""),
    (r"before\s+or(?=:)", "before"),
    (r"`has_error`\s+of\s+the\s+result\s+also\s+counts\s+bit\s+7,", "The result has bit 7 too,"),
    (r"so\s+it\s+lends\s+no\s+driver\s+that\s+could\s+write", "so no call of a driver is to be made over it"),
    (r"\bslice\b", "array"),
    (r"\bslices\b", "arrays"),
)
# What stands around the name of a call that another one passes on to: it is the driver's, whatever calls of this name there are beside.
OF_DRIVER = re.compile(r"(?:\s+or\s+`\w+`)?\s+of\s+(?:the|its)\s+driver\b")
DRIVERS_OWN = re.compile(r"\b(?:driver's|its)\Z")
# How long a line of a comment is at most.
WIDTH = 96


class Said:
    """What a pair says otherwise than the source: names, and phrases, each with what is in its place. A phrase may go on over the end of a
    line. Those that were found are noted."""

    def __init__(self, names: Mapping[str, str] | None = None, phrases: Sequence[tuple[str, str]] = ()) -> None:
        self.names = names or {}
        self.phrases = [(phrase, re.compile(re.escape(phrase).replace(r"\ ", r"\s+").replace("\\\n", r"\n")), word) for phrase, word in phrases]
        self.found = set[str]()

    def text(self, text: str) -> str:
        for phrase, pattern, word in self.phrases:
            text, count = pattern.subn(lambda _, word=word: word, text)  # type: ignore[misc]
            if count:
                self.found.add(phrase)
        return text

    def unused(self, own: Sequence[tuple[str, str]]) -> list[str]:
        """Those of these phrases that no comment has."""
        return [phrase for phrase, _ in own if phrase not in self.found]


@dataclasses.dataclass(frozen=True)
class Words:
    """What the names in the comment of a function, or of a type, are in C. `calls` are those of the header, `numbers` the numbers of the
    variants of its error, `is_true` says whether it tells only whether it did something, and `ok` is the number of no error."""

    crate: str
    calls: frozenset[str]
    numbers: Mapping[str, str]
    is_true: bool = False
    ok: str = "U16550_OK"
    said: Said = dataclasses.field(default_factory=Said)

    def of(self, name: str, is_of_driver: bool = False) -> str:
        """What a name is in C. `is_of_driver` says whether it is the driver's own call, and none of this crate."""
        if name in self.said.names:
            return self.said.names[name]
        if name in self.numbers:
            return self.numbers[name]
        if name in OTHERWISE:
            return OTHERWISE[name]
        if name == "Ok":
            return "true" if self.is_true else self.ok
        if name.endswith("Error"):
            return "false" if self.is_true else name
        of, _, own = name.rpartition("::")
        if of in TYPES and TYPES[of] + own in self.calls:
            return f"u16550_{TYPES[of]}{own}"
        if of or name in MEMBERS:
            return own
        prefixes = [""] if is_of_driver else [OF_CRATES.get(self.crate, ""), ""]
        found = next((f"{prefix}{name}" for prefix in prefixes if f"{prefix}{name}" in self.calls), None)
        return f"u16550_{found}" if found else name

    def text(self, lines: list[str]) -> list[str]:
        """The lines of a comment in the words of C. Some are longer then than a line may be."""
        out = self.said.text("\n".join(lines))
        for pattern, word in IDLE:
            out = re.sub(pattern, word, out)
        out = NAME.sub(lambda found: self.at(out, found), out)
        if self.is_true:
            # What returns no number has no error.
            out = re.sub(r"^[# ]*Errors\n\s*\n\s*false if", r"Returns false if", out, flags=re.M)
        return out.split("\n")

    def at(self, text: str, found: re.Match[str]) -> str:
        """A name where it stands: a sentence begins with a large letter."""
        before = text[: found.start()].rstrip()
        is_of_driver = bool(OF_DRIVER.match(text, found.end()) or DRIVERS_OWN.search(before))
        word = self.of(found[1], is_of_driver)
        return "None" if word == "none" and (not before or before[-1] in ".:") else word


def filled(lines: Sequence[str]) -> list[str]:
    """The same text, each paragraph and each item of a list of which has its words in as few lines as they need."""
    out, paragraph = list[str](), list[str]()

    def end() -> None:
        if paragraph:
            indent = " " * len(sought_indent(paragraph[0]))
            out.extend(textwrap.wrap(" ".join(paragraph), WIDTH, subsequent_indent=indent, break_long_words=False, break_on_hyphens=False))
        paragraph.clear()

    for line in lines:
        if not line.strip():
            end()
            out += [""] if out and out[-1] else []
        elif re.match(r" *- ", line) or not paragraph:
            end()
            paragraph.append(line.rstrip())
        else:
            paragraph.append(line.strip())
    end()
    return out


def sought_indent(line: str) -> str:
    """What is in front of the words of a line: a place, and the mark of an item."""
    found = re.match(r" *(- )?", line)
    return found[0] if found else ""
