"""What clauses rest on that Rust code outside can break: the meaning of the words that a guard is for, and what a public trait promises.

A guard is tied to the words of its clauses (table.py). Here each word of a clause that Rust code tests is tied to its definition.
"""
import pathlib
import re
from collections.abc import Iterator

from items import File, Tables
from table import Guard

ROOT = pathlib.Path(__file__).resolve().parent.parent.parent

# A word of a clause that is tested: where it is from, the file, and the definition, without line ends.
MEANINGS = {
    "IsComputable": (
        "Rattle.uart_spec.specs.Config",
        "uart_spec/specs/Config.antt",
        "pub record IsComputable (config : Config) : Type 0 where pub frequency : 0 < config.frequency "
        "pub baud_rate : 0 < to_integer config.baud_rate "
        "pub prescaler_division_factor : prescaler config.prescaler_division_factor ≤ 15",
    ),
    "prescaler": (
        "Rattle.uart_spec.specs.Baud",
        "uart_spec/specs/Baud.antt",
        "abbrev pub prescaler : Option ℕ → ℕ prescaler factor = unwrap_or factor 0",
    ),
    "frequency_of": (
        "Rattle.uart_spec.specs.Baud",
        "uart_spec/specs/Baud.antt",
        "abbrev pub frequency_of : (baud_rate divisor : ℕ) → Option ℕ → ℕ "
        "frequency_of baud_rate divisor factor = 16 * (prescaler factor + 1) * baud_rate * divisor",
    ),
    "HasBaudRate": (
        "Rattle.uart_original.specs.Original",
        "uart_original/specs/Original.antt",
        "abbrev pub HasBaudRate : Config → ConfigRegisterDump → Type 0 HasBaudRate config dump = "
        "(rate : ℕ) × IsCheckedRate config.frequency (divisor_of dump) config.prescaler_division_factor (Ok rate)",
    ),
    "driver_dump": (
        "Rattle.uart_original.specs.Original",
        "uart_original/specs/Original.antt",
        "abbrev pub driver_dump : OwnConfigRegisterDump → ConfigRegisterDump driver_dump d = record { ier = d.ier; isr = d.isr; "
        "lcr = d.lcr; mcr = d.mcr; lsr = d.lsr; msr = d.msr; spr = d.spr; dll = d.dll; dlm = d.dlm; }",
    ),
    "sends_at_once": (
        "Rattle.uart_chip.specs.Sending",
        "uart_chip/specs/Sending.antt",
        "abbrev pub sends_at_once : ChipState → Bool "
        "sends_at_once c = not (is_dlab_set c.latches) && "
        "(not (is_loopback c.latches) && (not (is_held_off c) && is_ready c.transmitter))",
    ),
    "IsStill": (
        "Rattle.uart_virtual.specs.Port",
        "uart_virtual/specs/Port.antt",
        "pub record IsStill (c : ChipState) : Type 0 where pub paced : IsPaced c pub unmoved : IsUnmoved c "
        "pub due : c.receiver.timeout_ticks ≡ c.receiver.timeout_limit",
    ),
    "IsTold": (
        "Rattle.uart_virtual.specs.Port",
        "uart_virtual/specs/Port.antt",
        "pub record IsTold (p : PortState) : Type 0 where pub line : p.told.line ≡ is_up p.chip "
        "pub room : p.told.has_room ≡ (has_room p.chip && (p.told.has_room || is_empty p.chip))",
    ),
    "NUM_REGISTERS": ("Rattle.uart_spec.specs.declared.baud.TheConstants", "uart_spec/src/baud.rt", "pub const NUM_REGISTERS: usize = 8;"),
}

# What a public trait promises of each implementation, which in Rust nobody proves. The code may rely on nothing else: `step` and the like
# are relations of the implementation itself, no emitted code reads or writes through any `Read` or `Write`, and a port of a line is no index
# of emitted code.
PROMISES = {
    "uart_spec::backend::Backend::read": ["ensures { step self.old (Read register_offset result) self.new }"],
    "uart_spec::backend::Backend::write": ["ensures { step self.old (Write register_offset value) self.new }"],
    "uart_design_ware::registers::DesignWareRegisters::read_usr": ["ensures { Self.step self.old (Read USR result) self.new }"],
    "uart_16550::backend::PortAccess::port_in": ["ensures { step self.old (Read port result) self.new }"],
    "uart_16550::backend::PortAccess::port_out": ["ensures { step self.old (Write port value) self.new }"],
    "uart_16550::backend::ByteAccess::load": ["ensures { step self.old (Read address result) self.new }"],
    "uart_16550::backend::ByteAccess::store": ["ensures { step self.old (Write address value) self.new }"],
    "uart_16550::patience::Patience::keep_waiting": ["ensures { answers self.old result self.new }"],
    "uart_16550::embedded_io::Read::read": [
        "ensures reads { reads self.old (length buf.old) (got result buf.new) result self.new }",
        "ensures count { IfOk result (λ count. count ≤ length buf.old) }",
        "ensures none { IfOk result (λ count. count ≡ 0 → length buf.old ≡ 0) }",
        "ensures rest { IfOk result (λ count. drop count buf.new ≡ drop count buf.old) }",
        "ensures err { OnErr result (buf.new ≡ buf.old) }",
    ],
    "uart_16550::embedded_io::Write::write": [
        "ensures writes { writes self.old buf.now result self.new }",
        "ensures count { IfOk result (λ count. count ≤ length buf.now) }",
        "ensures none { IfOk result (λ count. count ≡ 0 → length buf.now ≡ 0) }",
    ],
    "uart_ring::line::LinePorts::number": ["ensures { result ≡ number self.now }"],
    "uart_ring::line::LinePorts::lower": [
        "ensures did { lowers limit rounds port result self.old self.new }",
        "ensures number { number self.new ≡ number self.old }",
    ],
    "uart_ring::line::LinePorts::raise": ["ensures did { raises port self.old self.new }", "ensures number { number self.new ≡ number self.old }"],
    "uart_16550::embedded_io::Write::flush": ["ensures { flushes self.old result self.new }"],
    "uart_16550::embedded_io::ReadReady::read_ready": ["ensures { answers_read self.old result self.new }"],
    "uart_16550::embedded_io::WriteReady::write_ready": ["ensures { answers_write self.old result self.new }"],
}


def causes(files: list[File], allow: Tables, root: pathlib.Path = ROOT) -> list[str]:
    """What is wrong with the clauses of these files."""
    found, used = list[str](), set[str]()
    for file in files:
        words = tested_words(file, allow)
        used |= {part for word in words for part in word.split(".")} & MEANINGS.keys()
        found += [f"crates/{file.name}: refused: {cause}" for cause in meanings(file, words)]
        if file.ships and file.name.split("/")[0] not in allow.HIDDEN_IN:
            found += promises(file)
    for name in sorted(used):
        place = MEANINGS[name][1]
        if not is_defined(name, (root / "crates" / place).read_text(encoding="utf-8")):
            found.append(f"crates/{place}: `{name}`, which a guard tests, is defined otherwise: look at the guards that use it")
    return found


def is_tested(path: str, allow: Tables) -> bool:
    """Whether a function tests what it requires: by a test of its own, or by that of a function that it calls, and so on. Functions that come
    back to one another test nothing."""
    seen: set[str] = set()
    while path not in seen:
        seen.add(path)
        guard: Guard | None = allow.GUARDS.get(path)
        if guard is None or guard.test or guard.tested_by is None:
            return bool(guard and guard.test)
        path = guard.tested_by
    return False


def is_defined(name: str, text: str) -> bool:
    """Whether a word is defined in this file as the table says."""
    return MEANINGS[name][2] in definitions(text)


def definitions(text: str) -> set[str]:
    """The parts of a text between empty lines, without comments and line ends; and each of its lines."""
    lines = [line for line in text.split("\n") if not re.match(r"\s*(--|//)", line)]
    return {" ".join(part.split()) for part in "\n".join(lines).split("\n\n")} | set(lines)


def tested_words(file: File, allow: Tables) -> set[str]:
    """The names in the clauses of this file that Rust code tests, as `prescaler` or `spec.prescaler`."""
    clauses = []
    for function in file.functions:
        guard = allow.GUARDS.get(function.path)
        if guard and (guard.test or guard.tested_by):
            clauses += [re.sub(r"^requires (\w+ )?", "", one) for one in guard.clauses]
    return set(re.findall(r"(?<![\w.])[A-Za-z_]\w*(?:\.\w+)*", " ".join(clauses)))


def meanings(file: File, words: set[str]) -> Iterator[str]:
    """Why the words of tested clauses may mean something else in this file."""
    lists, modules, own = dict[str, list[str]](), dict[str, str](), set[str]()
    for token in file.code:
        if token.kind == "ghost" and (defined := re.match(r"ghost (\w+)", token.text)):
            own.add(defined[1])
        if token.kind == "ghost use" and (used := re.match(r"ghost use ([\w.]+?)(?:\.\{([^}]*)\}| as (\w+))?;", token.text)):
            path, listed, name = used.groups()
            for one in listed.split(",") if listed else []:
                lists.setdefault(one.strip(), []).append(path)
            modules[name or path.split(".")[-1]] = path
    for word in sorted(words):
        head, _, rest = word.partition(".")
        name, places = head, lists.get(head, [])
        if head in modules and rest:
            name, places = rest.split(".")[0], [modules[head], *places]
        if head in own:
            yield f"`{head}`, a word of a guard, is defined here"
        elif any(place.startswith("Rattle.std.specs.") for place in places) and name not in MEANINGS:
            continue
        elif places != ([MEANINGS[name][0]] if name in MEANINGS else []):
            yield f"`{name}`, a word of a guard, is from {', '.join(places) or 'nowhere'}"


def promises(file: File) -> list[str]:
    """What public traits of this file promise and the table does not say."""
    at, found = 0, list[str]()
    while at < len(file.code):
        if file.words(at, at + 2) != "pub trait" or file.kind(at) != "word":
            at += 1
            continue
        trait, method, opened = file.word(at + 2), "", at
        while file.word(opened) != "{":
            opened += 1
        close, stated = file.closing(opened), dict[str, list[str]]()
        for one in range(opened, close):
            if file.word(one) == "fn":
                method = f"{file.module}::{trait}::{file.word(one + 1)}"
            if file.kind(one) == "clause" and file.word(one).startswith("ensures"):
                stated.setdefault(method, []).append(" ".join(file.word(one).split()))
        for method, clauses in stated.items():
            if PROMISES.get(method) != clauses:
                found.append(f"{method} promises what PROMISES does not have: {'; '.join(clauses)}")
        at = close + 1
    return found
