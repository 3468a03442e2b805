"""What the comparison may not show, each with the reason; and the contracts whose breach Rust code has to refuse.

An entry that is not needed is a failure, so that none outlives its reason.
"""
import pathlib
import re


CRATES = (pathlib.Path(__file__).resolve().parents[3] / "crates.txt").read_text(encoding="utf-8")


def crates_of(section: str) -> list[str]:
    """The crates below this heading of crates.txt. Each uses those above it."""
    text = CRATES.partition(f"# == {section} ==\n")[2].partition("# == ")[0]
    return re.findall(r"(?m)^(\w+)", text)


def below(crate: str) -> list[str]:
    """The crates of this repository that a crate uses: its line has those below them too."""
    line = re.search(rf"(?m)^{crate}\b[^:#\n]*:(.*)$", CRATES)
    return [used for used in (line[1].split() if line else []) if re.search(rf"(?m)^{used}\b[^:#\n]*:", CRATES)]


# The packages: the crates of each, which have the MIR, the features that are compiled, and which of the crates are compared there.
OF_DRIVER = crates_of("What ships")
OF_CHIP = ["uart_spec", *crates_of("What models the hardware")]
PACKAGES: dict[str, tuple[list[str], list[str], list[str]]] = {
    "uart_16550": (OF_DRIVER, ["alloc"], OF_DRIVER),
    "uart_16550_chip": (OF_CHIP, [], OF_CHIP),
}
# What is given for a parameter that is a number, as how many characters a FIFO holds: what is most used, and a larger one. And constants
# that are given for it in the emitted text.
NUMBERS = [16, 64]
CONSTANTS = {"FIFO_SIZE": 16}
# What is not compared: a pattern of the name, and why.
UNDER_A_SCHEDULE = "of a chip under a schedule, which allocates: scripts that are played by both sides compare it"
UNCOMPARED = {
    r"^uart_chip::device::": UNDER_A_SCHEDULE,
    r"HeapFifo|HeapWire|\bMarks": UNDER_A_SCHEDULE,
    r"^\w+::laws::": "a law, which does nothing",
    r"^uart_spec::registers::(every_byte_is_a_value|masks_are_these)$": "a lemma, which does nothing",
}
# What is not compared in one package alone.
UNCOMPARED_IN = {
    "uart_16550_chip": {r"^uart_events::call::": "calls as data, which scripts are made of: scripts that are played by both sides compare it"}
}


def in_no_package(crates: list[str]) -> list[str]:
    """The crates of these that are in no package."""
    inside = {name for _, _, own in PACKAGES.values() for name in own}
    return [name for name in crates if name not in inside]


def unneeded(used: set[tuple[str, str]], uncounted: list[str]) -> list[tuple[str, str]]:
    """The entries, each with its table, that no name used. Of what bodies have more often than their MIR this is known if each crate was
    counted: an entry may be for one whose library is not there, and a type that it names need not name the crate."""
    tables = ["DIFFER", "SKIPPED", "NOT_IN_MIR", "NOT_EMITTED", "NOT_REACHED", "INPUTS", *([] if uncounted else ["COUNTED"])]
    return [(table, key) for table in tables for key in globals()[table] if (table, key) not in used]


def uncompared(package: str) -> dict[str, str]:
    """The patterns of what is not compared in a package, with the reasons."""
    return UNCOMPARED | UNCOMPARED_IN.get(package, {})


# The crates of the kit whose MIR they reach.
OF_KIT = ["core", "std_heap", "std_alloc", "std_io", "std", "bitflags", "arrayvec", "circular_buffer"]

# Functions that differ: a pattern of the name, and why.
SHOWS_REGISTER = "shows a register, of which `Debug` is by hand"
DIFFER = {
    r"::registers::\w+::[A-Z]{3}Debug::fmt": "`Debug` of a register shows the names of its bits: by hand, in registers/by_hand.rs",
    r"^uart_spec::received::ReceivedDebug::fmt": SHOWS_REGISTER,
    r"^uart_spec::errors::ConfigurationError(Debug|Display)::fmt": SHOWS_REGISTER,
    r"^uart_spec::setup::SetupDebug::fmt": SHOWS_REGISTER,
    r"::state::DriverStateDebug::fmt": SHOWS_REGISTER,
    r"^uart_ring::ring::storm::StuckError(Debug|Display)::fmt": SHOWS_REGISTER,
    r"^uart_ring::ring::line::LoweredDebug::fmt": SHOWS_REGISTER,
    r"^uart_design_ware::kept::KeptCharacters?Debug::fmt": SHOWS_REGISTER,
    r"^uart_waits::errors::(SharedError|Unfinished)(Debug|Display)::fmt": SHOWS_REGISTER,
    r"::config::ConfigDebug::fmt": SHOWS_REGISTER,
    r"::(dump|original)::ConfigRegisterDumpDebug::fmt": SHOWS_REGISTER,
}

# What an emitted body has more often than its MIR: a pattern of what is said, and why.
COUNTED = {
    r"^uart_discovery::pci::card_of: .* the number (6966|7168) 3 times, and the MIR 1 times": "of a maker, which the MIR asks for once",
    r"^uart_judges::audit::findings::spoils_rate: .* the number [23] 1 times": "of three in a row, which are a range in the MIR",
    r"^uart_judges::audit::unread::Unread::second: .* the number 1 1 times": "a place that is known, which is part of a path in the MIR",
    r"VerifyErrorFromTraceError::from: .* the number 0 1 times": "the name of a field",
    r"^uart_spec::registers::divisors::Divisor::discriminant: .* a cast to 16 bits 1 times": "a cast of an enum, whose cases the MIR looks at",
}

# Emitted functions that no case compares or reaches: a pattern of the name and of the cause that the program gives, and why.
SCHEDULED = "of a chip under a schedule: nothing that is compared calls it"
BY_SWITCH = "the size switch of a 16750, which no live chip has: rust/proved/uart_chip/tests/size_switch.rs tries it"
SKIPPED = {
    r"^uart_chip::chip::Uart::(fifo|tick|arrive|expire_timeout|perform|rts_output): generic": SCHEDULED,
    r"^uart_chip::chip::UartChipParts::is_clear_to_send: generic": SCHEDULED,
    r"^uart_chip::controlling::rts_output: generic": SCHEDULED,
    r"^uart_chip::receiver::Receiver::(arrive|waiting_at|arrivals): generic": SCHEDULED,
    r"^uart_chip::transmitter::Transmitter::held_at: generic": SCHEDULED,
    r"^uart_chip::(characters::CharactersFifoCharacter|chip::UartChipParts)::(can_)?resize: generic": BY_SWITCH,
    r"^uart_chip::(receiver::Receiver|transmitter::Transmitter)::resize: generic": BY_SWITCH,
    r"^uart_live::fixed::FixedFifoFifo::(can_)?resize: generic": BY_SWITCH,
    r"^uart_(16550|design_ware|ring|rs485)::.*Debug::fmt .*: printed and generic": "prints a backend, which the MIR's formatter does not know",
    r"^uart_ring::shown::\w+Debug::fmt: printed or generic": "prints rings over whatever backend: rust/uart_16550/tests/traits.rs has what is shown",
    r"^uart_ring::line::handle_line: generic": "over ports that its caller has: rust/uart_16550/tests/shared_line.rs calls it",
}

# Emitted functions that have no MIR: a pattern of the name, and why.
NOT_IN_MIR: dict[str, str] = {}

# Functions of the MIR that are not emitted: a pattern of the name, and why.
NOT_EMITTED = {
    r"::fn::": "a closure: of the function that has it",
    r"^uart_discovery::.*is_16550\+FnOnce::call_once$": "a function that is given as a closure: of the function itself",
    r"Hash::hash$": "derived in both: the MIR has no hasher of Rust's std",
    r"^uart_(16550|design_ware|ring|rs485)::.*Debug::fmt$": "prints a backend",
    r"^uart_chip::fifo::Fifo::is_empty\+decl$": "the declaration of a method that has a body",
}

# Places of the MIR that no input reaches: a pattern of the function, the number of the place and what it is, and why.
OF_ORIGINS = "each character of a live chip has the same origin"
IN_JUMPS = "time passes for a live chip in jumps, which end where something happens"
OF_TREE = "places of a tree, which was read up to there, and whose sums 64 bits hold"
READ_BEFORE = "a node that the function has read to its end before, without a fault"
BY_DRIVER = "automatic flow control, which no live chip has: scripts that are played by both sides compare it"
NOT_REACHED = {
    r"(PartialEq::eq|PartialOrd::partial_cmp|Ord::cmp) \d+ case \d+(\|\d+)*$": "another variant: their numbers were compared before",
    r"Clone::clone \d+ case 1$": "no memory: what is cloned has none",
    r"^uart_original::dump::ConfigRegisterDump::baud_rate 2 case 1$": "a rate that cannot be had, which its contract refuses",
    r"^uart_16550::driver::Uart16550::check_registers \d+ case \d$": "a device that shows three registers as the arguments ask: "
    "the tests of `check_configured` have one, on both sides",
    r"^uart_chip::controlling::read_register 8 case 5$": "LSR, which `read` looks for before",
    r"^uart_chip::controlling::write_register 1 case 0$": "DATA, which `write` looks for before",
    r"^uart_chip::receiving::enter 6 else$": OF_ORIGINS,
    r"^uart_chip::receiving::replace 2 case 0$": "an empty receiver, of which nothing is replaced",
    r"^uart_chip::receiving::replace (4 else|5 if|6 else)$": OF_ORIGINS,
    r"^uart_chip::transmitting::(refill 1 if|shift 3 if|shift 8 else)$": IN_JUMPS,
    r"^uart_chip::chip::UartChipParts::is_clear_to_send 0 entry$": BY_DRIVER,
    r"^uart_chip::controlling::is_(auto_flow|held_off) 1 if$": BY_DRIVER,
    r"^uart_chip::sending::sends_at_once 4 else$": BY_DRIVER,
    r"^uart_chip::transmitting::(next_move 2 if|tick 2 else)$": BY_DRIVER,
    r"^uart_chip::characters::CharactersFifoCharacter::resize \d (entry|if|else)$": BY_SWITCH,
    r"^uart_chip::chip::UartChipParts::(has_size_switch [13] if|resize \d (entry|if|else))$": BY_SWITCH,
    r"^uart_chip::controlling::(fifo_flags [123] (if|else)|is_switching [13] if|switch_size 1 if)$": BY_SWITCH,
    r"^uart_chip::(receiver::Receiver|transmitter::Transmitter)::resize 0 entry$": BY_SWITCH,
    r"^uart_live::fixed::FixedFifoFifo::(can_)?resize 0 entry$": BY_SWITCH,
    r"^uart_discovery::tree::blob::Tree::token (4|9|11|13|19|23|25|27) case 1$": OF_TREE,
    r"^uart_discovery::tree::blob::part 6 case 1$|^uart_discovery::tree::address::cells_at 6 case 1$": OF_TREE,
    r"^uart_discovery::tree::node::child 8 case 1$": OF_TREE,
    r"^uart_discovery::tree::node::child 13 case 1$": "nodes in each other that are more than 32 bits count",
    r"^uart_discovery::tree::blob::be32 (5 if|8 else)$": "a part of four bytes, which has four",
    r"^uart_discovery::tree::interrupt::first_of \d+ case 0$": "a part of four bytes, which has four",
    r"^uart_discovery::tree::interrupt::interrupt_of 9 case 1$": "what stands behind four bytes, which were read",
    r"^uart_discovery::tree::interrupt::interrupt_of 14 case 1$": READ_BEFORE,
    r"^uart_discovery::tree::(path::Path::enter 4|ports::nth_port 7) case 1$": "nodes in each other that are more than a `usize` counts",
    r"^uart_discovery::tree::ports::(alias_of|leads_to) 3 case 1$": "a path that was found, which has a last node",
    r"^uart_discovery::tree::ports::alias_of 8 else$": OF_TREE,
    r"^uart_discovery::tree::console::clock_of \d+ other$|^uart_discovery::tree::console::clock_of 45 else$": "a name that is "
    "`fixed-clock` up to this byte: the inputs spoil one byte of it too seldom. Debian's trees have other clocks, beside another reader",
    r"^uart_discovery::tree::blob::Tree::new 10 case 1$": "a field of a header of which a later one was read",
    r"^uart_discovery::tree::console::(byte_order_of 6|console_path 10) case 1$": READ_BEFORE,
    r"^uart_discovery::tree::console::(resolve 8|console_path 4) case 1$": "a path that was found, which has a last node",
    r"^uart_discovery::tree::address::address_of (14 else|(18|20) case 1)$": "steps that no path of so many nodes has",
    r"^uart_virtual::port::VirtualPortWith::try_new 2 case 1$": "a number that no FIFO holds, which is not among NUMBERS: "
    "the test `no_fifo_holds_another_number` has some",
}

# Functions that read outside of an empty slice, as their contract allows.
NOT_EMPTY = ["receive_some", "write_burst", "send_some"]

# When a call breaks what a guard of the eraser is for, as Rust code over the arguments a0, a1, .. of the function: Rust has to panic then,
# and at no other time. By the path that the eraser gives.
PRESCALER = "{}.is_some_and(|factor| factor > 15)"
NOT_COMPUTABLE = "({0}.frequency == 0 || {0}.baud_rate.to_integer() == 0 || %s)" % PRESCALER.format("{0}.prescaler_division_factor")
TWO_RATES = f"a0 == 0 || a1 == 0 || {PRESCALER.format('a2')}"
CONTRACTS = {
    "uart_spec::baud::calc_frequency": f"{TWO_RATES} || " "16 * (u128::from(a2.unwrap_or(0)) + 1) * u128::from(a0) * u128::from(a1) >= 1 << 32",
    "uart_spec::baud::calc_baud_rate": TWO_RATES,
    "uart_spec::baud::calc_divisor": TWO_RATES,
    "uart_spec::config::Config::nearest": NOT_COMPUTABLE.format("a0"),
    "uart_spec::dump::ConfigRegisterDump::baud_rate": "(a0.dll != 0 || a0.dlm != 0) && "
    f"(a1.frequency == 0 || {PRESCALER.format('a1.prescaler_division_factor')})",
    "uart_original::dump::ConfigRegisterDump::baud_rate": "crate::proved::uart_spec::checked_baud_rate(a1.frequency, "
    "u32::from(a0.divisor()), a1.prescaler_division_factor).is_err()",
    "uart_spec::registers::prescaler_division::PSD::set_pdf": "a1 > 15",
    "uart_16550::driver::init::Uart16550::init": NOT_COMPUTABLE.format("a1"),
    "uart_16550::driver::frame::Uart16550::set_frame": NOT_COMPUTABLE.format("a1"),
    "uart_16550::driver::setup::Uart16550::set_frame_when_idle": NOT_COMPUTABLE.format("a1"),
    "uart_16550::driver::setup::Uart16550::init_with": NOT_COMPUTABLE.format("a1"),
    "uart_16550::tty::Uart16550Tty::start": NOT_COMPUTABLE.format("a1"),
    "uart_16550::tty::Uart16550Tty::new_with_backend": NOT_COMPUTABLE.format("a1"),
    "uart_16550::tty::Uart16550Tty::new_port": f"{NOT_COMPUTABLE.format('a2')} && Uart16550::new_port(a0, a1).is_ok()",
    "uart_16550::tty::Uart16550Tty::new_mmio": f"{NOT_COMPUTABLE.format('a3')} && Uart16550::new_mmio(a0, a1, a2).is_ok()",
    "uart_16550::tty::Uart16550Tty::new_mmio_from_address": f"{NOT_COMPUTABLE.format('a3')} && Uart16550::new_mmio(a0, a1, a2).is_ok()",
    **{f"uart_16550::{path}": "a1 >= 8" for path in ("pio::PioBackend::port", "pio::PioBackend::read", "pio::PioBackend::write")},
    **{f"uart_16550::{path}": "a1 >= 8" for path in ("mmio::MmioBackend::address", "mmio::MmioBackend::read", "mmio::MmioBackend::write")},
    "uart_design_ware::kept::KeptCharacters::keep": "a0.is_full()",
    **{f"uart_design_ware::state::DesignWare::{name}": "a1 >= 8" for name in ("load", "store")},
    **{
        f"uart_design_ware::serving::DesignWare::{name}": "a1 >= 8"
        for name in ("read", "read_meant", "read_plain", "write", "write_meant", "write_plain")
    },
    "uart_ring::queue::ByteQueue::byte_at": "a1 >= a0.len()",
    "uart_live::live::LiveChipWith::read": "a1 >= 8",
    "uart_live::live::LiveChipWith::write": "a1 >= 8",
    "uart_live::live::LiveChipWith::send_at_once": "!a0.sends_at_once()",
    "uart_virtual::port::VirtualPortWith::read": "a1 >= 8",
    "uart_virtual::port::VirtualPortWith::write": "a1 >= 8",
    "uart_virtual::port::read": "a1 >= 8",
    "uart_virtual::port::read_any": "a1 >= 8",
    "uart_virtual::port::send": "!a0.sends_at_once()",
    "uart_virtual::port::write": "a1 >= 8",
    "uart_virtual::port::write_slowly": "a1 >= 8",
    "uart_virtual::port::write_and_raise": "a1 >= 8",
}

# When a call breaks the contract of a function that only proved callers reach, as the code above: Rust need not panic, and the MIR, which
# tests no index, would read or write what is not there. By the path that the eraser gives.
OUTSIDE = {
    **{f"uart_discovery::bytes::le{8 * count}": f"a1.saturating_add({count}) > a0.len()" for count in (2, 4, 8)},
    **{f"uart_discovery::pci::{name}": "a0.len() < 64" for name in ("class_of", "card_in", "distance", "base_of", "pin_of")},
    **{f"uart_discovery::acpi::spcr::{name}": "a0.len() < 80" for name in ("precise_rate", "rate_of", "clock_of", "interrupt_of")},
    "uart_discovery::acpi::address::registers_at": "a1.saturating_add(12) > a0.len()",
    "uart_discovery::acpi::dbg2::device_at": "a1.saturating_add(22) > a0.len()",
    "uart_ring::queue::ByteQueue::front_slices": "a1 > a0.len()",
    "uart_ring::queue::ByteQueue::receive_from": "a2 > a0.capacity() - a0.len()",
    "uart_ring::queue::receive": "a2 > a1.len() || a3 > a1.len() - a2",
}

# What arguments are made by, where bytes at random say nothing: a pattern of the name, and for each argument the Rust text over those before
# it, or None. The functions are in run/inputs_of_CRATE.rs.
TABLE, HEADER, WORD, BLOB, NAME = (f"crate::run::{name}(choices)" for name in ("table", "header", "word", "blob", "name"))
PLACE, NODE = "crate::run::place(choices, a0.len())", "4 * choices.pick(160)"
INPUTS: dict[str, list[str | None]] = {
    r"^uart_discovery::tree::console::is_16550$": [WORD],
    # of numbers alone
    r"^uart_discovery::.*::(is_16550|rate_of_code|access_width|(hexadecimal|decimal)_digit|card_of|sum|aligned|translated)$": [],
    r"^uart_discovery::acpi::table::checked_table$": [TABLE, "crate::run::signature(choices)"],
    r"^uart_discovery::(acpi::(address::registers_at|dbg2::device_at)|bytes::le\d\d)$": [TABLE, PLACE],
    r"^uart_discovery::acpi::|^uart_discovery::bytes::": [TABLE],
    r"^uart_discovery::pci::": [HEADER],
    r"^uart_discovery::command_line::(read_\w+|part_count)$": ["crate::run::command_line(choices)"],
    r"^uart_discovery::command_line::part$": ["crate::run::command_line(choices)", "choices.pick(7)"],
    r"^uart_discovery::command_line::at_most$": ["choices.pick(7)", "crate::run::command_line(choices)"],
    r"^uart_discovery::command_line::base_of$": [None, WORD],
    r"^uart_discovery::command_line::(parity_of|data_bits_of|framed)$": [],
    r"^uart_discovery::command_line::options_with$": [None, "crate::run::letters(choices)"],
    r"^uart_discovery::command_line::options_of$": ["crate::run::options(choices)"],
    r"^uart_discovery::command_line::port_of$": [None, WORD, "crate::run::options(choices)", WORD],
    r"^uart_discovery::(command_line|numbers)::": [WORD],
    r"^uart_discovery::tree::blob::(be32|field)$": [BLOB, PLACE],
    r"^uart_discovery::tree::blob::(part|text_at)$": [BLOB, PLACE, PLACE],
    r"^uart_discovery::tree::blob::Tree::token$": [None, NODE],
    r"^uart_discovery::tree::blob::Tree::new$": [BLOB],
    r"^uart_discovery::tree::address::cells_at$": [BLOB, PLACE, "choices.pick(4)"],
    r"^uart_discovery::tree::address::on_bus_above$": [None, NODE, NODE],
    r"^uart_discovery::tree::console::read_tree_node$": [BLOB, "crate::run::path(choices)"],
    r"^uart_discovery::tree::console::read_device_tree$": [BLOB],
    r"^uart_discovery::tree::ports::read_tree_port$": [BLOB, "choices.pick(4)"],
    r"^uart_discovery::tree::ports::nth_port$": [None, "choices.pick(4)"],
    r"^uart_discovery::tree::ports::leads_to$": [None, "crate::run::path(choices)", NODE],
    r"^uart_discovery::tree::ports::alias_number$": [WORD],
    r"^uart_discovery::tree::interrupt::cells_of$": [None, None, "choices.pick(8)"],
    r"^uart_discovery::tree::interrupt::first_of$": [None, None, BLOB],
    r"^uart_discovery::tree::console::has_16550$|^uart_discovery::tree::blob::up_to_zero$": [WORD],
    r"^uart_discovery::tree::console::resolve$|^uart_discovery::tree::path::nodes_on$": [None, "crate::run::path(choices)"],
    r"^uart_discovery::tree::node::is_named$": [NAME, NAME],
    r"^uart_discovery::tree::node::child$": [None, NODE, "crate::run::path(choices)"],
    r"^uart_discovery::tree::": [None, NODE, NAME],
}

# What a function adds or multiplies of type `usize`, as Rust code of type `u128` over its arguments: a pattern of the name, the code, and why
# it says nothing if no `usize` of the target has it.
LAST_ADDRESS = "u128::from({}.get() as u64) + 7 * u128::from({})"
REFUSED = "the address of the last register: `new` refuses it if no `usize` of the target has it"
CHECKED = "the address of the last register: it is refused if no `usize` of the target has it"
IN_TREE = "a place in a tree: it is refused if no `usize` of the target has it"
MOST = {
    r"^uart_discovery::tree::blob::sum$": ("a0 as u128 + a1 as u128", IN_TREE),
    r"^uart_discovery::tree::blob::aligned$": ("a0 as u128 + 3", IN_TREE),
    r"^uart_discovery::tree::blob::Tree::token$": (
        "field(a0.structure, a1.saturating_add(4)).map_or(0, |length| a1 as u128 + length as u128 + 15)",
        IN_TREE,
    ),
    r"^uart_spec::layout::check_spacing$": ("u128::from(a0 as u64) + u128::from(a2) * u128::from(a1)", CHECKED),
    r"^uart_spec::layout::check_layout$": ("u128::from(a0 as u64) + 7 * u128::from(a1.stride)", CHECKED),
    r"mmio::MmioBackend::new$|MmioBackend\+M::new_mmio(_from_address)?$": (LAST_ADDRESS.format("a0", "a1"), REFUSED),
    r"mmio::MmioBackendBackend::(read|write)$|mmio::MmioBackend::address$": (LAST_ADDRESS.format("a0.base", "a0.stride.get()"), REFUSED),
}

# Constructors of the types whose calls are also compared in sequence. Beside the public methods, a sequence has these steps, in Rust and in
# the MIR, where a name in braces is that of the translated function.
SEQUENCES: dict[str, list[tuple[str, str]]] = {
    "uart_16550::driver::Uart16550::new_with_backend": [],
    "uart_design_ware::state::DesignWare::new": [],
    "uart_ring::ring::Uart16550Ring::new": [],
    "uart_waits::waits::Waits::new": [],
    "uart_live::live::LiveChipWith::new": [
        (
            "if let Ok(made) = LiveChip::from_data(&state.data(), state.wire()) { state = made; }",
            "let mut data = {uart_live::live::snapshot::LiveChipWith+FIFO_SIZE::data}(&raw mut state as *mut u8); "
            "let wire = {uart_live::live::LiveChipWith::wire}(&raw mut state as *mut u8); "
            "let made = {uart_live::live::snapshot::LiveChipWith+FIFO_SIZE::from_data}(&raw mut data as *mut u8, wire); "
            "if made.v0.f0 == 0 { state = made.v0.f1; }",
        ),
        # and with a wire that is longer than there are places
        (
            "let mut data = state.data(); data.transmitter.wire_capacity += 100; "
            "out.push(LiveChip::from_data(&data, state.wire()).is_ok() as u64);",
            "let mut data = {uart_live::live::snapshot::LiveChipWith+FIFO_SIZE::data}(&raw mut state as *mut u8); data.f3.f2 += 100; "
            "let wire = {uart_live::live::LiveChipWith::wire}(&raw mut state as *mut u8); "
            "let made = {uart_live::live::snapshot::LiveChipWith+FIFO_SIZE::from_data}(&raw mut data as *mut u8, wire); "
            "out.push((made.v0.f0 == 0) as u64);",
        ),
    ],
    "uart_virtual::port::VirtualPortWith+FIFO_SIZE::new": [
        # Data at random are those of no port.
        (
            "if let Ok(made) = VirtualPort::from_data(&state.data(), state.output()) " "{ Value::show(&made.todo, &mut out); state = made.port; }",
            "let mut data = {uart_virtual::port::snapshot::VirtualPortWith+FIFO_SIZE::data}(&raw mut state as *mut u8); "
            "let output = {uart_virtual::port::VirtualPortWith::output}(&raw mut state as *mut u8); "
            "let made = {uart_virtual::port::snapshot::VirtualPortWith+FIFO_SIZE::from_data}(&raw mut data as *mut u8, output); "
            "if made.v0.f0 == 0 { Value::show(&{ made.v0.f1.f1 }, &mut out); state = made.v0.f1.f0; }",
        ),
        # and with an input that is no line
        (
            "let mut data = state.data(); "
            "data.modem.inputs = MSR::from_bits_retain(data.modem.inputs.bits() | 1); "
            "out.push(VirtualPort::from_data(&data, state.output()).is_ok() as u64);",
            "let mut data = {uart_virtual::port::snapshot::VirtualPortWith+FIFO_SIZE::data}(&raw mut state as *mut u8); "
            "data.f5.f0.f0 |= 1; "
            "let output = {uart_virtual::port::VirtualPortWith::output}(&raw mut state as *mut u8); "
            "let made = {uart_virtual::port::snapshot::VirtualPortWith+FIFO_SIZE::from_data}(&raw mut data as *mut u8, output); "
            "out.push((made.v0.f0 == 0) as u64);",
        ),
    ],
    "uart_virtual::port::VirtualPortWith::try_new": [],
}
STEPS = 60
