"""What the eraser knows of the crates. `erase tables` prints these tables."""
from typing import NamedTuple

from examples import EXAMPLES  # noqa: F401

# Rule, what it finds, what it becomes.
RULES = [
    ("clause", "`requires NAME {..}`, `ensures NAME {..}`, `ensures* NAME {..}`", "nothing"),
    ("ghost use", "`ghost use ..;`", "nothing"),
    ("ghost", "`ghost NAME: {..};`, `ghost NAME = {..};`, in a struct with a comma", "nothing"),
    ("tactic", "`#[tactic(..)]`, `#![tactic(..)]`", "nothing"),
    ("model", "`impl Model for ..` of ghost items alone, `use std::marker::Model;`", "nothing"),
    ("lemma", "a function without parameter, result and body, with an `ensures`", "nothing"),
    ("file", "a file `laws.rt`, which has laws alone, its `mod laws;`, and a `use` of it", "nothing"),
    ("tests", "`#[cfg(test)] mod NAME;`, a file `tests.rt` and the files below `tests`", "nothing"),
    ("thiserror", "`use thiserror::Error;` (`rt expand` has written out its implementations)", "nothing"),
    ("error", "an empty `impl std::error::Error` for a type of `ERRORS`", "nothing: by hand there is one with the source of the error"),
    ("drop", "`Drop` in a derive, in a bound, in a `where`", "nothing"),
    ("empty", "`impl<>`, `NAME<>`, `where` with nothing behind it", "without the empty part"),
    ("debug", "`Debug` in the derive of a register", "nothing: by hand there is one with the names of the bits"),
    ("guard", "the body of a function in `GUARDS`", "the test of what its clause requires, then the body"),
    ("const", "a function in `CONSTANT`", "`const fn`"),
    ("result", "a public function with a result that is no `Result`, and without `&mut`", "also `#[must_use]`"),
    ("order", "a struct in `IN_ORDER`", "also `#[repr(C)]`"),
    ("grows", "an enum in `MAY_GROW` or `IS_OPEN`", "also `#[non_exhaustive]`; in `MAY_GROW` only if the feature `exhaustive` is off"),
    ("formatter", "`fn fmt<W: fmt::Write>(&self, f: &mut fmt::Formatter<W>)`", "`fn fmt(&self, f: &mut fmt::Formatter<'_>)`"),
    ("writer", "`use std::fmt;` in a file that calls `write_char`", "also `use std::fmt::Write as _;`"),
    ("allocator", "`collect(alloc)`, `to_vec(alloc)`, `to_string(alloc)`", "`collect_with(alloc)`, and so on"),
    ("lists", "a file that names `Vec` or `String`, or has a method of the line above", "a `use` of what it names"),
    ("by hand", "a file in `BY_HAND`", "also `mod by_hand;`"),
    ("pages", "definitions that such clauses name", "a file `proved.rs`, with an empty module for each file of definitions"),
    ("root", "the root of a crate", "also `#![no_std]`, `#![forbid(unsafe_code)]`, and `extern crate` for std and the libraries"),
    ("documentation", "`(rt; ..)` in an example, a fence without a word", "`(..)`, and the lines and the word of `EXAMPLES`"),
    ("panics", "the documentation of a function in `GUARDS`", "also a section Panics"),
    ("promise", "the documentation of a public function with clauses, in what ships", "also a section with what its clauses say"),
]

# The crates that become packages. What ships is part of a program of a user, on any target. The others are parts of this repository's
# programs. Of them, those of a page in a browser are also compiled for WebAssembly, where `usize` has 32 bits; the rest are of targets of
# 64 bits.
SHIPS = """
uart_spec uart_original uart_16550 uart_design_ware uart_rs485 uart_ring uart_waits uart_discovery uart_events uart_chip uart_live uart_virtual
""".split()
OF_PROGRAMS = "uart_call uart_calls uart_run uart_ring_runs uart_link uart_language uart_play uart_judges uart_trace uart_port uart_machine".split()
OF_THE_PAGE = "uart_call uart_calls uart_run uart_ring_runs uart_link uart_language uart_play uart_judges uart_trace uart_port".split()
CRATES = SHIPS + OF_PROGRAMS
OUTPUT = "rust/proved"

# The libraries that a crate may use, by the package that has them: that of the rings has queues in memory that is given.
LIBRARIES = "bitflags arrayvec circular_buffer".split()
OF_RINGS = "uart_ring"
# The crates whose tests by hand make rings, with queues of the heap.
MAKE_RINGS = ["uart_ring", "uart_rs485", "uart_link", "uart_machine"]

# The crates that the tests by hand of a package use beside those that the package itself uses.
OF_TESTS = {
    "uart_16550": ["uart_calls", "uart_chip"],
    "uart_ring": ["uart_calls", "uart_live"],
    "uart_rs485": ["uart_calls", "uart_chip", "uart_live"],
    "uart_machine": ["uart_16550", "uart_ring", "uart_spec"],
}

# Files that end with a module by hand, which is not emitted: what has to be in a type's own crate.
BY_HAND = {
    "uart_spec/src/lib.rt": "mod by_hand;",
    "uart_spec/src/registers.rt": "mod by_hand;",
    "uart_original/src/lib.rt": "mod by_hand;",
    "uart_16550/src/lib.rt": "mod by_hand;",
    "uart_ring/src/lib.rt": "mod by_hand;",
    "uart_rs485/src/lib.rt": "mod by_hand;",
    "uart_waits/src/lib.rt": "mod by_hand;",
    "uart_discovery/src/lib.rt": "mod by_hand;",
    "uart_chip/src/lib.rt": "mod by_hand;",
    "uart_live/src/lib.rt": "mod by_hand;",
    "uart_virtual/src/lib.rt": "mod by_hand;",
}
# The crates whose code by hand has the traits of the crate `embedded-io`, behind a feature of this name.
EMBEDDED_IO = ["uart_spec", "uart_16550", "uart_waits"]

# The errors that have `core::error::Error` by hand, by their files: they tell of a cause, and Rattle's has no `source`.
ERRORS = {
    "uart_spec/src/errors.rt": ["InitError", "FrameError", "LoopbackError", "Uart16550TtyError"],
    "uart_original/src/errors.rt": ["InitError", "LoopbackError", "Uart16550TtyError"],
    "uart_rs485/src/errors.rt": ["SendError"],
    "uart_waits/src/errors.rt": ["SharedError", "StartError", "Unfinished"],
    "uart_discovery/src/errors.rt": ["TreeError"],
}

# Structs whose fields stay in the order of the source. So the backend is at the driver's own address, and a call of it adds nothing to that.
# rustc puts a field first that has a value which never occurs: the spin limit, which is not 0.
IN_ORDER = ["uart_16550::driver::Uart16550"]

# Enums that may get more cases, so that a match of a user has one for all others. Of those that the original's interface has too they are
# the two that may get more there.
# With the feature `exhaustive` a match of this repository's own packages names each case, and rustc tells them of a new one.
MAY_GROW = [
    *(
        f"uart_spec::errors::{name}Error"
        for name in "Init InvalidDivisor Loopback Uart16550Tty Attach Configuration Frame NearestDivisor FifoSize".split()
    ),
    "uart_design_ware::fault::DesignWareFault",
    "uart_ring::ring::RingError",
    "uart_ring::ring::service::HandleEnd",
    "uart_ring::ring::storm::StuckError",
    "uart_spec::layout::InvalidLayoutError",
    *(f"uart_waits::errors::{name}Error" for name in ("Shared", "Start")),
    *(f"uart_discovery::errors::{name}" for name in ("TableFault", "OptionError", "PciError", "TreeError")),
    "uart_discovery::port::Interrupt",
]
# Those that are open whatever features there are: the original's, since programs for it have a case for all others, and those that no package
# of this repository matches.
IS_OPEN = [
    *(f"uart_original::errors::{name}Error" for name in ("Init", "InvalidDivisor")),
    *(f"uart_rs485::errors::{name}Error" for name in ("Echo", "Send")),
    *(f"uart_live::errors::{name}Error" for name in ("Input", "Chip", "Restore")),
    "uart_16550::patience::WaitEnd",
]
# Of these, the crates that others match, and the crates that do.
GROWING = ["uart_spec", "uart_design_ware", "uart_ring", "uart_waits", "uart_discovery"]
NAME_EACH = ["uart_original", "uart_language"]

# The functions that are `const fn`, so that callers can make a driver or a configuration in a `static`.
CONSTANT = """
uart_spec::config::BaudRate::to_integer
uart_spec::config::BaudRate::from_integer
uart_spec::checked::PSD::checked_set_pdf
uart_spec::layout::RegisterWidth::bytes
uart_spec::layout::check_ports
uart_spec::layout::check_spacing
uart_spec::layout::check_layout
uart_spec::registers::codes::FifoTriggerLevel::from_raw_bits
uart_spec::registers::codes::FifoTriggerLevel::to_raw_bits
uart_spec::registers::codes::WordLength::from_raw_bits
uart_spec::registers::codes::WordLength::to_raw_bits
uart_spec::registers::codes::Parity::from_raw_bits
uart_spec::registers::codes::Parity::to_raw_bits
uart_spec::registers::fifo_control::FCR::set_fifo_trigger_level
uart_spec::registers::fifo_control::FCR::fifo_trigger_level
uart_spec::registers::frame::WordLength::from_integer
uart_spec::registers::frame::WordLength::to_integer
uart_spec::registers::interrupt_status::ISR::interrupt_type
uart_spec::registers::interrupt_status::ISR::has_pending_interrupt
uart_spec::registers::interrupt_status::ISR::fifo_enabled
uart_spec::registers::interrupt_type::InterruptType::priority
uart_spec::registers::interrupt_type::InterruptType::from_bits
uart_spec::registers::interrupt_type::InterruptType::to_bits
uart_spec::registers::line_control::LCR::word_length
uart_spec::registers::line_control::LCR::set_word_length
uart_spec::registers::line_control::LCR::parity
uart_spec::registers::line_control::LCR::set_parity
uart_spec::registers::line_status::LSR::has_error
uart_spec::registers::prescaler_division::PSD::pdf
uart_spec::registers::prescaler_division::PSD::set_pdf
uart_16550::driver::Uart16550::new_with_backend
uart_16550::driver::Uart16550::backend
uart_16550::driver::Uart16550::backend_mut
uart_16550::driver::Uart16550::config
uart_16550::driver::Uart16550::fifo_enabled
uart_16550::driver::Uart16550::fifo_size
uart_16550::driver::Uart16550::set_fifo_size
uart_16550::driver::Uart16550::spin_limit
uart_16550::driver::Uart16550::set_spin_limit
uart_spec::dump::ConfigRegisterDump::divisor
uart_original::dump::ConfigRegisterDump::divisor
uart_16550::mmio::MmioBackend::base
uart_16550::mmio::MmioBackend::stride
uart_16550::pio::PioBackend::base
uart_16550::tty::Uart16550Tty::from_inner
uart_16550::tty::Uart16550Tty::inner
uart_16550::tty::Uart16550Tty::inner_mut
uart_design_ware::kept::KeptCharacters::new
uart_waits::waits::Waits::new
uart_design_ware::state::DesignWare::new
uart_design_ware::state::DesignWare::fault
uart_design_ware::state::DesignWare::registers_mut
""".split()


# A guard: the clauses that it is for, word by word; the test that the function begins with, or None; the path of the function that it
# calls and that tests the same, or None; what its documentation says under Panics, or None; the reason if there is no test.
class Guard(NamedTuple):
    clauses: list[str]
    test: str | None = None
    tested_by: str | None = None
    panics: str | None = None
    reason: str | None = None


REGISTER_OFFSET = ["requires { register_offset < NUM_REGISTERS }"]
COMPUTABLE = ["requires { IsComputable config }"]
LINE_PORT = ["requires { port < number self.old }"]
NOT_COMPUTABLE = "If the configuration is not computable (`Config::is_computable`)."
NO_BODY = "no body: each implementation has its own entry"
INSIDE = "private: each caller is proved to meet it"
IN_FILE = "private to its file: each caller is proved to meet it"
HIDDEN_INSIDE = "in no interface: each caller is proved to meet it"
TTY = "uart_16550::tty::Uart16550Tty"
EIGHT = 'assert!(register_offset < 8, "no register has this offset");'

GUARDS = {
    "uart_spec::backend::Backend::read": Guard(REGISTER_OFFSET, reason=NO_BODY),
    "uart_spec::backend::Backend::write": Guard(REGISTER_OFFSET, reason=NO_BODY),
    "uart_spec::baud::calc_frequency": Guard(
        [
            "requires baud_rate { 0 < baud_rate }",
            "requires divisor { 0 < divisor }",
            "requires prescaler { prescaler prescaler_division_factor ≤ 15 }",
            "requires fits { frequency_of baud_rate divisor prescaler_division_factor < 2 ^ 32 }",
        ],
        test="""assert!(
    baud_rate != 0
        && divisor != 0
        && prescaler_division_factor.is_none_or(|factor| factor <= 15)
        && (16 * (prescaler_division_factor.unwrap_or(0) + 1))
            .checked_mul(baud_rate)
            .is_some_and(|ticks| ticks.checked_mul(divisor).is_some()),
    "a baud rate or divisor of 0, a prescaler division factor above 15, or too high a frequency"
);""",
        panics="If the baud rate or the divisor is 0, if the prescaler division factor is above 15, or if the frequency does\n"
        "not fit into 32 bits.",
    ),
    "uart_spec::baud::calc_baud_rate": Guard(
        [
            "requires frequency { 0 < frequency }",
            "requires divisor { 0 < divisor }",
            "requires prescaler { prescaler prescaler_division_factor ≤ 15 }",
        ],
        test="""assert!(
    frequency != 0
        && divisor != 0
        && prescaler_division_factor.is_none_or(|factor| factor <= 15),
    "a frequency or divisor of 0, or a prescaler division factor above 15"
);""",
        panics="If the frequency or the divisor is 0, or if the prescaler division factor is above 15.",
    ),
    "uart_spec::baud::calc_divisor": Guard(
        [
            "requires prescaler { prescaler prescaler_division_factor ≤ 15 }",
            "requires frequency { 0 < frequency }",
            "requires baud_rate { 0 < baud_rate }",
        ],
        test="""assert!(
    frequency != 0
        && baud_rate != 0
        && prescaler_division_factor.is_none_or(|factor| factor <= 15),
    "a frequency or baud rate of 0, or a prescaler division factor above 15"
);""",
        panics="If the frequency or the baud rate is 0, or if the prescaler division factor is above 15.",
    ),
    "uart_spec::baud::other_factor": Guard(
        ["requires factor { 0 < factor }", "requires prescaler { prescaler prescaler_division_factor ≤ 15 }"], reason=INSIDE
    ),
    "uart_spec::baud::whole_quotient": Guard(["requires { 0 < divisor }"], reason=INSIDE),
    "uart_spec::baud::ticks_of": Guard(["requires prescaler { prescaler prescaler_division_factor ≤ 15 }"], reason=INSIDE),
    "uart_spec::baud::nearest_factor": Guard(
        [
            "requires some { 16 ≤ ticks }",
            "requires ticks { ticks < 2 ^ 40 }",
            "requires runs { 0 < frequency }",
            "requires frequency { frequency < 2 ^ 32 }",
        ],
        reason=INSIDE,
    ),
    "uart_spec::config::Config::nearest": Guard(
        ["requires { IsComputable self }"], test='assert!(self.is_computable(), "a configuration that is not computable");', panics=NOT_COMPUTABLE
    ),
    "uart_spec::registers::prescaler_division::PSD::set_pdf": Guard(
        ["requires { pdf ≤ 15 }"], test='assert!(pdf <= 15, "a prescaler division factor above 15");', panics="If the factor is above 15."
    ),
    "uart_16550::driver::Uart16550::read_register": Guard(
        ["requires low { offset < NUM_REGISTERS }", "requires not_lsr { offset ≢ offsets.LSR }", "requires not_msr { offset ≢ offsets.MSR }"],
        reason=INSIDE,
    ),
    "uart_16550::driver::Uart16550::read_plain": Guard(["requires { offset < NUM_REGISTERS }"], reason=INSIDE),
    "uart_16550::driver::Uart16550::write_register": Guard(["requires { offset < NUM_REGISTERS }"], reason=INSIDE),
    "uart_16550::driver::receive::Uart16550::receive_some": Guard(["requires { 0 < length buffer.old }"], reason=INSIDE),
    "uart_16550::driver::transmit::Uart16550::write_burst": Guard(["requires { 0 < length bytes.now }"], reason=INSIDE),
    "uart_16550::driver::transmit::Uart16550::send_some": Guard(["requires { 0 < length bytes.now }"], reason=INSIDE),
    "uart_16550::driver::init::Uart16550::init": Guard(
        COMPUTABLE,
        tested_by="uart_spec::baud::calc_divisor",
        panics=NOT_COMPUTABLE + " No access was made then.",
        reason="before the first access; a test here would be the second",
    ),
    "uart_16550::driver::frame::Uart16550::set_frame": Guard(
        ["requires { IsComputable config.now }"],
        tested_by="uart_spec::baud::calc_divisor",
        panics=NOT_COMPUTABLE + " No access was made then.",
        reason="before the first access; a test here would be the second",
    ),
    "uart_16550::driver::init::Uart16550::set_up": Guard(["requires { DivisorOf config (Ok divisor) }"], reason=INSIDE),
    "uart_16550::driver::setup::Uart16550::set_frame_when_idle": Guard(
        ["requires { IsComputable config.now }"],
        tested_by="uart_spec::baud::calc_divisor",
        panics=NOT_COMPUTABLE + " No access was made then.",
        reason="before the first access; a test here would be the second",
    ),
    "uart_16550::driver::setup::Uart16550::init_with": Guard(
        COMPUTABLE,
        tested_by="uart_spec::baud::calc_divisor",
        panics=NOT_COMPUTABLE + " No access was made then.",
        reason="before the first access; a test here would be the second",
    ),
    "uart_16550::driver::setup::Uart16550::set_up_with": Guard(["requires { DivisorOf config (Ok divisor) }"], reason=INSIDE),
    "uart_spec::dump::ConfigRegisterDump::baud_rate": Guard(
        ["requires frequency { 0 < config.now.frequency }", "requires prescaler { prescaler config.now.prescaler_division_factor ≤ 15 }"],
        tested_by="uart_spec::baud::calc_baud_rate",
        panics="If the divisor is not 0, and the frequency is 0 or the prescaler division factor is above 15.",
        reason="the divisor 0 is refused before",
    ),
    "uart_original::dump::ConfigRegisterDump::baud_rate": Guard(
        ["requires { HasBaudRate config.now (driver_dump self.now) }"],
        test="""assert!(
    checked_baud_rate(
        config.frequency,
        u32::from(self.divisor()),
        config.prescaler_division_factor
    )
    .is_ok(),
    "the baud rate is not a whole number"
);""",
        panics="If that is not a whole number, and if it cannot be computed: if the divisor or the frequency is 0, or the factor\n" "above 15.",
    ),
    "uart_ring::queue::ByteQueue::drop_front": Guard(["requires { count ≤ length self.old.items }"], reason=INSIDE),
    "uart_ring::queue::ByteQueue::byte_at": Guard(["requires { place < length self.now.items }"], reason=INSIDE),
    "uart_ring::queue::ByteQueue::front_slices": Guard(["requires { count ≤ length self.now.items }"], reason=INSIDE),
    "uart_ring::queue::ByteQueue::receive_from": Guard(["requires { length self.old.items + slots ≤ self.old.capacity }"], reason=INSIDE),
    "uart_ring::queue::cell_behind": Guard(["requires cell { cell ≤ cells }", "requires count { count ≤ cells }"], reason=IN_FILE),
    "uart_ring::queue::copy": Guard(["requires { place ≤ length slots.old }"], reason=IN_FILE),
    "uart_ring::queue::receive": Guard(["requires { place + slots ≤ length cells.old }"], reason=IN_FILE),
    "uart_ring::ring::noted::Uart16550Ring::drop_taken": Guard(["requires { count ≤ length (ring_fields self.old).receive.items }"], reason=INSIDE),
    "uart_ring::ring::noted::copy_with_errors": Guard(["requires { length bytes.now.items ≤ length noted.now.items }"], reason=IN_FILE),
    "uart_ring::ring::transmit::Uart16550Ring::drop_queued": Guard(["requires { count ≤ length self.old.transmit.items }"], reason=IN_FILE),
    "uart_ring::ring::transmit::Uart16550Ring::drop_sent": Guard(["requires { count ≤ length (sendable (ring_fields self.old)) }"], reason=IN_FILE),
    "uart_ring::line::LinePorts::lower": Guard(LINE_PORT, reason=NO_BODY),
    "uart_ring::line::LinePorts::raise": Guard(LINE_PORT, reason=NO_BODY),
    "uart_16550::pio::PioBackend::port": Guard(REGISTER_OFFSET, test=EIGHT, reason="private, but reached by `Backend::read` and `Backend::write`"),
    "uart_16550::mmio::MmioBackend::address": Guard(
        REGISTER_OFFSET, test=EIGHT, reason="private, but reached by `Backend::read` and `Backend::write`"
    ),
    "uart_16550::tty::Uart16550Tty::start": Guard(
        COMPUTABLE, tested_by="uart_16550::driver::init::Uart16550::init", reason="before the first access"
    ),
    "uart_16550::tty::Uart16550Tty::new_with_backend": Guard(
        COMPUTABLE, tested_by=f"{TTY}::start", panics=NOT_COMPUTABLE, reason="so does `init`, which `start` calls"
    ),
    "uart_16550::tty::Uart16550Tty::new_port": Guard(
        COMPUTABLE, tested_by=f"{TTY}::start", panics=NOT_COMPUTABLE, reason="so does `init`, which `start` calls"
    ),
    "uart_16550::tty::Uart16550Tty::new_mmio": Guard(
        COMPUTABLE, tested_by=f"{TTY}::start", panics=NOT_COMPUTABLE, reason="so does `init`, which `start` calls"
    ),
    "uart_16550::tty::Uart16550Tty::new_mmio_from_address": Guard(
        COMPUTABLE, tested_by=f"{TTY}::new_mmio", panics=NOT_COMPUTABLE, reason="it does nothing else"
    ),
}

# The parts of the chip, which only `LiveChipWith` reaches.
HIDDEN_IN = ["uart_chip"]
HIDDEN = "Uart Transmitter Receiver Characters Modem Fifo FixedFifo Wire FixedWire Journal NoMarks fill items_of send enter".split()

OFFSET = ["requires { offset < NUM_REGISTERS }"]
STILL = "requires still { IsStill chip.old }"
TICKS = "requires char_ticks { char_ticks ≤ MAX_CHAR_TICKS }"
RESIZABLE = ["requires resizable { Q.is_resizable ≡ true }", "requires most { characters size ≤ characters SixtyFour }"]
CLAUSES = {
    "characters::Characters::new": ["requires { Q.items queue ≡ [] }"],
    "characters::Characters::filled": ["requires { Q.items queue ≡ [] }"],
    "chip::Uart::new": ["requires { char_ticks ≤ MAX_CHAR_TICKS }"],
    "chip::Uart::new_sized": ["requires { char_ticks ≤ MAX_CHAR_TICKS }"],
    "chip::Uart::new_16750": ["requires { char_ticks ≤ MAX_CHAR_TICKS }"],
    "chip::Uart::from_data": [
        "requires char_ticks { saved.now.transmitter.char_ticks ≤ MAX_CHAR_TICKS }",
        "requires room { length wire.now ≤ saved.now.transmitter.wire_capacity }",
    ],
    "chip::Uart::with_parts": [
        TICKS,
        "requires bytes { B.items bytes ≡ [] }",
        "requires wire { W.sent wire ≡ [] }",
        "requires characters { C.items characters ≡ [] }",
        "requires sizes { C.size_of characters ≡ B.size_of bytes }",
    ],
    "chip::Uart::from_parts": [
        "requires char_ticks { saved.now.transmitter.char_ticks ≤ MAX_CHAR_TICKS }",
        "requires bytes { B.items bytes ≡ [] }",
        "requires wire { W.most wire ≡ saved.now.transmitter.wire_capacity }",
        "requires characters { C.items characters ≡ [] }",
        "requires sizes { (B.size_of bytes ≡ Sixteen) × (C.size_of characters ≡ Sixteen) }",
        "requires journal { J.recorded journal ≡ [] }",
    ],
    "chip::Uart::data": [
        "requires transmitter { self.now.transmitter.size ≡ Sixteen }",
        "requires receiver { self.now.receiver.size ≡ Sixteen }",
        "requires flow { self.now.auto_flow ≡ false }",
        "requires switch { self.now.has_size_switch ≡ false }",
    ],
    "chip::Uart::arrive": ["requires { self.old.receiver.arrived < length self.old.receiver.marks }"],
    "chip::Uart::perform": ["requires { self.old.receiver.arrived + arrivals (event ∷ []) ≤ length self.old.receiver.marks }"],
    "fifo::fill": ["requires { Q.items queue.old ≡ [] }"],
    "fifo::items_of": ["requires { Q.size_of queue.now ≡ Sixteen }"],
    "receiver::Receiver::new": [TICKS, "requires empty { Q.items queue ≡ [] }"],
    "receiver::Receiver::from_data": [TICKS, "requires empty { Q.items queue ≡ [] }", "requires size { Q.size_of queue ≡ Sixteen }"],
    "receiver::Receiver::data": ["requires { self.now.size ≡ Sixteen }"],
    "receiver::Receiver::arrive": ["requires { self.old.arrived < length self.old.marks }"],
    "receiver::Receiver::resize": RESIZABLE,
    "transmitter::Transmitter::new": ["requires queue { Q.items queue ≡ [] }", "requires wire { W.sent wire ≡ [] }"],
    "transmitter::Transmitter::from_data": [
        "requires queue { Q.items queue ≡ [] }",
        "requires size { Q.size_of queue ≡ Sixteen }",
        "requires wire { W.most wire ≡ saved.now.wire_capacity }",
    ],
    "transmitter::Transmitter::data": ["requires { self.now.size ≡ Sixteen }"],
    "transmitter::Transmitter::resize": RESIZABLE,
    "receiving::enter": ["requires { (is_unscheduled new.origin || R.is_scheduled) ≡ true }"],
    "wire::send": ["requires empty { W.sent wire.old ≡ [] }", "requires room { length bytes.now ≤ W.most wire.old }"],
}

GUARDS |= {
    **{f"uart_chip::{path}": Guard(clauses, reason=HIDDEN_INSIDE) for path, clauses in CLAUSES.items()},
    "uart_live::fixed::FixedWire::new": Guard(["requires { capacity ≤ WIRE_ROOM }"], reason=HIDDEN_INSIDE),
    "uart_live::fixed::FixedFifo::new": Guard(["requires { characters (fifo_size FIFO) ≡ FIFO }"], reason=HIDDEN_INSIDE),
    "uart_chip::fifo::Fifo::push": Guard(["requires { length (items self.old) < characters (size_of self.old) }"], reason=NO_BODY),
    "uart_chip::fifo::Fifo::resize": Guard(["requires { characters size ≤ characters SixtyFour }"], reason=NO_BODY),
    "uart_chip::wire::Wire::push": Guard(["requires { length (sent self.old) < most self.old }"], reason=NO_BODY),
    "uart_chip::controlling::ChipParts::resize": Guard(["requires { characters size ≤ characters SixtyFour }"], reason=NO_BODY),
    "uart_chip::transmitting::TransmitterParts::put": Guard(
        ["requires { length (state self.old).queue < characters (state self.old).size }"], reason=NO_BODY
    ),
    "uart_chip::receiving::replace": Guard(["requires { (is_unscheduled new.origin || R.is_scheduled) ≡ true }"], reason=INSIDE),
    "uart_chip::receiving::ReceiverParts::put": Guard(
        [
            "requires room { length (state self.old).queue < characters (state self.old).size }",
            "requires origin { (is_unscheduled new.origin || is_scheduled) ≡ true }",
        ],
        reason=NO_BODY,
    ),
    "uart_chip::receiving::ReceiverParts::set_unscheduled_lost": Guard(["requires { (not on || is_scheduled) ≡ true }"], reason=NO_BODY),
    "uart_chip::transmitting::TransmitterParts::send": Guard(
        ["requires { length (state self.old).wire < (state self.old).capacity }"], reason=NO_BODY
    ),
}
# The backend for UARTs of DesignWare: what makes an access tests the offset.
HEADER = ["requires { 64 ≤ length header.now }"]
SPCR = ["requires { 80 ≤ length table.now }"]
GUARDS |= {
    "uart_discovery::acpi::address::registers_at": Guard(["requires { at + 12 ≤ length table.now }"], reason=INSIDE),
    "uart_discovery::acpi::dbg2::device_at": Guard(["requires { at + 22 ≤ length table.now }"], reason=IN_FILE),
    **{f"uart_discovery::acpi::spcr::{name}": Guard(SPCR, reason=IN_FILE) for name in ("precise_rate", "rate_of", "clock_of", "interrupt_of")},
    "uart_discovery::bytes::le16": Guard(["requires { at + 2 ≤ length bytes.now }"], reason=INSIDE),
    "uart_discovery::bytes::le32": Guard(["requires { at + 4 ≤ length bytes.now }"], reason=INSIDE),
    "uart_discovery::bytes::le64": Guard(["requires { at + 8 ≤ length bytes.now }"], reason=INSIDE),
    "uart_discovery::numbers::hexadecimal_digit": Guard(["requires { IsTrue (is_ascii_hexdigit digit) }"], reason=IN_FILE),
    "uart_discovery::numbers::decimal_digit": Guard(["requires { IsTrue (is_ascii_digit digit) }"], reason=IN_FILE),
    "uart_discovery::numbers::hexadecimal": Guard(
        ["requires digits { IsTrue (list_all is_ascii_hexdigit word.now) }", "requires short { length word.now ≤ 16 }"], reason=IN_FILE
    ),
    "uart_discovery::numbers::decimal": Guard(
        ["requires digits { IsTrue (list_all is_ascii_digit word.now) }", "requires short { length word.now ≤ 9 }"], reason=IN_FILE
    ),
    **{f"uart_discovery::pci::{name}": Guard(HEADER, reason=IN_FILE) for name in ("class_of", "base_of", "pin_of", "card_in", "distance")},
}
GUARDS["uart_design_ware::kept::KeptCharacters::keep"] = Guard(["requires { length self.old < KEPT }"], reason=INSIDE)
for access in ("load", "store"):
    GUARDS[f"uart_design_ware::state::DesignWare::{access}"] = Guard(
        OFFSET, test='assert!(offset < 8, "no register has this offset");', reason="private, but reached by `Backend::read` and `Backend::write`"
    )
for caller, access in (
    ("read_plain", "state::DesignWare::load"),
    ("read_meant", "state::DesignWare::load"),
    ("write_plain", "state::DesignWare::store"),
    ("write_meant", "serving::DesignWare::write_plain"),
):
    GUARDS[f"uart_design_ware::serving::DesignWare::{caller}"] = Guard(
        OFFSET, tested_by=f"uart_design_ware::{access}", reason="of each offset that has no call of its own"
    )
# A byte that goes onto the wire at once.
SENDS_AT_ONCE = "requires { sending_spec.sends_at_once self.old ≡ true }"
GUARDS["uart_chip::sending::put_on_wire"] = Guard(["requires { spec.is_ready (T.state parts.old) ≡ true }"], reason=INSIDE)
GUARDS["uart_chip::sending::send_at_once"] = Guard(
    ["requires { spec.sends_at_once (P.state parts.old) ≡ true }"],
    test='assert!(sends_at_once(parts), "the transmitter is not idle");',
    reason="in no interface, but reached by `LiveChipWith::send_at_once`",
)
GUARDS["uart_chip::chip::Uart::send_at_once"] = Guard([SENDS_AT_ONCE], tested_by="uart_chip::sending::send_at_once", reason="it does nothing else")
GUARDS["uart_live::live::LiveChipWith::send_at_once"] = Guard(
    [SENDS_AT_ONCE],
    tested_by="uart_chip::chip::Uart::send_at_once",
    panics="If [`sends_at_once`](Self::sends_at_once) returns false. Nothing changed then.",
    reason="it does nothing else",
)
# Of a port, whose chip is always still.
GUARDS["uart_virtual::port::decide_at"] = Guard(
    ["requires paced { IsPaced chip.now }", "requires level { is_high ≡ is_up chip.now }"], reason=IN_FILE
)
GUARDS["uart_virtual::port::decide"] = Guard(["requires { IsPaced chip.now }"], reason=IN_FILE)
GUARDS["uart_virtual::port::finish"] = Guard(
    ["requires live { IsLive (fifo_size FIFO) chip.old }", "requires paced { IsPaced chip.old }"], reason=IN_FILE
)
GUARDS["uart_virtual::port::nothing_new"] = Guard(
    ["requires told { IsTold (record { chip = chip.now; told = told }) }", "requires paced { IsPaced chip.now }"], reason=IN_FILE
)
GUARDS["uart_virtual::port::tell_more"] = Guard(
    [
        "requires paced { IsPaced chip.now }",
        "requires told { IsTold (record { chip = chip.now; told = told.old }) }",
        "requires up { is_up chip.now ≡ true }",
    ],
    reason=IN_FILE,
)
GUARDS["uart_virtual::port::look_idle"] = Guard(
    [
        "requires told { IsTold (record { chip = chip.now; told = told.old }) }",
        "requires still { IsStill chip.now }",
        "requires down { told.old.line ≡ false }",
    ],
    reason=IN_FILE,
)
for name in ("finish_unmoved", "finish_read"):
    GUARDS[f"uart_virtual::port::{name}"] = Guard(["requires paced { IsPaced chip.old }", "requires unmoved { IsUnmoved chip.old }"], reason=IN_FILE)
GUARDS["uart_virtual::port::send"] = Guard(
    ["requires live { IsLive (fifo_size FIFO) chip.old }", STILL, "requires sends { sends_at_once chip.old ≡ true }"], reason=IN_FILE
)
GUARDS["uart_virtual::port::take"] = Guard(["requires told { IsTold (record { chip = chip.old; told = told.old }) }", STILL], reason=IN_FILE)
# The access that a guest makes most often is looked for first, and needs no test.
for access, first in (("read", "LSR"), ("write", "DATA")):
    GUARDS[f"uart_chip::controlling::{access}_register"] = Guard(
        OFFSET, test='assert!(offset < 8, "no register has this offset");', reason=f"private, but reached by `LiveChipWith::{access}`"
    )
    GUARDS[f"uart_chip::controlling::{access}"] = Guard(
        OFFSET, tested_by=f"uart_chip::controlling::{access}_register", reason=f"of each offset but that of {first}"
    )
    GUARDS[f"uart_chip::chip::Uart::{access}"] = Guard(OFFSET, tested_by=f"uart_chip::controlling::{access}", reason="it does nothing else")
    GUARDS[f"uart_live::live::LiveChipWith::{access}"] = Guard(
        OFFSET, tested_by=f"uart_chip::chip::Uart::{access}", panics="If the offset is 8 or more.", reason="it does nothing else"
    )
GUARDS["uart_virtual::port::write_and_raise"] = Guard(OFFSET, tested_by="uart_live::live::LiveChipWith::write", reason="before it changes anything")
# Each write that is no byte for an idle transmitter is slow.
GUARDS["uart_virtual::port::write_slowly"] = Guard(
    ["requires offset { offset < NUM_REGISTERS }", STILL],
    tested_by="uart_virtual::port::write_and_raise",
    reason="of the offset; the chip of a port is always still",
)
GUARDS["uart_virtual::port::write"] = Guard(
    ["requires offset { offset < NUM_REGISTERS }", STILL],
    tested_by="uart_virtual::port::write_slowly",
    reason="of each offset but that of DATA; the chip of a port is always still",
)
GUARDS["uart_virtual::port::read_any"] = Guard(
    ["requires offset { offset < NUM_REGISTERS }", "requires told { IsTold (record { chip = chip.old; told = told.old }) }", STILL],
    tested_by="uart_live::live::LiveChipWith::read",
    reason="of the offset; what holds of a port always does",
)
GUARDS["uart_virtual::port::read"] = Guard(
    ["requires offset { offset < NUM_REGISTERS }", "requires told { IsTold (record { chip = chip.old; told = told.old }) }", STILL],
    tested_by="uart_virtual::port::read_any",
    reason="of each offset but that of ISR; what holds of a port always does",
)
for access in ("read", "write"):
    GUARDS[f"uart_virtual::port::VirtualPortWith::{access}"] = Guard(
        OFFSET, tested_by=f"uart_virtual::port::{access}", panics="If the offset is 8 or more.", reason="before it changes anything"
    )

# Methods of an own trait that require something, in the implementations: the function that they call and that tests it.
IMPLEMENTED: dict[str, str | None] = {
    **{f"uart_16550::pio::PioBackend::{name}": "uart_16550::pio::PioBackend::port" for name in ("read", "write")},
    **{f"uart_16550::mmio::MmioBackend::{name}": "uart_16550::mmio::MmioBackend::address" for name in ("read", "write")},
    **{f"uart_design_ware::serving::DesignWare::{name}": f"uart_design_ware::serving::DesignWare::{name}_meant" for name in ("read", "write")},
    # passes the offset on, and does nothing else with one above 7: the backend under it tests it as it does alone
    **{f"uart_ring::notes::ErrorNotes::{name}": None for name in ("read", "write")},
    # of types in no interface, so nothing tests what the trait requires
    **{f"uart_chip::device::Device16550::{name}": None for name in ("read", "write")},
    **{f"uart_chip::{name}::push": None for name in ("fifo::HeapFifo", "wire::HeapWire")},
    **{f"uart_chip::characters::Characters::{name}": None for name in ("push", "resize")},
    **{f"uart_chip::{name}::resize": None for name in ("chip::Uart", "fifo::HeapFifo")},
    **{f"uart_live::fixed::{name}::push": None for name in ("FixedFifo", "FixedWire")},
    "uart_live::fixed::FixedFifo::resize": None,
    **{f"uart_chip::transmitter::Transmitter::{name}": None for name in ("put", "send")},
    **{f"uart_chip::receiver::Receiver::{name}": None for name in ("put", "set_unscheduled_lost")},
}

# Methods that take an allocator, and have the name of another method of Rust's: the trait of the kit that has the method.
WITH_ALLOCATOR = {"collect": "CollectWith", "to_vec": "ToVecWith", "to_string": "ToStringWith"}
# Types that allocate, which every Rattle module sees.
ALLOCATED = ["Vec", "String"]

# Names of a method by hand and of a trait of the emitted crates: why no call is of the wrong one.
IN_BOTH = {"clear": "no register is a `Fifo`", "is_empty": "no register is a `Fifo`"}

# What is let through. Anything else of its kind is refused.
MACROS = ["matches", "unreachable", "format_args", "format_fields", "format", "vec", "write", "writeln"]
ATTRIBUTES = ["inline", "must_use", "default", "automatically_derived"]
INLINES = ["inline", "inline ( always )", "inline ( never )"]
DERIVES = ["Clone", "Copy", "Debug", "PartialEq", "Eq", "PartialOrd", "Ord", "Hash", "Default"]
# Casts to `usize`, which has 64 bits in Rattle: the function, and what is cast. All are from `u8` or `u16`, but for those of discovery and
# of the language. Lengths, offsets, numbers of cells and a divisor are `u32`, which 32 bits hold too. What a script says is no more than
# the bound that the same function asks for.
CASTS = {
    "uart_spec::layout::check_ports": ["base"],
    "uart_spec::layout::check_spacing": ["last", "stride"],
    "uart_spec::layout::check_layout": ["width . bytes ( )"],
    "uart_16550::pio::PioBackend::new": ["base"],
    "uart_16550::mmio::MmioBackend::new": ["stride . get ( )"],
    "uart_16550::mmio::MmioBackend::address": ["register_offset", "self . stride . get ( )"],
    **{f"uart_design_ware::serving::DesignWare::{name}": ["register_offset"] for name in ("read", "write")},
    "uart_design_ware::parameters::fifo_size_of": ["characters"],
    **{f"uart_ring::notes::ErrorNotes::{name}": ["register_offset"] for name in ("read", "write")},
    **{f"uart_chip::controlling::{name}": ["offset"] for name in ("read_register", "write_register")},
    "uart_chip::receiving::is_data_pending": ["characters_of ( parts . size ( ) , level )"],
    **{
        f"uart_virtual::port::{name}": ["offset"]
        for name in ("kind_of_read", "kind_of_write", "is_quiet", "is_idle_look", "is_fast", "write_and_raise")
    },
    **{f"uart_calls::replay::Replay::{name}": ["register_offset"] for name in ("read", "write")},
    **{f"uart_calls::tape::Tape::{name}": ["register_offset"] for name in ("read", "write")},
    **{f"uart_trace::recorder::Recorder::{name}": ["register_offset"] for name in ("read", "write")},
    "uart_discovery::acpi::table::checked_table": ["le32 ( bytes , LENGTH )"],
    "uart_discovery::acpi::dbg2::read_dbg2": ["le32 ( table , DEVICES )"],
    "uart_discovery::tree::blob::field": ["number"],
    "uart_discovery::tree::address::address_cells": ["cells . unwrap_or ( ADDRESS_CELLS )"],
    "uart_discovery::tree::address::size_cells": ["cells . unwrap_or ( SIZE_CELLS )"],
    "uart_discovery::tree::interrupt::cells_of": ["cells"],
    "uart_language::rendering::push_divisor_error": ["* divisor"],
    "uart_language::fields::count_in": ["count"],
    "uart_language::fields::wire_capacity_in": ["capacity"],
}
# Numbers above 65,535 that are no constants of `u32` or `u64`: the file, and the numbers. They are baud rates, the largest wire, the
# most bytes of a script, and places of bytes in numbers of `u32` and `u64`.
LARGE = {
    "uart_spec/src/config.rt": ["115_200"],
    "uart_discovery/src/acpi/spcr.rt": ["115_200"],
    "uart_discovery/src/pci.rt": ["0x1_0000", "0x1_0000_0000"],
    "uart_discovery/src/tree/address.rt": ["0x1_0000_0000"],
    **{file: ["65_536"] for file in ("uart_events/src/event.rt", "uart_language/src/limits.rt")},
}
# Words that no emitted code has: what is unsafe, what depends on the target or on how it is compiled, and what is a proof's.
WORDS = """
unsafe async await dyn static extern macro_rules rt prove invariant decreases measure also_owns requires ensures ghost Model Drop
thiserror cfg repr size_of align_of transmute addr_of UnsafeCell Atomic catch_unwind
""".split()
