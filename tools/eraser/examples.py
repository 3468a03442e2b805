"""What each example of the documentation needs to compile: hidden lines before and behind it.

An example without an entry in EXAMPLES is refused, so that none is left out silently. A call of the rings needs none: its example is the
body of a function that has the rings.
"""

import re
from collections.abc import Sequence

# A file beside Cargo.toml that the examples of a package include. In it and in hidden lines, `facade` stands for the package of the users.
SHARED_NAME = "examples.rs"
HEAD = "// What the examples of the documentation share. Each includes this file; the crate itself does not.\n"
FOR_DRIVER = (
    HEAD
    + """\
#[allow(unused_imports)]
use core::fmt::Write as _;
#[allow(unused_imports)]
use core::num::{NonZeroU64, NonZeroUsize};
#[allow(unused_imports)]
use facade::native::backend::{Backend, ByteAccess, PortAccess};
#[allow(unused_imports)]
use facade::native::embedded_io::{Read as _, Write as _};
#[allow(unused_imports)]
use facade::native::*;
#[allow(unused_imports)]
use facade::native::spec::registers::*;

/// Eight registers that keep what is written to them.
#[derive(Debug)]
#[allow(dead_code)]
struct Device {
    registers: [u8; 8],
    shown: Vec<u8>,
}

#[allow(dead_code)]
fn device() -> Device {
    Device { registers: [0; 8], shown: Vec::new() }
}

impl Backend for Device {
    fn read(&mut self, register_offset: u8) -> u8 {
        self.registers[register_offset as usize]
    }

    fn write(&mut self, register_offset: u8, value: u8) {
        self.registers[register_offset as usize] = value;
    }
}

impl PortAccess for Device {
    fn port_in(&mut self, port: u16) -> u8 {
        self.registers[(port % 8) as usize]
    }

    fn port_out(&mut self, port: u16, value: u8) {
        self.registers[(port % 8) as usize] = value;
    }
}

impl ByteAccess for Device {
    fn load(&mut self, address: usize) -> u8 {
        self.registers[address / 4 % 8]
    }

    fn store(&mut self, address: usize, value: u8) {
        self.registers[address / 4 % 8] = value;
    }
}

#[allow(dead_code)]
type Outcome<T = ()> = Result<T, Box<dyn std::error::Error>>;
"""
)
# The hidden lines before and behind an example.
Example = tuple[list[str], list[str]]
INCLUDE = ['# include!(concat!(env!("CARGO_MANIFEST_DIR"), "/examples.rs"));', "# fn main() {}"]


def compiles(parameters: str, result: str = "()", value: bool = False, items: Sequence[str] = ()) -> Example:
    """An example that is the body of a function with these parameters. It compiles; it is not called."""
    before = INCLUDE + [f"# {line}" for line in items]
    before.append(f"# fn example({parameters}) -> Outcome<{result}> {{")
    if value:
        return before + ["# Ok({"], ["# }) }"]
    return before, ["# Ok(()) }"]


def runs(*lines: str) -> Example:
    """An example that runs, behind these hidden lines."""
    return [f"# {line}" for line in lines], []


UART = "uart: &mut Uart16550<Device>"
TTY = "terminal: &mut Uart16550Tty<Device>"
RING = "ring: &mut ring::Uart16550Ring<Device>"
NOTING_RING = "ring: &mut ring::Uart16550Ring<ring::ErrorNotes<Device>>"
PORT = ["use facade::ring::{self, *};", "struct Port { ring: Uart16550Ring<Device>, overruns: u32 }", "impl Port {"]
LINE = ["use facade::ring::{self, *};", "const MAX_UNFINISHED_ROUNDS: u32 = 100;"]

SPEC = "use facade::native::{*, spec::*};"
DISCOVERY = "use facade::{discovery::*, native::backend::ByteOrder, spec::registers::{Parity, WordLength}};"
# An example that runs, in which `?` is of an option of a command line.
FOUND = [f"# {DISCOVERY}"], ["# Ok::<(), OptionError>(())"]
# The registers of a DesignWare UART in memory in place of a device, and a backend over them.
REGISTERS = [
    "use core::num::NonZeroU64;",
    "use core::ptr::NonNull;",
    "use facade::native::backend::{Backend, DesignWare, DesignWareMemory, RegisterLayout};",
    "let mut cells = [0_u32; 32];",
    "// SAFETY: nothing else accesses these bytes while the object lives.",
    "let registers = unsafe { DesignWareMemory::new(NonNull::from(&mut cells).cast(), RegisterLayout::WORDS) }.unwrap();",
]
DESIGN_WARE = [*REGISTERS, "let mut uart = DesignWare::new(registers, NonZeroU64::MIN);"]


# What an example of the rings may name, and how it is hidden before it.
OF_RINGS = {"MARKS": "const MARKS: ring::ReceiveMarks = ring::ReceiveMarks { hold: 48, release: 64 };", "XOFF": "const XOFF: u8 = 0x13;"}


def of_rings(path: str | None, text: str) -> Example | None:
    """An example of a call of the rings that has no entry: the body of a function that has the rings, and what the example names."""
    if not re.fullmatch(r"uart_ring::ring::(?:\w+::)?Uart16550Ring::\w+", path or ""):
        return None
    items = [hidden for name, hidden in OF_RINGS.items() if re.search(rf"\b{name}\b", text)]
    return compiles(RING + ", mut slots: [u8; 2]" * bool(re.search(r"\bslots\b", text)), items=["use facade::ring;", *items])


def of_driver(path: str | None) -> Example | None:
    """An example of a call of the driver that has no entry: the body of a function that has the driver."""
    return compiles(UART) if re.fullmatch(r"uart_16550::driver::(?:\w+::)?Uart16550::\w+", path or "") else None


BUS = "bus: &mut HalfDuplex<Device>"
RING_BUS = "bus: &mut HalfDuplexRing<Device>"


def at_bus(parameters: str) -> Example:
    """An example that is the body of a function with a driver at a bus."""
    return compiles(parameters, items=["use facade::{ring::{self, MAX_INTERRUPTS}, rs485::*};"])


def in_port() -> Example:
    """An example that is the body of a method of a port."""
    return INCLUDE + [f"# {line}" for line in PORT] + ["# fn example(&mut self) {"], ["# } }"]


EXAMPLES = {
    "uart_16550": compiles("ports: Device"),
    "uart_16550::address::Uart16550::new_port": compiles("ports: Device"),
    "uart_16550::address::Uart16550::new_mmio": compiles(
        "cells: Device",
        items=[
            "struct Memory(Device);",
            "impl ByteAccess for Memory {",
            "    fn load(&mut self, address: usize) -> u8 { self.0.load(address) }",
            "    fn store(&mut self, address: usize, value: u8) { self.0.store(address, value) }",
            "}",
        ],
    ),
    "uart_16550::driver::receive::Uart16550::try_receive_byte": compiles(UART, "Option<u8>", True),
    "uart_16550::driver::receive::Uart16550::try_receive_with_errors": compiles(UART, "Option<Received>", True),
    "uart_16550::driver::receive::Uart16550::receive_with_errors": compiles(UART + ", mut slots: [Received; 4]"),
    "uart_16550::driver::receive::Uart16550::receive_bytes_exact": (
        INCLUDE + ["# enum PortError { NoAnswer { received: usize } }", f"# fn example({UART}, answer: &mut [u8]) -> Result<(), PortError> {{"],
        ["# Ok(()) }"],
    ),
    "uart_16550::driver::state::Uart16550::from_state": compiles(
        "state: &DriverState, accesses: Device", items=["struct Tape;", "impl Tape { fn new(device: Device) -> Device { device } }"]
    ),
    "uart_16550::driver::state::Uart16550::state": compiles("uart: &Uart16550Tty<Device>"),
    "uart_16550::driver::status::Uart16550::isr": (
        INCLUDE + ["# struct Port { uart: Uart16550<Device> }", "# impl Port {", "# fn example(&mut self) -> Option<InterruptType> {"],
        ["# } }"],
    ),
    "uart_16550::driver::transmit::Uart16550::send_bytes": compiles(UART + ", bytes: &[u8]"),
    "uart_16550::driver::burst::Uart16550::send_burst": compiles(UART + ", bytes: &[u8]"),
    "uart_16550::driver::burst::Uart16550::send_gathered": compiles(UART + ", queue: &mut std::collections::VecDeque<u8>"),
    "uart_16550::driver::transmit::Uart16550::send_bytes_exact": (
        INCLUDE + ["# enum PortError { NotSent { sent: usize } }", f"# fn example({UART}, question: &[u8]) -> Result<(), PortError> {{"],
        ["# Ok(()) }"],
    ),
    "uart_16550::driver::patient::Uart16550::send_bytes_while": compiles(UART + ", mut deadline: impl Patience"),
    "uart_16550::driver::transmit::Uart16550::flush_while": compiles(UART + ", mut deadline: impl Patience"),
    "uart_16550::driver::patient::Uart16550::receive_bytes_while": compiles(UART + ", mut answer: [u8; 4], mut deadline: impl Patience"),
    "uart_16550::driver::Uart16550": compiles(UART),
    "uart_16550::driver::Uart16550::new_with_backend": compiles(
        "",
        items=[
            "struct Console { shown: ArrayVec }",
            "struct ArrayVec;",
            "impl ArrayVec { fn new() -> Self { ArrayVec } }",
            "impl Backend for Console {",
            "    fn read(&mut self, _: u8) -> u8 { 0 }",
            "    fn write(&mut self, _: u8, _: u8) {}",
            "}",
        ],
    ),
    "uart_16550::driver::Uart16550::set_fifo_size": compiles(UART + ", bytes: &[u8]"),
    "uart_16550::driver::Uart16550::spin_limit": compiles(UART, "bool", True),
    "uart_spec::dump::ConfigRegisterDump::divisor": compiles("shown: &ConfigRegisterDump"),
    "uart_spec::dump::ConfigRegisterDump::baud_rate": runs("use facade::native::*;"),
    "uart_spec::checked::checked_frequency": runs("use facade::native::spec::*;"),
    "uart_spec::checked::checked_baud_rate": runs("use facade::native::spec::*;"),
    "uart_spec::checked::checked_divisor": runs("use facade::native::spec::*;"),
    "uart_spec::checked::Config::checked_nearest": runs("use facade::native::*;"),
    "uart_spec::checked::ConfigRegisterDump::checked_baud_rate": runs("use facade::native::*;"),
    "uart_spec::checked::PSD::checked_set_pdf": runs("use facade::spec::registers::*;"),
    "uart_spec::layout::RegisterWidth::bytes": runs("use facade::native::backend::*;"),
    "uart_spec::layout::RegisterLayout": runs("use facade::native::backend::*;"),
    "uart_discovery::port::PortDescription": FOUND,
    "uart_discovery::acpi::spcr::read_spcr": runs(DISCOVERY),
    "uart_discovery::acpi::dbg2::read_dbg2": runs(DISCOVERY),
    "uart_discovery::command_line::read_earlycon": FOUND,
    "uart_discovery::command_line::read_console": FOUND,
    "uart_discovery::pci::read_pci": runs(DISCOVERY),
    "uart_discovery::tree::console::read_tree_node": runs(DISCOVERY),
    "uart_discovery::tree::console::read_device_tree": runs(DISCOVERY),
    "uart_discovery::tree::ports::read_tree_port": runs(DISCOVERY),
    "uart_16550::embedded_io::Uart16550::read": compiles(UART + ", slots: &mut [u8]"),
    "uart_16550::embedded_io::Uart16550::write": (
        INCLUDE + ["# fn example(writer: &mut Uart16550<Device>, bytes: &[u8], mut done: usize) -> Result<(), StalledError> {"],
        ["# Ok(()) }"],
    ),
    "uart_16550::tty::Uart16550Tty": compiles("uart: Uart16550<Device>"),
    "uart_16550::tty::Uart16550Tty::new_with_backend": compiles(""),
    "uart_16550::tty::Uart16550Tty::from_inner": compiles("uart: Uart16550<Device>"),
    "uart_16550::tty::Uart16550Tty::inner": compiles(TTY + ", fifo_enabled: bool"),
    "uart_16550::tty::Uart16550Tty::inner_mut": compiles(TTY + ", mut slots: [u8; 2]"),
    "uart_16550::tty::Uart16550Tty::into_inner": compiles("terminal: Uart16550Tty<Device>"),
    "uart_16550::tty::Uart16550Tty::write_text": compiles(TTY),
    "uart_16550::tty::Uart16550Tty::write_raw_text": compiles(TTY),
    "uart_spec::baud::calc_frequency": runs(SPEC),
    "uart_spec::config::BaudRate": runs(SPEC),
    "uart_spec::config::BaudRate::to_integer": compiles(
        "baud_rate: BaudRate", "Result<u16, InvalidDivisorError>", True, ["use facade::native::spec::{CLK_FREQUENCY_HZ, calc_divisor};"]
    ),
    "uart_spec::config::BaudRate::from_integer": runs(SPEC),
    "uart_spec::config::Config": compiles(UART),
    "uart_spec::config::Config::is_computable": runs(SPEC, "let config = Config::DEFAULT;"),
    "uart_spec::config::Config::nearest": compiles(UART),
    "uart_spec::setup::Setup": runs(SPEC, "use uart_16550::spec::registers::MCR;"),
    "uart_spec::timing::FifoTriggerLevel::characters": runs(SPEC, "use facade::native::spec::registers::FifoTriggerLevel;"),
    "uart_spec::timing::Config::character_clocks": runs(SPEC),
    "uart_spec::timing::Config::handler_clocks": runs(SPEC, "use facade::native::spec::registers::FifoTriggerLevel;"),
    "uart_spec::timing::Config::handler_budget": runs(SPEC, "use facade::native::spec::registers::FifoTriggerLevel;"),
    "uart_spec::timing::Config::characters_in": runs(SPEC),
    "uart_spec::timing::Config::drain_clocks": runs(SPEC),
    "uart_spec::timing::Config::timeout_clocks": runs(SPEC),
    "uart_spec::timing::Config::spin_limit_for": runs(SPEC),
    "uart_spec::timing::Config::nanoseconds_within": runs(SPEC),
    "uart_spec::timing::Config::nanoseconds_covering": runs(SPEC),
    "uart_spec::timing::Config::clocks_within": runs(SPEC),
    "uart_spec::timing::Config::clocks_covering": runs(SPEC),
    "uart_spec::setup::FifoSize": runs(SPEC),
    "uart_spec::setup::FifoSize::largest_up_to": runs(SPEC),
    "uart_design_ware::state::DesignWare": compiles(
        "registers: DesignWareMemory", items=["use facade::native::backend::{DesignWare, DesignWareMemory};"]
    ),
    "uart_design_ware::parameters::fifo_size_of": runs("use facade::native::FifoSize;", "use facade::native::backend::fifo_size_of;"),
    "uart_design_ware::state::DesignWare::new": runs(*REGISTERS),
    "uart_design_ware::state::DesignWare::fault": runs(*DESIGN_WARE),
    "uart_design_ware::state::DesignWare::registers_mut": runs(*DESIGN_WARE),
    "uart_rs485::direction::Direction": runs("use facade::rs485::*;"),
    "uart_rs485::direction::Direction::receiving": at_bus(f"{UART}, direction: Direction"),
    "uart_rs485::bus::HalfDuplex": at_bus(f"{BUS}, wait: fn(u32), mut answer: [u8; 4], mut deadline: fn() -> bool"),
    "uart_rs485::bus::HalfDuplex::new": at_bus("uart: Uart16550<Device>, direction: Direction"),
    "uart_rs485::bus::HalfDuplex::start_sending": at_bus(BUS),
    "uart_rs485::bus::HalfDuplex::try_finish": at_bus(BUS),
    "uart_rs485::bus::HalfDuplex::give_up": at_bus("bus: HalfDuplex<Device>"),
    "uart_rs485::bus::HalfDuplex::is_idle": at_bus(BUS),
    "uart_rs485::bus::HalfDuplex::flush": at_bus(BUS),
    "uart_rs485::state::HalfDuplex::is_sending": at_bus(BUS),
    "uart_rs485::state::HalfDuplex::direction": at_bus(f"{BUS}, direction: Direction"),
    "uart_rs485::state::HalfDuplex::inner": at_bus(BUS),
    "uart_rs485::state::HalfDuplex::into_inner": at_bus("bus: HalfDuplex<Device>"),
    "uart_rs485::transfer::HalfDuplex::send_bytes": at_bus(f"{BUS}, bytes: &[u8]"),
    "uart_rs485::transfer::HalfDuplex::send_bytes_exact": at_bus(BUS),
    "uart_rs485::receive::HalfDuplex::ready_to_receive": at_bus(BUS),
    "uart_rs485::receive::HalfDuplex::try_receive_byte": at_bus(BUS),
    "uart_rs485::receive::HalfDuplex::receive_bytes": at_bus(f"{BUS}, mut slots: [u8; 4]"),
    "uart_rs485::receive::HalfDuplex::try_receive_with_errors": at_bus(BUS),
    "uart_rs485::receive::HalfDuplex::receive_with_errors": at_bus(f"{BUS}, mut slots: [Received; 4]"),
    "uart_rs485::receive::HalfDuplex::receive_bytes_exact": at_bus(BUS),
    "uart_rs485::receive::HalfDuplex::receive_echo": at_bus(f"{BUS}, bytes: &[u8]"),
    "uart_rs485::receive::HalfDuplex::receive_bytes_while": at_bus(f"{BUS}, mut answer: [u8; 4], mut deadline: fn() -> bool"),
    "uart_rs485::transfer::HalfDuplex::lsr": at_bus(BUS),
    "uart_rs485::rings::HalfDuplexRing": at_bus(RING_BUS),
    "uart_rs485::rings::HalfDuplexRing::new": at_bus("ring: ring::Uart16550Ring<Device>, direction: Direction"),
    "uart_rs485::rings::HalfDuplexRing::start_sending": at_bus(RING_BUS),
    "uart_rs485::rings::HalfDuplexRing::try_finish": at_bus(RING_BUS),
    "uart_rs485::rings::HalfDuplexRing::queue": at_bus(f"{RING_BUS}, bytes: &[u8]"),
    "uart_rs485::rings::HalfDuplexRing::handle": at_bus(RING_BUS),
    "uart_rs485::rings::HalfDuplexRing::take": at_bus(f"{RING_BUS}, mut slots: [u8; 2]"),
    "uart_rs485::rings::HalfDuplexRing::try_handle": at_bus(RING_BUS),
    "uart_rs485::rings::HalfDuplexRing::restart": at_bus(RING_BUS),
    "uart_rs485::rings::HalfDuplexRing::is_idle": at_bus(RING_BUS),
    "uart_rs485::rings::HalfDuplexRing::clear_transmit": at_bus(RING_BUS),
    "uart_rs485::rings::HalfDuplexRing::clear_receive": at_bus(RING_BUS),
    "uart_rs485::rings::HalfDuplexRing::take_with_errors": at_bus("bus: &mut HalfDuplexRing<ring::ErrorNotes<Device>>, mut slots: [Received; 2]"),
    "uart_rs485::rings::HalfDuplexRing::give_up": at_bus("bus: HalfDuplexRing<Device>"),
    "uart_rs485::rings::HalfDuplexRing::take_line": at_bus(RING_BUS),
    "uart_rs485::rings::HalfDuplexRing::is_sending": at_bus(RING_BUS),
    "uart_rs485::rings::HalfDuplexRing::inner": at_bus(RING_BUS),
    "uart_rs485::rings::HalfDuplexRing::into_inner": at_bus("bus: HalfDuplexRing<Device>"),
    "uart_ring::ring::noted::Uart16550Ring::copy_with_notes": compiles(
        "ring: &ring::Uart16550Ring<Device>, notes: &ring::ErrorNotes<Device>, mut slots: [Received; 2]",
        items=["use facade::{native::Received, ring};"],
    ),
    "uart_ring::ring::noted::Uart16550Ring::take_with_errors": compiles(
        NOTING_RING + ", mut slots: [Received; 2], mut breaks: u32", items=["use facade::{native::Received, ring, spec::registers::LSR};"]
    ),
    "uart_ring::ring::service::Uart16550Ring::handle": in_port(),
    "uart_ring::ring::storm::Uart16550Ring::try_handle": (
        INCLUDE
        + [f"# {line}" for line in PORT]
        + ["# fn report(&mut self, _: StuckError) {}", "# fn example(&mut self) {", "# const MAX_UNFINISHED_ROUNDS: u32 = 100;"],
        ["# } }"],
    ),
    "uart_ring::ring::transmit::Uart16550Ring::take_low": compiles(
        RING + ", writers: &mut Writers", items=["use facade::ring;", "struct Writers;", "impl Writers { fn wake(&mut self) {} }"]
    ),
    "uart_ring::ring::status::Uart16550Ring::take_line": in_port(),
    "uart_ring::ring::status::Uart16550Ring::take_modem": in_port(),
    "uart_ring::ring::status::Uart16550Ring::config_register_dump": in_port(),
    "uart_ring::ring::transmit::Uart16550Ring::resume_transmit": in_port(),
    "uart_ring::ring::transmit::Uart16550Ring::queue": (
        INCLUDE + ["# use facade::ring;", f"# fn example<'a>({RING}, message: &'a [u8]) -> &'a [u8] {{"],
        ["# }"],
    ),
    "uart_ring::ring::Uart16550Ring": (
        INCLUDE + ["# use facade::ring::*;"] + ["# fn example(alloc: Global, uart: Uart16550<Device>) -> Result<(), RingError> {"],
        ["# Ok(()) }"],
    ),
    "uart_ring::refused::Refused": compiles("alloc: ring::Global, uart: Uart16550<Device>", items=["use facade::ring::{self, Uart16550Ring};"]),
    "uart_ring::notes::ErrorNotes": (
        INCLUDE + ["# use facade::ring::*;"] + ["# fn example(alloc: Global, backend: Device) -> Result<(), RingError> {"],
        ["# Ok(()) }"],
    ),
    "uart_ring::notes::ErrorNotes::backend": (
        INCLUDE
        + ["# use facade::ring;", "# trait Mark { fn mark(&self, _: u8) -> u8 { 0 } }", "# impl Mark for Device {}"]
        + [f"# fn example({NOTING_RING}, arrival: u8) -> u8 {{"],
        ["# }"],
    ),
    "uart_ring::notes::ErrorNotes::backend_mut": compiles(
        NOTING_RING, items=["use facade::ring;", "trait Next { fn next(&mut self) {} }", "impl Next for Device {}"]
    ),
    "uart_ring::ring::Uart16550Ring::inner": (
        INCLUDE
        + ["# use facade::ring;", "# trait Mark { fn mark(&self, _: u8) -> u8 { 0 } }", "# impl Mark for Device {}"]
        + [f"# fn example({RING}, arrival: u8) -> u8 {{"],
        ["# }"],
    ),
    "uart_ring::ring::Uart16550Ring::inner_mut": (
        INCLUDE
        + ["# use facade::ring::*;", "# enum StartError { NoDevice(InitError) }"]
        + ["# struct Port { ring: Uart16550Ring<Device>, overruns: u32, bad_characters: u32 }"]
        + ["# fn example(mut ring: Uart16550Ring<Device>, config: Config) -> Result<Port, StartError> {"],
        ["# }"],
    ),
    "uart_ring::ring::line::Uart16550Ring::lower_line": compiles(RING, items=LINE),
    "uart_ring::ring::line::Uart16550Ring::raise_line": compiles(RING + ", lowered: Lowered", items=LINE),
    "uart_ring::line::handle_line": compiles("mut ports: impl LinePorts", items=LINE),
    "uart_ring::line::handle_ports": compiles("mut ports: [LinePort<Device>; 2]", items=LINE),
    "uart_ring::line::LinePort::new": compiles("console: Uart16550Ring<Device>, modem: Uart16550Ring<Device>", items=LINE),
    "uart_ring::line::LinePort::handled": (
        INCLUDE + [f"# {line}" for line in LINE] + ["# fn example(ports: &[LinePort<Device>]) -> Result<(), StuckError> {"],
        ["# Ok(()) }"],
    ),
    "uart_ring::line::LinePort::lower": compiles("mut port: LinePort<Device>", items=LINE),
    "uart_ring::line::LinePort::raise": compiles("mut port: LinePort<Device>", items=LINE),
    "uart_ring::ring::Uart16550Ring::into_inner": compiles("ring: ring::Uart16550Ring<Device>", items=["use facade::ring;"]),
}
for path, like in {
    "uart_16550::address::Uart16550::new_mmio_from_address": "uart_16550::address::Uart16550::new_mmio",
    "uart_16550::tty::Uart16550Tty::new_port": "uart_16550::tty::Uart16550Tty::new_with_backend",
    "uart_16550::tty::Uart16550Tty::new_mmio": "uart_16550::tty::Uart16550Tty::new_with_backend",
    "uart_16550::tty::Uart16550Tty::new_mmio_from_address": "uart_16550::tty::Uart16550Tty::new_with_backend",
    "uart_spec::baud::calc_baud_rate": "uart_spec::baud::calc_frequency",
    "uart_spec::baud::calc_divisor": "uart_spec::baud::calc_frequency",
    "uart_ring::ring::Uart16550Ring::new": "uart_ring::ring::Uart16550Ring",
    "uart_ring::notes::ErrorNotes::new": "uart_ring::notes::ErrorNotes",
}.items():
    EXAMPLES[path] = EXAMPLES[like]
for register in ("lcr", "mcr", "lsr", "msr", "spr"):
    EXAMPLES[f"uart_16550::driver::status::Uart16550::{register}"] = compiles(UART + ", shown: &ConfigRegisterDump")


# The examples of the chip.
FOR_CHIP = (
    HEAD
    + """\
#[allow(unused_imports)]
use facade::registers::{LSR, MSR, offsets};
#[allow(unused_imports)]
use facade::Flags as _;
#[allow(unused_imports)]
use facade::{Chip, ChipData, ChipError, InputError, LiveChip, Todo, VirtualPort, VirtualPortWith};

#[allow(dead_code)]
type Outcome<T = ()> = Result<T, Box<dyn std::error::Error>>;

/// The host of a monitor's guest.
#[allow(dead_code)]
struct Host {
    line: bool,
    shown: Vec<u8>,
}

#[allow(dead_code)]
impl Host {
    fn take(&mut self, output: &[u8]) -> usize {
        self.shown.extend(output);
        output.len()
    }

    fn set_line(&mut self, level: bool) {
        self.line = level;
    }
}

#[allow(dead_code)]
fn obey_signals(host: &mut Host, todo: Todo) {
    host.set_line(todo.level);
}
"""
)
CHIP = "chip: &mut LiveChip"
PORT_OF_GUEST = "port: &mut VirtualPort"
HOST = "host: &mut Host"


def in_monitor(parameters: str, result: str | None = None) -> Example:
    """An example that is the body of a function of a monitor, with these parameters. It compiles; it is not called."""
    end = f" -> {result} {{" if result else " {"
    return INCLUDE + [f"# fn example({parameters}){end}"], ["# }"]


EXAMPLES |= {
    "uart_live::live::LiveChipWith": compiles(f"{CHIP}, offset: u8, value: u8, elapsed: u16, sink: &mut [u8]"),
    "uart_live::live::LiveChipWith::new": (INCLUDE + ["# fn example() -> Result<LiveChip, ChipError> {"], ["# }"]),
    "uart_live::live::LiveChipWith::read": compiles(f"{CHIP}, offset: u8"),
    "uart_live::live::LiveChipWith::write": compiles(f"{CHIP}, offset: u8, value: u8, elapsed: u16"),
    "uart_live::live::LiveChipWith::sends_at_once": compiles(f"{CHIP}, value: u8"),
    "uart_live::live::LiveChipWith::send_at_once": compiles(f"{CHIP}, value: u8"),
    "uart_live::live::LiveChipWith::raise_thr_empty": compiles(f"{CHIP}, value: u8"),
    "uart_live::live::LiveChipWith::ticks": compiles(f"{CHIP}, elapsed: u16"),
    "uart_live::live::LiveChipWith::arrive": compiles(f"{CHIP}, byte: u8"),
    "uart_live::live::LiveChipWith::arrive_holding_timeout": compiles(f"{CHIP}, byte: u8"),
    "uart_live::live::LiveChipWith::set_lines": compiles(CHIP),
    "uart_live::live::LiveChipWith::is_interrupting": (
        INCLUDE
        + ["# mod monitor {", "# pub struct Outcome { pub sent: usize, pub is_interrupting: bool }", "# }"]
        + [f"# fn example({CHIP}, sent: usize) -> monitor::Outcome {{", "# use monitor::Outcome;"],
        ["# }"],
    ),
    "uart_live::live::LiveChipWith::wire": compiles(f"{CHIP}, sink: &mut [u8]"),
    "uart_live::live::LiveChipWith::outputs": compiles("chip: &LiveChip", items=["use facade::registers::MCR;"]),
    "uart_live::live::LiveChipWith::take_wire": compiles(f"{CHIP}, sent: usize"),
    "uart_live::live::LiveChipWith::receive_room": compiles(f"{CHIP}, byte: u8"),
    "uart_virtual::port::VirtualPortWith": in_monitor(f"{PORT_OF_GUEST}, {HOST}, offset: u8, value: u8"),
    "uart_virtual::port::VirtualPortWith::new": in_monitor(""),
    "uart_virtual::port::VirtualPortWith::try_new": (INCLUDE + ["# fn example() -> Result<(), ChipError> {"], ["# Ok(())", "# }"]),
    "uart_virtual::port::VirtualPortWith::read": in_monitor(f"{PORT_OF_GUEST}, {HOST}, offset: u8", "u8"),
    "uart_virtual::port::VirtualPortWith::write": in_monitor(f"{PORT_OF_GUEST}, {HOST}, offset: u8, value: u8"),
    "uart_virtual::port::VirtualPortWith::receive": in_monitor(f"{PORT_OF_GUEST}, {HOST}, input: &'static [u8]", "&'static [u8]"),
    "uart_virtual::port::VirtualPortWith::receive_one": compiles(PORT_OF_GUEST),
    "uart_virtual::port::VirtualPortWith::set_lines": compiles(PORT_OF_GUEST),
    "uart_virtual::port::VirtualPortWith::output": in_monitor(f"{PORT_OF_GUEST}, {HOST}"),
    "uart_virtual::port::VirtualPortWith::take_output": in_monitor(f"{PORT_OF_GUEST}, {HOST}, taken: usize"),
    "uart_virtual::port::VirtualPortWith::level": in_monitor(f"{PORT_OF_GUEST}, {HOST}"),
    "uart_virtual::port::snapshot::VirtualPortWith::data": compiles(f"{PORT_OF_GUEST}, {HOST}"),
    "uart_virtual::port::snapshot::VirtualPortWith::from_data": compiles(f"{PORT_OF_GUEST}, {HOST}"),
    "uart_live::live::snapshot::LiveChipWith::data": compiles(CHIP),
    "uart_live::live::snapshot::LiveChipWith::from_data": compiles(f"{CHIP}, saved: &ChipData"),
}

# The package of the users that the examples of a crate name, under which name, and the shared file. The rings have a crate `uart_16550`.
SHARED = {
    **{name: ("uart_16550", "uart_16550", FOR_DRIVER) for name in ("uart_spec", "uart_16550")},
    **{name: ("uart_16550", "facade", FOR_DRIVER) for name in ("uart_original", "uart_design_ware", "uart_rs485", "uart_ring", "uart_discovery")},
    **{name: ("uart_16550_chip", "uart_16550_chip", FOR_CHIP) for name in ("uart_live", "uart_virtual")},
}


def named(crate: str, text: str) -> str:
    """A hidden line or a shared file, with the name of the package of the users."""
    return text.replace("facade::", f"{SHARED[crate][1]}::")


def shared(crate: str) -> str:
    """The file that the examples of a crate include."""
    return named(crate, SHARED[crate][2])
