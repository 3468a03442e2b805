//! A kernel for a board without an operating system, whose console is the driver. It says that it is there, sends back what is
//! typed until a mark, and sends many bytes, whether the other end reads them or not. On some boards it sends back what is typed
//! once more, by interrupts with rings. `integration/boards` writes what the board has into `board.rs`, and types.
#![no_std]
#![no_main]
// The start code of these is assembly, which rustc does not promise for each architecture.
#![cfg_attr(
    any(target_arch = "mips", target_arch = "mips64", target_arch = "powerpc"),
    allow(stable_features),
    feature(asm_experimental_arch)
)]

mod board {
    use uart_16550::native::backend::{ByteOrder, RegisterLayout, RegisterWidth};

    include!(env!("BOARD"));
}
#[cfg(needs = "pci")]
mod pci;
#[cfg(has_interrupts)]
mod rings;
mod start;

use core::fmt::{self, Write};
use core::num::NonZeroU64;
#[cfg(any(found_by = "tree", found_by = "pci", found_by = "command line"))]
use uart_16550::discovery;
#[cfg(any(found_by = "tree", found_by = "command line"))]
use uart_16550::native::backend::ByteOrder;
#[cfg(not(reached_by = "ports"))]
use uart_16550::native::backend::RegisterLayout;
use uart_16550::native::spec::registers::LSR;
use uart_16550::native::{
    BaudRate, Config, InitError, LoopbackError, NearestDivisorError, StalledError, Uart16550,
};

/// How the chip of this board is reached.
#[cfg(reached_by = "ports")]
pub type Registers = uart_16550::native::backend::X86Ports;
#[cfg(reached_by = "bytes")]
pub type Registers = uart_16550::native::backend::VolatileMemory;
#[cfg(reached_by = "registers")]
pub type Registers = uart_16550::native::backend::WideMemory;

/// The driver of the console.
pub type Console = Uart16550<Registers>;

/// The byte that ends what is typed.
pub const MARK: u8 = 0x04;

const PATTERN_LEN: usize = 65_536;
// The pattern is repeated after so many bytes, which is no power of two, so that a lost burst is seen.
const PATTERN_PERIOD: usize = 251;

// A wait gives up soon, so that the other end that does not read is noticed.
const SPIN_LIMIT: NonZeroU64 = NonZeroU64::new(10_000).unwrap();
// How often a wait may give up until the other end is taken to be gone.
const MOST_STALLS: u32 = 1_000_000;
/// How many looks for what is typed are made until the other end is taken to be gone: minutes.
pub const MOST_LOOKS: u32 = 1_000_000_000;

// Thousandths of which the nearest divisor may be off.
const TOLERANCE: u32 = 20;

/// Why there is no console, or why it ended.
pub enum Failure {
    NoRegisters,
    #[cfg(any(found_by = "tree", found_by = "pci", found_by = "command line"))]
    NoClock(discovery::UnknownClockError),
    NoDivisor(NearestDivisorError),
    NotInitialised(InitError),
    BrokenChip(LoopbackError),
    NobodyReads,
    NobodyTypes,
    #[cfg(has_interrupts)]
    NoRings,
}

impl From<NearestDivisorError> for Failure {
    fn from(cause: NearestDivisorError) -> Self {
        Failure::NoDivisor(cause)
    }
}

impl From<InitError> for Failure {
    fn from(cause: InitError) -> Self {
        Failure::NotInitialised(cause)
    }
}

impl From<LoopbackError> for Failure {
    fn from(cause: LoopbackError) -> Self {
        Failure::BrokenChip(cause)
    }
}

impl fmt::Display for Failure {
    fn fmt(&self, f: &mut fmt::Formatter<'_>) -> fmt::Result {
        match self {
            Failure::NoRegisters => f.write_str("no registers"),
            #[cfg(any(found_by = "tree", found_by = "pci", found_by = "command line"))]
            Failure::NoClock(cause) => write!(f, "no clock: {cause}"),
            Failure::NoDivisor(cause) => write!(f, "no divisor: {cause}"),
            Failure::NotInitialised(cause) => write!(f, "not initialised: {cause}"),
            Failure::BrokenChip(cause) => write!(f, "broken: {cause}"),
            Failure::NobodyReads => f.write_str("nobody reads"),
            Failure::NobodyTypes => f.write_str("nobody types"),
            #[cfg(has_interrupts)]
            Failure::NoRings => f.write_str("no rings"),
        }
    }
}

// The start code of this one has a place for interrupts, and none is let in.
#[cfg(all(target_arch = "x86_64", not(has_interrupts)))]
#[unsafe(no_mangle)]
extern "C" fn handle_interrupt() {
    stop()
}

#[panic_handler]
fn panic(_info: &core::panic::PanicInfo<'_>) -> ! {
    stop()
}

fn stop() -> ! {
    loop {
        core::hint::spin_loop();
    }
}

/// Where the chip is, how its registers lie, and its clock.
struct Place {
    base: usize,
    #[cfg(not(reached_by = "ports"))]
    layout: RegisterLayout,
    frequency: u32,
}

// Of a board that says nothing to a kernel this is known from its table.
#[cfg(not(any(found_by = "tree", found_by = "pci", found_by = "command line")))]
fn place(_first: usize, _second: usize) -> Result<Place, Failure> {
    Ok(Place {
        base: board::BASE,
        #[cfg(not(reached_by = "ports"))]
        layout: board::LAYOUT,
        frequency: board::FREQUENCY,
    })
}

// A device tree's address is in the first register of a call on PowerPC, and in the second one on RISC-V, behind the processor's number.
#[cfg(found_by = "tree")]
fn place(first: usize, second: usize) -> Result<Place, Failure> {
    let address = if cfg!(target_arch = "powerpc") {
        first
    } else {
        second
    };
    let start = core::ptr::with_exposed_provenance::<u8>(address);
    // SAFETY: whoever started this program has put a device tree there, whose size is in its second word.
    let tree = unsafe {
        let size = u32::from_be(start.cast::<u32>().add(1).read_unaligned());
        core::slice::from_raw_parts(start, size as usize)
    };
    found(&discovery::read_device_tree(tree, ByteOrder::NATIVE).map_err(|_| Failure::NoRegisters)?)
}

// The command line of a kernel that is started by PVH: its address is at offset 24 of the loader's information.
#[cfg(found_by = "command line")]
fn place(information: usize, _second: usize) -> Result<Place, Failure> {
    const COMMAND_LINE: usize = 24;
    const LONGEST: usize = 256;
    let mut line = [0; LONGEST];
    // SAFETY: the loader has put its information and the command line there, which ends with a byte 0.
    unsafe {
        let information = core::ptr::with_exposed_provenance::<u8>(information);
        let address = information.add(COMMAND_LINE).cast::<u32>().read_unaligned();
        let text = core::ptr::with_exposed_provenance::<u8>(address as usize);
        for (index, slot) in line.iter_mut().enumerate() {
            match text.add(index).read() {
                0 => break,
                byte => *slot = byte,
            }
        }
    }
    let console = line
        .split(|byte| matches!(byte, 0 | b' '))
        .find_map(|word| word.strip_prefix(b"console="))
        .ok_or(Failure::NoRegisters)?;
    found(&discovery::read_console(console, ByteOrder::NATIVE).map_err(|_| Failure::NoRegisters)?)
}

#[cfg(found_by = "pci")]
fn place(_first: usize, _second: usize) -> Result<Place, Failure> {
    let port = pci::find_serial().ok_or(Failure::NoRegisters)?;
    let place = found(&port)?;
    // The board shows its I/O space in memory.
    Ok(Place {
        base: place.base + pci::IO_SPACE,
        ..place
    })
}

// What a description says to this program.
#[cfg(any(found_by = "tree", found_by = "pci", found_by = "command line"))]
fn found(port: &discovery::PortDescription) -> Result<Place, Failure> {
    Ok(Place {
        base: usize::try_from(port.base).map_err(|_| Failure::NoRegisters)?,
        #[cfg(not(reached_by = "ports"))]
        layout: port.layout,
        frequency: discovery::config_of(port)
            .map_err(Failure::NoClock)?
            .frequency,
    })
}

#[cfg(reached_by = "ports")]
fn registers(place: &Place) -> Result<Registers, Failure> {
    // SAFETY: the board has its chip there, and this program alone uses it.
    unsafe { Registers::new(place.base as u16) }.map_err(|_| Failure::NoRegisters)
}

#[cfg(not(reached_by = "ports"))]
fn registers(place: &Place) -> Result<Registers, Failure> {
    let base = core::num::NonZeroUsize::new(place.base).ok_or(Failure::NoRegisters)?;
    #[cfg(reached_by = "bytes")]
    let layout = place.layout.stride;
    #[cfg(reached_by = "registers")]
    let layout = place.layout;
    // SAFETY: the board has its chip there, and this program alone uses it.
    unsafe { Registers::from_address(base, layout) }.map_err(|_| Failure::NoRegisters)
}

/// A text on its way to the console. It gives up as soon as a wait does.
struct Text<'a>(&'a mut Console);

impl Write for Text<'_> {
    fn write_str(&mut self, text: &str) -> fmt::Result {
        self.0
            .send_bytes_exact(text.as_bytes())
            .map_err(|_stall| fmt::Error)
    }
}

/// Sends a line.
pub fn say(console: &mut Console, line: fmt::Arguments<'_>) -> Result<(), Failure> {
    write!(Text(console), "\r\n{line}\r\n").map_err(|_| Failure::NobodyReads)
}

// Sends all bytes, and goes on where a wait has given up. Returns how often one has.
fn send_all(console: &mut Console, bytes: &[u8]) -> Result<u32, Failure> {
    let mut rest = bytes;
    for stalls in 0..MOST_STALLS {
        match console.send_bytes_exact(rest) {
            Ok(()) => return Ok(stalls),
            Err(StalledError { done }) => rest = &rest[done..],
        }
    }
    Err(Failure::NobodyReads)
}

// Sends back what is typed, until the mark.
fn echo(console: &mut Console) -> Result<(), Failure> {
    let mut slots = [0; 64];
    for _look in 0..MOST_LOOKS {
        let count = console.receive_bytes(&mut slots);
        let typed = &slots[..count];
        let end = typed.iter().position(|byte| *byte == MARK);
        send_all(console, &typed[..end.unwrap_or(count)])?;
        if end.is_some() {
            return Ok(());
        }
    }
    Err(Failure::NobodyTypes)
}

// Sends the pattern. Returns how often a wait has given up.
fn send_pattern(console: &mut Console) -> Result<u32, Failure> {
    let mut stalls = 0;
    let mut piece = [0; 1024];
    for first in (0..PATTERN_LEN).step_by(piece.len()) {
        for (slot, at) in piece.iter_mut().zip(first..) {
            *slot = (at % PATTERN_PERIOD) as u8;
        }
        stalls += send_all(console, &piece)?;
    }
    Ok(stalls)
}

fn run(console: &mut Console, frequency: u32) -> Result<(), Failure> {
    console.set_spin_limit(SPIN_LIMIT);
    let config = Config {
        frequency,
        baud_rate: BaudRate::Baud115200,
        ..Config::DEFAULT
    };
    console.init(config.nearest(TOLERANCE)?)?;
    console.test_loopback()?;
    say(console, format_args!("console: loopback ok"))?;
    echo(console)?;
    let errors = (console.lsr() & LSR::ERRORS).bits();
    say(
        console,
        format_args!("echoed by polling, errors {errors:02x}"),
    )?;
    let stalls = send_pattern(console)?;
    say(console, format_args!("sent, stalls {stalls}"))
}

#[unsafe(no_mangle)]
extern "C" fn kernel_main(first: usize, second: usize) -> ! {
    #[cfg(needs = "pci")]
    pci::place_serial();
    let Ok(place) = place(first, second) else {
        stop()
    };
    let Ok(registers) = registers(&place) else {
        stop()
    };
    let mut console = Uart16550::new_with_backend(registers);
    if let Err(failure) = run(&mut console, place.frequency) {
        // The chip may send even though it is not as it should be.
        let _ = say(&mut console, format_args!("{failure}"));
        stop()
    }
    #[cfg(has_interrupts)]
    let mut console = rings::echo(console);
    let _ = say(&mut console, format_args!("end"));
    stop()
}
