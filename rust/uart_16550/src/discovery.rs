//! Where a port is and how it is set up, from the bytes by which firmware and boot loaders say it.
//!
//! | the bytes | by | on |
//! |---|---|---|
//! | the ACPI table SPCR | [`read_spcr`] | servers, and virtual machines with ACPI |
//! | the ACPI table DBG2 | [`read_dbg2`] | the same |
//! | a device tree | [`read_device_tree`], [`read_tree_node`], [`tree_ports`] | RISC-V, Arm, PowerPC, MIPS, LoongArch |
//! | the header of a PCI function | [`read_pci`] | cards |
//! | `earlycon=` or `console=` of a command line | [`read_earlycon`], [`read_console`] | Linux's boot protocols, Multiboot |
//!
//! Each function takes bytes, and returns a [`PortDescription`] or what is wrong with the bytes. It is
//! proved to return for any bytes, without a panic. It allocates nothing and does not call itself, so a
//! boot loader can call it on a small stack. How the bytes are found is the caller's: this crate looks
//! at no memory by itself.
//!
//! # The clock
//!
//! A rate is the frequency of the clock over a divisor, so a port is set up by its clock. Most boards with
//! a device tree have a controller of clocks, which the firmware has set, and then no bytes say the
//! frequency: [`config_of`] returns [`UnknownClockError`], and takes no other one in its place. Who knows the
//! frequency sets [`PortDescription::clock`]. Who does not keeps what the firmware has set, by [`keep_settings`].
//!
//! # Examples
//!
//! ```no_run
//! use core::num::NonZeroUsize;
//! use uart_16550::discovery::{self, AddressSpace};
//! use uart_16550::native::backend::{ByteOrder, WideMemory};
//! use uart_16550::native::Uart16550;
//!
//! # fn start(tree: &'static [u8]) -> Result<(), Box<dyn std::error::Error>> {
//! let mut port = discovery::read_device_tree(tree, ByteOrder::NATIVE)?;
//! assert_eq!(port.space, AddressSpace::Memory);
//! let base = NonZeroUsize::new(usize::try_from(port.base)?).ok_or("no address")?;
//! // SAFETY: the firmware says that a 16550 is there, and nothing else accesses it.
//! let registers = unsafe { WideMemory::from_address(base, port.layout) }?;
//! let mut uart = Uart16550::new_with_backend(registers);
//! match discovery::config_of(&port) {
//!     Ok(config) => uart.init(config.nearest(20)?)?,
//!     // The console goes on as the firmware left it.
//!     Err(discovery::UnknownClockError) => discovery::keep_settings(&mut uart, &mut port)?,
//! }
//! # Ok(())
//! # }
//! ```

pub use uart_discovery::{
    AddressSpace, Frame, Interrupt, OptionError, PciError, PortDescription, TableError, TableFault,
    TreeError, TreePort, read_console, read_dbg2, read_device_tree, read_earlycon, read_pci,
    read_spcr, read_tree_node, read_tree_port,
};

use core::error::Error;
use core::fmt;
use core::iter;
use uart_driver::backend::Backend;
use uart_driver::{AttachError, BaudRate, Config, Uart16550};
use uart_spec::{ByteOrder, CLK_FREQUENCY_HZ, checked_frequency};

/// The first port that ISA does not have: it decodes ten bits of an address.
const END_OF_PC_PORTS: u64 = 0x400;

/// Nothing says the frequency of the clock of a port, so no divisor gives a known baud rate.
#[derive(Clone, Copy, Debug, PartialEq, Eq, Hash)]
pub struct UnknownClockError;

impl fmt::Display for UnknownClockError {
    fn fmt(&self, f: &mut fmt::Formatter<'_>) -> fmt::Result {
        f.write_str("the frequency of the clock is not known")
    }
}

impl Error for UnknownClockError {}

/// Returns each port of a device tree, in its order, as [`read_tree_port`] finds it. It ends after an error of
/// the tree, and goes on after a port that cannot be used. Each port costs a pass over the tree.
///
/// # Examples
///
/// ```
/// use uart_16550::discovery::{TreeError, TreePort, tree_ports};
/// use uart_16550::native::backend::ByteOrder;
///
/// fn ttys(tree: &[u8]) -> Result<usize, TreeError> {
///     let mut count = 0;
///     for found in tree_ports(tree, ByteOrder::NATIVE) {
///         let TreePort { alias, port, .. } = found?;
///         if let (Some(number), Ok(port)) = (alias, port) {
///             println!("ttyS{number} is at {:#x}", port.base);
///             count += 1;
///         }
///     }
///     Ok(count)
/// }
/// assert_eq!(ttys(&[0; 64]), Err(TreeError::Magic));
/// ```
pub fn tree_ports(
    blob: &[u8],
    native: ByteOrder,
) -> impl Iterator<Item = Result<TreePort, TreeError>> {
    let mut next = Some(0);
    iter::from_fn(move || {
        let index: usize = next?;
        let found = read_tree_port(blob, index, native).transpose();
        next = match found {
            Some(Ok(_)) => index.checked_add(1),
            _ => None,
        };
        found
    })
}

/// Returns a configuration with the clock, the baud rate and the frame of a port. What its description does
/// not say is that of [`Config::DEFAULT`], but for the clock: that of a PC is taken for the I/O ports of a PC alone,
/// which are below 400.
///
/// # Errors
///
/// If the clock is not known, or is 0.
///
/// # Examples
///
/// ```
/// use uart_16550::discovery::{UnknownClockError, config_of, read_earlycon};
/// use uart_16550::native::backend::ByteOrder;
///
/// let mut port = read_earlycon(b"uart8250,mmio32,0xfe215040,115200n8", ByteOrder::NATIVE)?;
/// assert_eq!(config_of(&port).err(), Some(UnknownClockError));
/// // The manual of the board says it.
/// port.clock = Some(500_000_000);
/// assert_eq!(config_of(&port)?.baud_rate.to_integer(), 115_200);
/// # Ok::<(), Box<dyn core::error::Error>>(())
/// ```
pub fn config_of(port: &PortDescription) -> Result<Config, UnknownClockError> {
    // Cards of PCI have ports beyond those, and each its own clock.
    let is_of_pc = port.space == AddressSpace::Ports && port.base < END_OF_PC_PORTS;
    let frequency = match port.clock {
        Some(0) => return Err(UnknownClockError),
        Some(frequency) => frequency,
        None if is_of_pc => CLK_FREQUENCY_HZ,
        None => return Err(UnknownClockError),
    };
    let Config { baud_rate, data_bits, parity, .. } = Config::DEFAULT;
    let Frame { data_bits, parity } = port.frame.unwrap_or(Frame { data_bits, parity });
    Ok(Config {
        frequency,
        baud_rate: port.baud_rate.map_or(baud_rate, BaudRate::from_integer),
        data_bits,
        parity,
        ..Config::DEFAULT
    })
}

/// Keeps what the firmware has set at a port, by [`attach`](Uart16550::attach): its rate, its frame and its
/// FIFOs. Then sets [`PortDescription::clock`], if it is not known and the description has the baud rate that
/// the firmware has set: the clock is 16 times the divisor and that rate. With it [`config_of`] can set up
/// another rate later. Where the baud rate is not known either, the clock stays `None`.
///
/// # Errors
///
/// Those of [`attach`](Uart16550::attach). Then nothing of the description is changed.
///
/// # Examples
///
/// ```no_run
/// use uart_16550::discovery::{PortDescription, keep_settings};
/// use uart_16550::native::backend::Backend;
/// use uart_16550::native::{AttachError, Uart16550};
///
/// # fn take(mut uart: Uart16550<impl Backend>, mut port: PortDescription) -> Result<(), AttachError> {
/// keep_settings(&mut uart, &mut port)?;
/// uart.send_bytes_exact(b"at the rate of the firmware\r\n").ok();
/// # Ok(())
/// # }
/// ```
pub fn keep_settings<B: Backend>(
    uart: &mut Uart16550<B>,
    port: &mut PortDescription,
) -> Result<(), AttachError> {
    let (dll, dlm) = uart.attach()?;
    let divisor = u16::from_le_bytes([dll, dlm]).into();
    let found = port
        .baud_rate
        .and_then(|rate| checked_frequency(rate, divisor, None));
    port.clock = port.clock.or(found);
    Ok(())
}
