//! A terminal over the driver.

use crate::backend::{Backend, ByteAccess, MmioBackend, PioBackend, PortAccess};
use crate::driver::Uart16550;
use std::fmt;
use std::num::NonZeroUsize;
use uart_spec::{Config, StalledError, Uart16550TtyError};

/// A driver that sends text as terminals expect it.
///
/// Backspace and delete are sent as backspace, space, backspace, and a line feed as carriage
/// return, line feed. All other bytes are sent unchanged, also a carriage return. Bytes are
/// expanded, not characters.
///
/// # Examples
///
/// ```
/// # include!(concat!(env!("CARGO_MANIFEST_DIR"), "/examples.rs"));
/// # fn main() {}
/// # fn example(uart: Uart16550<Device>) -> Outcome<()> {
/// let mut terminal = Uart16550Tty::from_inner(uart);
/// assert!(writeln!(terminal, "hello").is_ok());
/// assert_eq!(terminal.write_text("\x7f"), Ok(()));
/// # Ok(()) }
/// ```
#[derive(Debug)]
pub struct Uart16550Tty<B> {
    inner: Uart16550<B>,
}

/// The bytes of one expansion, at most three.
#[derive(Clone, Copy)]
struct Expansion {
    bytes: [u8; 3],
    len: usize,
}

// Returns what is sent for a byte of a text.
fn expansion_of(byte: u8) -> Expansion {
    match byte {
        0x08 | 0x7f => Expansion {
            bytes: *b"\x08 \x08",
            len: 3,
        },
        b'\n' => Expansion {
            bytes: *b"\r\n\0",
            len: 2,
        },
        _ => Expansion {
            bytes: [byte, 0, 0],
            len: 1,
        },
    }
}

impl<B: Backend> Uart16550Tty<B> {
    /// Returns a terminal over this backend: constructs a driver, and calls its `init` with this
    /// configuration, which must be computable (`Config::is_computable`), and then its
    /// `test_loopback`.
    ///
    /// Waits as these two calls do, with the default spin limit. Use `from_inner` for a device
    /// without loopback.
    ///
    /// # Errors
    ///
    /// - `InitError` if `init` failed.
    /// - `TestError` if `init` succeeded and `test_loopback` failed. The device stays initialised.
    ///
    /// The backend is dropped then, in the state in which the failed call left it.
    ///
    /// # Panics
    ///
    /// If the configuration is not computable (`Config::is_computable`).
    ///
    /// # Examples
    ///
    /// ```
    /// # include!(concat!(env!("CARGO_MANIFEST_DIR"), "/examples.rs"));
    /// # fn main() {}
    /// # fn example() -> Outcome<()> {
    /// let tty = Uart16550Tty::new_with_backend(device(), Config::DEFAULT)?;
    /// # Ok(()) }
    /// ```
    ///
    /// # Proved
    ///
    /// If [`IsComputable`](uart_spec::proved::config#IsComputable) `config` (frequency and baud rate are not zero, and the prescaler division factor is absent or at most 15):
    ///
    /// - [`BuildsTerminal`](crate::proved::tty#BuildsTerminal) `B.step backend config result`: a new driver over this backend was started: by `init` and then `test_loopback`, up to the first refusal. If there is none, the terminal has the driver.
    ///
    /// <details><summary>The clauses</summary>
    ///
    /// [How to read them](uart_spec::proved):
    ///
    /// ```text
    /// requires { IsComputable config }
    /// ensures { BuildsTerminal B.step backend config result }
    /// ```
    ///
    /// </details>
    pub fn new_with_backend(backend: B, config: Config) -> Result<Self, Uart16550TtyError> {
        Self::start(Uart16550::new_with_backend(backend), config)
    }

    // Initialises and tests a driver.
    fn start(mut driver: Uart16550<B>, config: Config) -> Result<Self, Uart16550TtyError> {
        if let Err(cause) = driver.init(config) {
            return Err(Uart16550TtyError::InitError(cause));
        }
        if let Err(cause) = driver.test_loopback() {
            return Err(Uart16550TtyError::TestError(cause));
        }
        Ok(Uart16550Tty { inner: driver })
    }
}

impl<P: PortAccess> Uart16550Tty<PioBackend<P>> {
    /// Returns a terminal for the device whose registers are at eight consecutive I/O ports, from
    /// `base_port` on. Sets it up as `new_with_backend` does.
    ///
    /// # Errors
    ///
    /// `AddressError` if `Uart16550::new_port` failed. No access was made then. Otherwise those of
    /// `new_with_backend`. The access object is dropped.
    ///
    /// # Panics
    ///
    /// If the configuration is not computable (`Config::is_computable`).
    ///
    /// # Examples
    ///
    /// ```
    /// # include!(concat!(env!("CARGO_MANIFEST_DIR"), "/examples.rs"));
    /// # fn main() {}
    /// # fn example() -> Outcome<()> {
    /// let tty = Uart16550Tty::new_port(0x3f8, device(), Config::DEFAULT)?;
    /// # Ok(()) }
    /// ```
    ///
    /// # Proved
    ///
    /// If [`IsComputable`](uart_spec::proved::config#IsComputable) `config` (frequency and baud rate are not zero, and the prescaler division factor is absent or at most 15):
    ///
    /// - [`BuildsTerminalAt`](crate::proved::tty#BuildsTerminalAt): the address was refused; or a new driver over a backend at this address was started: by `init` and then `test_loopback`, up to the first refusal.
    ///   - [`PortStep`](crate::proved::pio#PortStep): the object makes the access at the port base + offset, and the base does not change.
    ///   - [`IsAtPorts`](crate::proved::pio#IsAtPorts): the registers are at the ports from this one on, and this object accesses them.
    ///   - [`IsPortRefusal`](crate::proved::pio#IsPortRefusal): why no registers can be at the ports from this one on: the last of them would be beyond the last port.
    ///
    /// <details><summary>The clauses</summary>
    ///
    /// [How to read them](uart_spec::proved):
    ///
    /// ```text
    /// requires { IsComputable config }
    /// ensures { BuildsTerminalAt (PortStep P.step) (λ ports. IsAtPorts ports base_port access) (IsPortRefusal base_port) config result }
    /// ```
    ///
    /// </details>
    pub fn new_port(base_port: u16, access: P, config: Config) -> Result<Self, Uart16550TtyError> {
        match Uart16550::new_port(base_port, access) {
            Ok(driver) => Self::start(driver, config),
            Err(cause) => Err(Uart16550TtyError::AddressError(cause)),
        }
    }
}

impl<M: ByteAccess> Uart16550Tty<MmioBackend<M>> {
    /// Returns a terminal for the device whose registers are in memory, from `base_address` on and
    /// `stride` bytes apart. Sets it up as `new_with_backend` does.
    ///
    /// # Errors
    ///
    /// `AddressError` if `Uart16550::new_mmio` failed. No access was made then. Otherwise those of
    /// `new_with_backend`. The access object is dropped.
    ///
    /// # Panics
    ///
    /// If the configuration is not computable (`Config::is_computable`).
    ///
    /// # Examples
    ///
    /// ```
    /// # include!(concat!(env!("CARGO_MANIFEST_DIR"), "/examples.rs"));
    /// # fn main() {}
    /// # fn example() -> Outcome<()> {
    /// let base = NonZeroUsize::new(0x1000).ok_or("base 0")?;
    /// let tty = Uart16550Tty::new_mmio(base, 4, device(), Config::DEFAULT)?;
    /// # Ok(()) }
    /// ```
    ///
    /// # Proved
    ///
    /// If [`IsComputable`](uart_spec::proved::config#IsComputable) `config` (frequency and baud rate are not zero, and the prescaler division factor is absent or at most 15):
    ///
    /// - [`BuildsTerminalAt`](crate::proved::tty#BuildsTerminalAt): the address was refused; or a new driver over a backend at this address was started: by `init` and then `test_loopback`, up to the first refusal.
    ///   - [`MemoryStep`](crate::proved::mmio#MemoryStep): the object makes the access at the address base + offset \* stride, and base and stride do not change.
    ///   - [`IsInMemory`](crate::proved::mmio#IsInMemory): the registers are in memory from this address on, with this distance, and this object accesses them.
    ///   - [`IsMappingRefusal`](crate::proved::mmio#IsMappingRefusal): why no registers can be in memory from this address on: the stride is checked first.
    ///
    /// <details><summary>The clauses</summary>
    ///
    /// [How to read them](uart_spec::proved):
    ///
    /// ```text
    /// requires { IsComputable config }
    /// ensures { BuildsTerminalAt (MemoryStep M.step) (λ mapped. IsInMemory mapped base_address stride access) (IsMappingRefusal (non_zero_usize_get base_address) stride) config result }
    /// ```
    ///
    /// </details>
    pub fn new_mmio(
        base_address: NonZeroUsize,
        stride: u8,
        access: M,
        config: Config,
    ) -> Result<Self, Uart16550TtyError> {
        match Uart16550::new_mmio(base_address, stride, access) {
            Ok(driver) => Self::start(driver, config),
            Err(cause) => Err(Uart16550TtyError::AddressError(cause)),
        }
    }

    /// Does the same as `new_mmio`. Both take the base address as a number, not as a pointer.
    ///
    /// # Errors
    ///
    /// Those of `new_mmio`.
    ///
    /// # Panics
    ///
    /// If the configuration is not computable (`Config::is_computable`).
    ///
    /// # Examples
    ///
    /// ```
    /// # include!(concat!(env!("CARGO_MANIFEST_DIR"), "/examples.rs"));
    /// # fn main() {}
    /// # fn example() -> Outcome<()> {
    /// let base = NonZeroUsize::new(0x1000).ok_or("base 0")?;
    /// let tty = Uart16550Tty::new_mmio_from_address(base, 4, device(), Config::DEFAULT)?;
    /// # Ok(()) }
    /// ```
    ///
    /// # Proved
    ///
    /// If [`IsComputable`](uart_spec::proved::config#IsComputable) `config` (frequency and baud rate are not zero, and the prescaler division factor is absent or at most 15):
    ///
    /// - [`BuildsTerminalAt`](crate::proved::tty#BuildsTerminalAt): the address was refused; or a new driver over a backend at this address was started: by `init` and then `test_loopback`, up to the first refusal.
    ///   - [`MemoryStep`](crate::proved::mmio#MemoryStep): the object makes the access at the address base + offset \* stride, and base and stride do not change.
    ///   - [`IsInMemory`](crate::proved::mmio#IsInMemory): the registers are in memory from this address on, with this distance, and this object accesses them.
    ///   - [`IsMappingRefusal`](crate::proved::mmio#IsMappingRefusal): why no registers can be in memory from this address on: the stride is checked first.
    ///
    /// <details><summary>The clauses</summary>
    ///
    /// [How to read them](uart_spec::proved):
    ///
    /// ```text
    /// requires { IsComputable config }
    /// ensures { BuildsTerminalAt (MemoryStep M.step) (λ mapped. IsInMemory mapped base_address stride access) (IsMappingRefusal (non_zero_usize_get base_address) stride) config result }
    /// ```
    ///
    /// </details>
    pub fn new_mmio_from_address(
        base_address: NonZeroUsize,
        stride: u8,
        access: M,
        config: Config,
    ) -> Result<Self, Uart16550TtyError> {
        Self::new_mmio(base_address, stride, access, config)
    }
}

impl<B: Backend> Uart16550Tty<B> {
    /// Returns a terminal over a driver that is already initialised. Makes no access.
    ///
    /// This is the way for a device without loopback, for a driver with its own spin limit, and
    /// after an `init` without a test.
    ///
    /// # Examples
    ///
    /// ```
    /// # include!(concat!(env!("CARGO_MANIFEST_DIR"), "/examples.rs"));
    /// # fn main() {}
    /// # fn example(uart: Uart16550<Device>) -> Outcome<()> {
    /// let mut terminal = Uart16550Tty::from_inner(uart);
    /// assert!(writeln!(terminal, "hello").is_ok());
    /// # Ok(()) }
    /// ```
    ///
    /// # Proved
    ///
    /// - `inner_of result ≡ inner`.
    ///   - [`inner_of`](crate::proved::tty#inner_of): the driver under a terminal.
    ///
    /// <details><summary>The clauses</summary>
    ///
    /// [How to read them](uart_spec::proved):
    ///
    /// ```text
    /// ensures { inner_of result ≡ inner }
    /// ```
    ///
    /// </details>
    #[must_use]
    pub const fn from_inner(inner: Uart16550<B>) -> Self {
        Uart16550Tty { inner }
    }

    /// Returns the driver. Makes no access.
    ///
    /// # Examples
    ///
    /// ```
    /// # include!(concat!(env!("CARGO_MANIFEST_DIR"), "/examples.rs"));
    /// # fn main() {}
    /// # fn example(terminal: &mut Uart16550Tty<Device>, fifo_enabled: bool) -> Outcome<()> {
    /// assert_eq!(terminal.inner().fifo_enabled(), fifo_enabled);
    /// # Ok(()) }
    /// ```
    ///
    /// # Proved
    ///
    /// - Returns [`inner_of`](crate::proved::tty#inner_of) `self.now`: the driver under a terminal.
    ///
    /// <details><summary>The clauses</summary>
    ///
    /// [How to read them](uart_spec::proved):
    ///
    /// ```text
    /// ensures { result.now ≡ inner_of self.now }
    /// ```
    ///
    /// </details>
    #[must_use]
    pub const fn inner(&self) -> &Uart16550<B> {
        &self.inner
    }

    /// Returns the driver, for its own calls: to receive, or to read a status. Makes no access
    /// itself.
    ///
    /// # Examples
    ///
    /// ```
    /// # include!(concat!(env!("CARGO_MANIFEST_DIR"), "/examples.rs"));
    /// # fn main() {}
    /// # fn example(terminal: &mut Uart16550Tty<Device>, mut slots: [u8; 2]) -> Outcome<()> {
    /// let uart = terminal.inner_mut();
    /// assert_eq!(uart.receive_bytes(&mut slots), 2);
    /// # Ok(()) }
    /// ```
    ///
    /// # Proved
    ///
    /// - *writes_back*: lends a part of it: what is changed there is changed here, and nothing else.
    /// - *value*: returns [`inner_of`](crate::proved::tty#inner_of) `self.old`: the driver under a terminal.
    ///
    /// <details><summary>The clauses</summary>
    ///
    /// [How to read them](uart_spec::proved):
    ///
    /// ```text
    /// ensures* writes_back { sem 𝓛 (Lends (the_row B.row) (driver_row B.row) self.entry result (λ d. record { inner = d })) }
    /// ensures value { result.now ≡ inner_of self.old }
    /// ```
    ///
    /// </details>
    pub const fn inner_mut(&mut self) -> &mut Uart16550<B> {
        &mut self.inner
    }

    /// Returns the driver. Makes no access.
    ///
    /// # Examples
    ///
    /// ```
    /// # include!(concat!(env!("CARGO_MANIFEST_DIR"), "/examples.rs"));
    /// # fn main() {}
    /// # fn example(terminal: Uart16550Tty<Device>) -> Outcome<()> {
    /// let uart = terminal.into_inner();
    /// # Ok(()) }
    /// ```
    ///
    /// # Proved
    ///
    /// - Returns [`inner_of`](crate::proved::tty#inner_of) `self`: the driver under a terminal.
    ///
    /// <details><summary>The clauses</summary>
    ///
    /// [How to read them](uart_spec::proved):
    ///
    /// ```text
    /// ensures { result ≡ inner_of self }
    /// ```
    ///
    /// </details>
    #[must_use]
    pub fn into_inner(self) -> Uart16550<B> {
        let Uart16550Tty { inner: uart } = self;
        uart
    }

    // Sends the expansion of a byte, and returns its length. Printable bytes have a branch of their
    // own, since most bytes of a text are printable, and that branch is short.
    #[inline(always)]
    fn send_expansion(&mut self, byte: u8) -> Result<usize, StalledError> {
        match byte {
            b' '..=b'~' => {
                self.inner.send_one(byte)?;
                Ok(1)
            }
            _ => {
                let expansion = expansion_of(byte);
                self.inner.send_singly(&expansion.bytes[..expansion.len])?;
                Ok(expansion.len)
            }
        }
    }

    /// Sends the expansion of the text byte by byte, and waits for room before each byte.
    ///
    /// Each wait makes at most `spin_limit` polls. Received bytes are not touched.
    ///
    /// # Errors
    ///
    /// `StalledError` after `spin_limit` unsuccessful polls in a row. `done` is the number of bytes
    /// of the expansion that were sent before that, or `usize::MAX` if there were more.
    ///
    /// # Examples
    ///
    /// ```
    /// # include!(concat!(env!("CARGO_MANIFEST_DIR"), "/examples.rs"));
    /// # fn main() {}
    /// # fn example(terminal: &mut Uart16550Tty<Device>) -> Outcome<()> {
    /// assert_eq!(terminal.write_text("\x7f"), Ok(()));
    /// # Ok(()) }
    /// ```
    ///
    /// # Proved
    ///
    /// - [Makes accesses as](crate::proved::tty#TerminalMade) [`SendsText`](crate::proved::expansion#SendsText) `text.now result`: the expansion of the text, byte by byte, each after its own wait; or a beginning of it, as long as the error reports, at most 2 ^ 64 - 1, and then a wait that reaches the limit.
    ///
    /// <details><summary>The clauses</summary>
    ///
    /// [How to read them](uart_spec::proved):
    ///
    /// ```text
    /// ensures { TerminalMade B.step (SendsText text.now result) self.old self.new }
    /// ```
    ///
    /// </details>
    pub fn write_text(&mut self, text: &str) -> Result<(), StalledError> {
        self.write_raw_text(text.as_bytes())
    }

    /// Sends the expansion of text that need not be UTF-8, as `write_text` does.
    ///
    /// This is for a console that passes on what others write, as the messages of a log in an older
    /// code.
    ///
    /// # Errors
    ///
    /// Those of `write_text`.
    ///
    /// # Examples
    ///
    /// ```
    /// # include!(concat!(env!("CARGO_MANIFEST_DIR"), "/examples.rs"));
    /// # fn main() {}
    /// # fn example(terminal: &mut Uart16550Tty<Device>) -> Outcome<()> {
    /// assert_eq!(terminal.write_raw_text(b"caf\xe9\n"), Ok(()));
    /// # Ok(()) }
    /// ```
    ///
    /// # Proved
    ///
    /// - [Makes accesses as](crate::proved::tty#TerminalMade) [`SendsText`](crate::proved::expansion#SendsText) `text.now result`: the expansion of the text, byte by byte, each after its own wait; or a beginning of it, as long as the error reports, at most 2 ^ 64 - 1, and then a wait that reaches the limit.
    ///
    /// <details><summary>The clauses</summary>
    ///
    /// [How to read them](uart_spec::proved):
    ///
    /// ```text
    /// ensures { TerminalMade B.step (SendsText text.now result) self.old self.new }
    /// ```
    ///
    /// </details>
    pub fn write_raw_text(&mut self, text: &[u8]) -> Result<(), StalledError> {
        // An expansion may be three times as long as its text. So its length need not fit into a
        // `usize`, and the count of a stall ends at the largest one.
        let mut done = 0_usize;
        for &byte in text {
            match self.send_expansion(byte) {
                Ok(count) => done = done.saturating_add(count),
                Err(stall) => {
                    let done = done.saturating_add(stall.done);
                    return Err(StalledError { done });
                }
            }
        }
        Ok(())
    }
}

impl<B: Backend> fmt::Write for Uart16550Tty<B> {
    /// Sends the expansion of the text as `write_text` does.
    ///
    /// # Errors
    ///
    /// `fmt::Error` if `write_text` failed. It does not report how many bytes were sent.
    fn write_str(&mut self, text: &str) -> fmt::Result {
        match self.write_text(text) {
            Ok(()) => Ok(()),
            // `fmt::Error` has no room for the count of a stall.
            Err(_) => Err(fmt::Error),
        }
    }
}
