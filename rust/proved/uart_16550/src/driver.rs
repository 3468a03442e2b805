//! The driver: its fields, its constructor, and one function for each kind of register access.

mod burst;
mod checked;
mod configured;
mod enabling;
mod frame;
mod init;
mod loopback;
mod patient;
mod receive;
mod setup;
mod sizing;
mod state;
mod status;
mod transmit;

use crate::backend::Backend;
use bitflags::Flags;
pub use state::DriverState;
use std::num::NonZeroU64;
use uart_spec::registers::{LSR, MSR, offsets};
use uart_spec::{Config, FifoSize};

/// The spin limit of a new driver: how many unsuccessful polls in a row a wait makes before it
/// returns an error.
pub const DEFAULT_SPIN_LIMIT: u64 = 1_000_000;

/// A driver for one serial chip of the 16550 family, over any backend.
///
/// Construct it with `new_port`, `new_mmio` or `new_with_backend`, and call `init` before any other
/// call, or `attach` on a port that is set up already. `test_loopback` then tests whether the chip
/// works, and `check_connected` whether a remote is ready.
///
/// No call blocks forever. `init`, `init_with`, `test_loopback`, `find_fifo_size`,
/// `enable_64_byte_fifos`, `set_frame_when_idle`, `send_bytes_exact`, `receive_bytes_exact`, and
/// the calls `read`, `write` and `flush` of the traits in [`embedded_io`](crate::embedded_io) poll
/// LSR, and return an error after `spin_limit` unsuccessful polls in a row. The other calls do not
/// wait.
///
/// A read of LSR clears its error bits in the chip, and a read of MSR its change bits. The driver
/// saves those that its own reads clear, and the next `lsr` or `msr` returns them. So a poll loses
/// no error and no change. `init`, the loopback test and `find_fifo_size` discard some.
///
/// # Examples
///
/// ```
/// # include!(concat!(env!("CARGO_MANIFEST_DIR"), "/examples.rs"));
/// # fn main() {}
/// # fn example(uart: &mut Uart16550<Device>) -> Outcome<()> {
/// uart.init(Config::DEFAULT)?;
/// uart.test_loopback()?;
/// uart.check_connected()?;
/// # Ok(()) }
/// ```
// There is no model of a driver: over a generic backend each access of a field would cost the
// prover a rewrite. Clauses speak of the fields by words over them, such as `fields`, `settings`
// and `backend_of`.
#[repr(C)]
#[derive(Debug)]
pub struct Uart16550<B> {
    backend: B,
    config: Config,
    fifo_enabled: bool,
    // What the program knows of the chip, as the spin limit is: no access changes it.
    fifo_size: FifoSize,
    saved_lsr: LSR,
    saved_msr: MSR,
    spin_limit: NonZeroU64,
}

impl<B: Backend> Uart16550<B> {
    /// Returns a driver over this backend.
    ///
    /// Makes no access: call `init` before any other call, or `attach`. Until then the
    /// configuration is `Config::DEFAULT`, no status bits are saved, and the FIFO is taken to be
    /// on. So a send before may write 16 bytes into a chip without a FIFO, which keeps one of them.
    /// The size of the FIFOs is `FifoSize::Sixteen`, until `set_fifo_size` sets another.
    ///
    /// # Examples
    ///
    /// ```
    /// # include!(concat!(env!("CARGO_MANIFEST_DIR"), "/examples.rs"));
    /// # fn main() {}
    /// # struct Console { shown: ArrayVec }
    /// # struct ArrayVec;
    /// # impl ArrayVec { fn new() -> Self { ArrayVec } }
    /// # impl Backend for Console {
    /// #     fn read(&mut self, _: u8) -> u8 { 0 }
    /// #     fn write(&mut self, _: u8, _: u8) {}
    /// # }
    /// # fn example() -> Outcome<()> {
    /// let mut uart = Uart16550::new_with_backend(Console {
    ///     shown: ArrayVec::new(),
    /// });
    /// # Ok(()) }
    /// ```
    ///
    /// # Proved
    ///
    /// - [`IsFresh`](crate::proved::driver#IsFresh) `result backend Config.DEFAULT`: a driver over this backend that has made no access: FIFO treated as on, and of 16 characters, nothing saved, limit 1,000,000.
    ///
    /// <details><summary>The clauses</summary>
    ///
    /// [How to read them](uart_spec::proved):
    ///
    /// ```text
    /// ensures { IsFresh result backend Config.DEFAULT }
    /// ```
    ///
    /// </details>
    #[must_use]
    pub const fn new_with_backend(backend: B) -> Self {
        Uart16550 {
            backend,
            config: Config::DEFAULT,
            fifo_enabled: true,
            fifo_size: FifoSize::Sixteen,
            saved_lsr: LSR::from_bits_retain(0),
            saved_msr: MSR::from_bits_retain(0),
            spin_limit: NonZeroU64::new(DEFAULT_SPIN_LIMIT).unwrap(),
        }
    }

    /// Returns the backend, to read its state. Makes no access.
    ///
    /// # Examples
    ///
    /// ```
    /// # include!(concat!(env!("CARGO_MANIFEST_DIR"), "/examples.rs"));
    /// # fn main() {}
    /// # fn example(uart: &mut Uart16550<Device>) -> Outcome<()> {
    /// assert_eq!(uart.backend().shown.as_slice(), b"hello".as_slice());
    /// # Ok(()) }
    /// ```
    ///
    /// # Proved
    ///
    /// - Returns [`backend_of`](crate::proved::driver#backend_of) `self.now`: the backend of a driver, which makes its accesses.
    ///
    /// <details><summary>The clauses</summary>
    ///
    /// [How to read them](uart_spec::proved):
    ///
    /// ```text
    /// ensures { result.now ≡ backend_of self.now }
    /// ```
    ///
    /// </details>
    #[must_use]
    pub const fn backend(&self) -> &B {
        &self.backend
    }

    /// Returns the backend, for raw accesses by the caller. Makes no access itself.
    ///
    /// Raw accesses bypass the driver: status bits that they clear are not saved, and the driver
    /// does not notice what they change. After raw accesses that changed the setup of the chip,
    /// call `init` again with a configuration that matches.
    ///
    /// # Examples
    ///
    /// ```
    /// # include!(concat!(env!("CARGO_MANIFEST_DIR"), "/examples.rs"));
    /// # fn main() {}
    /// # fn example(uart: &mut Uart16550<Device>) -> Outcome<()> {
    /// uart.backend_mut().write(offsets::SPR as u8, 0x5a);
    /// # Ok(()) }
    /// ```
    ///
    /// # Proved
    ///
    /// - *writes_back*: lends a part of it: what is changed there is changed here, and nothing else.
    /// - *value*: returns [`backend_of`](crate::proved::driver#backend_of) `self.old`: the backend of a driver, which makes its accesses.
    ///
    /// <details><summary>The clauses</summary>
    ///
    /// [How to read them](uart_spec::proved):
    ///
    /// ```text
    /// ensures* writes_back { sem 𝓛 (Lends (the_row B.row) B.row self.entry result (λ b. record self.old { backend = b })) }
    /// ensures value { result.now ≡ backend_of self.old }
    /// ```
    ///
    /// </details>
    pub const fn backend_mut(&mut self) -> &mut B {
        &mut self.backend
    }

    /// Returns the configuration of the last `init`, with the interrupts as they were enabled and
    /// disabled since, and with the clock, the baud rate and the frame of the last `set_frame`
    /// since. Makes no access.
    ///
    /// If that `init` failed with `InvalidBaudRate`, it is the configuration before it. If it
    /// failed with `DeviceNotPresent` or `Stalled`, it is the new one.
    ///
    /// # Examples
    ///
    /// ```
    /// # include!(concat!(env!("CARGO_MANIFEST_DIR"), "/examples.rs"));
    /// # fn main() {}
    /// # fn example(uart: &mut Uart16550<Device>) -> Outcome<()> {
    /// uart.enable_interrupts(IER::THR_EMPTY);
    /// assert_eq!(
    ///     uart.config().interrupts,
    ///     IER::DATA_READY.union(IER::THR_EMPTY)
    /// );
    /// # Ok(()) }
    /// ```
    ///
    /// # Proved
    ///
    /// - Returns `(fields self.now).config`.
    ///   - [`fields`](crate::proved::driver#fields): what this driver holds beside its backend.
    ///
    /// <details><summary>The clauses</summary>
    ///
    /// [How to read them](uart_spec::proved):
    ///
    /// ```text
    /// ensures { result.now ≡ (fields self.now).config }
    /// ```
    ///
    /// </details>
    #[must_use]
    pub const fn config(&self) -> &Config {
        &self.config
    }

    /// Returns whether the chip has a FIFO that is on, as the last call that sets the FIFO up read
    /// it from ISR: `init`, `init_with`, `attach`, `test_loopback`, `find_fifo_size` or `restore`.
    /// After a `quiesce` that disables the FIFOs it is off. Makes no access.
    ///
    /// A driver that was never initialised takes the FIFO to be on. If it is on, a send check is
    /// followed by up to as many bytes as `fifo_size` says, else by one.
    ///
    /// # Examples
    ///
    /// ```
    /// # include!(concat!(env!("CARGO_MANIFEST_DIR"), "/examples.rs"));
    /// # fn main() {}
    /// # fn example(uart: &mut Uart16550<Device>) -> Outcome<()> {
    /// assert_eq!(uart.fifo_enabled(), true);
    /// # Ok(()) }
    /// ```
    ///
    /// # Proved
    ///
    /// - Returns `(fields self.now).fifo`.
    ///   - [`fields`](crate::proved::driver#fields): what this driver holds beside its backend.
    ///
    /// <details><summary>The clauses</summary>
    ///
    /// [How to read them](uart_spec::proved):
    ///
    /// ```text
    /// ensures { result ≡ (fields self.now).fifo }
    /// ```
    ///
    /// </details>
    #[must_use]
    pub const fn fifo_enabled(&self) -> bool {
        self.fifo_enabled
    }

    /// Returns which size the FIFOs are taken to have: 16 characters, or what `set_fifo_size` set
    /// last. Makes no access.
    ///
    /// # Examples
    ///
    /// ```
    /// # include!(concat!(env!("CARGO_MANIFEST_DIR"), "/examples.rs"));
    /// # fn main() {}
    /// # fn example(uart: &mut Uart16550<Device>) -> Outcome<()> {
    /// assert_eq!(uart.fifo_size(), FifoSize::Sixteen);
    /// # Ok(()) }
    /// ```
    ///
    /// # Proved
    ///
    /// - Returns `(fields self.now).size`.
    ///   - [`fields`](crate::proved::driver#fields): what this driver holds beside its backend.
    ///
    /// <details><summary>The clauses</summary>
    ///
    /// [How to read them](uart_spec::proved):
    ///
    /// ```text
    /// ensures { result ≡ (fields self.now).size }
    /// ```
    ///
    /// </details>
    #[must_use]
    pub const fn fifo_size(&self) -> FifoSize {
        self.fifo_size
    }

    /// Sets which size the FIFOs are taken to have. Makes no access, and changes nothing else.
    ///
    /// From then on all that sends puts as many bytes into one burst as such a FIFO holds, if
    /// `fifo_enabled`. So a larger size takes fewer looks and fewer interrupts for the same bytes.
    /// No other call changes the size: `init` and `attach` keep it.
    ///
    /// The size is taken on trust. If it is larger than the chip's, the bytes that do not fit are
    /// lost, and nothing tells. Some chips hold more than 16 characters only after they were told:
    /// a 16750 by `enable_64_byte_fifos`, others by a register of their own. `find_fifo_size` finds
    /// the size of FIFOs as they are set up; a chip of DesignWare may show it in CPR.
    ///
    /// # Examples
    ///
    /// ```
    /// # include!(concat!(env!("CARGO_MANIFEST_DIR"), "/examples.rs"));
    /// # fn main() {}
    /// # fn example(uart: &mut Uart16550<Device>, bytes: &[u8]) -> Outcome<()> {
    /// let size = uart.find_fifo_size()?;
    /// uart.set_fifo_size(size);
    /// uart.send_bytes_exact(bytes)?;
    /// # Ok(()) }
    /// ```
    ///
    /// # Proved
    ///
    /// - [Does as](crate::proved::driver#Did) [`Sets`](crate::proved::driver#Sets) `(with_fifo_size size)`: no access, and this change to the fields.
    ///   - [`with_fifo_size`](crate::proved::driver#with_fifo_size): the fields of a driver that takes the FIFO to have this size.
    ///
    /// <details><summary>The clauses</summary>
    ///
    /// [How to read them](uart_spec::proved):
    ///
    /// ```text
    /// ensures { Did B.step (Sets (with_fifo_size size)) self.old self.new }
    /// ```
    ///
    /// </details>
    pub const fn set_fifo_size(&mut self, size: FifoSize) {
        self.fifo_size = size;
    }

    /// Returns how many unsuccessful polls in a row a wait makes before it returns an error. Makes
    /// no access.
    ///
    /// # Examples
    ///
    /// ```
    /// # include!(concat!(env!("CARGO_MANIFEST_DIR"), "/examples.rs"));
    /// # fn main() {}
    /// # fn example(uart: &mut Uart16550<Device>) -> Outcome<bool> {
    /// # Ok({
    /// uart.spin_limit().get() == 7
    /// # }) }
    /// ```
    ///
    /// # Proved
    ///
    /// - `non_zero_u64_get result ≡ (fields self.now).limit`.
    ///   - [`fields`](crate::proved::driver#fields): what this driver holds beside its backend.
    ///
    /// <details><summary>The clauses</summary>
    ///
    /// [How to read them](uart_spec::proved):
    ///
    /// ```text
    /// ensures { non_zero_u64_get result ≡ (fields self.now).limit }
    /// ```
    ///
    /// </details>
    #[must_use]
    pub const fn spin_limit(&self) -> NonZeroU64 {
        self.spin_limit
    }

    /// Sets how many unsuccessful polls in a row a wait makes before it returns an error. Makes no
    /// access, and changes nothing else.
    ///
    /// Choose it by the time of one poll: at 9,600 baud a full FIFO of 16 and the shift register
    /// hold 17 characters of 10 bits, which take about 17.7 ms to send. A larger FIFO takes as much
    /// longer as it is larger. A limit near 2^64 is a wait without end in practice: at a
    /// microsecond a poll it takes more than half a million years.
    ///
    /// # Examples
    ///
    /// ```
    /// # include!(concat!(env!("CARGO_MANIFEST_DIR"), "/examples.rs"));
    /// # fn main() {}
    /// # fn example(uart: &mut Uart16550<Device>) -> Outcome<()> {
    /// uart.set_spin_limit(NonZeroU64::new(200).unwrap());
    /// # Ok(()) }
    /// ```
    ///
    /// # Proved
    ///
    /// - [Does as](crate::proved::driver#Did) [`Sets`](crate::proved::driver#Sets) `(with_limit (non_zero_u64_get limit))`: no access, and this change to the fields.
    ///   - [`with_limit`](crate::proved::driver#with_limit): the fields with this spin limit.
    ///
    /// <details><summary>The clauses</summary>
    ///
    /// [How to read them](uart_spec::proved):
    ///
    /// ```text
    /// ensures { Did B.step (Sets (with_limit (non_zero_u64_get limit))) self.old self.new }
    /// ```
    ///
    /// </details>
    pub const fn set_spin_limit(&mut self, limit: NonZeroU64) {
        self.spin_limit = limit;
    }

    // The five functions below make all accesses but the writes of data (`write_byte`). So what is
    // saved is decided here and nowhere else.

    // Reads a register of which no bits are saved.
    pub(crate) fn read_register(&mut self, offset: usize) -> u8 {
        self.backend.read(offset as u8)
    }

    // Reads LSR, and saves the errors that the read clears in the chip.
    pub(crate) fn read_lsr(&mut self) -> LSR {
        let lsr = LSR::from_bits_retain(self.backend.read(offsets::LSR as u8));
        self.saved_lsr.insert(lsr.intersection(LSR::LINE_ERRORS));
        lsr
    }

    // Reads MSR, and saves the changes that the read clears in the chip.
    pub(crate) fn read_msr(&mut self) -> MSR {
        let msr = MSR::from_bits_retain(self.backend.read(offsets::MSR as u8));
        self.saved_msr.insert(msr.intersection(MSR::CHANGES));
        msr
    }

    // Reads a register, and saves none of its bits.
    pub(crate) fn read_plain(&mut self, offset: usize) -> u8 {
        self.backend.read(offset as u8)
    }

    // Writes a register.
    pub(crate) fn write_register(&mut self, offset: usize, value: u8) {
        self.backend.write(offset as u8, value);
    }
}
