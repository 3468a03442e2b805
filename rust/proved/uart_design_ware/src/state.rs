//! What the backend holds, its constructor, and single accesses.

use crate::fault::DesignWareFault;
use crate::kept::KeptCharacters;
use crate::registers::{DesignWareRegisters, USR};
use bitflags::Flags;
use std::num::NonZeroU64;
use uart_spec::registers::{FCR, IER, LCR, LSR, offsets};

/// The registers of a DesignWare UART, as a backend of the driver.
///
/// Such a chip differs from a 16550 in this, unless it was built to be compatible, and then nothing
/// here is needed and nothing goes wrong:
///
/// - It ignores a write of LCR while it is busy: while it sends, receives, or has received data.
///   Here each such write waits until USR says that the chip is not busy, and is read back. Data
///   that were received meanwhile are kept, at most 64 characters with their errors, and the
///   driver's next reads get them. Data that come while DLAB is set cannot be read. They are
///   discarded by a reset of the receiver, and LSR shows an overrun for it.
/// - It interrupts for such a write (busy detect). A read of ISR that finds this reads USR, which
///   ends it, and looks again.
/// - It may interrupt for a reception timeout while no data wait. A read of ISR that finds this,
///   while LSR shows neither data nor a break, reads RBR once, which ends it. A character that
///   comes between these two accesses is lost. Linux does the same.
///
/// No wait is longer than `patience`. After a [`fault`](Self::fault) the chip's interrupts are off,
/// whatever the driver writes to IER; only if DLAB could not be cleared, IER is out of reach and
/// stays as it was. While the chip has DLAB otherwise than the driver takes it to have, nothing
/// reaches offsets 0 and 1. So no divisor goes to the line. All that is over with the next write of
/// LCR that the chip takes, as by an `init`. The driver's calls return no error for a fault:
/// `check_configured` does, and `fault` says why.
///
/// # Examples
///
/// ```
/// # include!(concat!(env!("CARGO_MANIFEST_DIR"), "/examples.rs"));
/// # fn main() {}
/// # use facade::native::backend::{DesignWare, DesignWareMemory};
/// # fn example(registers: DesignWareMemory) -> Outcome<()> {
/// let patience = NonZeroU64::new(100_000).unwrap();
/// let mut uart = Uart16550::new_with_backend(DesignWare::new(registers, patience));
/// uart.init(Config::DEFAULT)?;
/// uart.check_configured(MCR::READY)?;
/// # Ok(()) }
/// ```
#[derive(Debug)]
pub struct DesignWare<R> {
    pub(crate) registers: R,
    pub(crate) patience: NonZeroU64,
    pub(crate) kept: KeptCharacters,
    // Errors that looks of this backend cleared in the chip, of what is not kept.
    pub(crate) cleared: LSR,
    // What the driver wrote last to LCR and IER, and to FCR without the bits that reset.
    pub(crate) line: LCR,
    pub(crate) interrupts: IER,
    pub(crate) fifo_control: FCR,
    pub(crate) fault: Option<DesignWareFault>,
}

impl<R: DesignWareRegisters> DesignWare<R> {
    /// Returns a backend over these registers. `patience` is how many times in a row it looks
    /// whether the chip is busy before a write of LCR has failed. Makes no access.
    ///
    /// A full FIFO and a character take about 17.7 ms at 9,600 baud.
    ///
    /// # Examples
    ///
    /// ```
    /// # use core::num::NonZeroU64;
    /// # use core::ptr::NonNull;
    /// # use facade::native::backend::{Backend, DesignWare, DesignWareMemory, RegisterLayout};
    /// # let mut cells = [0_u32; 32];
    /// # // SAFETY: nothing else accesses these bytes while the object lives.
    /// # let registers = unsafe { DesignWareMemory::new(NonNull::from(&mut cells).cast(), RegisterLayout::WORDS) }.unwrap();
    /// let patience = NonZeroU64::new(100_000).unwrap();
    /// let mut uart = DesignWare::new(registers, patience);
    /// assert_eq!(uart.read(5), 0);
    /// ```
    ///
    /// # Proved
    ///
    /// - [`IsFresh`](crate::proved::held#IsFresh) `result registers (non_zero_u64_get patience)`: a backend over these registers that has made no access.
    ///
    /// <details><summary>The clauses</summary>
    ///
    /// [How to read them](uart_spec::proved):
    ///
    /// ```text
    /// ensures { IsFresh result registers (non_zero_u64_get patience) }
    /// ```
    ///
    /// </details>
    #[must_use]
    pub const fn new(registers: R, patience: NonZeroU64) -> Self {
        DesignWare {
            registers,
            patience,
            kept: KeptCharacters::new(),
            cleared: LSR::from_bits_retain(0),
            line: LCR::from_bits_retain(0),
            interrupts: IER::from_bits_retain(0),
            fifo_control: FCR::from_bits_retain(0),
            fault: None,
        }
    }

    /// Returns what went wrong, if anything did since the last write of LCR that the chip took.
    ///
    /// # Examples
    ///
    /// ```
    /// # use core::num::NonZeroU64;
    /// # use core::ptr::NonNull;
    /// # use facade::native::backend::{Backend, DesignWare, DesignWareMemory, RegisterLayout};
    /// # let mut cells = [0_u32; 32];
    /// # // SAFETY: nothing else accesses these bytes while the object lives.
    /// # let registers = unsafe { DesignWareMemory::new(NonNull::from(&mut cells).cast(), RegisterLayout::WORDS) }.unwrap();
    /// # let mut uart = DesignWare::new(registers, NonZeroU64::MIN);
    /// // Memory takes each write of LCR.
    /// uart.write(3, 0x03);
    /// assert_eq!(uart.fault(), None);
    /// ```
    ///
    /// # Proved
    ///
    /// - Returns `(held self.now).fault`.
    ///   - [`held`](crate::proved::held#held): what this backend holds beside the registers.
    ///
    /// <details><summary>The clauses</summary>
    ///
    /// [How to read them](uart_spec::proved):
    ///
    /// ```text
    /// ensures { result ≡ (held self.now).fault }
    /// ```
    ///
    /// </details>
    #[must_use]
    pub const fn fault(&self) -> Option<DesignWareFault> {
        self.fault
    }

    /// Returns the registers, for accesses by the caller. What such accesses change is not noticed.
    ///
    /// # Examples
    ///
    /// ```
    /// # use core::num::NonZeroU64;
    /// # use core::ptr::NonNull;
    /// # use facade::native::backend::{Backend, DesignWare, DesignWareMemory, RegisterLayout};
    /// # let mut cells = [0_u32; 32];
    /// # // SAFETY: nothing else accesses these bytes while the object lives.
    /// # let registers = unsafe { DesignWareMemory::new(NonNull::from(&mut cells).cast(), RegisterLayout::WORDS) }.unwrap();
    /// # let mut uart = DesignWare::new(registers, NonZeroU64::MIN);
    /// uart.registers_mut().write(7, 0x5a);
    /// assert_eq!(uart.read(7), 0x5a);
    /// ```
    ///
    /// # Proved
    ///
    /// - *writes_back*: lends a part of it: what is changed there is changed here, and nothing else.
    /// - *value*: returns [`registers_of`](crate::proved::held#registers_of) `self.old`: the registers of a backend.
    ///
    /// <details><summary>The clauses</summary>
    ///
    /// [How to read them](uart_spec::proved):
    ///
    /// ```text
    /// ensures* writes_back { sem 𝓛 (Lends (the_row R.row) R.row self.entry result (λ r. record self.old { registers = r })) }
    /// ensures value { result.now ≡ registers_of self.old }
    /// ```
    ///
    /// </details>
    pub const fn registers_mut(&mut self) -> &mut R {
        &mut self.registers
    }

    // Reads a register.
    pub(crate) fn load(&mut self, offset: usize) -> u8 {
        assert!(offset < 8, "no register has this offset");
        self.registers.read(offset as u8)
    }

    // Writes a register.
    pub(crate) fn store(&mut self, offset: usize, value: u8) {
        assert!(offset < 8, "no register has this offset");
        self.registers.write(offset as u8, value);
    }

    // Reads USR.
    pub(crate) fn read_usr(&mut self) -> u8 {
        self.registers.read_usr()
    }

    // Reads LSR, and saves the errors that this clears.
    pub(crate) fn look(&mut self) -> LSR {
        let lsr = LSR::from_bits_retain(self.load(offsets::LSR));
        self.cleared.insert(lsr.intersection(LSR::LINE_ERRORS));
        lsr
    }
}
