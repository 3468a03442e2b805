//! How a device is initialised, beside its configuration, and how it is left; and how large its
//! FIFOs are.

use crate::baud::FIFO_SIZE;
use crate::registers::MCR;

/// When an initialisation waits until the transmitter is empty.
#[derive(Clone, Copy, Debug, PartialEq, Eq, Hash)]
pub enum TransmitterWait {
    /// Before the divisor and the frame are written. So no character is broken that is going out.
    /// A chip that ignores LCR while it is busy, as those of DesignWare, needs this.
    First,
    /// After everything but the interrupts is written, as `Uart16550::init` does. A character that
    /// is going out meanwhile gets the new divisor and frame in its middle.
    Last,
    /// Not at all. What is still going out stays in the transmitter, and may be broken.
    Never,
}

/// What an initialisation does beside writing the configuration, for `Uart16550::init_with`.
///
/// # Examples
///
/// ```
/// # use uart_16550::native::{*, spec::*};
/// # use uart_16550::spec::registers::MCR;
/// // A chip without a scratch register, whose remote is not to be told yet that we are ready.
/// let setup = Setup {
///     checks_presence: false,
///     outputs: MCR::OUT_2_INT_ENABLE,
///     ..Setup::DEFAULT
/// };
/// ```
#[derive(Clone, Copy, Debug, PartialEq, Eq, Hash)]
pub struct Setup {
    /// Whether the scratch register is tested first. A chip without one does not pass the test.
    pub checks_presence: bool,
    /// When to wait until the transmitter is empty.
    pub wait: TransmitterWait,
    /// The outputs to the modem that are asserted; the others are clear. `LOOP_BACK` is left out.
    pub outputs: MCR,
}

impl Setup {
    /// As `Uart16550::init` does: the scratch register is tested, the wait comes last, and DTR, RTS
    /// and OUT2 are asserted.
    pub const DEFAULT: Setup = Setup {
        checks_presence: true,
        wait: TransmitterWait::Last,
        outputs: MCR::READY,
    };
}

/// What becomes of the FIFOs when a port is left, for `Uart16550::quiesce`.
#[derive(Clone, Copy, Debug, PartialEq, Eq, Hash)]
pub enum FifoAction {
    /// They stay as they are: what waits in the transmitter goes out, and what was received waits.
    Keep,
    /// Both are emptied, and stay on if they are on.
    Reset,
    /// Both are emptied and turned off.
    Disable,
}

/// How many characters each FIFO of a chip holds, for `Uart16550::set_fifo_size`, by which all
/// calls that send and the rings go, and for one `Uart16550::send_burst`.
///
/// A 16550 has 16. No register that all chips have shows the size, so it is taken from the
/// datasheet, or `Uart16550::find_fifo_size` finds it. A 16750 has 64 after
/// `Uart16550::enable_64_byte_fifos`. If a size is given that is larger than the chip's, bytes are
/// lost.
///
/// # Examples
///
/// ```
/// # use uart_16550::native::{*, spec::*};
/// assert_eq!(FifoSize::SixtyFour.characters(), 64);
/// ```
#[derive(Clone, Copy, Debug, PartialEq, Eq, PartialOrd, Ord, Hash, Default)]
pub enum FifoSize {
    /// 16, as a 16550 has them.
    #[default]
    Sixteen,
    /// 32, as a 16650 has them.
    ThirtyTwo,
    /// 64, as a 16750 has them.
    SixtyFour,
    /// 128, as a 16950 has them.
    OneHundredTwentyEight,
    /// 256.
    TwoHundredFiftySix,
}

impl FifoSize {
    /// Returns the number of characters.
    ///
    /// # Proved
    ///
    /// - Returns [`characters`](crate::proved::fifo_size#characters) `self`: the number of characters of a FIFO of this size.
    ///
    /// <details><summary>The clauses</summary>
    ///
    /// [How to read them](crate::proved):
    ///
    /// ```text
    /// ensures { result ≡ characters self }
    /// ```
    ///
    /// </details>
    #[must_use]
    pub fn characters(self) -> usize {
        match self {
            FifoSize::Sixteen => FIFO_SIZE,
            FifoSize::ThirtyTwo => 32,
            FifoSize::SixtyFour => 64,
            FifoSize::OneHundredTwentyEight => 128,
            FifoSize::TwoHundredFiftySix => 256,
        }
    }

    /// Returns the largest size of no more than so many characters, or `None` if there is none.
    ///
    /// So a burst of the size that is returned is safe on a chip that holds so many.
    ///
    /// # Examples
    ///
    /// ```
    /// # use uart_16550::native::{*, spec::*};
    /// assert_eq!(FifoSize::largest_up_to(63), Some(FifoSize::ThirtyTwo));
    /// assert_eq!(FifoSize::largest_up_to(15), None);
    /// ```
    ///
    /// # Proved
    ///
    /// - [`IsLargestUpTo`](crate::proved::fifo_size#IsLargestUpTo) `characters result`: the largest size of no more than so many characters; none, if the smallest has more.
    ///
    /// <details><summary>The clauses</summary>
    ///
    /// [How to read them](crate::proved):
    ///
    /// ```text
    /// ensures { IsLargestUpTo characters result }
    /// ```
    ///
    /// </details>
    #[must_use]
    pub fn largest_up_to(characters: usize) -> Option<FifoSize> {
        match characters {
            0..=15 => None,
            16..=31 => Some(FifoSize::Sixteen),
            32..=63 => Some(FifoSize::ThirtyTwo),
            64..=127 => Some(FifoSize::SixtyFour),
            128..=255 => Some(FifoSize::OneHundredTwentyEight),
            _ => Some(FifoSize::TwoHundredFiftySix),
        }
    }
}
