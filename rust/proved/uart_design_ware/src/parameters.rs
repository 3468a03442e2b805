//! What CPR shows, the register of how a DesignWare UART was built.

use uart_spec::FifoSize;

// The lowest bit of the field FIFO_MODE, which has the size of the FIFOs in 16 characters.
const FIFO_MODE: u32 = 0x0001_0000;

/// Returns the size of the FIFOs that a value of CPR shows, the component parameter register: the
/// largest `FifoSize` of no more characters, which is safe in `Uart16550::set_fifo_size` and
/// `send_burst`.
///
/// CPR is at 0xF4, and all of its 32 bits are needed. Bits 16 to 23 are the size in 16 characters:
/// 0x80 is a FIFO of 2,048, of which 256 are used. The result is `None` if they are 0. Then the
/// chip has no FIFOs, or it was built without CPR, which reads as 0 then:
/// `Uart16550::find_fifo_size` finds out.
///
/// # Examples
///
/// ```
/// # use facade::native::FifoSize;
/// # use facade::native::backend::fifo_size_of;
/// assert_eq!(fifo_size_of(0x0004_3f32), Some(FifoSize::SixtyFour));
/// assert_eq!(fifo_size_of(0), None);
/// ```
#[must_use]
///
/// # Proved
///
/// - [`IsLargestUpTo`](uart_spec::proved::fifo_size#IsLargestUpTo) `(fifo_characters cpr) result`: the largest size of no more than so many characters; none, if the smallest has more.
///   - [`fifo_characters`](crate::proved::parameters#fifo_characters): how many characters the FIFOs hold: bits 16 to 23 have it in sixteens.
///
/// <details><summary>The clauses</summary>
///
/// [How to read them](uart_spec::proved):
///
/// ```text
/// ensures { IsLargestUpTo (fifo_characters cpr) result }
/// ```
///
/// </details>
pub fn fifo_size_of(cpr: u32) -> Option<FifoSize> {
    let mode = (cpr / FIFO_MODE % 256) as u16;
    let characters = 16 * mode;
    FifoSize::largest_up_to(characters as usize)
}
