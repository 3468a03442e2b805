//! The registers of a 16550: their offsets, their named bits and their fields.

use bitflags::Flags;

// Modules are named in words (`line_status` has `LSR`): a module and a type whose names differ in
// case alone cannot stand side by side. The named bits of all registers are in `bits`, and the
// codes of all fields in `codes`, since each is one table of one shape.
//
// A register is a plain struct over a byte, without a model, so that a clause reads its bits as
// `.0`. Code, clauses, definitions and proofs cite one constant for each bit and mask. Driver and
// chip share these, so a mistake here would hide in both. Numbers that were written by hand guard
// against that: the laws on constants and masks, the tables of named bits in the contracts of
// `Flags`, and tests with accesses from the datasheet's numbers.
mod bits;
mod codes;
mod divisors;
mod fifo_control;
mod fifo_trigger_level;
mod frame;
mod interrupt_enable;
mod interrupt_status;
mod interrupt_type;
mod line_control;
mod line_status;
mod modem_control;
mod modem_status;
pub mod offsets;
mod prescaler_division;

pub use divisors::Divisor;
pub use fifo_control::FCR;
pub use fifo_trigger_level::FifoTriggerLevel;
pub use frame::{Parity, WordLength};
pub use interrupt_enable::IER;
pub use interrupt_status::ISR;
pub use interrupt_type::InterruptType;
pub use line_control::LCR;
pub use line_status::LSR;
pub use modem_control::MCR;
pub use modem_status::MSR;
pub use prescaler_division::PSD;

/// Data register, offset 0 while DLAB is clear: a read takes a byte from the receiver (RBR), a
/// write gives one to the transmitter (THR).
pub type DATA = u8;

/// Scratch register (SPR), offset 7, which the chip keeps and does not use.
pub type SPR = u8;

/// Low byte of the divisor latch (DLL), offset 0 while DLAB is set.
pub type DLL = u8;

/// High byte of the divisor latch (DLM), offset 1 while DLAB is set.
pub type DLM = u8;

/// Returns these bits if the condition holds, else none.
#[must_use]
///
/// # Proved
///
/// - If `F.exact`: `F.set_of result ≡ flag on (F.set_of bits)`.
///   - [`flag`](crate::proved::bits#flag): these bits if the flag is set, else no bits.
///
/// <details><summary>The clauses</summary>
///
/// [How to read them](crate::proved):
///
/// ```text
/// ensures { F.exact → F.set_of result ≡ flag on (F.set_of bits) }
/// ```
///
/// </details>
pub fn flag<F: Flags>(on: bool, bits: F) -> F {
    if on { bits } else { F::empty() }
}

mod by_hand;
