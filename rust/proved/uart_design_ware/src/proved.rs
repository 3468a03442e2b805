//! Definitions of `uart_design_ware`: a backend for chips of DesignWare that ignore writes while they are busy.
//!
//! Each is one that a section "Proved" of a call names. How a section is read is said [here](uart_spec::proved).

/// What the backend holds beside the registers.
///
/// From `crates/uart_design_ware/specs/Held.antt`.
///
/// <span id="registers_of"></span>
///
/// # `registers_of`
///
/// The registers of a backend.
///
/// ```text
/// abbrev pub registers_of : {R : Type 0} → DesignWare R → R
/// registers_of d = d.registers
/// ```
///
/// <span id="held"></span>
///
/// # `held`
///
/// What this backend holds beside the registers.
///
/// ```text
/// abbrev pub held : {R : Type 0} → DesignWare R → Held
/// held d = record {
///   patience = non_zero_u64_get d.patience;
///   kept = d.kept;
///   cleared = d.cleared.0;
///   line = d.line.0;
///   interrupts = d.interrupts.0;
///   fifo_control = d.fifo_control.0;
///   fault = d.fault;
/// }
/// ```
///
/// It uses `Held` of this file.
///
/// <span id="IsFresh"></span>
///
/// # `IsFresh`
///
/// A backend over these registers that has made no access.
///
/// ```text
/// pub record IsFresh {R : Type 0} (d : DesignWare R) (given : R) (patience : ℕ) : Type 0 where
///   pub registers : d.registers ≡ given
///   pub begins : held d ≡ record {
///     patience = patience;
///     kept = [];
///     cleared = 0;
///     line = 0;
///     interrupts = 0;
///     fifo_control = 0;
///     fault = None;
///   }
/// ```
///
/// It uses [`held`](crate::proved::held#held).
#[doc(alias("registers_of", "IsFresh"))]
pub mod held {}

/// What CPR shows, the component parameter register.
///
/// From `crates/uart_design_ware/specs/Parameters.antt`.
///
/// <span id="fifo_characters"></span>
///
/// # `fifo_characters`
///
/// How many characters the FIFOs hold: bits 16 to 23 have it in sixteens.
///
/// ```text
/// abbrev pub fifo_characters : (cpr : ℕ) → ℕ
/// fifo_characters cpr = 16 * (cpr / 65536 % 256)
/// ```
#[doc(alias("fifo_characters"))]
pub mod parameters {}
