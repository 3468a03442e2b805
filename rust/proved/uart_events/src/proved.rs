//! Definitions of `uart_events`: what happens to a chip from outside, as plain data.
//!
//! Each is one that a section "Proved" of a call names. How a section is read is said [here](uart_spec::proved).

/// Which machines can be built, and why others are refused.
///
/// From `crates/uart_events/specs/Build.antt`.
///
/// <span id="is_arrival"></span>
///
/// # `is_arrival`
///
/// The event is an arrival.
///
/// ```text
/// abbrev pub is_arrival : Event → Bool
/// is_arrival (Arrive byte errors) = true
/// is_arrival _ = false
/// ```
///
/// <span id="refusal"></span>
///
/// # `refusal`
///
/// Why no machine is built, however much memory there is: the first reason in the order ticks, wire, errors, lines.
///
/// ```text
/// abbrev pub refusal : ℕ → ℕ → List Event → Option BuildError
/// refusal char_ticks capacity events =
///     let errors = option_map BadErrors (position has_bad_errors events) in
///     let lines = option_map BadLines (position has_bad_lines events) in
///     if not (nat_le 1 char_ticks && nat_le char_ticks MAX_CHAR_TICKS) then Some BadTicks
///     else if nat_lt MAX_WIRE_CAPACITY capacity then Some BadWire
///     else option_or errors lines
/// ```
///
/// It uses `has_bad_errors`, `has_bad_lines` of this file.
#[doc(alias("is_arrival", "refusal"))]
pub mod build {}
