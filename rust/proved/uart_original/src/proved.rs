//! Definitions of `uart_original`: what the interface of the original crate has otherwise than the driver.
//!
//! Each is one that a section "Proved" of a call names. How a section is read is said [here](uart_spec::proved).

/// What the original interface has otherwise than the driver. Each case of its errors is one of the driver's, which has stalls beside them.
///
/// From `crates/uart_original/specs/Original.antt`.
///
/// <span id="init_error"></span>
///
/// # `init_error`
///
/// The same of an initialisation.
///
/// ```text
/// abbrev pub init_error : OwnInitError → InitError
/// init_error own_init.DeviceNotPresent = init.DeviceNotPresent
/// init_error (own_init.InvalidBaudRate cause) = init.InvalidBaudRate (divisor_error cause)
/// ```
///
/// It uses `divisor_error` of this file.
///
/// <span id="loopback_error"></span>
///
/// # `loopback_error`
///
/// The same of a loopback test.
///
/// ```text
/// abbrev pub loopback_error : OwnLoopbackError → LoopbackError
/// loopback_error (own_loopback.SendError cause) = loopback.SendError cause
/// loopback_error (own_loopback.UnexpectedLoopbackByte expected actual) = loopback.UnexpectedLoopbackByte expected actual
/// loopback_error (own_loopback.UnexpectedLoopbackMsg expected actual) = loopback.UnexpectedLoopbackMsg expected actual
/// ```
///
/// <span id="IsStalledInit"></span>
///
/// # `IsStalledInit`
///
/// A wait of the initialisation ended, which the original does not know.
///
/// ```text
/// abbrev pub IsStalledInit : InitError → Type 0
/// IsStalledInit error = error ≡ init.Stalled
/// ```
///
/// <span id="IsStalledTest"></span>
///
/// # `IsStalledTest`
///
/// A wait of the loopback test ended, which the original does not know.
///
/// ```text
/// abbrev pub IsStalledTest : LoopbackError → Type 0
/// IsStalledTest error = error ≡ loopback.Stalled
/// ```
///
/// <span id="driver_dump"></span>
///
/// # `driver_dump`
///
/// A dump as the driver has it: the same registers.
///
/// ```text
/// abbrev pub driver_dump : OwnConfigRegisterDump → ConfigRegisterDump
/// driver_dump d = record {
///   ier = d.ier;
///   isr = d.isr;
///   lcr = d.lcr;
///   mcr = d.mcr;
///   lsr = d.lsr;
///   msr = d.msr;
///   spr = d.spr;
///   dll = d.dll;
///   dlm = d.dlm;
/// }
/// ```
///
/// <span id="HasBaudRate"></span>
///
/// # `HasBaudRate`
///
/// The divisor of a dump gives a whole baud rate.
///
/// ```text
/// abbrev pub HasBaudRate : Config → ConfigRegisterDump → Type 0
/// HasBaudRate config dump =
///     (rate : ℕ) × IsCheckedRate config.frequency (divisor_of dump) config.prescaler_division_factor (Ok rate)
/// ```
///
/// It uses [`IsCheckedRate`](uart_spec::proved::checked#IsCheckedRate), [`divisor_of`](uart_spec::proved::dump#divisor_of).
#[doc(alias("init_error", "loopback_error", "IsStalledInit", "IsStalledTest", "driver_dump", "HasBaudRate"))]
pub mod original {}
