#![cfg_attr(not(feature = "compat"), doc = include_str!("../README.md"))]
#![cfg_attr(feature = "compat", doc = include_str!("../COMPAT.md"))]
#![no_std]
#![deny(unsafe_code)]
#![deny(missing_docs)]

mod access;
#[cfg(feature = "compat")]
pub mod compat;
pub mod discovery;
pub mod emergency;
#[cfg(all(feature = "compat", feature = "embedded-io"))]
mod io;
pub mod native;
pub mod ring;
pub mod rs485;
#[cfg(target_has_atomic = "8")]
pub mod shared;

#[cfg(feature = "compat")]
#[doc(inline)]
pub use compat::*;
pub use geesetrunk_kit::{Bits, Flag, Flags};
// For links of the documentation.
#[cfg(feature = "compat")]
#[allow(unused_imports)]
use native::embedded_io;
#[cfg(not(feature = "compat"))]
#[doc(inline)]
pub use native::*;

/// The definitions that the sections "Proved" cite: what each name there means. No code is in it.
///
/// Start with [`spec`](proved::spec), which says how a section is read.
pub mod proved {
    #[doc(inline)]
    pub use uart_design_ware::proved as design_ware;
    #[doc(inline)]
    pub use uart_discovery::proved as discovery;
    #[doc(inline)]
    pub use uart_driver::proved as driver;
    #[doc(inline)]
    pub use uart_ring::proved as rings;
    #[doc(inline)]
    pub use uart_rs485::proved as rs485;
    #[doc(inline)]
    pub use uart_spec::proved as spec;
}
