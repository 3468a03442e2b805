//! Puts a serial device into a machine of QEMU as its COM1, with a terminal at its other end that is a part of the machine too.
//!
//! So a run depends on nothing but the guest: with `-icount` its time is counted in instructions, and a busy host changes neither what
//! happens nor what is counted. A device of any crate is one, by the trait [`Device`].

#![cfg(all(target_os = "linux", target_arch = "x86_64"))]

pub mod chip;
mod machine;
pub mod qemu;
pub mod sessions;
pub mod terminal;
pub mod wire;

pub use machine::{Device, Interrupt, run};

/// Has a library call this function once QEMU has made its machine: it is loaded before QEMU.
#[macro_export]
macro_rules! when_made {
    ($call:expr) => {
        /// Is called when the library is loaded.
        #[used]
        #[unsafe(link_section = ".init_array")]
        static WHEN_LOADED: extern "C" fn() = {
            extern "C" fn when_loaded() {
                $crate::qemu::when_made($call);
            }
            when_loaded
        };
    };
}
