//! The lines that a program begins with, for each kind of program: those that docs/CHOOSE.md shows. `tests/runs.rs` runs each.

#![no_std]

pub mod boot_loader;
pub mod firmware;
pub mod kernel;
pub mod monitor;
pub mod test_bench;
