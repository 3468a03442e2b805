//! The tests that are in Rattle, as Rust tests. Those that are Rust already are in `tests` of their packages.
//!
//! `erased` is made by `tools/eraser/erase emit`. By hand is what the tests use of the kit's runtime (`runtime`).
#![cfg(test)]

mod erased;
mod runtime;
