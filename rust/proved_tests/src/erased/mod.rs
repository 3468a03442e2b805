//! Made by `tools/eraser/erase emit` from the tests in `crates/`. Do not edit.
#![allow(warnings)]

mod uart_calls;
