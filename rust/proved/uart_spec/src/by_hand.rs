//! What is by hand in this crate, since it is of the crate's own types: errors as Rust has them, a backend that is borrowed, layouts of
//! registers that depend on the processor, and clocks as durations.

mod backend;
mod duration;
mod errors;
mod layout;
