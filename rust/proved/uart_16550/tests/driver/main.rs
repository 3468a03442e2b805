//! Tests of the driver: what no contract states, as examples from outside.
//!
//! Rows of calls, with their answers and whole lists of accesses, are tables in the terms of
//! [`driving`].

mod address;
mod always;
mod bursts;
mod bytes;
mod calls;
mod changes;
mod configured;
mod counts;
mod devices;
mod driving;
mod enabling;
mod init;
mod lists;
mod looks;
mod loopback;
mod patient;
mod setup;
mod sizing;
mod states;
mod terminal;
