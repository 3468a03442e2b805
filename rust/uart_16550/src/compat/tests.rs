//! What no test from outside can see: how an `init` goes on that stalled, which takes 2^64 polls there.
extern crate std;

use super::finish_init;
use crate::native::backend::Backend;
use crate::native::spec::registers::{IER, offsets};
use crate::native::{Config, InitError, Uart16550};
use core::num::NonZeroU64;
use std::{vec, vec::Vec};

/// A device whose transmitter is empty at the poll with this number. It keeps its accesses.
struct Slow {
    polls: usize,
    scratch: u8,
    accesses: Vec<(char, u8, u8)>,
}

impl Backend for Slow {
    fn read(&mut self, register_offset: u8) -> u8 {
        let value = match usize::from(register_offset) {
            offsets::SPR => self.scratch,
            offsets::LSR => {
                self.polls = self.polls.saturating_sub(1);
                // An overrun, which is of the time before this `init`.
                if self.polls == 0 { 0x60 } else { 0x02 }
            }
            _ => 0xff,
        };
        self.accesses.push(('r', register_offset, value));
        value
    }

    fn write(&mut self, register_offset: u8, value: u8) {
        if usize::from(register_offset) == offsets::SPR {
            self.scratch = value;
        }
        self.accesses.push(('w', register_offset, value));
    }
}

/// Returns a driver over a device whose transmitter is empty at this poll, and what `init` returned.
fn initialised(polls: usize, limit: u64) -> (Uart16550<Slow>, Result<(), InitError>) {
    let mut uart = Uart16550::new_with_backend(Slow {
        polls,
        scratch: 0,
        accesses: vec![],
    });
    uart.set_spin_limit(NonZeroU64::new(limit).unwrap());
    let ended = uart.init(Config {
        interrupts: IER::DATA_READY,
        fifo_trigger_level: None,
        ..Config::DEFAULT
    });
    (uart, ended)
}

#[test]
fn an_init_that_stalled_goes_on() {
    for polls in 3..12 {
        let (once, ended) = initialised(polls, 1_000);
        assert_eq!(ended, Ok(()));
        // The first poll of these is the look for received bytes.
        for limit in 1..polls as u64 - 1 {
            let (mut stalled, ended) = initialised(polls, limit);
            assert_eq!(ended, Err(InitError::Stalled));
            finish_init(&mut stalled);
            assert_eq!(stalled.backend().accesses, once.backend().accesses);
            assert_eq!(stalled.config(), once.config());
            assert_eq!(stalled.fifo_enabled(), once.fifo_enabled());
            // No status bit of the time before is left.
            assert_eq!(stalled.lsr().bits(), 0x60);
        }
    }
}
