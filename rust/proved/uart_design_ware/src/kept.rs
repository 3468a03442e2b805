//! Received characters that are kept until the driver reads them.

use bitflags::Flags;
use uart_spec::registers::LSR;

// How many received characters are kept while LCR is written.
pub(crate) const KEPT: usize = 64;

// A received character that is kept, with the errors that LSR showed for it.
#[derive(Clone, Copy, Debug)]
pub(crate) struct KeptCharacter {
    // The byte that was received.
    pub(crate) byte: u8,
    // Its errors, which LSR has not yet shown to the driver.
    pub(crate) errors: LSR,
}

// Characters in the order in which they were received.
// The first one is in the first cell. Taking it moves the others up, which costs 64 cells. Only a
// character that came in the course of a write of LCR is ever kept.
#[derive(Debug)]
pub(crate) struct KeptCharacters {
    cells: [KeptCharacter; KEPT],
    count: usize,
}

impl KeptCharacters {
    // Returns none.
    pub(crate) const fn new() -> Self {
        KeptCharacters {
            cells: [KeptCharacter {
                byte: 0,
                errors: LSR::from_bits_retain(0),
            }; KEPT],
            count: 0,
        }
    }

    // Returns whether there is room for no more.
    pub(crate) fn is_full(&self) -> bool {
        self.count == KEPT
    }

    // Returns whether there are none.
    pub(crate) fn is_empty(&self) -> bool {
        self.count == 0
    }

    // Adds a character behind the others.
    pub(crate) fn keep(&mut self, character: KeptCharacter) {
        self.cells[self.count] = character;
        self.count += 1;
    }

    // Takes the first one.
    pub(crate) fn pop(&mut self) -> Option<KeptCharacter> {
        if self.count == 0 {
            return None;
        }
        let first = self.cells[0];
        self.cells.rotate_left(1);
        self.count -= 1;
        Some(first)
    }

    // Takes the errors of the first one, which stays without them.
    pub(crate) fn take_errors(&mut self) -> Option<LSR> {
        if self.count == 0 {
            return None;
        }
        let errors = self.cells[0].errors;
        self.cells[0].errors = LSR::from_bits_retain(0);
        Some(errors)
    }

    // Takes all.
    pub(crate) fn clear(&mut self) {
        self.count = 0;
    }
}
