//! The addresses of a chip: which register an address reaches.

use crate::text::counted;
use std::fmt::Write;
use uart_spec::NUM_REGISTERS;

/// The most bytes from one register to the next.
pub const MOST_STRIDE: u64 = 65_536;

/// The first port of COM1 on a PC.
const COM1: u64 = 0x3f8;

/// Where the chip is.
#[derive(Clone, Copy, Debug, Default, PartialEq, Eq)]
pub struct Window {
    /// The address of its first register in memory.
    pub base: Option<u64>,
    /// The bytes from one register to the next, if it is not one.
    pub stride: Option<u64>,
    /// Its first I/O port.
    pub port: Option<u64>,
    /// The number of its interrupt, as the interrupt controller has it.
    pub interrupt: Option<u64>,
}

/// What an address is.
#[derive(Clone, Copy, Debug, PartialEq, Eq)]
pub enum Reached {
    /// A register of the chip.
    Register(usize),
    /// Between two of its registers.
    Between,
    /// Another device.
    Other,
}

impl Window {
    /// Returns whether nothing is said about addresses.
    pub fn is_unknown(&self) -> bool {
        self.base.is_none() && self.port.is_none()
    }

    // Returns what an address reaches in a chip that begins there.
    fn reached(&self, first: u64, address: u64) -> Reached {
        let stride = self.stride.unwrap_or(1);
        let Some(distance) = address.checked_sub(first) else {
            return Reached::Other;
        };
        let offset = distance / stride;
        if offset >= NUM_REGISTERS as u64 {
            Reached::Other
        } else if distance % stride != 0 {
            Reached::Between
        } else {
            Reached::Register(offset as usize)
        }
    }

    /// Returns what an I/O port is. Without a port or a base the chip is COM1.
    pub fn port(&self, port: u64) -> Reached {
        let first = match (self.port, self.base) {
            (Some(first), _) => first,
            (None, Some(_)) => return Reached::Other,
            (None, None) => COM1,
        };
        // A port has one byte: a stride is that of memory.
        Window::default().reached(first, port)
    }

    /// Returns what an address of memory is.
    pub fn memory(&self, address: u64) -> Reached {
        match self.base {
            Some(first) => self.reached(first, address),
            None => Reached::Other,
        }
    }

    /// Returns what a number is that may be an offset, an address of memory or a port. If no address is known, it is an offset.
    pub fn any(&self, number: u64) -> Reached {
        match (self.base, self.port) {
            (Some(first), _) => self.reached(first, number),
            (None, Some(first)) => Window::default().reached(first, number),
            (None, None) => self.reached(0, number),
        }
    }
}

// The most groups of addresses that are told of.
const MOST_GROUPS: usize = 6;

/// What was seen in a log: how much of it is of the chip, and what else was accessed.
#[derive(Clone, Debug, Default, PartialEq, Eq)]
pub struct Seen {
    /// How many of its lines are of the chip.
    pub of_chip: u64,
    /// How many others say something, which is left out.
    pub left_out: u64,
    // The first addresses of eight registers, each with how often it was accessed.
    others: Vec<(u64, u64)>,
}

impl Seen {
    /// Counts an access of another device.
    pub fn count_other(&mut self, address: u64) {
        let first = address - address % NUM_REGISTERS as u64;
        if let Some(group) = self.others.iter_mut().find(|group| group.0 == first) {
            group.1 += 1;
        } else if self.others.len() < MOST_GROUPS {
            self.others.push((first, 1));
        }
    }

    /// Returns what else was accessed, as the end of a sentence, or an empty text if nothing was.
    pub fn others(&self) -> String {
        let mut text = String::new();
        for (index, (first, times)) in self.others.iter().enumerate() {
            let before = if index == 0 {
                ". Other addresses were accessed: "
            } else {
                ", "
            };
            let _ = write!(text, "{before}{first:#x} ({})", counted(*times, "time"));
        }
        if !text.is_empty() {
            text += ". Say where the chip is by --port or --base";
        }
        text
    }
}

#[cfg(test)]
mod tests {
    use super::*;

    #[test]
    fn registers_have_a_stride() {
        let window = Window {
            base: Some(0x1000_0000),
            stride: Some(4),
            ..Window::default()
        };
        assert_eq!(window.memory(0x1000_0014), Reached::Register(5));
        assert_eq!(window.memory(0x1000_0015), Reached::Between);
        assert_eq!(window.memory(0x1000_0020), Reached::Other);
        assert_eq!(window.memory(0xfff_ffff), Reached::Other);
        assert_eq!(window.port(COM1), Reached::Other);
    }

    #[test]
    fn a_port_is_com1_unless_it_is_said() {
        assert_eq!(Window::default().port(0x3fd), Reached::Register(5));
        assert_eq!(Window::default().port(0x2fd), Reached::Other);
        let window = Window {
            port: Some(0x2f8),
            ..Window::default()
        };
        assert_eq!(window.port(0x2fd), Reached::Register(5));
        assert_eq!(Window::default().memory(0x3f8), Reached::Other);
    }

    #[test]
    fn a_number_is_an_offset_unless_addresses_are_known() {
        assert_eq!(Window::default().any(7), Reached::Register(7));
        assert_eq!(Window::default().any(8), Reached::Other);
    }

    #[test]
    fn others_are_told_in_groups() {
        let mut seen = Seen::default();
        assert_eq!(seen.others(), "");
        for port in [0x2f8, 0x2fd, 0x70] {
            seen.count_other(port);
        }
        assert_eq!(
            seen.others(),
            ". Other addresses were accessed: 0x2f8 (2 times), 0x70 (1 time). Say where the chip is by --port or --base"
        );
    }
}
