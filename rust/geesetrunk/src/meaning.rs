//! What an access means: its register, and the bits by their names.

use crate::moments::{parts, register_of};
use std::fmt::Write;
use uart_judges::audit::Action;
use uart_judges::recording::{Entry, Happening};
use uart_spec::access::Access;
use uart_spec::registers::{LCR, offsets};

const LSR_BITS: [&str; 8] = ["DR", "OE", "PE", "FE", "BI", "THRE", "TEMT", "ERR"];
const MSR_BITS: [&str; 8] = ["dCTS", "dDSR", "tRI", "dCD", "CTS", "DSR", "RI", "CD"];
const MCR_BITS: [&str; 8] = ["DTR", "RTS", "OUT1", "OUT2", "LOOP", "b5", "b6", "b7"];
const IER_BITS: [&str; 8] = [
    "DATA_READY",
    "THR_EMPTY",
    "LINE_STATUS",
    "MODEM_STATUS",
    "b4",
    "b5",
    "b6",
    "b7",
];
const TRIGGER_LEVELS: [u8; 4] = [1, 4, 8, 14];

// Returns the names of the bits that are set.
fn bits(value: u8, names: &[&str; 8]) -> String {
    let set = names
        .iter()
        .enumerate()
        .filter(|(index, _)| value & 1 << index != 0);
    let names: Vec<_> = set.map(|(_, name)| *name).collect();
    names.join(" ")
}

// Returns a byte as a character, if it is printable.
fn character(value: u8) -> String {
    match value {
        b' '..=b'~' => format!("'{}'", char::from(value)),
        b'\r' => "CR".into(),
        b'\n' => "LF".into(),
        0x1b => "ESC".into(),
        _ => String::new(),
    }
}

fn isr_text(value: u8) -> String {
    let interrupt = match value & 0x0f {
        0x06 => "line status",
        0x04 => "received data",
        0x0c => "timeout",
        0x02 => "THR empty",
        0x00 => "modem status",
        low if low & 1 != 0 => "none",
        _ => "unknown",
    };
    match value & 0xc0 {
        0xc0 => format!("{interrupt}, FIFOs on"),
        _ => interrupt.into(),
    }
}

fn fcr_text(value: u8) -> String {
    let mut text = String::from(if value & 1 != 0 {
        "FIFOs on"
    } else {
        "FIFOs off"
    });
    let level = TRIGGER_LEVELS[usize::from(value >> 6)];
    for (bit, name) in [
        (2, ", resets receiver"),
        (4, ", resets transmitter"),
        (8, ", DMA"),
    ] {
        if value & bit != 0 {
            text += name;
        }
    }
    let _ = write!(text, ", level {level}");
    text
}

fn lcr_text(value: u8) -> String {
    let data = (value & 3) + 5;
    let parity = match value >> 3 & 7 {
        1 => 'O',
        3 => 'E',
        5 => '1',
        7 => '0',
        _ => 'N',
    };
    let stop = if value & 4 == 0 { "1" } else { "2" };
    let mut text = format!("{data}{parity}{stop}");
    for (bit, name) in [(0x40, " BREAK"), (0x80, " DLAB")] {
        if value & bit != 0 {
            text += name;
        }
    }
    text
}

/// Returns what the bits of an access mean. Whether DLAB is set says which register offsets 0 and 1 are.
pub fn bits_of(access: Access, is_dlab_set: bool) -> String {
    let (letter, offset, value) = parts(access);
    match offset {
        offsets::DATA | offsets::IER if is_dlab_set => String::new(),
        offsets::DATA => character(value),
        offsets::IER if value == 0 => "none".into(),
        offsets::IER => bits(value, &IER_BITS),
        offsets::ISR if letter == 'r' => isr_text(value),
        offsets::FCR => fcr_text(value),
        offsets::LCR => lcr_text(value),
        offsets::MCR => bits(value, &MCR_BITS),
        offsets::LSR => bits(value, &LSR_BITS),
        offsets::MSR => bits(value, &MSR_BITS),
        _ => String::new(),
    }
}

/// Follows DLAB through a recording.
#[derive(Clone, Copy, Debug, Default)]
pub struct Latch {
    is_open: Option<bool>,
}

impl Latch {
    /// Returns what an entry does, and takes down what it shows of DLAB.
    pub fn action(&mut self, entry: &Entry) -> Action {
        let action = Action::new(self.is_open, entry.happening);
        match action {
            Action::SetsLine(lcr) | Action::ReadsLine(lcr) => {
                self.is_open = Some(lcr.contains(LCR::DLAB));
            }
            Action::LooksAtLine(_) => {
                self.is_open.get_or_insert(false);
            }
            _ => {}
        }
        action
    }

    /// Returns whether DLAB is known to be set.
    pub fn is_set(&self) -> bool {
        self.is_open == Some(true)
    }
}

/// Returns an entry in words: `r LSR  60`, and the bits by their names. Whether DLAB was set is that before the entry.
pub fn words_of(happening: Happening, is_dlab_set: bool) -> (String, String) {
    match happening {
        Happening::Access(access) => {
            let (letter, _, value) = parts(access);
            let register = register_of(access, is_dlab_set);
            let head = format!("{letter} {register:<4} {value:02x}");
            (head, bits_of(access, is_dlab_set))
        }
        Happening::Arrive { byte, errors } => {
            let mut text = character(byte);
            if !errors.is_empty() {
                text = format!("{text} with errors {}", bits(errors.bits(), &LSR_BITS));
            }
            (format!("a      {byte:02x}"), text.trim_start().into())
        }
        Happening::Lines(inputs) => {
            let value = inputs.bits();
            (format!("m      {value:02x}"), bits(value, &MSR_BITS))
        }
        Happening::Interrupt { is_raised } => {
            let text = if is_raised { "up" } else { "down" };
            (format!("i      {}", u8::from(is_raised)), text.into())
        }
    }
}

#[cfg(test)]
mod tests {
    use super::*;

    #[test]
    fn bits_have_names() {
        for (access, is_dlab_set, text) in [
            (Access::Read(5, 0x61), false, "DR THRE TEMT"),
            (Access::Read(2, 0xc4), false, "received data, FIFOs on"),
            (Access::Read(2, 0x01), false, "none"),
            (
                Access::Write(2, 0x87),
                false,
                "FIFOs on, resets receiver, resets transmitter, level 8",
            ),
            (Access::Write(3, 0x83), false, "8N1 DLAB"),
            (Access::Write(3, 0x5f), false, "8E2 BREAK"),
            (Access::Write(4, 0x0b), false, "DTR RTS OUT2"),
            (Access::Read(6, 0x11), false, "dCTS CTS"),
            (Access::Write(1, 0x05), false, "DATA_READY LINE_STATUS"),
            (Access::Write(1, 0x05), true, ""),
            (Access::Write(0, b'A'), false, "'A'"),
            (Access::Read(0, 0x0d), false, "CR"),
            (Access::Read(7, 0x0d), false, ""),
        ] {
            assert_eq!(bits_of(access, is_dlab_set), text);
        }
    }
}
