//! QEMU's trace events of memory regions, which have addresses and not offsets:
//! `memory_region_ops_read cpu 0 mr 0x55d addr 0x10000005 value 0x60 size 1 name 'serial'`.
//!
//! They are written again as QEMU's events of the chip, with process and time in front, if the line has them.

use super::address::{Reached, Seen};
use super::numbers::number;
use super::refusal::Refusal;
use super::{Format, Window};
use std::cell::RefCell;
use std::io::Write;
use std::rc::Rc;

const READ: &[u8] = b"memory_region_ops_read";
const WRITE: &[u8] = b"memory_region_ops_write";

/// What reads the lines of QEMU's memory regions.
#[derive(Debug)]
pub(super) struct Memory {
    window: Window,
    seen: Rc<RefCell<Seen>>,
}

// Returns what is in front of the name of an event, with the colon, and the name.
fn event_of(word: &[u8]) -> (&[u8], &[u8]) {
    let front = word.iter().rposition(|&byte| byte == b':');
    word.split_at(front.map_or(0, |colon| colon + 1))
}

fn first_word(line: &[u8]) -> &[u8] {
    line.split(|&byte| byte == b' ').next().unwrap_or_default()
}

/// Returns whether this is an event of a memory region.
pub(super) fn is_line(line: &[u8]) -> bool {
    matches!(event_of(first_word(line)).1, READ | WRITE)
}

// Returns the number behind this word.
fn number_behind<'a>(line: &'a [u8], name: &str) -> Result<(u64, &'a [u8]), Refusal> {
    let mut words = line.split(|&byte| byte == b' ');
    let wants = || format!("{name} 0xHH");
    words
        .find(|word| *word == name.as_bytes())
        .ok_or_else(|| Refusal::at(line, b"", "something is missing", wants()))?;
    let word = words.next().unwrap_or_default();
    let number = number(word).ok_or_else(|| Refusal::at(line, word, "bad number", wants()))?;
    Ok((number, word))
}

impl Memory {
    /// Returns what reads the events of a chip with these addresses.
    pub(super) fn new(window: Window, seen: Rc<RefCell<Seen>>) -> Self {
        Memory { window, seen }
    }
}

impl Format for Memory {
    fn rewrite(&mut self, line: &[u8], out: &mut Vec<u8>) -> Result<(), Refusal> {
        let (front, name) = event_of(first_word(line));
        let word = match name {
            READ => "serial_read",
            WRITE => "serial_write",
            _ => return Ok(()),
        };
        let (address, place) = number_behind(line, "addr")?;
        let reached = if self.window.is_unknown() {
            self.window.port(address)
        } else {
            self.window.any(address)
        };
        let offset = match reached {
            Reached::Register(offset) => offset,
            Reached::Between => {
                let wants = "an address of a register: this one is between two of them, by --base and --stride";
                return Err(Refusal::at(line, place, "bad address", wants));
            }
            Reached::Other => {
                self.seen.borrow_mut().count_other(address);
                return Ok(());
            }
        };
        let (value, _) = number_behind(line, "value")?;
        self.seen.borrow_mut().of_chip += 1;
        out.extend_from_slice(front);
        // A register is the lowest byte of what is as wide as the bus. A text in memory takes everything.
        let _ = write!(out, "{word} addr {offset:#04x} val {:#04x}", value & 0xff);
        Ok(())
    }
}

#[cfg(test)]
mod tests {
    use super::*;

    fn rewritten(base: Option<u64>, line: &str) -> Result<String, Refusal> {
        let window = Window {
            base,
            ..Window::default()
        };
        let mut out = Vec::new();
        Memory::new(window, Rc::default()).rewrite(line.as_bytes(), &mut out)?;
        Ok(String::from_utf8(out).unwrap())
    }

    #[test]
    fn events_of_the_chip_are_those_of_a_recording() {
        let read = "memory_region_ops_read cpu 0 mr 0x563d529ddae0 addr 0x10000005 value 0x60 size 1 name 'serial'";
        let serial = "serial_read addr 0x05 val 0x60";
        assert_eq!(rewritten(Some(0x1000_0000), read).unwrap(), serial);
        assert_eq!(rewritten(None, read).unwrap(), "");
        let timed = format!("13@17.000125:{read}");
        assert_eq!(
            rewritten(Some(0x1000_0000), &timed).unwrap(),
            format!("13@17.000125:{serial}")
        );
        assert_eq!(rewritten(None, "kvm_vm_ioctl type 0x5").unwrap(), "");
        // A register is the lowest byte of what is as wide as the bus.
        let wide = read.replace("value 0x60 size 1", "value 0xab60 size 4");
        assert_eq!(rewritten(Some(0x1000_0000), &wide).unwrap(), serial);
        let refusal = rewritten(None, "memory_region_ops_write addr 0x3f8 size 1").unwrap_err();
        assert_eq!(
            (refusal.cause, refusal.column),
            ("something is missing", 42)
        );
    }
}
