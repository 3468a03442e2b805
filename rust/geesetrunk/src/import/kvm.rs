//! KVM's trace events `kvm_pio`, `kvm_mmio` and `kvm_set_irq`, as ftrace, trace-cmd and perf print them.
//!
//! The words are those of `TP_printk` in the kernel's `arch/x86/kvm/trace.h` and `include/trace/events/kvm.h`:
//!
//! ```text
//! qemu-1373  [001] .....  1045.119719: kvm_pio: pio_write at 0x3f8 size 1 count 1 val 0x1b
//! qemu  1373 [001]  1045.094997182:     kvm:kvm_pio: pio_read at 0x3fd size 1 count 1 val 0x60
//! qemu  1373 [000]  1041.618591:    kvm:kvm_mmio: mmio read len 4 gpa 0x10000005 val 0x60
//! ```

use super::address::Seen;
use super::fields::{Fields, Space, Verb, Writer};
use super::numbers::{number, seconds};
use super::refusal::Refusal;
use super::{Format, Window};
use std::cell::RefCell;
use std::rc::Rc;

/// An event of KVM that says something about a chip.
#[derive(Clone, Copy, Debug, PartialEq, Eq)]
enum Event {
    Ports,
    Memory,
    Interrupt,
}

/// What reads the lines of KVM's events.
#[derive(Debug)]
pub(super) struct Kvm {
    writer: Writer,
    interrupt: Option<u64>,
    // The last level of the interrupt line. KVM is told of it again and again.
    level: Option<bool>,
}

// Returns the words of a line.
fn words(line: &[u8]) -> impl Iterator<Item = &[u8]> {
    line.split(|&byte| byte == b' ' || byte == b'\t')
        .filter(|word| !word.is_empty())
}

// Returns the name of an event that ends a word, as in `kvm:kvm_pio:`.
fn event_name(word: &[u8]) -> Option<&[u8]> {
    let name = word.strip_suffix(b":")?;
    let name = name.strip_prefix(b"kvm:").unwrap_or(name);
    name.starts_with(b"kvm_").then_some(name)
}

/// Returns whether this is a line with an event of KVM.
pub(super) fn is_line(line: &[u8]) -> bool {
    words(line).any(|word| event_name(word).is_some())
}

/// Returns whether this is the comment that ftrace begins with.
pub(super) fn is_tracer(line: &[u8]) -> bool {
    line.starts_with(b"# tracer:")
}

// Returns whether events are missing here, by the words of ftrace and of perf.
fn is_gap(line: &[u8]) -> bool {
    let mut words = words(line);
    let is_of_ftrace = |word: &[u8]| word == b"[LOST";
    let is_of_perf = |word: &[u8]| word == b"PERF_RECORD_LOST";
    words.any(|word| is_of_ftrace(word) || is_of_perf(word))
}

// Returns the number behind a word.
fn number_behind<'a>(
    line: &'a [u8],
    name: &str,
    words: &mut impl Iterator<Item = &'a [u8]>,
) -> Result<(u64, &'a [u8]), Refusal> {
    let refused = |part: &[u8], wants: String| Refusal::at(line, part, "bad word", wants);
    let word = words.next().unwrap_or_default();
    if word != name.as_bytes() {
        return Err(refused(word, format!("{name}, and a number behind it")));
    }
    let word = words.next().unwrap_or_default();
    match number(word) {
        Some(number) => Ok((number, word)),
        None => Err(refused(word, format!("a number, behind {name}"))),
    }
}

// Returns what was accessed through a port: `pio_write at 0x3f8 size 1 count 1 val 0x41`.
fn port_access<'a>(
    line: &'a [u8],
    words: &mut impl Iterator<Item = &'a [u8]>,
) -> Result<Option<Access<'a>>, Refusal> {
    let word = words.next().unwrap_or_default();
    let verb = match word {
        b"pio_read" => Verb::Read,
        b"pio_write" => Verb::Write,
        _ => {
            return Err(Refusal::at(line, word, "bad word", "pio_read or pio_write"));
        }
    };
    let address = number_behind(line, "at", words)?;
    let size = number_behind(line, "size", words)?;
    let count = number_behind(line, "count", words)?;
    let value = number_behind(line, "val", words)?;
    Ok(Some(Access {
        verb,
        address,
        value,
        size,
        count: Some(count),
    }))
}

// Returns what was accessed in memory: `mmio write len 1 gpa 0x10000000 val 0x41`. A read that is not answered yet comes again.
fn memory_access<'a>(
    line: &'a [u8],
    words: &mut impl Iterator<Item = &'a [u8]>,
) -> Result<Option<Access<'a>>, Refusal> {
    let refused = |part: &[u8], wants: &str| Refusal::at(line, part, "bad word", wants);
    let word = words.next().unwrap_or_default();
    if word != b"mmio" {
        return Err(refused(word, "mmio"));
    }
    let word = words.next().unwrap_or_default();
    let verb = match word {
        b"read" => Verb::Read,
        b"write" => Verb::Write,
        b"unsatisfied-read" => return Ok(None),
        _ => return Err(refused(word, "read, write or unsatisfied-read")),
    };
    let size = number_behind(line, "len", words)?;
    let address = number_behind(line, "gpa", words)?;
    let (value, place) = number_behind(line, "val", words)?;
    Ok(Some(Access {
        verb,
        address,
        // A register is the lowest byte of what is as wide as the bus.
        value: (if size.0 > 1 { value & 0xff } else { value }, place),
        size,
        count: None,
    }))
}

// What an event says about an access.
struct Access<'a> {
    verb: Verb,
    address: (u64, &'a [u8]),
    value: (u64, &'a [u8]),
    size: (u64, &'a [u8]),
    count: Option<(u64, &'a [u8])>,
}

impl Access<'_> {
    // Refuses an access of more than one byte: which registers it reaches, or with which bytes, the event does not say.
    fn check(&self, line: &[u8]) -> Result<(), Refusal> {
        let Some((count, count_place)) = self.count else {
            return Ok(());
        };
        if self.size.0 != 1 {
            let wants = "1: an access of more bytes reaches more than one register";
            return Err(Refusal::at(line, self.size.1, "bad size", wants));
        }
        if count != 1 {
            let wants = "1: of a string of accesses the event has only the first byte";
            return Err(Refusal::at(line, count_place, "bad count", wants));
        }
        Ok(())
    }
}

impl Kvm {
    /// Returns what reads the events of a chip with these addresses.
    pub(super) fn new(window: Window, seen: Rc<RefCell<Seen>>) -> Self {
        Kvm {
            writer: Writer::new(window, seen),
            interrupt: window.interrupt,
            level: None,
        }
    }

    fn write_access(
        &mut self,
        space: Space,
        line: &[u8],
        time: Option<i128>,
        access: &Access<'_>,
        out: &mut Vec<u8>,
    ) -> Result<(), Refusal> {
        let before = out.len();
        let fields = Fields {
            verb: Some(access.verb),
            address: Some(access.address),
            // Other devices have wider registers. Only of the chip's own is the value a byte.
            value: Some(access.value),
            time,
            ..Fields::default()
        };
        self.writer.write(space, line, &fields, out)?;
        if out.len() > before {
            access.check(line)?;
        }
        Ok(())
    }

    // Writes a new level of the interrupt line: `gsi 4 level 1 source 0`.
    fn write_level<'a>(
        &mut self,
        line: &'a [u8],
        time: Option<i128>,
        words: &mut impl Iterator<Item = &'a [u8]>,
        out: &mut Vec<u8>,
    ) -> Result<(), Refusal> {
        let (interrupt, _) = number_behind(line, "gsi", words)?;
        let (level, _) = number_behind(line, "level", words)?;
        let level = level != 0;
        if self.interrupt != Some(interrupt) || self.level == Some(level) {
            return Ok(());
        }
        self.level = Some(level);
        let fields = Fields {
            verb: Some(Verb::Interrupt),
            level: Some(level),
            time,
            ..Fields::default()
        };
        self.writer.write(Space::Any, line, &fields, out)
    }
}

impl Format for Kvm {
    fn rewrite(&mut self, line: &[u8], out: &mut Vec<u8>) -> Result<(), Refusal> {
        if is_gap(line) {
            let wants = "a trace without gaps: what is missing would be held against the driver. Record with a larger buffer";
            return Err(Refusal::at(line, line, "events are lost here", wants));
        }
        let mut words = words(line);
        let mut before: &[u8] = b"";
        let event = loop {
            let Some(word) = words.next() else {
                return Ok(());
            };
            match event_name(word) {
                Some(b"kvm_pio") => break Event::Ports,
                Some(b"kvm_mmio") => break Event::Memory,
                Some(b"kvm_set_irq") => break Event::Interrupt,
                Some(_) => return Ok(()),
                None => before = word,
            }
        };
        let time = before.strip_suffix(b":").and_then(seconds);
        let (space, access) = match event {
            Event::Ports => (Space::Ports, port_access(line, &mut words)?),
            Event::Memory => (Space::Memory, memory_access(line, &mut words)?),
            Event::Interrupt => return self.write_level(line, time, &mut words, out),
        };
        match access {
            Some(access) => self.write_access(space, line, time, &access, out),
            None => Ok(()),
        }
    }
}

#[cfg(test)]
mod tests {
    use super::*;

    fn rewritten(window: Window, line: &str) -> Result<String, Refusal> {
        let mut out = Vec::new();
        Kvm::new(window, Rc::default()).rewrite(line.as_bytes(), &mut out)?;
        Ok(String::from_utf8(out).unwrap())
    }

    const FTRACE: &str = " qemu-system-x86-1373    [001] .....  1045.119719: kvm_pio: pio_write at 0x3f8 size 1 count 1 val 0x1b ";

    #[test]
    fn events_of_ports() {
        let perf = " qemu-system-x86  1373 [001]  1045.094997182:     kvm:kvm_pio: pio_read at 0x3fd size 1 count 1 val 0x60 ";
        let window = Window::default();
        assert_eq!(rewritten(window, FTRACE).unwrap(), "w 0 1b @1045119719000");
        assert_eq!(rewritten(window, perf).unwrap(), "r 5 60 @1045094997182");
        let other = FTRACE.replace("0x3f8 size 1", "0x1f0 size 2");
        assert_eq!(rewritten(window, &other).unwrap(), "");
        assert_eq!(rewritten(window, "# tracer: nop").unwrap(), "");
    }

    #[test]
    fn events_of_memory() {
        let window = Window {
            base: Some(0x1000_0000),
            stride: Some(4),
            ..Window::default()
        };
        let line = |rest: &str| format!("q 1 [000] 1.5:  kvm:kvm_mmio: mmio {rest}");
        let read = line("read len 4 gpa 0x10000014 val 0xab60");
        assert_eq!(rewritten(window, &read).unwrap(), "r 5 60 @1500000000");
        let half = line("read len 2 gpa 0x10000014 val 0xab60");
        assert_eq!(rewritten(window, &half).unwrap(), "r 5 60 @1500000000");
        // A byte has no more than eight bits, and what has is no value of it.
        let byte = line("read len 1 gpa 0x10000014 val 0x160");
        assert!(rewritten(window, &byte).is_err());
        let unsatisfied = line("unsatisfied-read len 4 gpa 0x10000014 val 0x0");
        assert_eq!(rewritten(window, &unsatisfied).unwrap(), "");
        let refused = rewritten(window, &line("reads len 4")).unwrap_err();
        assert_eq!(refused.column, 36);
    }

    #[test]
    fn levels_are_told_when_they_change() {
        let window = Window {
            interrupt: Some(4),
            ..Window::default()
        };
        let mut kvm = Kvm::new(window, Rc::default());
        let mut out = Vec::new();
        for (gsi, level) in [(4, 0), (4, 0), (3, 1), (4, 1), (4, 1)] {
            let line = format!("q 1 [000] 1.0: kvm:kvm_set_irq: gsi {gsi} level {level} source 0");
            kvm.rewrite(line.as_bytes(), &mut out).unwrap();
            out.push(b'\n');
        }
        assert_eq!(out, b"i 0 @1000000000\n\n\ni 1 @1000000000\n\n");
    }

    #[test]
    fn what_an_event_does_not_say_is_refused() {
        let window = Window::default();
        for (from, to, cause, column) in [
            ("count 1", "count 0", "bad count", 93),
            ("count 1", "count 2", "bad count", 93),
            ("count 1", "count 4", "bad count", 93),
            ("size 1", "size 2", "bad size", 85),
            ("val 0x1b ", "", "bad word", FTRACE.len() - 8),
            ("0x3f8", "x", "bad word", 74),
        ] {
            let refusal = rewritten(window, &FTRACE.replace(from, to)).unwrap_err();
            assert_eq!((refusal.cause, refusal.column), (cause, column), "{to}");
        }
        let gap = rewritten(window, "CPU:2 [LOST 12 EVENTS]").unwrap_err();
        assert_eq!(gap.cause, "events are lost here");
    }
}
