//! What `sigrok-cli` prints of its decoders: `60-140 uart-1: 41`, with `--protocol-decoder-samplenum` or without.
//!
//! A serial decoder with `-A uart=rx-data` has the characters that arrive. Its lines do not say in which direction a character goes: with
//! `--protocol-decoder-ann-class` they do, as `uart-1: rx-data: 41`, and what goes out is left out. Two parallel decoders at one clock
//! have a bus: the first has the byte, and the second the offset in bits 0 to 2, and bit 3 set for a read. `sort -n` brings their lines
//! together.

use super::address::Seen;
use super::fields::{Fields, Space, Verb, Writer};
use super::numbers::{decimal, hexadecimal};
use super::refusal::Refusal;
use super::{Format, Window};
use std::cell::RefCell;
use std::rc::Rc;

// The bit of the second decoder that is set for a read, and those of the offset.
const READ_BIT: u64 = 1 << 3;
const OFFSET_MASK: u64 = 7;

// What a decoder prints of a byte: two digits.
const BYTE_DIGITS: usize = 2;

/// What reads the lines of decoders.
#[derive(Debug)]
pub(super) struct Sigrok {
    writer: Writer,
    // The byte of the first parallel decoder that was read last, and its samples.
    byte: Option<(Vec<u8>, u64)>,
    // The last sample of the last character without a direction.
    character_end: u64,
}

// What a line has.
struct Decoded<'a> {
    samples: &'a [u8],
    decoder: &'a [u8],
    text: &'a [u8],
}

// Returns what a line has: `SAMPLES DECODER-N: TEXT`, or without the samples.
fn decoded_in(line: &[u8]) -> Option<Decoded<'_>> {
    let colon = line.windows(2).position(|pair| pair == b": ")?;
    let (front, text) = (&line[..colon], line[colon + 2..].trim_ascii());
    let (samples, decoder) = match front.iter().position(|&byte| byte == b' ') {
        Some(space) => (&front[..space], &front[space + 1..]),
        None => (&b""[..], front),
    };
    let is_samples = samples
        .iter()
        .all(|byte| byte.is_ascii_digit() || *byte == b'-');
    let number = decoder.iter().rposition(|&byte| byte == b'-')?;
    let is_numbered = decoder[number + 1..].iter().all(u8::is_ascii_digit)
        && number > 0
        && number + 1 < decoder.len();
    (is_samples && is_numbered && !decoder.contains(&b' ')).then_some(Decoded {
        samples,
        decoder,
        text,
    })
}

// Returns the class of what a serial decoder says, if the line has it, and the text.
fn class_in(text: &[u8]) -> (Option<&[u8]>, &[u8]) {
    match text.windows(2).position(|pair| pair == b": ") {
        Some(colon) => (Some(&text[..colon]), text[colon + 2..].trim_ascii()),
        None => (None, text),
    }
}

// Returns the first and the last sample of a line that has them.
fn range_of(samples: &[u8]) -> Option<(u64, u64)> {
    let hyphen = samples.iter().position(|&byte| byte == b'-')?;
    Some((
        decimal(&samples[..hyphen])?,
        decimal(&samples[hyphen + 1..])?,
    ))
}

/// Returns whether this is a line of a decoder.
pub(super) fn is_line(line: &[u8]) -> bool {
    decoded_in(line).is_some()
}

impl Sigrok {
    /// Returns what reads the lines of decoders at a chip with these addresses.
    pub(super) fn new(window: Window, seen: Rc<RefCell<Seen>>) -> Self {
        Sigrok {
            writer: Writer::new(window, seen),
            byte: None,
            character_end: 0,
        }
    }

    // Returns the byte of a character that arrives, or `None` for what else a serial decoder says. Two directions are two: what may be
    // of either is refused.
    fn arrived<'a>(
        &mut self,
        line: &[u8],
        decoded: &Decoded<'a>,
    ) -> Result<Option<(u64, &'a [u8])>, Refusal> {
        const ONE_WAY: &str = "one direction: -A uart=rx-data, or --protocol-decoder-ann-class, which says it of each";
        let (class, text) = class_in(decoded.text);
        if class.is_some_and(|class| class != b"rx-data") {
            return Ok(None);
        }
        if class.is_none() && decoded.text == b"Start bit" {
            return Err(Refusal::at(line, decoded.text, "all annotations", ONE_WAY));
        }
        // Also bits, and what is wrong with a frame, are texts of this decoder.
        if text.len() != BYTE_DIGITS {
            return Ok(None);
        }
        if let (None, Some((first, last))) = (class, range_of(decoded.samples)) {
            if first < self.character_end {
                let cause = "two characters at once";
                return Err(Refusal::at(line, decoded.samples, cause, ONE_WAY));
            }
            self.character_end = last;
        }
        let refused = || Refusal::at(line, decoded.text, "bad number", "a hexadecimal number");
        Ok(Some((hexadecimal(text).ok_or_else(refused)?, text)))
    }
}

impl Format for Sigrok {
    fn rewrite(&mut self, line: &[u8], out: &mut Vec<u8>) -> Result<(), Refusal> {
        if line.is_empty() || line.starts_with(b"#") {
            return Ok(());
        }
        let decoded = decoded_in(line).ok_or_else(|| {
            let wants = "a line of a decoder, as 60-140 uart-1: 41";
            Refusal::at(line, line, "unknown line", wants)
        })?;
        let number = hexadecimal(decoded.text);
        let refused = || Refusal::at(line, decoded.text, "bad number", "a hexadecimal number");
        let mut fields = Fields::default();
        match decoded.decoder {
            name if name.starts_with(b"uart-") => {
                let Some(byte) = self.arrived(line, &decoded)? else {
                    return Ok(());
                };
                fields.verb = Some(Verb::Arrive);
                fields.value = Some(byte);
            }
            b"parallel-1" => {
                self.byte = Some((decoded.samples.to_vec(), number.ok_or_else(refused)?));
                return Ok(());
            }
            b"parallel-2" => {
                let bus = number.ok_or_else(refused)?;
                let Some((_, byte)) = self
                    .byte
                    .take()
                    .filter(|(samples, _)| samples == decoded.samples)
                else {
                    let wants = "the byte of parallel-1 before it, at the same samples: use --protocol-decoder-samplenum, and sort -n";
                    return Err(Refusal::at(line, decoded.decoder, "no byte", wants));
                };
                let is_read = bus & READ_BIT != 0;
                fields.verb = Some(if is_read { Verb::Read } else { Verb::Write });
                fields.address = Some((bus & OFFSET_MASK, decoded.text));
                fields.value = Some((byte, decoded.text));
            }
            _ => return Ok(()),
        }
        self.writer.write(Space::Offset, line, &fields, out)
    }
}

#[cfg(test)]
mod tests {
    use super::*;

    fn rewritten(lines: &[&str]) -> Result<String, Refusal> {
        let mut sigrok = Sigrok::new(Window::default(), Rc::default());
        let mut out = Vec::new();
        for line in lines {
            sigrok.rewrite(line.as_bytes(), &mut out)?;
            out.push(b'\n');
        }
        Ok(String::from_utf8(out).unwrap())
    }

    #[test]
    fn characters_of_a_serial_decoder() {
        let lines = [
            "60-140 uart-1: 41",
            "uart-1: 0D",
            "uart-1: Frame error",
            "uart-1: 1",
        ];
        assert_eq!(rewritten(&lines).unwrap(), "a 00 41\na 00 0d\n\n\n");
    }

    #[test]
    fn two_directions_stay_two() {
        let lines = [
            "60-140 uart-1: rx-data: 41",
            "80-160 uart-1: tx-data: 77",
            "uart-1: tx-start: Start bit",
            "150-230 uart-1: rx-data: 42",
        ];
        assert_eq!(rewritten(&lines).unwrap(), "a 00 41\n\n\na 00 42\n");
        let refusal = rewritten(&["60-140 uart-1: 41", "80-160 uart-1: 77"]).unwrap_err();
        assert_eq!(
            (refusal.cause, refusal.column),
            ("two characters at once", 1)
        );
        let refusal = rewritten(&["uart-1: Start bit"]).unwrap_err();
        assert_eq!((refusal.cause, refusal.column), ("all annotations", 9));
        assert!(refusal.wants.contains("-A uart=rx-data"));
    }

    #[test]
    fn a_bus_of_two_parallel_decoders() {
        let lines = [
            "6-16 parallel-1: 60",
            "6-16 parallel-2: d",
            "16-26 parallel-1: 41",
            "16-26 parallel-2: 0",
        ];
        assert_eq!(rewritten(&lines).unwrap(), "\nr 5 60\n\nw 0 41\n");
        let refusal = rewritten(&lines[1..2]).unwrap_err();
        assert_eq!((refusal.cause, refusal.column), ("no byte", 6));
        let refusal = rewritten(&["hello"]).unwrap_err();
        assert_eq!(refusal.cause, "unknown line");
    }
}
