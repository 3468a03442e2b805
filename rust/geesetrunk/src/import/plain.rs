//! Recordings and QEMU's logs of the chip, whose lines are those of a recording. Only what is around them is taken away: the mark of
//! UTF-8 at the beginning, the carriage return at the end of a line, and a time of ISO 8601 in front. Of QEMU, a processor that is reset
//! becomes a chip that is reset.

use super::Format;
use super::numbers::iso_time;
use super::refusal::Refusal;
use std::io::Write;
use uart_judges::recording::{RecordingLine, line_in};

// What `-d cpu_reset` of QEMU writes when it resets a processor, in front of its number. Each line up to the next one that says something
// is a register of it.
const PROCESSOR: &[u8] = b"CPU Reset (CPU ";

// A machine is reset with its first processor. The others are reset when they are started, too.
const MACHINE: &[u8] = b"CPU Reset (CPU 0)";

// What it writes before, if the machine is reset since its processor had no way on.
const FAULT: &[u8] = b"Triple fault";

/// What reads the lines of a recording.
#[derive(Debug, Default)]
pub(super) struct Plain {
    // Whether lines are registers of a processor.
    is_in_registers: bool,
}

// Returns whether QEMU says here that a processor is reset.
fn is_processor(line: &[u8]) -> bool {
    line.starts_with(PROCESSOR) || line == FAULT
}

/// Returns whether a line is of QEMU's own log, in which processors may be reset.
pub(super) fn is_of_qemu(line: &[u8]) -> bool {
    line.starts_with(b"serial_")
        || line.contains(&b'@') && line.first().is_some_and(u8::is_ascii_digit)
        || is_processor(line)
}

/// Returns a line without the time of ISO 8601 in front of it, and that time in nanoseconds.
pub(super) fn without_time(line: &[u8]) -> (Option<i128>, &[u8]) {
    let end = line.iter().position(|&byte| byte == b' ');
    let (word, rest) = line.split_at(end.unwrap_or(line.len()));
    let word = match word {
        [b'[', inner @ .., b']'] => inner,
        word => word,
    };
    match iso_time(word) {
        Some(time) => (Some(time), rest.trim_ascii_start()),
        None => (None, line),
    }
}

impl Plain {
    // Returns whether a line is of a processor that is reset, and writes it again as a reset if that is the first one.
    fn is_of_processor(&mut self, line: &[u8], out: &mut Vec<u8>) -> bool {
        if is_processor(line) {
            self.is_in_registers = true;
            if line == MACHINE {
                out.push(b'z');
            }
        } else if self.is_in_registers {
            let says = line_in(1, without_time(line).1);
            self.is_in_registers =
                !matches!(says, Ok(RecordingLine::Entry(_) | RecordingLine::Again(_)));
        }
        self.is_in_registers
    }
}

impl Format for Plain {
    fn rewrite(&mut self, line: &[u8], out: &mut Vec<u8>) -> Result<(), Refusal> {
        if self.is_of_processor(line, out) {
            return Ok(());
        }
        let (time, rest) = without_time(line);
        let Some(time) = time else {
            out.extend_from_slice(line);
            return Ok(());
        };
        let is_log = rest.starts_with(b"serial_read") || rest.starts_with(b"serial_write");
        let is_recorded = matches!(rest, [_, b' ', ..]) && !rest.contains(&b'@');
        let time = time.clamp(0, u64::MAX.into());
        // A text in memory takes everything.
        if is_log {
            // QEMU's own form of a time has microseconds.
            let (seconds, micros) = (time / 1_000_000_000, time / 1_000 % 1_000_000);
            let _ = write!(out, "1@{seconds}.{micros:06}:");
            out.extend_from_slice(rest);
        } else {
            out.extend_from_slice(rest);
            if is_recorded && !matches!(rest, [b'x' | b'X', ..]) {
                let _ = write!(out, " @{time}");
            }
        }
        Ok(())
    }
}

#[cfg(test)]
mod tests {
    use super::*;

    #[test]
    fn times_in_front_are_those_of_the_line() {
        for (line, said) in [
            (
                "1970-01-01T00:00:01.5Z serial_read addr 0x05 val 0x60",
                "1@1.500000:serial_read addr 0x05 val 0x60",
            ),
            ("1970-01-01T00:00:01.5Z r 5 60", "r 5 60 @1500000000"),
            ("[1970-01-01T00:00:01Z] r 5 60 1", "r 5 60 1 @1000000000"),
            ("1970-01-01T00:00:01.5Z x 3", "x 3"),
            ("r 5 60 @7", "r 5 60 @7"),
            ("# 1970-01-01T00:00:01Z", "# 1970-01-01T00:00:01Z"),
        ] {
            let mut out = Vec::new();
            Plain::default().rewrite(line.as_bytes(), &mut out).unwrap();
            assert_eq!(String::from_utf8(out).unwrap(), said);
        }
    }

    #[test]
    fn a_processor_that_is_reset_resets_the_chip() {
        let registers = "EAX=00000000 EBX=00000000\nES =0000 00000000\nFCW=0000 FSW=0000 [ST=0]\n";
        let access = "17@1.000002:serial_read addr 0x05 val 0x60";
        let log = format!(
            "Triple fault\nCPU Reset (CPU 0)\n{registers}CPU Reset (CPU 1)\n{registers}{access}\nEAX=0"
        );
        let mut plain = Plain::default();
        let mut said = Vec::new();
        for line in log.lines() {
            let mut out = Vec::new();
            plain.rewrite(line.as_bytes(), &mut out).unwrap();
            said.push(String::from_utf8(out).unwrap());
        }
        let none = "";
        // What is no register stays, so that it is refused.
        assert_eq!(
            said,
            [
                none, "z", none, none, none, none, none, none, none, access, "EAX=0"
            ]
        );
    }
}
