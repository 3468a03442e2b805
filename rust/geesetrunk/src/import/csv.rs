//! Values between commas, below a line that names them: the exports of Saleae's Logic, and tables of a monitor's own.
//!
//! A table of accesses names its columns as [`Role`] does. A number is decimal, or hexadecimal behind `0x`. Of Saleae's exports a
//! serial decoder has the characters of a line, and a parallel one has words: the byte in bits 0 to 7, the offset in bits 8 to 10, and
//! bit 11 set for a read.

use super::address::Seen;
use super::fields::{Fields, Role, Space, Verb, Writer};
use super::numbers::{iso_time, number, seconds};
use super::refusal::Refusal;
use super::{Format, Window};
use std::cell::RefCell;
use std::rc::Rc;
use uart_spec::registers::LSR;

// What a column says.
#[derive(Clone, Copy, Debug, PartialEq, Eq)]
enum Column {
    Role(Role),
    // The name that a decoder of Logic 2 has.
    Decoder,
    ParityError,
    FramingError,
    // The error of a character, in words.
    ErrorText,
    Nothing,
}

// What the rows are of.
#[derive(Clone, Copy, Debug, PartialEq, Eq)]
enum Rows {
    Accesses,
    // Characters of a serial decoder, or words of a parallel one.
    Decoded,
}

/// What reads the rows of a table.
#[derive(Debug)]
pub(super) struct Csv {
    writer: Writer,
    columns: Vec<Column>,
    rows: Rows,
}

// The bits of a word of a parallel decoder.
const OFFSET_SHIFT: u32 = 8;
const OFFSET_MASK: u64 = 7;
const READ_BIT: u64 = 1 << 11;
const BYTE_MASK: u64 = 0xff;

/// Returns the verb, the offset and the byte of a word of a parallel decoder.
pub(super) fn parallel_access(word: u64) -> (Verb, u64, u64) {
    let verb = if word & READ_BIT == 0 {
        Verb::Write
    } else {
        Verb::Read
    };
    (verb, word >> OFFSET_SHIFT & OFFSET_MASK, word & BYTE_MASK)
}

// Returns the cells of a row, without the quotes around them. A comma in quotes is part of a cell.
fn cells(line: &[u8]) -> Vec<&[u8]> {
    let mut cells = Vec::new();
    let (mut start, mut is_quoted) = (0, false);
    for (index, byte) in line.iter().enumerate() {
        match byte {
            b'"' => is_quoted = !is_quoted,
            b',' | b';' if !is_quoted => {
                cells.push(&line[start..index]);
                start = index + 1;
            }
            _ => {}
        }
    }
    cells.push(&line[start..]);
    cells.into_iter().map(unquoted).collect()
}

fn unquoted(cell: &[u8]) -> &[u8] {
    match cell.trim_ascii() {
        [b'"', inner @ .., b'"'] => inner,
        cell => cell,
    }
}

fn column_named(name: &[u8]) -> Column {
    match name.to_ascii_lowercase().as_slice() {
        b"name" => Column::Decoder,
        b"start_time" => Column::Role(Role::Time(1_000_000_000)),
        b"parity error" => Column::ParityError,
        b"framing error" => Column::FramingError,
        b"error" => Column::ErrorText,
        _ => Role::named(name).map_or(Column::Nothing, Column::Role),
    }
}

// Returns the columns of a first line, and what its rows are of.
fn head_in(line: &[u8]) -> Option<(Vec<Column>, Rows)> {
    let columns: Vec<_> = cells(line).into_iter().map(column_named).collect();
    let has = |column| columns.contains(&column);
    let has_role = |role| has(Column::Role(role));
    if !has_role(Role::Value) || columns.len() < 2 {
        return None;
    }
    // Logic 2 names the decoder, and its `type` is that of a frame. Logic 1 has no column for what happened.
    let is_decoded = has(Column::Decoder) || !has_role(Role::Verb) && !has_role(Role::Address);
    let rows = if is_decoded {
        Rows::Decoded
    } else {
        Rows::Accesses
    };
    Some((columns, rows))
}

/// Returns whether this line names columns.
pub(super) fn is_line(line: &[u8]) -> bool {
    head_in(line).is_some()
}

// Returns the number of a cell of Saleae's: 0x41, 65, 'A', or a letter.
fn decoded_number(cell: &[u8]) -> Option<u64> {
    match cell {
        [b'\'', inner @ .., b'\''] => number(inner),
        [byte] if !byte.is_ascii_digit() => Some((*byte).into()),
        cell => number(cell),
    }
}

fn contains_word(cell: &[u8], word: &str) -> bool {
    let lower = cell.to_ascii_lowercase();
    lower
        .windows(word.len())
        .any(|part| part == word.as_bytes())
}

impl Csv {
    /// Returns what reads the rows of a chip with these addresses.
    pub(super) fn new(window: Window, seen: Rc<RefCell<Seen>>) -> Self {
        Csv {
            writer: Writer::new(window, seen),
            columns: Vec::new(),
            rows: Rows::Accesses,
        }
    }

    // Returns the time of a cell, of a column with so many nanoseconds.
    fn time_in(line: &[u8], cell: &[u8], unit: u64) -> Result<Option<i128>, Refusal> {
        if cell.is_empty() {
            return Ok(None);
        }
        let seconds = seconds(cell).map(|time| time * i128::from(unit) / 1_000_000_000);
        let time = iso_time(cell).or(seconds);
        let wants = "a time: a number with or without a fraction, or one of ISO 8601";
        time.map(Some)
            .ok_or_else(|| Refusal::at(line, cell, "bad time", wants))
    }

    fn write_access(&mut self, line: &[u8], out: &mut Vec<u8>) -> Result<(), Refusal> {
        let mut fields = Fields::default();
        let number_in = |cell, wants: &str| {
            number(cell).ok_or_else(|| Refusal::at(line, cell, "bad number", wants))
        };
        for (cell, column) in cells(line).into_iter().zip(&self.columns) {
            let Column::Role(role) = column else { continue };
            match role {
                Role::Verb => fields.say_verb(line, cell),
                Role::Address if cell.is_empty() => {}
                Role::Address => {
                    let wants =
                        "an offset or an address: decimal digits, or hexadecimal ones behind 0x";
                    fields.address = Some((number_in(cell, wants)?, cell));
                }
                Role::Value if cell.is_empty() => {}
                Role::Value => {
                    let wants = "a byte: decimal digits, or hexadecimal ones behind 0x";
                    fields.value = Some((number_in(cell, wants)?, cell));
                }
                Role::Errors if cell.is_empty() => {}
                Role::Errors => {
                    let wants = "bits of LSR: parity 4, framing 8, break 16";
                    fields.errors = number_in(cell, wants)? as u8 & LSR::CHARACTER_ERRORS.bits();
                }
                Role::Level => {
                    fields.level = match cell {
                        b"0" => Some(false),
                        b"1" => Some(true),
                        b"" | b"2" => None,
                        _ => {
                            let wants =
                                "the level of the interrupt line: 0, 1, or 2 if it is unknown";
                            return Err(Refusal::at(line, cell, "bad level", wants));
                        }
                    };
                }
                Role::Time(unit) => fields.time = Self::time_in(line, cell, *unit)?,
            }
        }
        if fields.is_other_event() {
            return Ok(());
        }
        self.writer.write(Space::Any, line, &fields, out)
    }

    fn write_decoded(&mut self, line: &[u8], out: &mut Vec<u8>) -> Result<(), Refusal> {
        let mut fields = Fields::default();
        let mut errors = LSR::empty();
        let (mut is_parallel, mut is_sent) = (false, false);
        for (cell, column) in cells(line).into_iter().zip(&self.columns) {
            match column {
                Column::Decoder => {
                    is_parallel = contains_word(cell, "parallel");
                    is_sent = contains_word(cell, "tx");
                }
                Column::ParityError if !cell.is_empty() => errors = errors.union(LSR::PARITY_ERROR),
                Column::FramingError if !cell.is_empty() => {
                    errors = errors.union(LSR::FRAMING_ERROR)
                }
                Column::ErrorText if contains_word(cell, "parity") => {
                    errors = errors.union(LSR::PARITY_ERROR);
                }
                Column::ErrorText if contains_word(cell, "framing") => {
                    errors = errors.union(LSR::FRAMING_ERROR);
                }
                Column::Role(Role::Value) => {
                    let wants = "a number behind 0x, a decimal one, or a letter";
                    let refused = || Refusal::at(line, cell, "bad number", wants);
                    fields.value = Some((decoded_number(cell).ok_or_else(refused)?, cell));
                }
                Column::Role(Role::Time(unit)) => fields.time = Self::time_in(line, cell, *unit)?,
                _ => {}
            }
        }
        // What leaves the chip is no line of a recording: the write of DATA is.
        if is_sent {
            return Ok(());
        }
        let (value, place) = fields.value.unwrap_or_default();
        if is_parallel || value > BYTE_MASK {
            let (verb, offset, byte) = parallel_access(value);
            fields.verb = Some(verb);
            fields.address = Some((offset, place));
            fields.value = Some((byte, place));
            return self.writer.write(Space::Offset, line, &fields, out);
        }
        fields.verb = Some(Verb::Arrive);
        fields.errors = errors.bits();
        self.writer.write(Space::Offset, line, &fields, out)
    }
}

impl Format for Csv {
    fn rewrite(&mut self, line: &[u8], out: &mut Vec<u8>) -> Result<(), Refusal> {
        if line.is_empty() || line.starts_with(b"#") {
            return Ok(());
        }
        if self.columns.is_empty() {
            let wants = "the names of the columns: time,op,offset,value, or the first line of an export of Saleae's";
            let head = head_in(line)
                .ok_or_else(|| Refusal::at(line, line, "no names of columns", wants))?;
            (self.columns, self.rows) = head;
            return Ok(());
        }
        match self.rows {
            Rows::Accesses => self.write_access(line, out),
            Rows::Decoded => self.write_decoded(line, out),
        }
    }
}

#[cfg(test)]
mod tests {
    use super::*;

    fn rewritten(lines: &[&str]) -> Result<String, Refusal> {
        let mut csv = Csv::new(Window::default(), Rc::default());
        let mut out = Vec::new();
        for line in lines {
            csv.rewrite(line.as_bytes(), &mut out)?;
            out.push(b'\n');
        }
        Ok(String::from_utf8(out).unwrap())
    }

    #[test]
    fn a_table_of_accesses() {
        let table = [
            "time_ns,op,offset,value,level",
            "10,read,5,0x60,0",
            "20,w,0,65,",
            "30,i,,,1",
            "40,\"a\",,0x41,",
        ];
        assert_eq!(
            rewritten(&table).unwrap(),
            "\nr 5 60 0 @10\nw 0 41 @20\ni 1 @30\na 00 41 @40\n"
        );
    }

    #[test]
    fn exports_of_saleae() {
        let of_logic_2 = [
            "name,type,start_time,duration,\"data\",\"error\"",
            "\"RX\",\"data\",0.001,0.00008,0x41,",
            "\"RX\",\"data\",0.002,0.00008,0x42,\"framing error\"",
            "\"TX\",\"data\",0.003,0.00008,0x43,",
            "\"Simple Parallel\",\"data\",0.004,0.00008,0xD60,",
        ];
        assert_eq!(
            rewritten(&of_logic_2).unwrap(),
            "\na 00 41 @1000000\na 08 42 @2000000\n\nr 5 60 @4000000\n"
        );
        let of_logic_1 = [
            "Time [s],Value,Parity Error,Framing Error",
            "-0.000001,A,,",
            "0.000002,'13',Error,",
        ];
        assert_eq!(
            rewritten(&of_logic_1).unwrap(),
            "\na 00 41 @0\na 04 0d @3000\n"
        );
    }

    #[test]
    fn cells_that_are_refused() {
        for (row, cause, column) in [
            ("10,reads,5,0x60", "bad word", 4),
            ("10,r,9,0x60", "bad offset", 6),
            ("10,r,5,6z", "bad number", 8),
            ("10,r,5,300", "bad byte", 8),
            ("10,r,5", "something is missing", 7),
            ("x,r,5,0x60", "bad time", 1),
        ] {
            let refusal = rewritten(&["ns,op,offset,value", row]).unwrap_err();
            assert_eq!((refusal.cause, refusal.column), (cause, column), "{row}");
        }
        let refusal = rewritten(&["1,2,3"]).unwrap_err();
        assert_eq!(refusal.cause, "no names of columns");
    }
}
