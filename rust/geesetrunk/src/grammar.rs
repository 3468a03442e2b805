//! The lines of the script language, explained for people.
//!
//! Only `parse` of the language decides which lines are accepted. This is the table of what is said
//! of a line that it refuses.

use uart_language::fields::{
    byte_in, bytes_in, char_ticks_in, check_in, chip_in, count_in, cts_in, cut_in, dump_in,
    errors_in, fifos_in, interrupts_in, level_in, limit_in, lines_in, number_in, outputs_in,
    rate_in, size_in, switch_in, text_in, ticks_in, trigger_in, wait_in, wire_capacity_in,
    word_length_in,
};
use uart_language::limits::MOST_LIMIT;
use uart_ring::MAX_CAPACITY;

/// A field of a line.
#[derive(Clone, Copy, Debug, PartialEq, Eq)]
pub enum Field {
    /// The kind of chip.
    Chip,
    /// The ticks of a character.
    CharTicks,
    /// The room on the wire.
    WireRoom,
    /// The option that cuts characters to the word length.
    Cut,
    /// The spin limit.
    Limit,
    /// The size that the driver takes the FIFOs for.
    FifoSize,
    /// The ticks of an event.
    Ticks,
    /// A byte.
    Byte,
    /// The errors of an arrival.
    Errors,
    /// The modem lines.
    Lines,
    /// The trigger level.
    Level,
    /// The baud rate.
    Rate,
    /// Whether CTS is checked before sending.
    Cts,
    /// The interrupts.
    Interrupts,
    /// The data bits of a character.
    DataBits,
    /// The number of slots of a call.
    Count,
    /// The bytes of a call.
    Bytes,
    /// The text of a call.
    Text,
    /// Whether the scratch register is tested.
    Check,
    /// When to wait until the transmitter is empty.
    Wait,
    /// The outputs to the modem.
    Outputs,
    /// The trigger level of FIFOs that are on.
    Trigger,
    /// Whether a break or an output is on.
    Switch,
    /// What becomes of the FIFOs.
    Fifos,
    /// The registers of a dump.
    Registers,
    /// The room of a ring.
    Capacity,
    /// The interrupts that a handler serves, or the rounds that it may leave unfinished.
    Most,
    /// Bytes in a ring, or of its room.
    Mark,
}

impl Field {
    /// Returns what the field accepts, for people.
    pub fn wants(self) -> &'static str {
        match self {
            Field::Chip => "a chip: 16550a, 16450, 16650, 16750, 16850, 16950 or 16550a-256",
            Field::CharTicks => "how many ticks a character takes: a number from 1 to 1000",
            Field::WireRoom => "how many bytes the wire has room for: a number from 0 to 65536",
            Field::Cut => "cut, or nothing",
            Field::Limit => "the polls that end a wait: a number from 1 to 1000000",
            Field::FifoSize => "how many bytes each FIFO holds: 16, 32, 64, 128 or 256",
            Field::Ticks => "how many ticks pass: a number from 0 to 65535",
            Field::Byte => "a byte: two hexadecimal digits",
            Field::Errors => "what is wrong with the byte: p, f, b, pf, pb, fb or pfb",
            Field::Lines => {
                "the modem lines: one hexadecimal digit, the sum of 1 CTS, 2 DSR, 4 RI and 8 CD"
            }
            Field::Level => "a trigger level: 1, 4, 8, 14 or off",
            Field::Rate => "a baud rate: a number from 1 to 4294967295",
            Field::Cts => "cts or nocts",
            Field::Interrupts => "interrupts: two hexadecimal digits",
            Field::DataBits => "data bits: a number from 5 to 8",
            Field::Count => "how many bytes there is room for: a number from 0 to 64",
            Field::Bytes => "at most 64 bytes: pairs of hexadecimal digits, or -",
            Field::Text => "a text of at most 64 bytes of UTF-8: pairs of hexadecimal digits, or -",
            Field::Check => "check or nocheck",
            Field::Wait => "when to wait: first, last or never",
            Field::Outputs => "outputs, as in MCR: two hexadecimal digits",
            Field::Trigger => "a trigger level: 1, 4, 8 or 14",
            Field::Switch => "on or off",
            Field::Fifos => "what becomes of the FIFOs: keep, reset or disable",
            Field::Registers => {
                "nine bytes: the registers in the order of dump, with DLL and DLM at the end"
            }
            Field::Capacity => "how many bytes a ring has room for: a number from 1 to 4096",
            Field::Most => "the most interrupts, or rounds in a row: a number from 0 to 1000000",
            Field::Mark => "a mark, in bytes: a number from 0 to 4096",
        }
    }

    /// Returns whether the field accepts this word.
    pub fn accepts(self, word: &[u8]) -> bool {
        match self {
            Field::Chip => chip_in(word).is_ok(),
            Field::CharTicks => char_ticks_in(word).is_ok(),
            Field::WireRoom => wire_capacity_in(word).is_ok(),
            Field::Cut => cut_in(word).is_ok(),
            Field::Limit => limit_in(word).is_ok(),
            Field::FifoSize => size_in(word).is_ok(),
            Field::Ticks => ticks_in(word).is_ok(),
            Field::Byte => byte_in(word).is_ok(),
            Field::Errors => errors_in(word).is_ok(),
            Field::Lines => lines_in(word).is_ok(),
            Field::Level => level_in(word).is_ok(),
            Field::Rate => rate_in(word).is_ok(),
            Field::Cts => cts_in(word).is_ok(),
            Field::Interrupts => interrupts_in(word).is_ok(),
            Field::DataBits => word_length_in(word).is_ok(),
            Field::Count => count_in(word).is_ok(),
            Field::Bytes => bytes_in(word).is_ok(),
            Field::Text => text_in(word).is_ok(),
            Field::Check => check_in(word).is_ok(),
            Field::Wait => wait_in(word).is_ok(),
            Field::Outputs => outputs_in(word).is_ok(),
            Field::Trigger => trigger_in(word).is_ok(),
            Field::Switch => switch_in(word).is_ok(),
            Field::Fifos => fifos_in(word).is_ok(),
            Field::Registers => dump_in(word).is_ok(),
            Field::Capacity => number_in(1, MAX_CAPACITY as u64, word).is_ok(),
            Field::Most => number_in(0, MOST_LIMIT, word).is_ok(),
            Field::Mark => number_in(0, MAX_CAPACITY as u64, word).is_ok(),
        }
    }
}

/// A kind of line that has fields.
#[derive(Debug)]
pub struct Form {
    /// How such a line is written.
    pub usage: &'static str,
    /// The fields that may follow its first word.
    pub fields: &'static [Field],
}

// The first word of a usage is that of the line.
const FORMS: [Form; 29] = [
    Form {
        usage: "chip NAME T W [cut]",
        fields: &[Field::Chip, Field::CharTicks, Field::WireRoom, Field::Cut],
    },
    Form {
        usage: "limit N",
        fields: &[Field::Limit],
    },
    Form {
        usage: "fifo-size SIZE",
        fields: &[Field::FifoSize],
    },
    Form {
        usage: "tick N",
        fields: &[Field::Ticks],
    },
    Form {
        usage: "arrive HH [E]",
        fields: &[Field::Byte, Field::Errors],
    },
    Form {
        usage: "lines H",
        fields: &[Field::Lines],
    },
    Form {
        usage: "init F BAUD cts|nocts HH BITS",
        fields: &[
            Field::Level,
            Field::Rate,
            Field::Cts,
            Field::Interrupts,
            Field::DataBits,
        ],
    },
    Form {
        usage: "init-with F BAUD cts|nocts HH BITS check|nocheck first|last|never HH",
        fields: &[
            Field::Level,
            Field::Rate,
            Field::Cts,
            Field::Interrupts,
            Field::DataBits,
            Field::Check,
            Field::Wait,
            Field::Outputs,
        ],
    },
    Form {
        usage: "set-frame BAUD BITS",
        fields: &[Field::Rate, Field::DataBits],
    },
    Form {
        usage: "set-frame-when-idle BAUD BITS",
        fields: &[Field::Rate, Field::DataBits],
    },
    Form {
        usage: "set-trigger-level F",
        fields: &[Field::Trigger],
    },
    Form {
        usage: "set-break on|off",
        fields: &[Field::Switch],
    },
    Form {
        usage: "set-modem-control HH",
        fields: &[Field::Outputs],
    },
    Form {
        usage: "set-rts on|off",
        fields: &[Field::Switch],
    },
    Form {
        usage: "set-dtr on|off",
        fields: &[Field::Switch],
    },
    Form {
        usage: "quiesce HH keep|reset|disable",
        fields: &[Field::Outputs, Field::Fifos],
    },
    Form {
        usage: "restore HEX",
        fields: &[Field::Registers],
    },
    Form {
        usage: "check-configured HH",
        fields: &[Field::Outputs],
    },
    Form {
        usage: "receive-with-errors N",
        fields: &[Field::Count],
    },
    Form {
        usage: "try-send HH",
        fields: &[Field::Byte],
    },
    Form {
        usage: "enable HH",
        fields: &[Field::Interrupts],
    },
    Form {
        usage: "disable HH",
        fields: &[Field::Interrupts],
    },
    Form {
        usage: "receive N",
        fields: &[Field::Count],
    },
    Form {
        usage: "receive-exact N",
        fields: &[Field::Count],
    },
    Form {
        usage: "read N",
        fields: &[Field::Count],
    },
    Form {
        usage: "send HEX",
        fields: &[Field::Bytes],
    },
    Form {
        usage: "send-exact HEX",
        fields: &[Field::Bytes],
    },
    Form {
        usage: "write HEX",
        fields: &[Field::Bytes],
    },
    Form {
        usage: "text HEX",
        fields: &[Field::Text],
    },
];

// The lines that have one word and no fields.
const ALONE: [&str; 21] = [
    "access",
    "attach",
    "connected",
    "dump",
    "flush",
    "ier",
    "is-idle",
    "isr",
    "lcr",
    "loopback",
    "lsr",
    "mcr",
    "msr",
    "next",
    "peek-modem",
    "present",
    "read-ready",
    "retrigger-interrupts",
    "spr",
    "try-receive",
    "write-ready",
];

// The lines that only a script with rings has, and that have fields.
const FORMS_OF_RINGS: [Form; 11] = [
    Form {
        usage: "rings T R",
        fields: &[Field::Capacity, Field::Capacity],
    },
    Form {
        usage: "queue HEX",
        fields: &[Field::Bytes],
    },
    Form {
        usage: "take N",
        fields: &[Field::Count],
    },
    Form {
        usage: "take-with-errors N",
        fields: &[Field::Count],
    },
    Form {
        usage: "handle N",
        fields: &[Field::Most],
    },
    Form {
        usage: "queue-urgent HH",
        fields: &[Field::Byte],
    },
    Form {
        usage: "set-low-mark N",
        fields: &[Field::Mark],
    },
    Form {
        usage: "try-handle N M",
        fields: &[Field::Most, Field::Most],
    },
    Form {
        usage: "restart HH",
        fields: &[Field::Interrupts],
    },
    Form {
        usage: "adjust-rts N M",
        fields: &[Field::Mark, Field::Mark],
    },
    Form {
        usage: "adjust-xoff N M",
        fields: &[Field::Mark, Field::Mark],
    },
];

// Those of them that have no fields.
const ALONE_OF_RINGS: [&str; 11] = [
    "clear-receive",
    "clear-transmit",
    "hold-transmit",
    "obey-xoff",
    "release-transmit",
    "resume-transmit",
    "retrigger",
    "service",
    "take-line",
    "take-low",
    "take-modem",
];

fn first_words(forms: &'static [Form]) -> impl Iterator<Item = &'static str> {
    forms.iter().filter_map(|form| form.usage.split(' ').next())
}

/// Returns the first words of the lines that a script may have, with those of the rings if it has rings.
pub fn words_of_lines(has_rings: bool) -> impl Iterator<Item = &'static str> {
    let of_rings = first_words(&FORMS_OF_RINGS).chain(ALONE_OF_RINGS);
    let of_rings = of_rings.filter(move |_| has_rings);
    first_words(&FORMS).chain(ALONE).chain(of_rings)
}

/// Returns the form of the lines with this first word, or `None` if they have no fields.
pub fn form_of(word: &[u8]) -> Option<&'static Form> {
    FORMS
        .iter()
        .chain(&FORMS_OF_RINGS)
        .find(|form| form.usage.split(' ').next().map(str::as_bytes) == Some(word))
}

/// Returns the fields that may follow this first word.
pub fn fields_after(word: &[u8]) -> &'static [Field] {
    form_of(word).map_or(&[], |form| form.fields)
}

#[cfg(test)]
mod tests {
    use super::*;
    use crate::ring_language::{call_at, is_ring_line};
    use uart_language::{Place, item_at};

    #[test]
    fn a_word_without_fields_is_a_line() {
        for word in ALONE {
            assert!(item_at(Place::Later, word.as_bytes()).is_ok(), "{word}");
        }
        assert!(words_of_lines(true).all(|word| !word.is_empty()));
    }

    #[test]
    fn the_words_of_rings_are_those_of_the_language() {
        for word in ALONE_OF_RINGS {
            assert!(
                matches!(call_at(2, false, 3, word.as_bytes()), Ok(Some(_))),
                "{word}"
            );
        }
        for word in first_words(&FORMS_OF_RINGS) {
            assert!(is_ring_line(word.as_bytes()), "{word}");
        }
    }

    #[test]
    fn a_word_with_fields_has_its_form() {
        assert_eq!(form_of(b"tick").map(|form| form.usage), Some("tick N"));
        assert_eq!(fields_after(b"arrive"), [Field::Byte, Field::Errors]);
        assert!(form_of(b"lsr").is_none());
        assert!(form_of(b"").is_none());
    }
}
