//! The commands of `geesetrunk`, and the command line of `uart_port`.

use crate::command_line::{Command, Count, Flag, Operand, Program};
use crate::end::STATUSES;
use crate::explain::explanations;
use crate::import::Kind;
use crate::judging::Judge;
use crate::script::Task;

const FILE: Operand = Operand {
    name: "FILE",
    count: Count::AtMostOne,
    help: "The file; standard input is read if it is - or left out",
};

// Of the commands that judge, count or show: the others print one document, and two of them would be none.
const FILES: Operand = Operand {
    name: "FILE",
    count: Count::Any,
    help: "The files; standard input is read for -, or if there is none",
};

const LEFT: Operand = Operand {
    name: "LEFT",
    count: Count::One,
    help: "The script of the left end; standard input is read if it is -",
};

const RIGHT: Operand = Operand {
    name: "RIGHT",
    count: Count::One,
    help: "The script of the right end; standard input is read if it is -",
};

const JSON: Flag = Flag {
    name: "json",
    value: None,
    help: "Prints each finding as a line of JSON, with its file, line, kind, name and text",
};

const JSON_ROWS: Flag = Flag {
    name: "json",
    value: None,
    help: "Prints each rule as a line of JSON, and then what the theorems need",
};

const ALL: Flag = Flag {
    name: "all",
    value: None,
    help: "Prints each finding, and not only the first of its kind",
};

const SETTLED: Flag = Flag {
    name: "settled",
    value: None,
    help: "Leaves out what the datasheet leaves open",
};

const SARIF: Flag = Flag {
    name: "sarif",
    value: None,
    help: "Prints one document of SARIF 2.1.0 with all findings, for code hosts and editors",
};

const HTML: Flag = Flag {
    name: "html",
    value: None,
    help: "Prints a page for a browser instead, which needs no network",
};

const ALLOW: Flag = Flag {
    name: "allow",
    value: Some("NAMES"),
    help: "Accepts these findings, as out2-off,cts-ignored: they are counted, and no fault",
};

const BASELINE: Flag = Flag {
    name: "baseline",
    value: Some("FILE"),
    help: "Accepts the findings that this file has, which --json has printed before",
};

const COLOR: Flag = Flag {
    name: "color",
    value: Some("WHEN"),
    help: "Colours: auto, always or never [default: auto]",
};

const FORMAT: Flag = Flag {
    name: "format",
    value: Some("KIND"),
    help: "The kind of log: recording, kvm, memory, csv, json, sigrok or words [default: by its lines]",
};

const BASE: Flag = Flag {
    name: "base",
    value: Some("ADDRESS"),
    help: "The address of the chip's first register in memory, as 0x10000000",
};

const STRIDE: Flag = Flag {
    name: "stride",
    value: Some("BYTES"),
    help: "The bytes from one register to the next [default: 1]",
};

const PORT: Flag = Flag {
    name: "port",
    value: Some("PORT"),
    help: "The chip's first I/O port [default of kvm and memory: 0x3f8]",
};

const IRQ: Flag = Flag {
    name: "irq",
    value: Some("GSI"),
    help: "The chip's interrupt in KVM's events, as 4: its level is the interrupt line",
};

const CLOCK: Flag = Flag {
    name: "clock",
    value: Some("HZ"),
    help: "The rate of the chip's clock [default: 1843200]",
};

const DIVISOR: Flag = Flag {
    name: "divisor",
    value: Some("N"),
    help: "The divisor where the recording begins",
};

const FIFO: Flag = Flag {
    name: "fifo",
    value: Some("N"),
    help: "The FIFOs where the recording begins: off, or how many bytes they have room for",
};

const CHIP: Flag = Flag {
    name: "chip",
    value: Some("CHIP"),
    help: "The chip, as a script names it: 16750 has FIFOs of 64, 16450 has none [default: 16550a]",
};

const LATENESS: &str = "\
A handler is as late as its first access, a read of ISR, comes behind the rise of the
interrupt line. In the time of a row no character is lost, without flow control, if
  - each visit of the handler ends with Idle, and makes no more other accesses, which
    are for no byte: if a character takes longer than eight accesses, one that only
    receives makes at most 12, and one that also fills the transmitter up to 20 more
    than that takes bytes; if it takes four or fewer, a visit may not end with Idle
  - the other end is no faster than configured, also by its stop bits
  - the receive ring has room for a whole FIFO when a visit begins
  - interrupts are off for no longer, whatever else is called";

const RECORDING: Operand = Operand {
    name: "FILE",
    count: Count::AtMostOne,
    help: "The recording or log; standard input is read if it is - or left out",
};

const COLUMNS: &str = "\
The columns of a table:
  tick, line      When it happens, in a run or in a recording
  access          r or w, the register, the value; xN if it was made N times in turn
  wire            The byte that was sent
  arrives         The character that arrives, with its errors, and in a run its mark
  lines           The modem inputs, as the high digit of MSR
  held, waiting   How many bytes are in the transmitter and in the receiver
  irq             The interrupt line, where it changes";

const CENSUS: &str = "\
It takes about a second, and no cable. The outputs of the chip are off meanwhile,
what waits in its receiver is lost, and it is put back as it was, but for the trigger
level. It needs root, and a kernel that is not locked down: --device and --judge do not.

Each rule is seen to hold, differs, with what was read or counted, or cannot be seen.";

const KINDS: &str = "\
Kinds of logs:
  recording  The project's own, and QEMU's of serial_read and serial_write
  kvm        KVM's events kvm_pio and kvm_mmio, by ftrace, trace-cmd or perf script
  memory     QEMU's of memory_region_ops_read and memory_region_ops_write
  csv        A table with names in its first line, and exports of Saleae's Logic
  json       An object in each line
  sigrok     What sigrok-cli prints of a serial decoder, or of two parallel ones
  words      Words of a monitor's own, as: write addr=0x3f8 val=0x41";

/// What `geesetrunk` can do.
#[derive(Clone, Copy, Debug, PartialEq, Eq)]
pub enum Job {
    /// Does something with a script.
    Report(Task),
    /// Draws the timeline of a script or of a recording.
    Timeline,
    /// Plays two scripts over a cable.
    Link,
    /// Judges a recording.
    Judge(Judge),
    /// Judges a trace.
    Verify,
    /// Prints a log as a recording.
    Import,
    /// Shows a recording.
    Show,
    /// Prints what happened in a recording in numbers.
    Stats,
    /// Says how late a handler may be.
    Budget,
    /// Asks a chip whether it does what is taken for granted, or judges a recording of that.
    Census,
    /// Explains a name.
    Explain,
    /// Prints the completions of a shell.
    Completions,
    /// Prints the manual page.
    Manual,
}

/// The program `geesetrunk`.
pub const GEESETRUNK: Program<Job> = Program {
    name: "geesetrunk",
    version: env!("CARGO_PKG_VERSION"),
    about: "\
Plays scripts for a serial chip and its driver, shows what happened, and judges
recordings and traces

A line of a script that begins with # is a comment, and counts as a blank line. With
its comments a script has at most 65536 bytes, and no more of a file is read. A
recording may have any length.",
    commands: &[
        Command {
            job: Job::Report(Task::Play),
            name: "geesetrunk play",
            about: "Plays a script and prints its output, as uart_script does",
            operands: &[FILE],
            flags: &[COLOR],
            more: None,
        },
        Command {
            job: Job::Report(Task::Check),
            name: "geesetrunk check",
            about: "Finds the first fault of a script, and says what is expected there",
            operands: &[FILES],
            flags: &[COLOR],
            more: None,
        },
        Command {
            job: Job::Report(Task::Trace),
            name: "geesetrunk trace",
            about: "Prints each register access with the value read or written, call by call",
            operands: &[FILE],
            flags: &[COLOR],
            more: None,
        },
        Command {
            job: Job::Timeline,
            name: "geesetrunk timeline",
            about: "Prints the timeline of a run, or of a recording, as an SVG picture",
            operands: &[FILE],
            flags: &[
                Flag {
                    name: "text",
                    value: None,
                    help: "Prints a table for a terminal instead of a picture",
                },
                HTML,
                COLOR,
                Flag {
                    name: "recording",
                    value: None,
                    help: "FILE is a recording: draws what leads to the first warning of its audit",
                },
                Flag {
                    name: "line",
                    value: Some("LINE"),
                    help: "FILE is a recording: draws what leads to this line",
                },
                Flag {
                    name: "last",
                    value: Some("N"),
                    help: "FILE is a recording: draws so many events [default: 100]",
                },
                FORMAT,
                BASE,
                STRIDE,
                PORT,
                IRQ,
                CLOCK,
                DIVISOR,
                FIFO,
                CHIP,
            ],
            more: Some(COLUMNS),
        },
        Command {
            job: Job::Link,
            name: "geesetrunk link",
            about: "Plays two scripts at the two ends of a cable, and prints what each call returned",
            operands: &[LEFT, RIGHT],
            flags: &[
                Flag {
                    name: "delay",
                    value: Some("TICKS"),
                    help: "How long characters and lines are on the cable [default: 1]",
                },
                Flag {
                    name: "bounds",
                    value: None,
                    help: "Says behind the rest how much room flow control needed",
                },
                Flag {
                    name: "picture",
                    value: None,
                    help: "Prints both timelines as one SVG picture instead",
                },
                COLOR,
            ],
            more: None,
        },
        Command {
            job: Job::Judge(Judge::Audit),
            name: "geesetrunk audit",
            about: "Says what the driver of a recording does wrong",
            operands: &[FILES],
            flags: &[
                ALL, ALLOW, BASELINE, JSON, SARIF, HTML, COLOR, CLOCK, DIVISOR, FIFO, CHIP, FORMAT,
                BASE, STRIDE, PORT, IRQ,
            ],
            more: Some(KINDS),
        },
        Command {
            job: Job::Judge(Judge::Replay),
            name: "geesetrunk replay",
            about: "Says where its chip answers as the one defined here never does",
            operands: &[FILES],
            flags: &[
                ALL, SETTLED, ALLOW, BASELINE, JSON, SARIF, HTML, COLOR, CLOCK, DIVISOR, FIFO,
                CHIP, FORMAT, BASE, STRIDE, PORT, IRQ,
            ],
            more: Some(KINDS),
        },
        Command {
            job: Job::Verify,
            name: "geesetrunk verify",
            about: "Says where a trace has accesses that its call does not make",
            operands: &[FILES],
            flags: &[
                Flag {
                    name: "limit",
                    value: Some("N"),
                    help: "How many unsuccessful polls in a row end a wait [default: 1000000]",
                },
                Flag {
                    name: "fifo-size",
                    value: Some("SIZE"),
                    help: "The size that the driver takes the FIFOs for, as a script sets it [default: 16]",
                },
                JSON,
                SARIF,
                COLOR,
            ],
            more: None,
        },
        Command {
            job: Job::Census,
            name: "geesetrunk census",
            about: "Asks the chip at a port of this machine, in loopback, whether what is proved holds on it",
            operands: &[Operand {
                name: "PORT",
                count: Count::AtMostOne,
                help: "The chip's first port in hexadecimal digits, such as 2f8 or 0x2f8",
            }],
            flags: &[
                Flag {
                    name: "record",
                    value: Some("FILE"),
                    help: "Writes rows and recording to this file",
                },
                Flag {
                    name: "judge",
                    value: Some("FILE"),
                    help: "Asks no port: makes the rows of such a recording anew",
                },
                JSON_ROWS,
                Flag {
                    name: "device",
                    value: Some("FILE"),
                    help: "The file with a byte for each port [default: /dev/port]",
                },
                Flag {
                    name: "even-if-used",
                    value: None,
                    help: "Asks a port too that is a console, or that a process has open",
                },
                COLOR,
            ],
            more: Some(CENSUS),
        },
        Command {
            job: Job::Explain,
            name: "geesetrunk explain",
            about: "Says what a finding or an error means, what it costs, and what to do",
            operands: &[Operand {
                name: "NAME",
                count: Count::Any,
                help: "The names, as they stand in brackets behind findings; without one all are listed",
            }],
            flags: &[],
            more: None,
        },
        Command {
            job: Job::Show,
            name: "geesetrunk show",
            about: "Shows a recording with registers and bits by name, or its bytes as text",
            operands: &[FILES],
            flags: &[
                Flag {
                    name: "register",
                    value: Some("NAMES"),
                    help: "Only accesses of these registers, as LSR or DATA,LCR",
                },
                Flag {
                    name: "writes",
                    value: None,
                    help: "Only writes",
                },
                Flag {
                    name: "from",
                    value: Some("LINE"),
                    help: "Only from this line on",
                },
                Flag {
                    name: "to",
                    value: Some("LINE"),
                    help: "Only up to this line",
                },
                Flag {
                    name: "bytes",
                    value: None,
                    help: "The bytes that were sent and read, as text",
                },
                COLOR,
                FORMAT,
                BASE,
                STRIDE,
                PORT,
                IRQ,
            ],
            more: None,
        },
        Command {
            job: Job::Stats,
            name: "geesetrunk stats",
            about: "Says in numbers what happened in a recording, in all and from set-up to set-up",
            operands: &[FILES],
            flags: &[
                Flag {
                    name: "whole",
                    value: None,
                    help: "Only what happened in all",
                },
                COLOR,
                CLOCK,
                DIVISOR,
                FIFO,
                CHIP,
                FORMAT,
                BASE,
                STRIDE,
                PORT,
                IRQ,
            ],
            more: None,
        },
        Command {
            job: Job::Import,
            name: "geesetrunk import",
            about: "Prints a log of another tool as a recording",
            operands: &[RECORDING],
            flags: &[COLOR, FORMAT, BASE, STRIDE, PORT, IRQ],
            more: Some(KINDS),
        },
        Command {
            job: Job::Budget,
            name: "geesetrunk budget",
            about: "Says how late the handler of interrupts may be, so that no character is lost",
            operands: &[],
            flags: &[
                Flag {
                    name: "baud",
                    value: Some("RATE"),
                    help: "The baud rate [default: 115200]",
                },
                Flag {
                    name: "frame",
                    value: Some("FRAME"),
                    help: "Data bits, parity and stop bits, as 7E2 or 5O1.5 [default: 8N1]",
                },
                Flag {
                    name: "fifo",
                    value: Some("N"),
                    help: "The FIFO: off, or how many bytes it has room for [default: 16]",
                },
                Flag {
                    name: "level",
                    value: Some("N"),
                    help: "Only this trigger level, in characters [default: a row for each]",
                },
                Flag {
                    name: "access",
                    value: Some("US"),
                    help: "How long an access takes at most, in microseconds, as 0.25 [default: 1]",
                },
                Flag {
                    name: "before",
                    value: Some("US"),
                    help: "How long the handler is at the other ports of a shared line before [default: 0]",
                },
                Flag {
                    name: "latency",
                    value: Some("US"),
                    help: "How late the handler may begin: says which level to take for that",
                },
                Flag {
                    name: "clock",
                    value: Some("HZ"),
                    help: "The rate of the chip's clock [default: 14745600]",
                },
                Flag {
                    name: "ticks",
                    value: Some("N"),
                    help: "A character takes N ticks, as in a script: all times are in ticks",
                },
                Flag {
                    name: "table",
                    value: None,
                    help: "Prints a table for documents, of usual baud rates and FIFOs, in microseconds",
                },
            ],
            more: Some(LATENESS),
        },
        Command {
            job: Job::Completions,
            name: "geesetrunk completions",
            about: "Prints what a shell reads to complete the words of a command line",
            operands: &[Operand {
                name: "SHELL",
                count: Count::One,
                help: "The shell: bash, fish or zsh",
            }],
            flags: &[],
            more: None,
        },
        Command {
            job: Job::Manual,
            name: "geesetrunk manual",
            about: "Prints the manual page, for man",
            operands: &[],
            flags: &[],
            more: None,
        },
    ],
    values: values_of,
    more: STATUSES,
};

// Returns what a value or an operand of this name can be.
fn values_of(name: &str) -> Vec<&'static str> {
    match name {
        "CHIP" => vec![
            "16550a",
            "16450",
            "16650",
            "16750",
            "16850",
            "16950",
            "16550a-256",
        ],
        "KIND" => Kind::ALL.into_iter().map(Kind::name).collect(),
        "NAME" => explanations().map(|row| row.name).collect(),
        "SHELL" => vec!["bash", "fish", "zsh"],
        "WHEN" => vec!["auto", "always", "never"],
        _ => Vec::new(),
    }
}

/// The program `uart_port`.
pub const UART_PORT: Command<()> = Command {
    job: (),
    name: "uart_port",
    about: "\
Plays a script's calls on the 16550 at an I/O port, and prints each answer.

A script is written as for uart_script, but without events: tick, arrive, lines and
access are refused, and next does nothing. The chip line is checked and has no effect,
since the chip is the one at the port. The line limit N sets how many unsuccessful
polls in a row end a wait. The line fifo-size SIZE sets how many bytes are written after
one look: if the chip's FIFOs are smaller, bytes are lost. The lines wire, held, waiting
and marks are not printed, since a port does not show what they report.",
    operands: &[
        Operand {
            name: "PORT",
            count: Count::One,
            help: "the chip's first port in hexadecimal digits, such as 3f8 or 0x3f8",
        },
        Operand {
            name: "SCRIPT",
            count: Count::AtMostOne,
            help: "the script; standard input is read if it is - or left out",
        },
    ],
    flags: &[
        Flag {
            name: "device",
            value: Some("FILE"),
            help: "the file with a byte for each port [default: /dev/port]",
        },
        Flag {
            name: "trace",
            value: Some("FILE"),
            help: "writes each call, its accesses and its answer to this file",
        },
    ],
    more: Some(STATUSES),
};

#[cfg(test)]
mod tests {
    use super::*;
    use crate::command_line::Shell;
    use crate::terminal::Colour;
    use uart_language::fields::chip_in;

    // Shells complete by these words.
    #[test]
    fn what_a_value_can_be_is_accepted() {
        type Accepts = fn(&str) -> bool;
        let rows: [(&str, Accepts); 4] = [
            ("CHIP", |word| chip_in(word.as_bytes()).is_ok()),
            ("KIND", |word| Kind::named(word).is_some()),
            ("SHELL", |word| Shell::named(word).is_some()),
            ("WHEN", |word| Colour::named(word).is_some()),
        ];
        for (name, accepts) in rows {
            let words = values_of(name);
            assert!(!words.is_empty(), "{name}");
            assert!(words.into_iter().all(accepts), "{name}");
        }
    }
}
