//! Chips that deviate from the software chip, each in one thing: does the census tell it by its name?

use std::sync::LazyLock;

use Register::{Data, Dlm, Ier, Isr, Lcr, Lsr, Mcr, Msr, Scr};

use crate::{Model, model};

const DATA_READY: u8 = 0x01;
const OVERRUN: u8 = 0x02;
const BREAK: u8 = 0x10;
const THR_EMPTY: u8 = 0x20;
const TRANSMITTER_EMPTY: u8 = 0x40;
const FIFO_ERROR: u8 = 0x80;
/// The low four bits of ISR.
const CODE: u8 = 0x0f;
const NONE: u8 = 0x01;
/// Longer than a character at 9,600 baud.
const CHARACTER_NS: u64 = 1_100_000;

/// What an access is about. ISR is FCR when it is written.
#[derive(Clone, Copy, Debug, PartialEq, Eq)]
pub enum Register {
    Data,
    Ier,
    Isr,
    Lcr,
    Mcr,
    Lsr,
    Msr,
    Scr,
    Dll,
    Dlm,
}

impl Register {
    fn at(offset: u8, is_latch_open: bool) -> Self {
        match offset {
            0 if is_latch_open => Self::Dll,
            1 if is_latch_open => Self::Dlm,
            0 => Self::Data,
            1 => Self::Ier,
            2 => Self::Isr,
            3 => Self::Lcr,
            4 => Self::Mcr,
            5 => Self::Lsr,
            6 => Self::Msr,
            _ => Self::Scr,
        }
    }
}

type Read = fn(&mut Deviant, Register, u8) -> u8;
type Write = fn(&mut Deviant, Register, u8) -> Option<u8>;

/// One thing in which a chip deviates.
pub struct Deviation {
    /// The rule that is to tell it.
    pub rule: &'static str,
    /// The rules that it breaks too.
    pub also: &'static [&'static str],
    /// What the chip does.
    pub what: &'static str,
    read: Read,
    write: Write,
    has_looped_break: bool,
}

impl Deviation {
    fn new(rule: &'static str, what: &'static str) -> Self {
        Self { rule, also: &[], what, read: |_, _, value| value, write: |_, _, value| Some(value), has_looped_break: false }
    }

    /// What is read in place of what the chip below shows.
    fn reads(self, read: Read) -> Self {
        Self { read, ..self }
    }

    /// What is written to the chip below, if anything.
    fn writes(self, write: Write) -> Self {
        Self { write, ..self }
    }

    fn also(self, also: &'static [&'static str]) -> Self {
        Self { also, ..self }
    }

    /// The chip below loops a break back, which the software chip does not.
    fn of_looped_break(self) -> Self {
        Self { has_looped_break: true, ..self }
    }

    /// The chip that deviates so.
    pub fn chip(&'static self) -> Box<dyn Model> {
        let live = model("live").expect("a name of MODELS");
        let chip = if self.has_looped_break { Box::new(LoopedBreak { chip: live, lcr: 0, waits: false, is_shown: false }) } else { live };
        Box::new(Deviant { chip, deviation: self, written: Written::default(), time: 0, since: 0, kept: 0, is_marked: false })
    }
}

/// What was last written.
#[derive(Default)]
struct Written {
    ier: u8,
    fcr: u8,
    lcr: u8,
    mcr: u8,
}

/// A chip that deviates from the one below it.
pub struct Deviant {
    chip: Box<dyn Model>,
    deviation: &'static Deviation,
    written: Written,
    time: u64,
    // What a deviation keeps of what went before: a time, a byte and a mark, of which each says for itself what they are.
    since: u64,
    kept: u8,
    is_marked: bool,
}

impl Deviant {
    fn has_fifo(&self) -> bool {
        self.written.fcr & 0x01 != 0
    }

    /// Returns the mark, and takes it away.
    fn take_mark(&mut self) -> bool {
        std::mem::take(&mut self.is_marked)
    }

    /// Counts one more, up to 255.
    fn count(&mut self) -> u8 {
        self.kept = self.kept.saturating_add(1);
        self.kept
    }
}

impl Model for Deviant {
    fn read(&mut self, offset: u8) -> u8 {
        let register = Register::at(offset, self.written.lcr & 0x80 != 0);
        let value = self.chip.read(offset);
        (self.deviation.read)(self, register, value)
    }

    fn write(&mut self, offset: u8, value: u8) {
        let register = Register::at(offset, self.written.lcr & 0x80 != 0);
        if let Some(value) = (self.deviation.write)(self, register, value) {
            self.chip.write(offset, value);
        }
        match register {
            Ier => self.written.ier = value,
            Isr => self.written.fcr = value,
            Lcr => self.written.lcr = value,
            Mcr => self.written.mcr = value,
            _ => {}
        }
    }

    fn pass(&mut self, ns: u64) {
        self.time += ns;
        self.chip.pass(ns);
    }
}

/// A chip that loops a break back in loopback, as one character behind what waits.
struct LoopedBreak {
    chip: Box<dyn Model>,
    lcr: u8,
    /// The break is in the FIFO.
    waits: bool,
    /// LSR has shown it.
    is_shown: bool,
}

impl Model for LoopedBreak {
    fn read(&mut self, offset: u8) -> u8 {
        let is_in_front = self.waits && matches!(offset, 0 | 5) && self.chip.read(5) & DATA_READY == 0;
        if offset == 0 && is_in_front && self.lcr & 0x80 == 0 {
            self.waits = false;
            return 0x00;
        }
        let value = self.chip.read(offset);
        match offset {
            5 if is_in_front && !std::mem::replace(&mut self.is_shown, true) => value | DATA_READY | BREAK | FIFO_ERROR,
            5 if is_in_front => value | DATA_READY,
            5 if self.waits => value | FIFO_ERROR,
            _ => value,
        }
    }

    fn write(&mut self, offset: u8, value: u8) {
        if offset == 3 {
            let begins = value & 0xc0 == 0x40 && self.lcr & 0x40 == 0;
            (self.waits, self.is_shown) = (self.waits || begins, self.is_shown && !begins);
            self.lcr = value;
        }
        if offset == 2 && value & 0x02 != 0 {
            self.waits = false;
        }
        self.chip.write(offset, value);
    }

    fn pass(&mut self, ns: u64) {
        self.chip.pass(ns);
    }
}

/// A code of ISR that shows in place of another.
fn with_code(value: u8, code: u8) -> u8 {
    value & !CODE | code
}

/// A deviation for each rule that the software chip does not break itself.
pub static DEVIATIONS: LazyLock<Vec<Deviation>> =
    LazyLock::new(|| [registers(), modem(), data(), sizes(), levels(), interrupts(), resets(), breaks()].into_iter().flatten().collect());

fn registers() -> Vec<Deviation> {
    vec![
        Deviation::new("scratch", "there is no SCR").reads(|_, register, value| if register == Scr { 0xff } else { value }),
        Deviation::new("ier-keeps", "IER has no bit 3")
            .writes(|_, register, value| Some(if register == Ier { value & 0x07 } else { value }))
            .also(&["modem-interrupt", "priorities"]),
        Deviation::new("ier-upper", "IER keeps bits 4 to 7").reads(
            |chip, register, value| {
                if register == Ier { value | chip.written.ier & 0xf0 } else { value }
            },
        ),
        Deviation::new("lcr-keeps", "LCR has no bit 5").reads(|_, register, value| if register == Lcr { value & 0xdf } else { value }),
        Deviation::new("lcr-when-busy", "LCR ignores a write while a character goes out").writes(|chip, register, value| {
            let is_busy = register == Lcr && chip.chip.read(5) & TRANSMITTER_EMPTY == 0;
            (!is_busy).then_some(value)
        }),
        Deviation::new("mcr-keeps", "MCR has no bit 2")
            .writes(|_, register, value| Some(if register == Mcr { value & 0x1b } else { value }))
            .also(&["looped-lines", "modem-changes"]),
        Deviation::new("mcr-upper", "MCR keeps bits 5 to 7").reads(
            |chip, register, value| {
                if register == Mcr { value | chip.written.mcr & 0xe0 } else { value }
            },
        ),
        Deviation::new("latch", "the divisor latch has 12 bits")
            .writes(|_, register, value| Some(if register == Dlm { value & 0x0f } else { value })),
        Deviation::new("latch-hides-ier", "what is written to DLM is in IER afterwards").writes(|chip, register, value| {
            match register {
                Dlm => (chip.kept, chip.is_marked) = (value & 0x0f, true),
                Lcr if value & 0x80 == 0 && chip.take_mark() => {
                    chip.chip.write(3, value);
                    chip.chip.write(1, chip.kept);
                }
                _ => {}
            }
            Some(value)
        }),
        Deviation::new("isr-idle", "ISR ends in 0011 while no interrupt is enabled").reads(|chip, register, value| {
            if register == Isr && chip.written.ier == 0 && value & CODE == NONE { with_code(value, 0x03) } else { value }
        }),
        Deviation::new("isr-bits-4-5", "ISR shows bit 5").reads(|_, register, value| if register == Isr { value | 0x20 } else { value }),
        Deviation::new("fifo-bits", "ISR shows bit 7 alone, as the first 16550")
            .reads(|_, register, value| if register == Isr { value & 0xbf } else { value }),
    ]
}

fn modem() -> Vec<Deviation> {
    vec![
        Deviation::new("looped-lines", "CTS is always set").reads(|_, register, value| if register == Msr { value | 0x10 } else { value }),
        Deviation::new("modem-changes", "MSR shows no change")
            .reads(|_, register, value| if register == Msr { value & 0xf0 } else { value }),
        Deviation::new("changes-stay", "a write of MCR forgets the changes before it").writes(|chip, register, value| {
            if register == Mcr {
                chip.chip.read(6);
            }
            Some(value)
        }),
        Deviation::new("msr-clears", "a change of CTS is shown twice").reads(|chip, register, value| {
            if register != Msr {
                return value;
            }
            let is_again = chip.take_mark();
            chip.is_marked = !is_again && value & 0x01 != 0;
            value | u8::from(is_again)
        }),
        Deviation::new("modem-interrupt", "a change does not interrupt")
            .reads(|_, register, value| if register == Isr && value & CODE == 0 { with_code(value, NONE) } else { value })
            .also(&["priorities"]),
    ]
}

fn data() -> Vec<Deviation> {
    vec![
        Deviation::new("echo", "an FF comes back as FE").reads(
            |_, register, value| {
                if (register, value) == (Data, 0xff) { 0xfe } else { value }
            },
        ),
        Deviation::new("data-ready", "DATA_READY comes the time of a character late")
            .reads(|chip, register, value| {
                if register != Lsr || value & DATA_READY == 0 {
                    chip.since = if register == Lsr { chip.time } else { chip.since };
                    return value;
                }
                if chip.time - chip.since < 2 * CHARACTER_NS { value & !DATA_READY } else { value }
            })
            .also(&["send-fifo"]),
        Deviation::new("data-ready-ends", "DATA_READY is shown once more when an AA was read").reads(|chip, register, value| {
            match register {
                Data => chip.is_marked = value == 0xaa,
                Lsr if chip.take_mark() => return value | DATA_READY,
                _ => {}
            }
            value
        }),
        Deviation::new("clock", "a character takes no time")
            .writes(|chip, register, value| {
                if register != Data {
                    return Some(value);
                }
                chip.chip.write(0, value);
                chip.chip.pass(2 * CHARACTER_NS);
                None
            })
            .also(&["temt", "thre-before-temt"]),
        Deviation::new("temt", "TRANSMITTER_EMPTY is set with THR_EMPTY")
            .reads(|_, register, value| if register == Lsr && value & THR_EMPTY != 0 { value | TRANSMITTER_EMPTY } else { value })
            .also(&["echo", "data-ready", "thre-before-temt", "receive-fifo", "overrun-newest", "overrun-replaces"]),
        Deviation::new("temt-with-thre", "TRANSMITTER_EMPTY is set while THR is full, at the first look at four characters").reads(
            |chip, register, value| {
                if register == Lsr && value & THR_EMPTY == 0 && chip.count() == 4 { value | TRANSMITTER_EMPTY } else { value }
            },
        ),
        Deviation::new("thre-before-temt", "THR_EMPTY comes with TRANSMITTER_EMPTY")
            .reads(|_, register, value| if register == Lsr && value & TRANSMITTER_EMPTY == 0 { value & !THR_EMPTY } else { value })
            .also(&["thre-ends-by-write", "reset-transmitter"]),
        Deviation::new("overrun-replaces", "without FIFO the character that waits stays, and the newest is lost")
            .writes(|chip, register, value| {
                if register == Data && !chip.has_fifo() && !chip.is_marked {
                    (chip.kept, chip.is_marked) = (value, true);
                }
                Some(value)
            })
            .reads(|chip, register, value| if register == Data && chip.take_mark() && !chip.has_fifo() { chip.kept } else { value }),
    ]
}

fn sizes() -> Vec<Deviation> {
    vec![
        Deviation::new("burst", "a burst of more than 12 loses what follows")
            .reads(|chip, register, value| {
                chip.kept = if register == Lsr { 0 } else { chip.kept };
                value
            })
            .writes(|chip, register, value| (register != Data || chip.count() <= 12).then_some(value))
            .also(&["burst-behind", "send-fifo"]),
        Deviation::new("burst-behind", "behind a character that goes out the 16th of a burst is lost")
            .reads(|chip, register, value| {
                if register == Lsr {
                    (chip.kept, chip.is_marked) = (0, value & THR_EMPTY != 0 && value & TRANSMITTER_EMPTY == 0);
                }
                value
            })
            .writes(|chip, register, value| {
                let is_lost = register == Data && chip.has_fifo() && chip.count() > 15 && chip.is_marked;
                (!is_lost).then_some(value)
            }),
        Deviation::new("send-fifo", "the transmit FIFO holds 16 with the character that goes out")
            .reads(|chip, register, value| {
                chip.kept = if register == Lsr { 0 } else { chip.kept };
                value
            })
            .writes(|chip, register, value| (register != Data || chip.count() <= 16).then_some(value)),
        Deviation::new("receive-fifo", "LSR shows no overrun with FIFO")
            .reads(|chip, register, value| if register == Lsr && chip.has_fifo() { value & !OVERRUN } else { value }),
        Deviation::new("overrun-newest", "an overrun changes what is in the FIFO")
            .reads(|chip, register, value| {
                match register {
                    Lsr if value & OVERRUN != 0 && chip.has_fifo() => chip.is_marked = true,
                    Data if chip.is_marked => return value.wrapping_add(1),
                    _ => {}
                }
                value
            })
            .writes(|chip, register, value| {
                chip.is_marked &= register != Isr;
                Some(value)
            }),
        Deviation::new("overrun-clears", "LSR shows an overrun until DATA is read").reads(|chip, register, value| {
            match register {
                Data => chip.is_marked = false,
                Lsr => chip.is_marked |= value & OVERRUN != 0,
                _ => {}
            }
            if register == Lsr && chip.is_marked { value | OVERRUN } else { value }
        }),
    ]
}

/// FCR with another trigger level.
fn level(register: Register, value: u8, from: u8, to: u8) -> Option<u8> {
    Some(if register == Isr && value & 1 != 0 && value >> 6 == from { value & 0x3f | to << 6 } else { value })
}

fn levels() -> Vec<Deviation> {
    vec![
        Deviation::new("trigger-1", "level 1 is 4").writes(|_, register, value| level(register, value, 0, 1)),
        Deviation::new("trigger-4", "level 4 is 8").writes(|_, register, value| level(register, value, 1, 2)),
        Deviation::new("trigger-8", "level 8 is 4").writes(|_, register, value| level(register, value, 2, 1)),
        Deviation::new("trigger-14", "level 14 is 8").writes(|_, register, value| level(register, value, 3, 2)),
        Deviation::new("trigger-ends", "received data are shown once more when fewer wait")
            .reads(|chip, register, value| {
                if register != Isr {
                    return value;
                }
                let was_received = std::mem::replace(&mut chip.is_marked, value & CODE == 0x04);
                if was_received { with_code(value, 0x04) } else { value }
            })
            .also(&["priorities"]),
        Deviation::new("timeout", "no timeout interrupts")
            .reads(|_, register, value| if register == Isr && value & CODE == 0x0c { with_code(value, NONE) } else { value }),
        Deviation::new("timeout-when", "a timeout comes one character behind the last")
            .writes(|chip, register, value| {
                chip.since = if register == Data { chip.time } else { chip.since };
                Some(value)
            })
            .reads(|chip, register, value| {
                chip.since = if register == Data { chip.time } else { chip.since };
                let is_over = chip.time - chip.since >= 2 * CHARACTER_NS && chip.written.ier == 0x01 && chip.written.fcr == 0xc7;
                let is_idle = register == Isr && value & CODE == NONE;
                if is_idle && is_over && chip.chip.read(5) & DATA_READY != 0 { with_code(value, 0x0c) } else { value }
            }),
        Deviation::new("timeout-ends", "a timeout is shown once more").reads(|chip, register, value| {
            if register != Isr {
                return value;
            }
            let was_timeout = std::mem::replace(&mut chip.is_marked, value & CODE == 0x0c);
            if was_timeout { with_code(value, 0x0c) } else { value }
        }),
    ]
}

/// Whether bit 1 of IER rises by this write.
fn enables_thr_empty(chip: &Deviant, register: Register, value: u8) -> bool {
    register == Ier && value & 0x02 != 0 && chip.written.ier & 0x02 == 0
}

/// ISR without a THR-empty interrupt while there is the mark.
fn without_thr_empty(chip: &mut Deviant, register: Register, value: u8) -> u8 {
    if register == Isr && value & CODE == 0x02 && chip.is_marked { with_code(value, NONE) } else { value }
}

fn interrupts() -> Vec<Deviation> {
    vec![
        Deviation::new("thre-on-enable", "IER bit 1 alone raises no THR-empty interrupt")
            .writes(|chip, register, value| {
                chip.is_marked = (chip.is_marked || enables_thr_empty(chip, register, value)) && register != Data;
                Some(value)
            })
            .reads(without_thr_empty)
            .also(&["thre-again", "priorities"]),
        Deviation::new("thre-acknowledged", "a THR-empty interrupt is shown once more")
            .reads(|chip, register, value| {
                if register != Isr {
                    return value;
                }
                let is_again = chip.take_mark();
                chip.is_marked = !is_again && value & CODE == 0x02;
                if is_again { with_code(value, 0x02) } else { value }
            })
            .also(&["priorities"]),
        Deviation::new("thre-again", "IER bit 1 raises a THR-empty interrupt only after a character was written")
            .writes(|chip, register, value| {
                if register == Data {
                    (chip.kept, chip.is_marked) = (0, false);
                } else if enables_thr_empty(chip, register, value) {
                    chip.is_marked = chip.count() > 1;
                }
                Some(value)
            })
            .reads(without_thr_empty),
        Deviation::new("thre-after-send", "a THR-empty interrupt comes by IER alone")
            .writes(|chip, register, value| {
                chip.is_marked = (chip.is_marked || register == Data) && register != Ier;
                Some(value)
            })
            .reads(without_thr_empty),
        Deviation::new("thre-ends-by-write", "a write of THR leaves the THR-empty interrupt")
            .writes(|chip, register, value| {
                chip.is_marked = register == Data && chip.written.ier == 0x02;
                Some(value)
            })
            .reads(|chip, register, value| {
                let is_behind_a_write = chip.take_mark();
                if register == Isr && is_behind_a_write { with_code(value, 0x02) } else { value }
            }),
        Deviation::new("thre-at-once", "a THR-empty interrupt comes the time of a character late")
            .writes(|chip, register, value| {
                chip.since = if register == Data { chip.time } else { chip.since };
                Some(value)
            })
            .reads(|chip, register, value| {
                if register != Isr || chip.written.ier != 0x02 {
                    return value;
                }
                // The read has ended it in the chip below, so it is kept here until it is time.
                chip.is_marked |= value & CODE == 0x02;
                let is_late = chip.time - chip.since >= CHARACTER_NS;
                with_code(value, if is_late && chip.take_mark() { 0x02 } else { NONE })
            }),
        Deviation::new("priorities", "a change of the modem lines is shown before an empty THR").reads(|chip, register, value| {
            if register == Isr && chip.written.ier == 0x0f && value & CODE == 0x02 { with_code(value, 0x00) } else { value }
        }),
    ]
}

fn resets() -> Vec<Deviation> {
    vec![
        Deviation::new("reset-receiver", "FCR bit 1 does nothing")
            .writes(|_, register, value| Some(if register == Isr { value & 0xfd } else { value })),
        Deviation::new("reset-transmitter", "FCR bit 2 does nothing")
            .writes(|_, register, value| Some(if register == Isr { value & 0xfb } else { value })),
        Deviation::new("reset-ends", "the receiver stays empty while FCR has bits 0 and 1 without bit 2")
            .reads(|chip, register, value| if register == Lsr && chip.written.fcr & 0x07 == 0x03 { value & !DATA_READY } else { value }),
        Deviation::new("switch-empties", "turning the FIFOs off leaves a character in the receiver")
            .writes(|chip, register, value| {
                chip.is_marked |= register == Isr && value & 0x01 == 0 && chip.has_fifo() && chip.chip.read(5) & DATA_READY != 0;
                Some(value)
            })
            .reads(|chip, register, value| if register == Lsr && chip.take_mark() { value | DATA_READY } else { value }),
        Deviation::new("reset-without-fifo", "FCR bit 1 empties the receiver without FIFO").writes(|chip, register, value| {
            if register == Isr && value & 0x03 == 0x02 && !chip.has_fifo() {
                chip.chip.read(0);
            }
            Some(value)
        }),
    ]
}

fn breaks() -> Vec<Deviation> {
    vec![
        Deviation::new("break", "a break is shown while a character is in front of it")
            .reads(|_, register, value| if register == Lsr && value & FIFO_ERROR != 0 { value | BREAK } else { value })
            .of_looped_break(),
        Deviation::new("fifo-error", "LSR has no bit 7")
            .reads(|_, register, value| if register == Lsr { value & !FIFO_ERROR } else { value })
            .of_looped_break(),
        Deviation::new("break-clears", "a break is shown until DATA is read")
            .reads(|chip, register, value| {
                match register {
                    Data => chip.is_marked = false,
                    Lsr => chip.is_marked |= value & BREAK != 0,
                    _ => {}
                }
                if register == Lsr && chip.is_marked { value | BREAK } else { value }
            })
            .of_looped_break(),
        Deviation::new("break-one-zero", "a break is a character FF")
            .reads(|chip, register, value| {
                match register {
                    Lsr => chip.is_marked |= value & BREAK != 0,
                    Data if chip.take_mark() => return 0xff,
                    _ => {}
                }
                value
            })
            .of_looped_break(),
    ]
}
