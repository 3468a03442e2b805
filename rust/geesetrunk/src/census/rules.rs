//! The rules of the census, which premise each stands for, and the steps that ask them: made by `.ci/chips --write` of
//! `rules.h`, `README.md` and `census.c` in `examples/census`, which C reads too.

use uart_spec::registers::offsets::{DATA, IER, ISR, LCR, LSR, MCR, MSR, SPR};

/// A rule of `docs/HARDWARE.md` that a chip shows in loopback.
#[derive(Clone, Copy, Debug, PartialEq, Eq)]
pub enum Rule {
    /// SCR keeps all eight bits.
    Scratch,
    /// IER keeps bits 0 to 3.
    IerKeeps,
    /// IER reads bits 4 to 7 as 0.
    IerUpper,
    /// LCR keeps bits 0 to 5, and DLAB.
    LcrKeeps,
    /// LCR takes a write while a character goes out.
    LcrBusy,
    /// MCR keeps bits 0 to 4.
    McrKeeps,
    /// MCR reads bits 5 to 7 as 0.
    McrUpper,
    /// the divisor latch keeps 16 bits.
    Latch,
    /// writes of the latch leave IER as it is.
    LatchHides,
    /// ISR ends in 0001 while nothing is pending.
    IsrIdle,
    /// ISR reads bits 4 and 5 as 0.
    IsrBits,
    /// ISR bits 6 and 7 are set with FCR bit 0, and clear without.
    FifoBits,
    /// in loopback MSR shows RTS, DTR, OUT1, OUT2 as CTS, DSR, RI, CD.
    Lines,
    /// a change of CTS, DSR or CD is noted, and of RI its end alone.
    Deltas,
    /// a change stays noted through later ones, until MSR is read.
    DeltasStay,
    /// a read of MSR clears bits 0 to 3.
    MsrClears,
    /// a change interrupts with 0000 until MSR is read.
    ModemInterrupt,
    /// in loopback each byte comes back.
    Echo,
    /// DATA_READY shows a character at once, below the trigger level too.
    Ready,
    /// DATA_READY ends with the read of the last character.
    DataEnds,
    /// a character of 5 or 7 bits is cut.
    Word,
    /// a character takes the time of its ten bits: the clock is.
    Time,
    /// twice the divisor takes twice the time.
    Divisor,
    /// TRANSMITTER_EMPTY is clear while a character goes out.
    Temt,
    /// TRANSMITTER_EMPTY is set only with THR_EMPTY.
    TemtThre,
    /// THR_EMPTY comes while the last character is in the shift register.
    ThreFirst,
    /// after one look 16 bytes are taken, and come back in order (1 without FIFO).
    Burst,
    /// after THR_EMPTY 16 fit behind a character that goes out (1 without FIFO).
    BurstBehind,
    /// the transmit FIFO holds 16.
    SendSize,
    /// the receive FIFO holds 16, and the 17th overruns.
    ReceiveSize,
    /// with FIFO the newest character is lost, and the oldest 16 stay.
    OverrunNewest,
    /// a read of LSR clears the overrun.
    OverrunClears,
    /// without FIFO the newest replaces the one that waits, with an overrun.
    OverrunReplaces,
    /// level 1 interrupts at.
    Trigger1,
    /// level 4 interrupts at.
    Trigger4,
    /// level 8 interrupts at.
    Trigger8,
    /// level 14 interrupts at.
    Trigger14,
    /// received data ends when fewer wait than the level.
    TriggerEnds,
    /// fewer than the level interrupt with 1100 after four characters: tenths of one.
    Timeout,
    /// it comes three to six characters behind the last: tenths of one.
    TimeoutWhen,
    /// a read of DATA ends the timeout.
    TimeoutEnds,
    /// a further character leaves the timeout pending.
    TimeoutKept,
    /// IER bit 1 on an empty transmitter interrupts with 0010.
    ThreEnable,
    /// the read of ISR that shows it ends it.
    ThreAcked,
    /// IER bit 1 off and on raises it anew.
    ThreAgain,
    /// it comes again when a character has left THR.
    ThreSent,
    /// a write of THR ends it.
    ThreWrite,
    /// it comes with the bit THR_EMPTY: late by tenths of a character.
    ThreLate,
    /// each ISR, read twice, shows 0110, 0100, 0010, 0000, 0001 in turn.
    Priority,
    /// FCR bit 1 empties the receiver.
    ReceiverReset,
    /// FCR bit 2 empties the transmit FIFO.
    SenderReset,
    /// the reset bits of FCR clear themselves.
    ResetEnds,
    /// turning the FIFOs off empties them.
    SwitchEmpties,
    /// FCR bit 1 does nothing while the FIFOs are off.
    ResetOff,
    /// a break is looped back, behind what came before it.
    Break,
    /// LSR bit 7 shows an error behind the front of the FIFO.
    BreakBit7,
    /// a read of LSR clears the break.
    BreakClears,
    /// a break is one character, 00.
    BreakZero,
}

/// What the value of a rule is.
#[derive(Clone, Copy, Debug, PartialEq, Eq)]
pub enum Unit {
    /// What was read.
    Hex,
    /// A number of characters, of which 1000 more say that they are not those that were sent.
    Count,
    /// The frequency of the chip's clock.
    Hertz,
    /// Of the usual time.
    Percent,
    /// Of the time of a character.
    Tenths,
}

/// What a rule is called, and what holds.
#[derive(Clone, Copy, Debug, PartialEq, Eq)]
pub struct Words {
    /// The rule.
    pub rule: Rule,
    /// Its name.
    pub name: &'static str,
    /// What holds on the chip that is defined here.
    pub text: &'static str,
    /// What its value is.
    pub unit: Unit,
}

/// All rules, in the order of the table.
pub const RULES: [Words; 58] = [
    Words {
        rule: Rule::Scratch,
        name: "scratch",
        text: "SCR keeps all eight bits",
        unit: Unit::Hex,
    },
    Words {
        rule: Rule::IerKeeps,
        name: "ier-keeps",
        text: "IER keeps bits 0 to 3",
        unit: Unit::Hex,
    },
    Words {
        rule: Rule::IerUpper,
        name: "ier-upper",
        text: "IER reads bits 4 to 7 as 0",
        unit: Unit::Hex,
    },
    Words {
        rule: Rule::LcrKeeps,
        name: "lcr-keeps",
        text: "LCR keeps bits 0 to 5, and DLAB",
        unit: Unit::Hex,
    },
    Words {
        rule: Rule::LcrBusy,
        name: "lcr-when-busy",
        text: "LCR takes a write while a character goes out",
        unit: Unit::Hex,
    },
    Words {
        rule: Rule::McrKeeps,
        name: "mcr-keeps",
        text: "MCR keeps bits 0 to 4",
        unit: Unit::Hex,
    },
    Words {
        rule: Rule::McrUpper,
        name: "mcr-upper",
        text: "MCR reads bits 5 to 7 as 0",
        unit: Unit::Hex,
    },
    Words {
        rule: Rule::Latch,
        name: "latch",
        text: "the divisor latch keeps 16 bits",
        unit: Unit::Hex,
    },
    Words {
        rule: Rule::LatchHides,
        name: "latch-hides-ier",
        text: "writes of the latch leave IER as it is",
        unit: Unit::Hex,
    },
    Words {
        rule: Rule::IsrIdle,
        name: "isr-idle",
        text: "ISR ends in 0001 while nothing is pending",
        unit: Unit::Hex,
    },
    Words {
        rule: Rule::IsrBits,
        name: "isr-bits-4-5",
        text: "ISR reads bits 4 and 5 as 0",
        unit: Unit::Hex,
    },
    Words {
        rule: Rule::FifoBits,
        name: "fifo-bits",
        text: "ISR bits 6 and 7 are set with FCR bit 0, and clear without",
        unit: Unit::Hex,
    },
    Words {
        rule: Rule::Lines,
        name: "looped-lines",
        text: "in loopback MSR shows RTS, DTR, OUT1, OUT2 as CTS, DSR, RI, CD",
        unit: Unit::Hex,
    },
    Words {
        rule: Rule::Deltas,
        name: "modem-changes",
        text: "a change of CTS, DSR or CD is noted, and of RI its end alone",
        unit: Unit::Hex,
    },
    Words {
        rule: Rule::DeltasStay,
        name: "changes-stay",
        text: "a change stays noted through later ones, until MSR is read",
        unit: Unit::Hex,
    },
    Words {
        rule: Rule::MsrClears,
        name: "msr-clears",
        text: "a read of MSR clears bits 0 to 3",
        unit: Unit::Hex,
    },
    Words {
        rule: Rule::ModemInterrupt,
        name: "modem-interrupt",
        text: "a change interrupts with 0000 until MSR is read",
        unit: Unit::Hex,
    },
    Words {
        rule: Rule::Echo,
        name: "echo",
        text: "in loopback each byte comes back",
        unit: Unit::Hex,
    },
    Words {
        rule: Rule::Ready,
        name: "data-ready",
        text: "DATA_READY shows a character at once, below the trigger level too",
        unit: Unit::Hex,
    },
    Words {
        rule: Rule::DataEnds,
        name: "data-ready-ends",
        text: "DATA_READY ends with the read of the last character",
        unit: Unit::Hex,
    },
    Words {
        rule: Rule::Word,
        name: "word-length",
        text: "a character of 5 or 7 bits is cut",
        unit: Unit::Hex,
    },
    Words {
        rule: Rule::Time,
        name: "clock",
        text: "a character takes the time of its ten bits: the clock is",
        unit: Unit::Hertz,
    },
    Words {
        rule: Rule::Divisor,
        name: "divisor",
        text: "twice the divisor takes twice the time",
        unit: Unit::Percent,
    },
    Words {
        rule: Rule::Temt,
        name: "temt",
        text: "TRANSMITTER_EMPTY is clear while a character goes out",
        unit: Unit::Hex,
    },
    Words {
        rule: Rule::TemtThre,
        name: "temt-with-thre",
        text: "TRANSMITTER_EMPTY is set only with THR_EMPTY",
        unit: Unit::Hex,
    },
    Words {
        rule: Rule::ThreFirst,
        name: "thre-before-temt",
        text: "THR_EMPTY comes while the last character is in the shift register",
        unit: Unit::Hex,
    },
    Words {
        rule: Rule::Burst,
        name: "burst",
        text: "after one look 16 bytes are taken, and come back in order (1 without FIFO)",
        unit: Unit::Count,
    },
    Words {
        rule: Rule::BurstBehind,
        name: "burst-behind",
        text: "after THR_EMPTY 16 fit behind a character that goes out (1 without FIFO)",
        unit: Unit::Count,
    },
    Words {
        rule: Rule::SendSize,
        name: "send-fifo",
        text: "the transmit FIFO holds 16",
        unit: Unit::Count,
    },
    Words {
        rule: Rule::ReceiveSize,
        name: "receive-fifo",
        text: "the receive FIFO holds 16, and the 17th overruns",
        unit: Unit::Count,
    },
    Words {
        rule: Rule::OverrunNewest,
        name: "overrun-newest",
        text: "with FIFO the newest character is lost, and the oldest 16 stay",
        unit: Unit::Count,
    },
    Words {
        rule: Rule::OverrunClears,
        name: "overrun-clears",
        text: "a read of LSR clears the overrun",
        unit: Unit::Hex,
    },
    Words {
        rule: Rule::OverrunReplaces,
        name: "overrun-replaces",
        text: "without FIFO the newest replaces the one that waits, with an overrun",
        unit: Unit::Hex,
    },
    Words {
        rule: Rule::Trigger1,
        name: "trigger-1",
        text: "level 1 interrupts at",
        unit: Unit::Count,
    },
    Words {
        rule: Rule::Trigger4,
        name: "trigger-4",
        text: "level 4 interrupts at",
        unit: Unit::Count,
    },
    Words {
        rule: Rule::Trigger8,
        name: "trigger-8",
        text: "level 8 interrupts at",
        unit: Unit::Count,
    },
    Words {
        rule: Rule::Trigger14,
        name: "trigger-14",
        text: "level 14 interrupts at",
        unit: Unit::Count,
    },
    Words {
        rule: Rule::TriggerEnds,
        name: "trigger-ends",
        text: "received data ends when fewer wait than the level",
        unit: Unit::Hex,
    },
    Words {
        rule: Rule::Timeout,
        name: "timeout",
        text: "fewer than the level interrupt with 1100 after four characters: tenths of one",
        unit: Unit::Tenths,
    },
    Words {
        rule: Rule::TimeoutWhen,
        name: "timeout-when",
        text: "it comes three to six characters behind the last: tenths of one",
        unit: Unit::Tenths,
    },
    Words {
        rule: Rule::TimeoutEnds,
        name: "timeout-ends",
        text: "a read of DATA ends the timeout",
        unit: Unit::Hex,
    },
    Words {
        rule: Rule::TimeoutKept,
        name: "timeout-kept",
        text: "a further character leaves the timeout pending",
        unit: Unit::Hex,
    },
    Words {
        rule: Rule::ThreEnable,
        name: "thre-on-enable",
        text: "IER bit 1 on an empty transmitter interrupts with 0010",
        unit: Unit::Hex,
    },
    Words {
        rule: Rule::ThreAcked,
        name: "thre-acknowledged",
        text: "the read of ISR that shows it ends it",
        unit: Unit::Hex,
    },
    Words {
        rule: Rule::ThreAgain,
        name: "thre-again",
        text: "IER bit 1 off and on raises it anew",
        unit: Unit::Hex,
    },
    Words {
        rule: Rule::ThreSent,
        name: "thre-after-send",
        text: "it comes again when a character has left THR",
        unit: Unit::Hex,
    },
    Words {
        rule: Rule::ThreWrite,
        name: "thre-ends-by-write",
        text: "a write of THR ends it",
        unit: Unit::Hex,
    },
    Words {
        rule: Rule::ThreLate,
        name: "thre-at-once",
        text: "it comes with the bit THR_EMPTY: late by tenths of a character",
        unit: Unit::Tenths,
    },
    Words {
        rule: Rule::Priority,
        name: "priorities",
        text: "each ISR, read twice, shows 0110, 0100, 0010, 0000, 0001 in turn",
        unit: Unit::Hex,
    },
    Words {
        rule: Rule::ReceiverReset,
        name: "reset-receiver",
        text: "FCR bit 1 empties the receiver",
        unit: Unit::Hex,
    },
    Words {
        rule: Rule::SenderReset,
        name: "reset-transmitter",
        text: "FCR bit 2 empties the transmit FIFO",
        unit: Unit::Hex,
    },
    Words {
        rule: Rule::ResetEnds,
        name: "reset-ends",
        text: "the reset bits of FCR clear themselves",
        unit: Unit::Hex,
    },
    Words {
        rule: Rule::SwitchEmpties,
        name: "switch-empties",
        text: "turning the FIFOs off empties them",
        unit: Unit::Hex,
    },
    Words {
        rule: Rule::ResetOff,
        name: "reset-without-fifo",
        text: "FCR bit 1 does nothing while the FIFOs are off",
        unit: Unit::Hex,
    },
    Words {
        rule: Rule::Break,
        name: "break",
        text: "a break is looped back, behind what came before it",
        unit: Unit::Hex,
    },
    Words {
        rule: Rule::BreakBit7,
        name: "fifo-error",
        text: "LSR bit 7 shows an error behind the front of the FIFO",
        unit: Unit::Hex,
    },
    Words {
        rule: Rule::BreakClears,
        name: "break-clears",
        text: "a read of LSR clears the break",
        unit: Unit::Hex,
    },
    Words {
        rule: Rule::BreakZero,
        name: "break-one-zero",
        text: "a break is one character, 00",
        unit: Unit::Hex,
    },
];

/// Something that a theorem needs of a chip, and the rules that stand for it.
#[derive(Clone, Copy, Debug, PartialEq, Eq)]
pub struct Premise {
    /// What is needed.
    pub text: &'static str,
    /// The rules.
    pub rules: &'static [Rule],
}

/// All premises of the main theorems for which a rule stands.
pub const PREMISES: [Premise; 9] = [
    Premise {
        text: "no data write meets a full transmitter: after THR_EMPTY there is room for as many as are set",
        rules: &[
            Rule::Burst,
            Rule::BurstBehind,
            Rule::SendSize,
            Rule::TemtThre,
        ],
    },
    Premise {
        text: "the wire grows by what was reported, in order",
        rules: &[Rule::Echo, Rule::Burst],
    },
    Premise {
        text: "received and waiting are what arrived, in order",
        rules: &[Rule::Echo, Rule::Ready, Rule::DataEnds, Rule::ReceiveSize],
    },
    Premise {
        text: "less those dropped: which is lost, and the first lsr after it shows it",
        rules: &[
            Rule::OverrunNewest,
            Rule::OverrunReplaces,
            Rule::OverrunClears,
            Rule::ReceiveSize,
        ],
    },
    Premise {
        text: "what a read clears is saved, and what it does not clear is not",
        rules: &[Rule::OverrunClears, Rule::MsrClears, Rule::BreakClears],
    },
    Premise {
        text: "an init sets what it writes, and knows whether the FIFO is on",
        rules: &[
            Rule::Scratch,
            Rule::LcrKeeps,
            Rule::IerKeeps,
            Rule::McrKeeps,
            Rule::Latch,
            Rule::LatchHides,
            Rule::LcrBusy,
            Rule::FifoBits,
        ],
    },
    Premise {
        text: "an init begins a session with an empty chip",
        rules: &[
            Rule::ReceiverReset,
            Rule::SenderReset,
            Rule::ResetEnds,
            Rule::SwitchEmpties,
        ],
    },
    Premise {
        text: "the rings: an interrupt comes while there is something to do, and ends",
        rules: &[
            Rule::ThreEnable,
            Rule::ThreAcked,
            Rule::ThreAgain,
            Rule::ThreSent,
            Rule::ThreWrite,
            Rule::Trigger1,
            Rule::Trigger4,
            Rule::Trigger8,
            Rule::Trigger14,
            Rule::TriggerEnds,
            Rule::Timeout,
            Rule::TimeoutEnds,
            Rule::Deltas,
            Rule::ModemInterrupt,
            Rule::Priority,
            Rule::IsrIdle,
        ],
    },
    Premise {
        text: "progress: what was written leaves",
        rules: &[Rule::Echo, Rule::Burst],
    },
];

/// Something that is done to a chip, as `census.c` says.
#[derive(Clone, Copy, Debug, PartialEq, Eq)]
pub(super) enum Step {
    Begin,
    BeginOff,
    BeginFifo,
    Timed,
    Write(usize, u8),
    Read(usize, u8, u8, Rule),
    Look(usize),
    Keep(usize, u8, u8, Rule),
    Send(u8),
    Ready,
    Room,
    Pause(u8),
    Flush,
}

pub(super) const REGISTERS: [Step; 25] = [
    Step::Keep(SPR, 0xff, 0x00, Rule::Scratch),
    Step::Keep(IER, 0x0f, 0x00, Rule::IerKeeps),
    Step::Write(IER, 0x00),
    Step::Keep(MCR, 0x0f, 0x10, Rule::McrKeeps),
    Step::Write(MCR, 0x10),
    Step::Keep(LCR, 0x3f, 0x00, Rule::LcrKeeps),
    Step::Write(LCR, 0x03),
    Step::Write(IER, 0xf0),
    Step::Read(IER, 0xf0, 0x00, Rule::IerUpper),
    Step::Write(IER, 0x05),
    Step::Write(MCR, 0xf0),
    Step::Read(MCR, 0xe0, 0x00, Rule::McrUpper),
    Step::Write(MCR, 0x10),
    Step::Write(LCR, 0x83),
    Step::Read(LCR, 0xff, 0x83, Rule::LcrKeeps),
    Step::Keep(DATA, 0xff, 0x00, Rule::Latch),
    Step::Keep(IER, 0xff, 0x00, Rule::Latch),
    Step::Write(DATA, 0x0c),
    Step::Write(IER, 0x00),
    Step::Read(DATA, 0xff, 0x0c, Rule::Latch),
    Step::Write(LCR, 0x03),
    Step::Read(IER, 0x0f, 0x05, Rule::LatchHides),
    Step::Write(IER, 0x00),
    Step::Read(ISR, 0x0f, 0x01, Rule::IsrIdle),
    Step::Read(ISR, 0x30, 0x00, Rule::IsrBits),
];

pub(super) const MODEM: [Step; 51] = [
    Step::Begin,
    Step::Write(MCR, 0x12),
    Step::Read(MSR, 0xf0, 0x10, Rule::Lines),
    Step::Look(MSR),
    Step::Write(MCR, 0x10),
    Step::Look(MSR),
    Step::Write(MCR, 0x12),
    Step::Read(MSR, 0x0f, 0x01, Rule::Deltas),
    Step::Read(MSR, 0x0f, 0x00, Rule::MsrClears),
    Step::Write(MCR, 0x10),
    Step::Read(MSR, 0x0f, 0x01, Rule::Deltas),
    Step::Read(MSR, 0x0f, 0x00, Rule::MsrClears),
    Step::Write(MCR, 0x11),
    Step::Read(MSR, 0xf0, 0x20, Rule::Lines),
    Step::Look(MSR),
    Step::Write(MCR, 0x10),
    Step::Look(MSR),
    Step::Write(MCR, 0x11),
    Step::Read(MSR, 0x0f, 0x02, Rule::Deltas),
    Step::Read(MSR, 0x0f, 0x00, Rule::MsrClears),
    Step::Write(MCR, 0x10),
    Step::Read(MSR, 0x0f, 0x02, Rule::Deltas),
    Step::Read(MSR, 0x0f, 0x00, Rule::MsrClears),
    Step::Write(MCR, 0x14),
    Step::Read(MSR, 0xf0, 0x40, Rule::Lines),
    Step::Look(MSR),
    Step::Write(MCR, 0x10),
    Step::Look(MSR),
    Step::Write(MCR, 0x14),
    Step::Read(MSR, 0x0f, 0x00, Rule::Deltas),
    Step::Read(MSR, 0x0f, 0x00, Rule::MsrClears),
    Step::Write(MCR, 0x10),
    Step::Read(MSR, 0x0f, 0x04, Rule::Deltas),
    Step::Read(MSR, 0x0f, 0x00, Rule::MsrClears),
    Step::Write(MCR, 0x18),
    Step::Read(MSR, 0xf0, 0x80, Rule::Lines),
    Step::Look(MSR),
    Step::Write(MCR, 0x10),
    Step::Look(MSR),
    Step::Write(MCR, 0x18),
    Step::Read(MSR, 0x0f, 0x08, Rule::Deltas),
    Step::Read(MSR, 0x0f, 0x00, Rule::MsrClears),
    Step::Write(MCR, 0x10),
    Step::Read(MSR, 0x0f, 0x08, Rule::Deltas),
    Step::Read(MSR, 0x0f, 0x00, Rule::MsrClears),
    Step::Write(IER, 0x08),
    Step::Write(MCR, 0x12),
    Step::Read(ISR, 0x0f, 0x00, Rule::ModemInterrupt),
    Step::Read(ISR, 0x0f, 0x00, Rule::ModemInterrupt),
    Step::Look(MSR),
    Step::Read(ISR, 0x0f, 0x01, Rule::ModemInterrupt),
];

pub(super) const FIRST: [Step; 7] = [
    Step::Begin,
    Step::Send(0x55),
    Step::Read(LSR, 0x01, 0x01, Rule::Ready),
    Step::Ready,
    Step::Read(LSR, 0x01, 0x01, Rule::Echo),
    Step::Read(DATA, 0xff, 0x55, Rule::Echo),
    Step::Read(LSR, 0x01, 0x00, Rule::DataEnds),
];

pub(super) const DATA_STEPS: [Step; 46] = [
    Step::Begin,
    Step::Send(0x00),
    Step::Read(LSR, 0x01, 0x01, Rule::Ready),
    Step::Ready,
    Step::Read(LSR, 0x01, 0x01, Rule::Echo),
    Step::Read(DATA, 0xff, 0x00, Rule::Echo),
    Step::Read(LSR, 0x01, 0x00, Rule::DataEnds),
    Step::Begin,
    Step::Send(0xaa),
    Step::Read(LSR, 0x01, 0x01, Rule::Ready),
    Step::Ready,
    Step::Read(LSR, 0x01, 0x01, Rule::Echo),
    Step::Read(DATA, 0xff, 0xaa, Rule::Echo),
    Step::Read(LSR, 0x01, 0x00, Rule::DataEnds),
    Step::Begin,
    Step::Send(0xff),
    Step::Read(LSR, 0x01, 0x01, Rule::Ready),
    Step::Ready,
    Step::Read(LSR, 0x01, 0x01, Rule::Echo),
    Step::Read(DATA, 0xff, 0xff, Rule::Echo),
    Step::Read(LSR, 0x01, 0x00, Rule::DataEnds),
    Step::Begin,
    Step::Write(LCR, 0x00),
    Step::Send(0xff),
    Step::Ready,
    Step::Read(DATA, 0xff, 0x1f, Rule::Word),
    Step::Begin,
    Step::Write(LCR, 0x02),
    Step::Send(0xff),
    Step::Ready,
    Step::Read(DATA, 0xff, 0x7f, Rule::Word),
    Step::Begin,
    Step::Write(DATA, 0x55),
    Step::Write(DATA, 0xaa),
    Step::Write(LCR, 0x83),
    Step::Read(LCR, 0xff, 0x83, Rule::LcrBusy),
    Step::Write(LCR, 0x03),
    Step::BeginOff,
    Step::Send(0x41),
    Step::Send(0x42),
    Step::Read(DATA, 0xff, 0x42, Rule::OverrunReplaces),
    Step::BeginOff,
    Step::Send(0x41),
    Step::Write(DATA, 0x42),
    Step::Pause(2),
    Step::Read(LSR, 0x02, 0x02, Rule::OverrunReplaces),
];

pub(super) const INTERRUPTS: [Step; 14] = [
    Step::Begin,
    Step::Write(IER, 0x02),
    Step::Read(ISR, 0x0f, 0x02, Rule::ThreEnable),
    Step::Read(ISR, 0x0f, 0x01, Rule::ThreAcked),
    Step::Write(IER, 0x00),
    Step::Write(IER, 0x02),
    Step::Read(ISR, 0x0f, 0x02, Rule::ThreAgain),
    Step::Begin,
    Step::Timed,
    Step::Write(IER, 0x02),
    Step::Write(DATA, 0x55),
    Step::Room,
    Step::Write(DATA, 0x55),
    Step::Read(ISR, 0x0f, 0x01, Rule::ThreWrite),
];

pub(super) const RESETS: [Step; 28] = [
    Step::BeginOff,
    Step::Send(0x41),
    Step::Ready,
    Step::Write(ISR, 0x02),
    Step::Read(LSR, 0x01, 0x01, Rule::ResetOff),
    Step::BeginFifo,
    Step::Send(0x41),
    Step::Ready,
    Step::Write(ISR, 0xc3),
    Step::Read(LSR, 0x01, 0x00, Rule::ReceiverReset),
    Step::Send(0x42),
    Step::Ready,
    Step::Read(LSR, 0x01, 0x01, Rule::ResetEnds),
    Step::Write(ISR, 0x00),
    Step::Read(LSR, 0x01, 0x00, Rule::SwitchEmpties),
    Step::BeginFifo,
    Step::Timed,
    Step::Write(DATA, 0x00),
    Step::Write(DATA, 0x01),
    Step::Write(DATA, 0x02),
    Step::Write(DATA, 0x03),
    Step::Write(ISR, 0xc5),
    Step::Read(LSR, 0x20, 0x20, Rule::SenderReset),
    Step::Flush,
    Step::Pause(1),
    Step::Look(DATA),
    Step::Look(DATA),
    Step::Read(LSR, 0x01, 0x00, Rule::SenderReset),
];
