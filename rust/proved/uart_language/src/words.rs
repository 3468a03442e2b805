//! The first words of lines.

/// A word that a line may start with.
#[derive(Clone, Copy, Debug, PartialEq, Eq)]
pub enum Word {
    /// `chip`: the first line, which describes the machine.
    Chip,
    /// `limit`: the spin limit of the driver.
    Limit,
    /// `tick`: ticks pass.
    Tick,
    /// `arrive`: a character arrives.
    Arrive,
    /// `lines`: the modem lines change.
    Lines,
    /// `access`: the next register access takes place here.
    Access,
    /// `next`: a mark, and the call that goes on to it.
    Next,
    /// `init`: the driver's `init`.
    Init,
    /// `loopback`: the driver's `test_loopback`.
    Loopback,
    /// `present`: the driver's `check_present`.
    Present,
    /// `connected`: the driver's `check_connected`.
    Connected,
    /// `ready-receive`: the driver's `ready_to_receive`.
    ReadyReceive,
    /// `ready-send`: the driver's `ready_to_send`.
    ReadySend,
    /// `try-receive`: the driver's `try_receive_byte`.
    TryReceive,
    /// `flush`: the driver's `flush`.
    Flush,
    /// `read-ready`: the driver's `read_ready`.
    ReadReady,
    /// `write-ready`: the driver's `write_ready`.
    WriteReady,
    /// `ier`: the driver's `ier`.
    Ier,
    /// `isr`: the driver's `isr`.
    Isr,
    /// `lcr`: the driver's `lcr`.
    Lcr,
    /// `mcr`: the driver's `mcr`.
    Mcr,
    /// `lsr`: the driver's `lsr`.
    Lsr,
    /// `msr`: the driver's `msr`.
    Msr,
    /// `spr`: the driver's `spr`.
    Spr,
    /// `dll-dlm`: the driver's `dll_dlm`.
    DllDlm,
    /// `fifo`: the driver's `fifo_enabled`.
    Fifo,
    /// `dump`: the driver's `config_register_dump`.
    Dump,
    /// `try-send`: the driver's `try_send_byte`.
    TrySend,
    /// `enable`: the driver's `enable_interrupts`.
    Enable,
    /// `disable`: the driver's `disable_interrupts`.
    Disable,
    /// `receive`: the driver's `receive_bytes`.
    Receive,
    /// `receive-exact`: the driver's `receive_bytes_exact`.
    ReceiveExact,
    /// `read`: the driver's `read`.
    Read,
    /// `send`: the driver's `send_bytes`.
    Send,
    /// `send-exact`: the driver's `send_bytes_exact`.
    SendExact,
    /// `write`: the driver's `write`.
    Write,
    /// `text`: the `write_text` of the terminal.
    Text,
    /// `init-with`: the driver's `init_with`.
    InitWith,
    /// `set-frame`: the driver's `set_frame`.
    SetFrame,
    /// `set-frame-when-idle`: the driver's `set_frame_when_idle`.
    SetFrameWhenIdle,
    /// `set-trigger-level`: the driver's `set_trigger_level`.
    SetTriggerLevel,
    /// `attach`: the driver's `attach`.
    Attach,
    /// `set-break`: the driver's `set_break`.
    SetBreak,
    /// `set-modem-control`: the driver's `set_modem_control`.
    SetModemControl,
    /// `set-rts`: the driver's `set_rts`.
    SetRts,
    /// `set-dtr`: the driver's `set_dtr`.
    SetDtr,
    /// `quiesce`: the driver's `quiesce`.
    Quiesce,
    /// `restore`: the driver's `restore`.
    Restore,
    /// `check-configured`: the driver's `check_configured`.
    CheckConfigured,
    /// `peek-modem`: the driver's `peek_modem`.
    PeekModem,
    /// `is-idle`: the driver's `is_idle`.
    IsIdle,
    /// `retrigger-interrupts`: the driver's `retrigger_interrupts`.
    RetriggerInterrupts,
    /// `receive-with-errors`: the driver's `receive_with_errors`.
    ReceiveWithErrors,
    /// `fifo-size`: the size that the driver takes the FIFOs for.
    FifoSize,
}

/// Where a line is in a script, as far as it matters for the words that it may start with.
#[derive(Clone, Copy, Debug, PartialEq, Eq)]
pub enum Place {
    /// Line 1.
    First,
    /// Line 2.
    Second,
    /// Line 3, if line 2 starts with `limit`.
    BehindLimit,
    /// Any other line.
    Later,
}

const WORDS: [Word; 54] = [
    Word::Chip,
    Word::Limit,
    Word::Tick,
    Word::Arrive,
    Word::Lines,
    Word::Access,
    Word::Next,
    Word::Init,
    Word::Loopback,
    Word::Present,
    Word::Connected,
    Word::ReadyReceive,
    Word::ReadySend,
    Word::TryReceive,
    Word::Flush,
    Word::ReadReady,
    Word::WriteReady,
    Word::Ier,
    Word::Isr,
    Word::Lcr,
    Word::Mcr,
    Word::Lsr,
    Word::Msr,
    Word::Spr,
    Word::DllDlm,
    Word::Fifo,
    Word::Dump,
    Word::TrySend,
    Word::Enable,
    Word::Disable,
    Word::Receive,
    Word::ReceiveExact,
    Word::Read,
    Word::Send,
    Word::SendExact,
    Word::Write,
    Word::Text,
    Word::InitWith,
    Word::SetFrame,
    Word::SetFrameWhenIdle,
    Word::SetTriggerLevel,
    Word::Attach,
    Word::SetBreak,
    Word::SetModemControl,
    Word::SetRts,
    Word::SetDtr,
    Word::Quiesce,
    Word::Restore,
    Word::CheckConfigured,
    Word::PeekModem,
    Word::IsIdle,
    Word::RetriggerInterrupts,
    Word::ReceiveWithErrors,
    Word::FifoSize,
];

impl Word {
    /// Returns the word as it is written in a script.
    #[must_use]
    pub fn name(self) -> &'static [u8] {
        match self {
            Word::Chip => b"chip",
            Word::Limit => b"limit",
            Word::Tick => b"tick",
            Word::Arrive => b"arrive",
            Word::Lines => b"lines",
            Word::Access => b"access",
            Word::Next => b"next",
            Word::Init => b"init",
            Word::Loopback => b"loopback",
            Word::Present => b"present",
            Word::Connected => b"connected",
            Word::ReadyReceive => b"ready-receive",
            Word::ReadySend => b"ready-send",
            Word::TryReceive => b"try-receive",
            Word::Flush => b"flush",
            Word::ReadReady => b"read-ready",
            Word::WriteReady => b"write-ready",
            Word::Ier => b"ier",
            Word::Isr => b"isr",
            Word::Lcr => b"lcr",
            Word::Mcr => b"mcr",
            Word::Lsr => b"lsr",
            Word::Msr => b"msr",
            Word::Spr => b"spr",
            Word::DllDlm => b"dll-dlm",
            Word::Fifo => b"fifo",
            Word::Dump => b"dump",
            Word::TrySend => b"try-send",
            Word::Enable => b"enable",
            Word::Disable => b"disable",
            Word::Receive => b"receive",
            Word::ReceiveExact => b"receive-exact",
            Word::Read => b"read",
            Word::Send => b"send",
            Word::SendExact => b"send-exact",
            Word::Write => b"write",
            Word::Text => b"text",
            Word::InitWith => b"init-with",
            Word::SetFrame => b"set-frame",
            Word::SetFrameWhenIdle => b"set-frame-when-idle",
            Word::SetTriggerLevel => b"set-trigger-level",
            Word::Attach => b"attach",
            Word::SetBreak => b"set-break",
            Word::SetModemControl => b"set-modem-control",
            Word::SetRts => b"set-rts",
            Word::SetDtr => b"set-dtr",
            Word::Quiesce => b"quiesce",
            Word::Restore => b"restore",
            Word::CheckConfigured => b"check-configured",
            Word::PeekModem => b"peek-modem",
            Word::IsIdle => b"is-idle",
            Word::RetriggerInterrupts => b"retrigger-interrupts",
            Word::ReceiveWithErrors => b"receive-with-errors",
            Word::FifoSize => b"fifo-size",
        }
    }
}

/// Returns whether a word is written like this.
#[must_use]
pub fn is_named(word: Word, text: &[u8]) -> bool {
    word.name() == text
}

fn word_among(words: &[Word], text: &[u8]) -> Option<Word> {
    words.iter().copied().find(|word| is_named(*word, text))
}

/// Returns the word that is written like this.
#[must_use]
pub fn word_of(text: &[u8]) -> Option<Word> {
    word_among(&WORDS, text)
}

/// Returns whether a line with this word may have this number of words.
#[must_use]
pub fn has_count(word: Word, count: usize) -> bool {
    match word {
        Word::Chip => count == 4 || count == 5,
        Word::Init => count == 6,
        Word::InitWith => count == 9,
        Word::SetFrame | Word::SetFrameWhenIdle | Word::Quiesce => count == 3,
        Word::Arrive => count == 2 || count == 3,
        Word::Limit
        | Word::FifoSize
        | Word::Tick
        | Word::Lines
        | Word::TrySend
        | Word::Enable
        | Word::Disable
        | Word::Receive
        | Word::ReceiveExact
        | Word::Read
        | Word::Send
        | Word::SendExact
        | Word::Write
        | Word::Text
        | Word::SetTriggerLevel
        | Word::SetBreak
        | Word::SetModemControl
        | Word::SetRts
        | Word::SetDtr
        | Word::Restore
        | Word::CheckConfigured
        | Word::ReceiveWithErrors => count == 2,
        _ => count == 1,
    }
}

impl Place {
    /// Returns the place of the line with this number, in a script whose line 2 starts with
    /// `limit`, or does not.
    #[must_use]
    pub fn of(is_limited: bool, number: u32) -> Place {
        match number {
            1 => Place::First,
            2 => Place::Second,
            3 if is_limited => Place::BehindLimit,
            _ => Place::Later,
        }
    }

    fn is_first(self) -> bool {
        matches!(self, Place::First)
    }

    fn is_second(self) -> bool {
        matches!(self, Place::Second)
    }

    fn may_set_fifo_size(self) -> bool {
        matches!(self, Place::Second | Place::BehindLimit)
    }
}

/// Returns whether the line at this place may start with this word.
#[must_use]
pub fn is_placed(place: Place, word: Option<Word>) -> bool {
    match word {
        Some(Word::Chip) => place.is_first(),
        Some(Word::Limit) => place.is_second(),
        Some(Word::FifoSize) => place.may_set_fifo_size(),
        _ => !place.is_first(),
    }
}
