//! The findings at a step, and at the end.

use crate::audit::action::Action;
use crate::audit::auditor::{Auditor, Latch, Mark};
use crate::audit::finding::Finding;
use crate::audit::setup::Setup;
use crate::audit::shows::{identified, is_cut};
use crate::audit::step::Step;
use crate::audit::unread::Arrived;
use bitflags::Flags;
use uart_spec::registers::{FCR, IER, ISR, InterruptType, LCR, LSR, MCR, MSR};

// Returns the finding where something holds.
fn when(holds: bool, finding: Finding) -> Option<Finding> {
    if holds { Some(finding) } else { None }
}

// Returns the set-up at a transfer, if it is not that of the transfer before.
fn set_up(told: Option<Setup>, setup: Setup) -> Option<Finding> {
    if let Some(before) = told {
        if before.is_same(setup) {
            return None;
        }
    }
    Some(Finding::SetUp(setup))
}

// Returns what an access shows.
pub(crate) fn note(a: &Auditor, s: &Step) -> Option<Finding> {
    match s.action {
        Action::Sends(_) | Action::Receives(_) => set_up(a.told, s.setup),
        Action::LooksAtLine(lsr) => {
            when(
                lsr.intersects(LSR::LINE_ERRORS),
                Finding::LineErrorsRead(lsr),
            )
        }
        Action::LooksAtModem(msr) => {
            when(msr.intersects(MSR::CHANGES), Finding::LineChangesRead(msr))
        }
        _ => None,
    }
}

// Returns how many bytes were sent since the transmitter had room.
fn sent_before(a: &Auditor, s: &Step) -> u64 {
    if s.has_rested { 0 } else { a.sent }
}

// Returns a byte for which there may be no room.
pub(crate) fn room(a: &Auditor, s: &Step) -> Option<Finding> {
    if !s.action.sends() {
        return None;
    }
    let (sent, room) = (sent_before(a, s), s.setup.depth());
    when(
        u64::from(room) <= sent,
        Finding::SentBeyondRoom {
            sent: sent.saturating_add(1),
            room,
        },
    )
}

// Returns whether LCR is known to send a break.
fn is_in_break(line: Option<LCR>) -> bool {
    match line {
        Some(lcr) => lcr.contains(LCR::SET_BREAK),
        None => false,
    }
}

// Returns whether a byte has more bits than a character.
fn cuts(line: Option<LCR>, byte: u8) -> bool {
    match line {
        Some(lcr) => is_cut(lcr, byte),
        None => false,
    }
}

// Returns whether a byte was sent in loopback before, and a look showed room since, and nothing was
// received. A loopback test reads what it sent before it sends more.
fn loops_again(a: &Auditor, setup: Setup) -> bool {
    if !setup.loops_back() {
        return false;
    }
    a.has_looped && a.is_thr_empty
}

// Returns a byte that does not go out as it was given.
pub(crate) fn output(a: &Auditor, s: &Step) -> Option<Finding> {
    let Action::Sends(byte) = s.action else {
        return None;
    };
    if is_in_break(s.setup.line) {
        return Some(Finding::SentInBreak(byte));
    }
    if loops_again(a, s.setup) {
        return Some(Finding::SentInLoopback(byte));
    }
    when(cuts(s.setup.line, byte), Finding::WordTooShort(byte))
}

// Returns whether the latest look at MSR since a byte was sent showed that the remote is not ready.
fn is_held(cts: Option<bool>) -> bool {
    match cts {
        Some(is_set) => !is_set,
        None => false,
    }
}

// Returns whether a driver may ask for CTS. One that is interrupted asks for it by the interrupt of
// modem status: its handler may read MSR for any interrupt, also on a line without flow control.
fn asks_for_cts(a: &Auditor, setup: Setup) -> bool {
    !a.has_signalled || setup.enables(IER::MODEM_STATUS)
}

// Returns a byte that the remote may not take. A line on which CTS was never set has no CTS.
pub(crate) fn flow(a: &Auditor, s: &Step) -> Option<Finding> {
    if !s.action.sends() {
        return None;
    }
    if s.setup.loops_back() {
        return None;
    }
    when(
        (is_held(a.cts) && a.was_cts_set) && asks_for_cts(a, s.setup),
        Finding::SentWithoutCts,
    )
}

// Returns whether an interrupt is known to be enabled.
fn enables_some(interrupts: Option<IER>) -> bool {
    match interrupts {
        Some(ier) => ier.intersects(
            IER::DATA_READY
                .union(IER::THR_EMPTY)
                .union(IER::RECEIVER_LINE_STATUS.union(IER::MODEM_STATUS)),
        ),
        None => false,
    }
}

// Returns whether all interrupts are known to be disabled.
fn are_off(interrupts: Option<IER>) -> bool {
    interrupts.is_some() && !enables_some(interrupts)
}

// Returns whether an interrupt is known to be enabled that bytes cause. That of modem status alone
// is no way to send or to receive: a driver that polls may leave it enabled.
fn enables_bytes(interrupts: Option<IER>) -> bool {
    match interrupts {
        Some(ier) => ier.intersects(
            IER::DATA_READY
                .union(IER::THR_EMPTY)
                .union(IER::RECEIVER_LINE_STATUS),
        ),
        None => false,
    }
}

// Returns whether OUT2 is known to be off, outside of loopback.
fn is_cut_off(modem: Option<MCR>) -> bool {
    match modem {
        Some(mcr) => !mcr.intersects(MCR::OUT_2_INT_ENABLE.union(MCR::LOOP_BACK)),
        None => false,
    }
}

// Returns whether a look showed room for a byte that is sent: LSR or ISR did, and nothing was sent
// since; or the byte fits beside those that were sent since then, and the first of them was judged.
fn is_room_shown(a: &Auditor, s: &Step) -> bool {
    if a.is_thr_empty {
        return true;
    }
    let sent = sent_before(a, s);
    sent > 0 && sent < u64::from(s.setup.depth())
}

// Returns whether a byte is received, or one is sent for which no look showed room. A driver that
// looks at LSR before it sends needs no interrupt, also if it has enabled one early.
fn relies(a: &Auditor, s: &Step) -> bool {
    if s.action.sends() {
        return !is_room_shown(a, s);
    }
    s.action.receives()
}

// Returns whether a driver relies on interrupts that do not reach the processor. Where one was seen
// to reach it, the board does not gate them by OUT2.
pub(crate) fn gate(a: &Auditor, s: &Step) -> Option<Finding> {
    if a.has_signalled || s.is_line_up() {
        return None;
    }
    if !relies(a, s) {
        return None;
    }
    when(
        enables_bytes(s.setup.interrupts) && is_cut_off(s.setup.modem),
        Finding::InterruptsCutOff,
    )
}

// Returns a byte that is none, or may be none. A driver that has not begun to work empties the
// receiver, and so does one that ISR told of a timeout.
fn taken_from_nothing(a: &Auditor) -> Option<Finding> {
    if !a.is_at_work {
        return None;
    }
    if let Some(InterruptType::ReceptionTimeout) = a.data_interrupt {
        return None;
    }
    match a.ready {
        Some(false) => Some(Finding::ReceivedFromEmpty),
        _ => when(a.has_taken, Finding::ReceivedWithoutLook),
    }
}

// Returns what is wrong with a read of DATA. If the recording has the character that waits, it says
// whether there was an error to be seen.
pub(crate) fn taken(a: &Auditor, s: &Step) -> Option<Finding> {
    if !s.action.receives() {
        return None;
    }
    if a.unread.front().is_some() {
        return None;
    }
    if a.waiting == 0 {
        return taken_from_nothing(a);
    }
    when(a.has_taken, Finding::ErrorsNotRead)
}

// Returns whether the character behind the oldest one has this byte.
fn is_next(second: Option<Arrived>, byte: u8) -> bool {
    match second {
        Some(arrived) => arrived.byte == byte,
        None => false,
    }
}

// Returns what is wrong with a read of DATA while this character is the oldest.
fn arrived_and_read(a: &Auditor, front: Arrived, byte: u8) -> Option<Finding> {
    if front.byte == byte {
        return when(
            !front.errors.is_empty() && !a.unread.is_front_seen,
            Finding::ErrorsLost(front),
        );
    }
    if is_next(a.unread.second(), byte) {
        return Some(Finding::ArrivalSkipped(front.byte));
    }
    Some(Finding::OtherByte {
        arrived: front.byte,
        read: byte,
    })
}

// Returns what is wrong with a read of LSR while this character is the oldest.
fn arrived_and_shown(a: &Auditor, front: Arrived, lsr: LSR) -> Option<Finding> {
    if !lsr.contains(LSR::DATA_READY) {
        return Some(Finding::ArrivalGone(front.byte));
    }
    when(
        !lsr.contains(front.errors) && !a.unread.is_front_seen,
        Finding::ErrorsHidden(front),
    )
}

// Returns what became of a character that arrived.
pub(crate) fn arrival(a: &Auditor, s: &Step) -> Option<Finding> {
    let front = a.unread.front()?;
    match s.action {
        Action::Receives(byte) => arrived_and_read(a, front, byte),
        Action::LooksAtLine(lsr) => arrived_and_shown(a, front, lsr),
        _ => None,
    }
}

// Returns an overrun that LSR does not show.
pub(crate) fn overrun(a: &Auditor, s: &Step) -> Option<Finding> {
    match s.action {
        Action::LooksAtLine(lsr) => when(
            a.is_overrun && !lsr.contains(LSR::OVERRUN_ERROR),
            Finding::OverrunHidden,
        ),
        _ => None,
    }
}

// Returns an empty receiver in which a byte is to wait.
fn empty_though_waiting(a: &Auditor) -> Option<Finding> {
    if let Some(_) = a.unread.front() {
        return None;
    }
    match a.data_interrupt {
        Some(interrupt) => Some(Finding::InterruptWithoutData(interrupt)),
        None => when(a.is_controlled && a.waiting > 0, Finding::GoneAtFcr),
    }
}

// Returns an empty receiver in which a byte is to wait.
pub(crate) fn empty(a: &Auditor, s: &Step) -> Option<Finding> {
    match s.action {
        Action::LooksAtLine(lsr) => {
            if lsr.contains(LSR::DATA_READY) {
                None
            } else {
                empty_though_waiting(a)
            }
        }
        _ => None,
    }
}

// Returns whether this is the divisor of a usual rate at a clock other than 1.8432 MHz, of those
// that look like a usual rate with a value of IER in the high byte. Set-top boxes have 27, 54, 108
// and 216 MHz, and Tegra has 408 MHz.
fn is_of_other_clock(divisor: u16) -> bool {
    matches!(divisor, 352 | 960 | 1328 | 2656)
}

// Returns whether the low byte of the divisor alone is that of a usual rate at 1.8432 MHz, and
// with this high byte there is no usual rate.
fn spoils_rate(high: u8, low: Option<u8>) -> bool {
    match low {
        Some(low) => {
            let divisor = u16::from(high) * 256 + u16::from(low);
            let is_usual = matches!(low, 1 | 2 | 3 | 6 | 12 | 24 | 48 | 96 | 192);
            is_usual && !is_of_other_clock(divisor)
        }
        None => false,
    }
}

// Returns whether a value for the high byte of the divisor looks like one for IER: the high byte
// was written already; or the low byte is that of a usual rate, which this spoils.
fn is_for_ier(a: &Auditor, s: &Step, value: u8) -> bool {
    if a.latch.is_high_new {
        return true;
    }
    if !a.latch.has_low {
        return false;
    }
    value != 0 && value < 16 && spoils_rate(value, s.setup.divisor.low)
}

fn is_zero(value: Option<u8>) -> bool {
    match value {
        Some(value) => value == 0,
        None => false,
    }
}

// Returns what is wrong with the divisor when the latch is closed.
fn closed(a: &Auditor, s: &Step) -> Option<Finding> {
    if is_zero(s.setup.divisor.low) && is_zero(s.setup.divisor.high) {
        return Some(Finding::ZeroDivisor);
    }
    when(has_low_alone(a.latch), Finding::HighByteNotSet)
}

// Returns whether the low byte of the divisor was written alone, and not by a driver that took the
// latch for DATA.
fn has_low_alone(latch: Latch) -> bool {
    if !latch.was_opened || latch.has_looked {
        return false;
    }
    latch.has_low && !latch.has_high
}

// Returns whether this value of LCR closes the latch, which is open.
fn closes(setup: Setup, lcr: LCR) -> bool {
    match setup.is_open {
        Some(is_open) => is_open && !lcr.contains(LCR::DLAB),
        None => false,
    }
}

// Returns a divisor latch that is taken for DATA or IER, or the other way round. No driver polls
// while it sets the divisor.
pub(crate) fn latch(a: &Auditor, s: &Step) -> Option<Finding> {
    match s.action {
        Action::SetsDivisorLow(byte) => when(
            a.latch.has_looked || a.latch.is_low_new,
            Finding::SentIntoLatch(byte),
        ),
        Action::SetsDivisorHigh(value) => {
            when(is_for_ier(a, s, value), Finding::InterruptsIntoLatch(value))
        }
        Action::ReadsDivisor => when(a.latch.has_looked, Finding::ReceivedFromLatch),
        Action::SetsLine(lcr) if closes(s.setup, lcr) => closed(a, s),
        _ => None,
    }
}

// Returns the bits of LCR that say how a character is sent: the kind of parity matters only if
// there is one, and DLAB does not.
fn frame(lcr: LCR) -> u8 {
    if lcr.contains(LCR::PARITY0) {
        lcr.bits() & 0x7f
    } else {
        lcr.bits() & 0x47
    }
}

// Returns whether LCR is known to have had another frame. A break that ends is none.
fn is_other_frame(old: Option<LCR>, new: LCR) -> bool {
    match old {
        Some(old) => !old.contains(LCR::SET_BREAK) && frame(old) != frame(new),
        None => false,
    }
}

// Returns whether a byte of the divisor is known to have been another.
fn is_other(old: Option<u8>, new: u8) -> bool {
    match old {
        Some(old) => old != new,
        None => false,
    }
}

// Returns what is changed while bytes may be going out.
pub(crate) fn change(a: &Auditor, s: &Step) -> Option<Finding> {
    if s.has_rested || a.going_out == 0 {
        return None;
    }
    match s.action {
        Action::SetsLine(lcr) => when(
            is_other_frame(s.setup.line, lcr),
            Finding::FrameChangedWhileSending,
        ),
        Action::SetsDivisorLow(value) => when(
            is_other(s.setup.divisor.low, value),
            Finding::DivisorChangedWhileSending,
        ),
        Action::SetsDivisorHigh(value) => when(
            is_other(s.setup.divisor.high, value),
            Finding::DivisorChangedWhileSending,
        ),
        Action::ControlsFifo(_) => when(
            a.sent > 0 && s.empties(FCR::TX_FIFO_RESET),
            Finding::ResetWhileSending,
        ),
        _ => None,
    }
}

// Returns whether a driver is at rest: all interrupts are off, and no byte went either way since it
// was set up. What came while a port was closed is nobody's.
fn is_at_rest(a: &Auditor, setup: Setup) -> bool {
    are_off(setup.interrupts) && !a.is_at_work
}

// Returns received bytes that FCR discards.
pub(crate) fn discard(a: &Auditor, s: &Step) -> Option<Finding> {
    when(
        (a.waiting > 0 && !is_at_rest(a, s.setup)) && s.empties(FCR::RX_FIFO_RESET),
        Finding::WaitingDiscarded,
    )
}

// Returns the interrupt that an earlier read of ISR identified, and that is not served.
pub(crate) fn service(a: &Auditor, s: &Step) -> Option<Finding> {
    let before = a.unserved?;
    let now = s.action.identified()?;
    when(now == before.interrupt, Finding::NotServed(before))
}

// Returns whether this is not what was written while bytes were going out.
fn is_ignored(a: &Auditor, read: LCR) -> Option<Finding> {
    let written = a.busy_line?;
    when(
        written.bits() != read.bits(),
        Finding::LineIgnored { written, read },
    )
}

// Returns an interrupt of an empty transmitter that did not come.
fn not_raised(a: &Auditor, isr: ISR) -> Option<Finding> {
    let finding = if a.is_acknowledged {
        Finding::ThrEmptyNotRaisedAgain
    } else {
        Finding::ThrEmptyNotRaised
    };
    when(a.is_thr_due && isr.contains(ISR::INTERRUPT_STATUS), finding)
}

// Returns what the chip does not do as it was told.
pub(crate) fn chip(a: &Auditor, s: &Step) -> Option<Finding> {
    match s.action {
        Action::IdentifiesInterrupt(isr) => not_raised(a, isr),
        Action::ReadsLine(lcr) => is_ignored(a, lcr),
        _ => None,
    }
}

// Returns whether an interrupt that a read of ISR does not acknowledge is shown.
fn stays(isr: ISR) -> bool {
    match identified(isr) {
        Some(InterruptType::TransmitterHoldingRegisterEmpty) | None => false,
        Some(_) => true,
    }
}

// Returns whether OUT2 is known to be on.
fn is_connected(modem: Option<MCR>) -> bool {
    match modem {
        Some(mcr) => mcr.contains(MCR::OUT_2_INT_ENABLE),
        None => false,
    }
}

// Returns whether the line is not as ISR says. While OUT2 is off the line may be down.
fn is_other_level(setup: Setup, isr: ISR, is_up: bool) -> bool {
    if is_up {
        return isr.contains(ISR::INTERRUPT_STATUS);
    }
    stays(isr) && is_connected(setup.modem)
}

// Returns lines that are not as a register says.
pub(crate) fn level(a: &Auditor, s: &Step) -> Option<Finding> {
    match s.action {
        Action::IdentifiesInterrupt(isr) => {
            let is_up = s.level?;
            when(
                is_other_level(s.setup, isr, is_up),
                Finding::LevelDiffers(is_up),
            )
        }
        Action::LooksAtModem(shown) if !s.setup.loops_back() => {
            let inputs = a.lines?;
            when(
                shown.intersection(MSR::LINES).bits() != inputs.intersection(MSR::LINES).bits(),
                Finding::LinesDiffer { inputs, shown },
            )
        }
        _ => None,
    }
}

/// The nanoseconds after which a driver has left its handler, if it accesses nothing: a second. The
/// processor of a virtual machine may stand still for much longer than a handler takes.
pub const HANDLER_TIME: u64 = 1_000_000_000;

// Returns whether so much time passed since a mark.
fn is_long_since(mark: Mark, now: u64) -> bool {
    HANDLER_TIME <= now.saturating_sub(mark.time)
}

// Returns an interrupt line that was left up by a handler, while interrupts are not known to be
// off: a byte arrives, and there was no access for so long. A processor that is slow is no handler
// that has returned, so what the driver accesses next does not show it.
pub(crate) fn line_up(a: &Auditor, s: &Step) -> Option<Finding> {
    if !s.action.arrives() {
        return None;
    }
    let mark = a.up?;
    let now = s.time?;
    if are_off(s.setup.interrupts) {
        return None;
    }
    when(
        a.is_handling && is_long_since(mark, now),
        Finding::LeftWithLineUp(mark.line),
    )
}

impl Auditor {
    /// Returns the findings after the last entry, each in its place.
    #[must_use]
    pub fn end(&self) -> [Option<Finding>; 2] {
        [
            when(is_open(self.setup.is_open), Finding::LatchLeftOpen),
            when(self.setup.loops_back(), Finding::LoopbackLeftOn),
        ]
    }
}

fn is_open(is_open: Option<bool>) -> bool {
    match is_open {
        Some(is_open) => is_open,
        None => false,
    }
}
