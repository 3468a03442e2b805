//! What happens in a chip, over its parts: what an access does, and what happens between accesses.

use crate::chip::Latches;
use crate::masks::{kept_interrupts, kept_modem_control_of};
use crate::receiving::{
    ReceiverParts, clear, count_up, is_data_pending, is_timed_out, report, take_front,
};
use crate::transmitting::{TransmitterParts, count_down, load, next_move};
use crate::{flag, receiving, transmitting};
use bitflags::Flags;
use uart_events::Chip;
use uart_spec::FifoSize;
use uart_spec::registers::{
    FCR, FifoTriggerLevel, IER, ISR, InterruptType, LCR, LSR, MCR, MSR, WordLength, offsets,
};

/// What a chip is made of: its model, the registers that keep what is written to them, a
/// transmitter, a receiver and the modem lines, and how each is read and changed.
// Two types have such parts: `Uart`, and the struct of the port in C. Of that struct any bytes
// are legal, so its flags are bytes and its lengths may be beyond their arrays: it can be no
// `Uart`. A `Uart` that is filled from it in each call would more than double what a read of LSR
// costs.
pub trait ChipParts {
    /// The transmitter.
    type Transmitter: TransmitterParts;

    /// The receiver.
    type Receiver: ReceiverParts;

    /// Returns the model.
    fn model(&self) -> Chip;

    /// Returns whether characters are cut to the word length.
    fn cuts(&self) -> bool;

    /// Returns whether the chip has automatic flow control.
    fn has_auto_flow(&self) -> bool;

    /// Returns whether the chip has the switch of a 16750 between FIFOs of 16 characters and of 64.
    fn has_size_switch(&self) -> bool;

    /// Returns the transmitter.
    fn transmitter(&self) -> &Self::Transmitter;

    /// Lends the transmitter.
    fn transmitter_mut(&mut self) -> &mut Self::Transmitter;

    /// Returns the receiver.
    fn receiver(&self) -> &Self::Receiver;

    /// Lends the receiver.
    fn receiver_mut(&mut self) -> &mut Self::Receiver;

    /// Returns whether the FIFOs are on.
    fn fifo(&self) -> bool;

    /// Sets whether the FIFOs are on.
    fn turn_fifo(&mut self, on: bool);

    /// Empties both queues, and gives both FIFOs this size, if the chip has the switch. Else it
    /// stays as it is. The caller must show that the size is at most 64.
    fn resize(&mut self, size: FifoSize);

    /// Computes the modem lines anew under this value of MCR, and adds their changes.
    fn renew_modem(&mut self, mcr: MCR);

    /// Sets the inputs of the modem, and computes its lines anew under this value of MCR.
    fn change_inputs(&mut self, mcr: MCR, inputs: u8);

    /// Returns what a read of MSR returns, and clears the changes of the modem lines, as the read
    /// does.
    fn read_modem(&mut self) -> u8;

    /// Returns whether a modem line has changed since the last read of MSR.
    fn has_modem_changes(&self) -> bool;

    /// Returns whether MSR shows CTS: the other end is ready to receive.
    fn is_clear_to_send(&self) -> bool;

    /// Returns the interrupt enable register.
    fn ier(&self) -> IER;

    /// Returns the line control register.
    fn lcr(&self) -> LCR;

    /// Returns the modem control register.
    fn mcr(&self) -> MCR;

    /// Returns the registers that keep what is written to them.
    fn latches(&self) -> Latches;

    /// Sets the registers that keep what is written to them.
    fn set_latches(&mut self, latches: Latches);
}

/// Returns whether a read of ISR that shows this interrupt acknowledges it.
fn is_thr_empty(interrupt: Option<InterruptType>) -> bool {
    matches!(
        interrupt,
        Some(InterruptType::TransmitterHoldingRegisterEmpty)
    )
}

/// Returns ISR without the bits that show the FIFO.
#[must_use]
pub fn identification(interrupt: Option<InterruptType>) -> ISR {
    match interrupt {
        None => ISR::INTERRUPT_STATUS,
        Some(interrupt) => ISR::from_bits_retain(interrupt.to_bits()),
    }
}

// Returns the trigger level of a value of FCR.
fn trigger_level(fcr: FCR) -> FifoTriggerLevel {
    fcr.fifo_trigger_level()
}

// Returns a byte as it is sent and received under a line control register: only its data bits if
// characters are cut. That is an option of the chip: the tests of the original driver have a model
// that moves whole bytes, and a machine from `new` does so too. A byte is cut when it is written
// and when it arrives. What comes back in loopback was cut already, and the divisor latch is no
// byte of the line.
fn cut_to(cuts: bool, lcr: LCR, byte: u8) -> u8 {
    if !cuts {
        return byte;
    }
    match lcr.word_length() {
        WordLength::FiveBits => byte % (1 << 5),
        WordLength::SixBits => byte % (1 << 6),
        WordLength::SevenBits => byte % (1 << 7),
        WordLength::EightBits => byte,
    }
}

/// Returns a byte as it is sent and received: only its data bits if characters are cut.
#[must_use]
pub fn cut<P: ChipParts>(parts: &P, byte: u8) -> u8 {
    cut_to(parts.cuts(), parts.lcr(), byte)
}

/// Returns the divisor in the divisor latch.
#[must_use]
pub fn divisor<P: ChipParts>(parts: &P) -> u16 {
    let latches = parts.latches();
    latches.dlm as u16 * 256 + latches.dll as u16
}

/// Returns whether DATA and IER are the divisor latch.
#[must_use]
pub fn is_dlab_set<P: ChipParts>(parts: &P) -> bool {
    parts.lcr().intersects(LCR::DLAB)
}

/// Returns whether what leaves the transmitter comes back to the receiver.
#[must_use]
pub fn is_loopback<P: ChipParts>(parts: &P) -> bool {
    parts.mcr().intersects(MCR::LOOP_BACK)
}

// Returns whether automatic flow control is on.
fn is_auto_flow<P: ChipParts>(parts: &P) -> bool {
    parts.has_auto_flow() && parts.mcr().intersects(MCR::AUTO_FLOW)
}

/// Returns whether the transmitter takes no next character: automatic flow control is on, and the
/// other end is not ready to receive.
#[must_use]
pub fn is_held_off<P: ChipParts>(parts: &P) -> bool {
    is_auto_flow(parts) && !parts.is_clear_to_send()
}

/// Returns whether the chip asks the other end to send, by its output RTS.
#[must_use]
pub fn rts_output<P: ChipParts>(parts: &P) -> bool {
    let is_full = is_auto_flow(parts)
        && (parts.fifo() && is_data_pending(parts.receiver(), parts.fifo()));
    parts.mcr().intersects(MCR::RTS) && !is_full
}

/// Lets one tick pass.
pub fn tick<P: ChipParts>(parts: &mut P) {
    let loopback = is_loopback(parts);
    let held_off = is_held_off(parts);
    let looped = transmitting::tick(parts.transmitter_mut(), loopback, held_off);
    let fifo = parts.fifo();
    receiving::tick(parts.receiver_mut(), fifo, looped);
}

// Lets ticks pass in which no character enters or leaves the shift register.
fn skip<P: ChipParts>(parts: &mut P, ticks: u16) {
    count_down(parts.transmitter_mut(), ticks);
    count_up(parts.receiver_mut(), ticks);
}

/// Lets `n` ticks pass, and returns the number of jumps that this took.
///
/// A jump ends at the tick in which a character enters or leaves the shift register, or takes all
/// ticks that are left. So its cost does not grow with the number of ticks.
// A jump skips the ticks before that tick, and then makes it as any other tick. So the start and
// the end of a character have no second definition. With FIFOs of 16 at most 17 characters move,
// and one jump takes what is left: 18 jumps are enough for any number of ticks.
pub fn advance<P: ChipParts>(parts: &mut P, n: u16) -> usize {
    let mut left = n;
    let mut jumps = 0;
    while left > 0 {
        let loopback = is_loopback(parts);
        let held_off = is_held_off(parts);
        match next_move(parts.transmitter(), loopback, held_off) {
            Some(ticks) if ticks <= left => {
                skip(parts, ticks - 1);
                tick(parts);
                left -= ticks;
            }
            _ => {
                skip(parts, left);
                left = 0;
            }
        }
        jumps += 1;
    }
    jumps
}

/// Receives a character without a schedule, with these error bits. In loopback the character is
/// lost.
pub fn arrive_live<P: ChipParts>(parts: &mut P, byte: u8, errors: u8) {
    let loopback = is_loopback(parts);
    let byte = cut(parts, byte);
    let fifo = parts.fifo();
    receiving::arrive_live(parts.receiver_mut(), loopback, fifo, byte, errors);
}

/// Returns how many characters can be received before one is lost. In loopback that is 0.
#[must_use]
pub fn receive_room<P: ChipParts>(parts: &P) -> usize {
    if is_loopback(parts) {
        0
    } else {
        receiving::receive_room(parts.receiver(), parts.fifo())
    }
}

/// Sets the inputs of the modem, as bits of MSR.
pub fn change_lines<P: ChipParts>(parts: &mut P, inputs: u8) {
    let mcr = parts.mcr();
    parts.change_inputs(mcr, inputs);
}

// Returns whether a character in the FIFO has errors that were not reported, as LSR shows it.
fn fifo_error<P: ChipParts>(parts: &P) -> LSR {
    if parts.receiver().has_unreported_errors() && parts.fifo() {
        LSR::FIFO_DATA_ERROR
    } else {
        LSR::empty()
    }
}

fn lsr<P: ChipParts>(parts: &P) -> LSR {
    parts
        .receiver()
        .status()
        .union(parts.transmitter().status())
        .union(fifo_error(parts))
}

// Returns the interrupt of the highest priority among those that are enabled and pending.
fn pending_interrupt<P: ChipParts>(parts: &P) -> Option<InterruptType> {
    let enabled = parts.ier();
    if enabled.intersects(IER::RECEIVER_LINE_STATUS) && lsr(parts).intersects(LSR::LINE_ERRORS) {
        Some(InterruptType::ReceiverLineStatus)
    } else if enabled.intersects(IER::DATA_READY)
        && is_data_pending(parts.receiver(), parts.fifo())
    {
        Some(InterruptType::ReceivedDataReady)
    } else if enabled.intersects(IER::DATA_READY) && is_timed_out(parts.receiver(), parts.fifo()) {
        Some(InterruptType::ReceptionTimeout)
    } else if enabled.intersects(IER::THR_EMPTY) && parts.transmitter().is_thr_pending() {
        Some(InterruptType::TransmitterHoldingRegisterEmpty)
    } else if enabled.intersects(IER::MODEM_STATUS) && parts.has_modem_changes() {
        Some(InterruptType::ModemStatus)
    } else {
        None
    }
}

/// Returns whether an interrupt is enabled and pending: whether the interrupt output is active.
#[must_use]
pub fn is_interrupting<P: ChipParts>(parts: &P) -> bool {
    !parts.ier().is_empty() && pending_interrupt(parts).is_some()
}

/// Reads the register at this offset: returns its value, and has the effect of the read on the
/// chip.
#[inline]
pub fn read<P: ChipParts>(parts: &mut P, offset: u8) -> u8 {
    // A guest that waits reads LSR and nothing else, so it is looked for first.
    if offset == offsets::LSR as u8 {
        read_line_status(parts)
    } else {
        read_register(parts, offset)
    }
}

#[inline(never)]
fn read_register<P: ChipParts>(parts: &mut P, offset: u8) -> u8 {
    assert!(offset < 8, "no register has this offset");
    match offset as usize {
        offsets::DATA => read_data(parts),
        offsets::IER if is_dlab_set(parts) => parts.latches().dlm,
        offsets::IER => parts.ier().bits(),
        offsets::ISR => read_interrupt(parts),
        offsets::LCR => parts.lcr().bits(),
        offsets::MCR => parts.mcr().bits(),
        offsets::LSR => read_line_status(parts),
        offsets::MSR => parts.read_modem(),
        _ => parts.latches().scr,
    }
}

// Reads LSR, which reports the overrun and the errors of the front.
fn read_line_status<P: ChipParts>(parts: &mut P) -> u8 {
    if parts.receiver().has_errors() {
        return read_errors(parts);
    }
    let status = parts
        .receiver()
        .status()
        .union(parts.transmitter().status());
    report(parts.receiver_mut());
    status.bits()
}

// Reads LSR while some character has errors.
#[inline(never)]
fn read_errors<P: ChipParts>(parts: &mut P) -> u8 {
    let status = lsr(parts);
    report(parts.receiver_mut());
    status.bits()
}

fn read_data<P: ChipParts>(parts: &mut P) -> u8 {
    if is_dlab_set(parts) {
        return parts.latches().dll;
    }
    take_front(parts.receiver_mut())
}

// Returns whether FIFOs of this size hold 64 characters.
fn is_64(size: FifoSize) -> bool {
    matches!(size, FifoSize::SixtyFour)
}

// Returns what ISR shows of the FIFOs. Bit 5 of a chip without the size switch is 0.
fn fifo_flags<P: ChipParts>(parts: &P) -> ISR {
    let on = flag(parts.fifo(), ISR::FIFOS_ENABLED);
    if parts.has_size_switch() {
        let holds_64 = is_64(parts.receiver().size());
        on.union(flag(parts.fifo() && holds_64, ISR::FIFO_64_ENABLED))
    } else {
        on
    }
}

// Reads ISR. A read that shows `THR_EMPTY` acknowledges it.
fn read_interrupt<P: ChipParts>(parts: &mut P) -> u8 {
    let interrupt = pending_interrupt(parts);
    let flags = fifo_flags(parts);
    if is_thr_empty(interrupt) {
        parts.transmitter_mut().set_thr_pending(false);
    }
    identification(interrupt).union(flags).bits()
}

/// Writes a value to the register at this offset.
#[inline]
pub fn write<P: ChipParts>(parts: &mut P, offset: u8, value: u8) {
    // A guest that prints writes DATA most often, so it is looked for first.
    if offset == offsets::DATA as u8 {
        write_data(parts, value);
    } else {
        write_register(parts, offset, value);
    }
}

// Writes DATA.
fn write_data<P: ChipParts>(parts: &mut P, value: u8) {
    if is_dlab_set(parts) {
        let latches = parts.latches();
        parts.set_latches(Latches {
            dll: value,
            ..latches
        });
    } else {
        let byte = cut(parts, value);
        let fifo = parts.fifo();
        load(parts.transmitter_mut(), fifo, byte);
    }
}

#[inline(never)]
fn write_register<P: ChipParts>(parts: &mut P, offset: u8, value: u8) {
    assert!(offset < 8, "no register has this offset");
    let latches = parts.latches();
    match offset as usize {
        offsets::DATA => write_data(parts, value),
        offsets::IER if is_dlab_set(parts) => parts.set_latches(Latches {
            dlm: value,
            ..latches
        }),
        offsets::IER => enable(parts, IER::from_bits_retain(value)),
        offsets::FCR => control(parts, FCR::from_bits_retain(value)),
        offsets::LCR => parts.set_latches(Latches {
            lcr: LCR::from_bits_retain(value),
            ..latches
        }),
        offsets::MCR => control_modem(parts, MCR::from_bits_retain(value)),
        offsets::SPR => parts.set_latches(Latches {
            scr: value,
            ..latches
        }),
        _ => {}
    }
}

// Writes IER.
fn enable<P: ChipParts>(parts: &mut P, interrupts: IER) {
    let latches = parts.latches();
    // A chip raises the interrupt also if THR was empty before it was enabled. Not every chip does.
    if !latches.ier.intersects(IER::THR_EMPTY)
        && interrupts.intersects(IER::THR_EMPTY)
        && parts.transmitter().queue_len() == 0
    {
        parts.transmitter_mut().set_thr_pending(true);
    }
    parts.set_latches(Latches {
        ier: kept_interrupts(interrupts),
        ..latches
    });
}

// Writes MCR.
fn control_modem<P: ChipParts>(parts: &mut P, value: MCR) {
    let mcr = kept_modem_control_of(parts.has_auto_flow(), value);
    let latches = parts.latches();
    parts.set_latches(Latches { mcr, ..latches });
    parts.renew_modem(mcr);
}

// Writes FCR.
fn control<P: ChipParts>(parts: &mut P, value: FCR) {
    match parts.model() {
        Chip::Uart16450 => {}
        Chip::Uart16550A => set_fifo(parts, value),
    }
}

// Without the enable bit nothing but the switch is done: a chip whose FIFOs are off ignores the
// resets. Neither the character in the shift register nor the overrun flag changes. The trigger
// level survives when the FIFOs are switched off, and so does their size.
fn set_fifo<P: ChipParts>(parts: &mut P, value: FCR) {
    let on = value.intersects(FCR::FIFO_ENABLE);
    if parts.fifo() != on {
        switch(parts, on);
    }
    if on {
        switch_size(parts, value);
        reset_receiver(parts, value);
        reset_transmitter(parts, value);
        parts.receiver_mut().set_trigger(trigger_level(value));
    }
}

// Returns the size that a write of FCR asks for, on a chip that has the size switch.
fn switched_size(fcr: FCR) -> FifoSize {
    if fcr.intersects(FCR::FIFO_64_ENABLE) {
        FifoSize::SixtyFour
    } else {
        FifoSize::Sixteen
    }
}

// Returns whether a write of FCR that leaves the FIFOs on switches their size.
fn is_switching<P: ChipParts>(parts: &P, fcr: FCR) -> bool {
    parts.has_size_switch()
        && is_dlab_set(parts)
        && is_64(parts.receiver().size()) != fcr.intersects(FCR::FIFO_64_ENABLE)
}

// Switches the size of the FIFOs, if the write of FCR does. That empties both.
fn switch_size<P: ChipParts>(parts: &mut P, value: FCR) {
    if is_switching(parts, value) {
        parts.receiver_mut().discard();
        parts.resize(switched_size(value));
    }
}

fn reset_receiver<P: ChipParts>(parts: &mut P, value: FCR) {
    if value.intersects(FCR::RX_FIFO_RESET) {
        clear(parts.receiver_mut());
    }
}

fn reset_transmitter<P: ChipParts>(parts: &mut P, value: FCR) {
    if value.intersects(FCR::TX_FIFO_RESET) {
        parts.transmitter_mut().clear_queue();
        parts.transmitter_mut().set_thr_pending(true);
    }
}

// Switches the FIFOs on or off, which empties both. No THR_EMPTY interrupt is raised by that, but
// by the reset of the transmitter.
fn switch<P: ChipParts>(parts: &mut P, on: bool) {
    parts.turn_fifo(on);
    clear(parts.receiver_mut());
    parts.transmitter_mut().clear_queue();
}
