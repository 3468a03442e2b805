//! The live chip.

mod snapshot;

use crate::due::interrupts_when_due;
use crate::errors::{ChipError, InputError};
use crate::fixed::{FixedFifo, FixedWire, NoMarks, WIRE_ROOM, is_size};
use bitflags::Flags;
use uart_chip::controlling::{ChipParts, cut};
use uart_chip::receiving::{ReceiverParts, take_front};
use uart_chip::transmitting::TransmitterParts;
use uart_chip::{Character, NoCapabilities, Origin, Uart, room_of};
use uart_events::{Chip, MAX_CHAR_TICKS};
use uart_spec::registers::{IER, LCR, LSR, MCR, MSR, offsets};
use uart_spec::{FIFO_SIZE, FifoSize};

// A chip all of whose memory is in arrays, without a schedule. So no call can be refused memory.
// The wire has room for 64 bytes, as in the port in C: its owner takes them after each `ticks`.
// It is a 16550A or a 16450, which have neither automatic flow control nor a switch of their size.
type LiveUart<const FIFO: usize> = Uart<
    FixedFifo<u8, FIFO>,
    FixedWire,
    FixedFifo<Character, FIFO>,
    NoMarks,
    NoCapabilities,
>;

/// A serial chip in software whose owner lets time pass, passes characters to it, and takes the
/// bytes that it sends.
///
/// For each access of the guest call `read` or `write`. As the clock goes on, call `ticks`, and
/// take what was sent with `wire` and `take_wire`. When a character or a change of the modem lines
/// arrives, call `arrive` or `set_lines`. After each of these calls set the guest's interrupt line
/// to `is_interrupting`.
///
/// No call allocates memory, and none blocks. The chip keeps no record of what was sent and
/// received, so it can run without end.
///
/// Each of its FIFOs holds `FIFO` characters: 16, 32, 64, 128 or 256. A [`LiveChip`] has 16. A
/// guest finds no other number in a register of the chip: whoever makes the machine tells it, as by
/// `fifo-size` of a device tree.
///
/// # Examples
///
/// ```
/// # include!(concat!(env!("CARGO_MANIFEST_DIR"), "/examples.rs"));
/// # fn main() {}
/// # fn example(chip: &mut LiveChip, offset: u8, value: u8, elapsed: u16, sink: &mut [u8]) -> Outcome<()> {
/// chip.write(offset, value);
/// chip.ticks(elapsed);
/// let sent = chip.wire().len().min(sink.len());
/// sink[..sent].copy_from_slice(&chip.wire()[..sent]);
/// chip.take_wire(sent);
/// # Ok(()) }
/// ```
pub struct LiveChipWith<const FIFO: usize> {
    uart: LiveUart<FIFO>,
}

/// A [`LiveChipWith`] FIFOs of 16 characters, as those of a 16550A. Nearly everybody wants this.
pub type LiveChip = LiveChipWith<FIFO_SIZE>;

// Returns why no chip is made.
fn refusal(characters: usize, char_ticks: u16, wire_capacity: usize) -> Option<ChipError> {
    if !is_size(characters) {
        Some(ChipError::BadFifo)
    } else if char_ticks == 0 || char_ticks > MAX_CHAR_TICKS {
        Some(ChipError::BadTicks)
    } else if wire_capacity > WIRE_ROOM {
        Some(ChipError::BadWire)
    } else {
        None
    }
}

// There is no `new_cut`. An owner who wants characters cut makes a chip, sets `cuts` of its data,
// and restores it: data are sound with either value.
impl<const FIFO: usize> LiveChipWith<FIFO> {
    /// Returns a chip after power-on.
    ///
    /// A character takes `char_ticks` ticks in the shift register, and the wire has room for
    /// `wire_capacity` bytes until they are taken. If it is full, the transmitter keeps what it
    /// holds.
    ///
    /// # Errors
    ///
    /// The first of these:
    ///
    /// - `BadFifo` if `FIFO` is none of 16, 32, 64, 128 and 256. A [`LiveChip`] has 16.
    /// - `BadTicks` if `char_ticks` is 0 or more than 1000.
    /// - `BadWire` if `wire_capacity` is more than 64.
    ///
    /// # Examples
    ///
    /// ```
    /// # include!(concat!(env!("CARGO_MANIFEST_DIR"), "/examples.rs"));
    /// # fn main() {}
    /// # fn example() -> Result<LiveChip, ChipError> {
    /// LiveChip::new(Chip::Uart16550A, 4, 64)
    /// # }
    /// ```
    ///
    /// # Proved
    ///
    /// - *built*: if it returns `Ok live`: `live` is [`with_size`](uart_chip::proved::chip#with_size) `(fifo_size FIFO) (spec.fresh chip char_ticks wire_capacity 0)`: the same chip, with FIFOs of this size; a 16450 has none, and nothing that it does depends on their size.
    ///   - [`fifo_size`](crate::proved::size#fifo_size): the size of FIFOs that hold so many characters; a number that is no size counts as 16.
    ///   - [`fresh`](uart_chip::proved::chip#fresh): a chip after power-on, whose FIFOs hold 16 characters, for a schedule with this number of arrivals.
    /// - *refused*: for each `reason`: if `refusal FIFO char_ticks wire_capacity ≡ Some reason`: returns `Err reason`.
    ///   - [`refusal`](crate::proved::refused#refusal): why no chip is made, if none is: no FIFO holds so many characters, or else the ticks of a character are not in their range, or else the wire has room for too much.
    /// - *accepted*: if `refusal FIFO char_ticks wire_capacity ≡ None`: returns `Ok`.
    ///
    /// <details><summary>The clauses</summary>
    ///
    /// [How to read them](uart_spec::proved):
    ///
    /// ```text
    /// ensures built { IfOk result (λ live. live ≡ spec.with_size (fifo_size FIFO) (spec.fresh chip char_ticks wire_capacity 0)) }
    /// ensures refused { (reason : ChipError) → refusal FIFO char_ticks wire_capacity ≡ Some reason → result ≡ Err reason }
    /// ensures accepted { refusal FIFO char_ticks wire_capacity ≡ None → IsOk result }
    /// ```
    ///
    /// </details>
    pub fn new(chip: Chip, char_ticks: u16, wire_capacity: usize) -> Result<Self, ChipError> {
        if let Some(reason) = refusal(FIFO, char_ticks, wire_capacity) {
            return Err(reason);
        }
        let uart = Uart::with_parts(
            FixedFifo::new(0),
            FixedWire::new(wire_capacity),
            FixedFifo::new(Character::default()),
            NoMarks,
            chip,
            char_ticks,
            false,
        );
        Ok(Self { uart })
    }

    /// Reads the register at this offset for the guest, and returns its value. No time passes.
    ///
    /// A read can change the chip: of DATA it takes a received byte, of LSR and MSR it clears the
    /// errors and changes, and of ISR it may acknowledge an interrupt. So check `is_interrupting`
    /// after it.
    ///
    /// # Panics
    ///
    /// If the offset is 8 or more.
    ///
    /// # Examples
    ///
    /// ```
    /// # include!(concat!(env!("CARGO_MANIFEST_DIR"), "/examples.rs"));
    /// # fn main() {}
    /// # fn example(chip: &mut LiveChip, offset: u8) -> Outcome<()> {
    /// let value = chip.read(offset);
    /// let line = chip.is_interrupting();
    /// # Ok(()) }
    /// ```
    ///
    /// # Proved
    ///
    /// If `offset < NUM_REGISTERS`:
    ///
    /// - *answers*: returns [`answer`](uart_chip::proved::chip#answer) `offset self.old`: what a read of the register returns.
    /// - *after*: `self` becomes [`after_read`](uart_chip::proved::chip#after_read) `offset self.old`: the chip after a read of the register.
    ///
    /// <details><summary>The clauses</summary>
    ///
    /// [How to read them](uart_spec::proved):
    ///
    /// ```text
    /// requires { offset < NUM_REGISTERS }
    /// ensures answers { result ≡ spec.answer offset self.old }
    /// ensures after { self.new ≡ spec.after_read offset self.old }
    /// ```
    ///
    /// </details>
    #[inline]
    pub fn read(&mut self, offset: u8) -> u8 {
        self.uart.read(offset)
    }

    /// Writes a value to the register at this offset for the guest. No time passes.
    ///
    /// Never fails: a byte that is written to DATA is sent by later `ticks`. If the transmitter has
    /// no room, a byte is lost, and `overflows` counts it. Check `is_interrupting` after it.
    ///
    /// # Panics
    ///
    /// If the offset is 8 or more.
    ///
    /// # Examples
    ///
    /// ```
    /// # include!(concat!(env!("CARGO_MANIFEST_DIR"), "/examples.rs"));
    /// # fn main() {}
    /// # fn example(chip: &mut LiveChip, offset: u8, value: u8, elapsed: u16) -> Outcome<()> {
    /// chip.write(offset, value);
    /// chip.ticks(elapsed);
    /// # Ok(()) }
    /// ```
    ///
    /// # Proved
    ///
    /// If `offset < NUM_REGISTERS`:
    ///
    /// - `self` becomes [`after_write`](uart_chip::proved::chip#after_write) `offset value self.old`: the chip after a write of a register; a byte for the transmitter is cut to the word length before it is queued.
    ///
    /// <details><summary>The clauses</summary>
    ///
    /// [How to read them](uart_spec::proved):
    ///
    /// ```text
    /// requires { offset < NUM_REGISTERS }
    /// ensures { self.new ≡ spec.after_write offset value self.old }
    /// ```
    ///
    /// </details>
    pub fn write(&mut self, offset: u8, value: u8) {
        self.uart.write(offset, value);
    }

    /// Returns whether a byte that the guest writes to DATA can go onto the wire at once: outside
    /// of loopback, with nothing in the transmitter and with room on the wire. Under DLAB, where
    /// DATA is the divisor latch, it cannot.
    ///
    /// # Examples
    ///
    /// ```
    /// # include!(concat!(env!("CARGO_MANIFEST_DIR"), "/examples.rs"));
    /// # fn main() {}
    /// # fn example(chip: &mut LiveChip, value: u8) -> Outcome<()> {
    /// if chip.sends_at_once() {
    ///     chip.send_at_once(value);
    /// } else {
    ///     chip.write(offsets::DATA as u8, value);
    /// }
    /// # Ok(()) }
    /// ```
    ///
    /// # Proved
    ///
    /// - *sends*: returns [`sends_at_once`](uart_chip::proved::sending#sends_at_once) `self.now`: a byte that is written to DATA would be on the wire at once: DLAB and loopback are off, the transmitter is not held off and holds nothing, and the wire has room.
    /// - *live*: [`IsLive`](crate::proved::live#IsLive) `(fifo_size FIFO) self.now`: the chip is sound and has nothing of a schedule: no event is to come, no arrival has a mark, none can be lost unnoticed; the wire has room for at most as much as a wire may have, the FIFOs have this size and no switch of it, and flow control is left to the driver.
    ///   - [`fifo_size`](crate::proved::size#fifo_size): the size of FIFOs that hold so many characters; a number that is no size counts as 16.
    ///
    /// <details><summary>The clauses</summary>
    ///
    /// [How to read them](uart_spec::proved):
    ///
    /// ```text
    /// ensures sends { result ≡ sending_spec.sends_at_once self.now }
    /// ensures live { IsLive (fifo_size FIFO) self.now }
    /// ```
    ///
    /// </details>
    #[inline]
    #[must_use]
    pub fn sends_at_once(&self) -> bool {
        self.uart.sends_at_once()
    }

    /// Puts a byte that the guest writes to DATA onto the wire. The caller must have asked
    /// `sends_at_once`.
    ///
    /// If a character takes one tick, the transmitter is as after a write of DATA and two ticks or
    /// more. But no time passes: a reception timeout is as near as before.
    ///
    /// # Panics
    ///
    /// If [`sends_at_once`](Self::sends_at_once) returns false. Nothing changed then.
    ///
    /// # Examples
    ///
    /// ```
    /// # include!(concat!(env!("CARGO_MANIFEST_DIR"), "/examples.rs"));
    /// # fn main() {}
    /// # fn example(chip: &mut LiveChip, value: u8) -> Outcome<()> {
    /// if chip.sends_at_once() {
    ///     chip.send_at_once(value);
    /// } else {
    ///     chip.write(offsets::DATA as u8, value);
    /// }
    /// # Ok(()) }
    /// ```
    ///
    /// # Proved
    ///
    /// If `sending_spec.sends_at_once self.old ≡ true` (a byte that is written to DATA would be on the wire at once: DLAB and loopback are off, the transmitter is not held off and holds nothing, and the wire has room):
    ///
    /// - `self` becomes [`send_at_once`](uart_chip::proved::sending#send_at_once) `value self.old`: the byte, cut to the word length, is on the wire, and THR became empty, which is an interrupt; no time passed.
    ///
    /// <details><summary>The clauses</summary>
    ///
    /// [How to read them](uart_spec::proved):
    ///
    /// ```text
    /// requires { sending_spec.sends_at_once self.old ≡ true }
    /// ensures { self.new ≡ sending_spec.send_at_once value self.old }
    /// ```
    ///
    /// </details>
    #[inline]
    pub fn send_at_once(&mut self, value: u8) {
        self.uart.send_at_once(value);
    }

    /// Notes that a byte which the guest writes to DATA was taken, and does not go onto the wire.
    /// Returns whether that is possible: whether the chip
    /// [`sends_at_once`](Self::sends_at_once). If it is not, nothing changes.
    ///
    /// If the wire is empty, this does the same as `send_at_once` and `take_wire(1)`, whatever the
    /// byte is.
    ///
    /// # Proved
    ///
    /// - *sends*: returns [`sends_at_once`](uart_chip::proved::sending#sends_at_once) `self.old`: a byte that is written to DATA would be on the wire at once: DLAB and loopback are off, the transmitter is not held off and holds nothing, and the wire has room.
    /// - *passed*: if it returns `true`: `self` becomes [`passed`](crate::proved::quick#passed) `self.old`: a byte that was written to DATA was taken past the wire: THR became empty, which is an interrupt, and nothing else is new.
    /// - *after*: for each `value`: if it returns `true`, and `self.old.transmitter.wire ≡ []`: `self` becomes [`take_wire`](uart_chip::proved::chip#take_wire) `1 (sending_spec.send_at_once value self.old)`: a number of bytes are taken from the front of the wire.
    ///   - [`send_at_once`](uart_chip::proved::sending#send_at_once): the byte, cut to the word length, is on the wire, and THR became empty, which is an interrupt; no time passed.
    /// - *left*: if it returns `false`: nothing changes.
    /// - *live*: [`IsLive`](crate::proved::live#IsLive) `(fifo_size FIFO) self.old`: the chip is sound and has nothing of a schedule: no event is to come, no arrival has a mark, none can be lost unnoticed; the wire has room for at most as much as a wire may have, the FIFOs have this size and no switch of it, and flow control is left to the driver.
    ///   - [`fifo_size`](crate::proved::size#fifo_size): the size of FIFOs that hold so many characters; a number that is no size counts as 16.
    ///
    /// <details><summary>The clauses</summary>
    ///
    /// [How to read them](uart_spec::proved):
    ///
    /// ```text
    /// ensures sends { result ≡ sending_spec.sends_at_once self.old }
    /// ensures passed { result ≡ true → self.new ≡ passed self.old }
    /// ensures after { (value : ℕ) → result ≡ true → self.old.transmitter.wire ≡ [] → self.new ≡ spec.take_wire 1 (sending_spec.send_at_once value self.old) }
    /// ensures left { result ≡ false → self.new ≡ self.old }
    /// ensures live { IsLive (fifo_size FIFO) self.old }
    /// ```
    ///
    /// </details>
    #[inline]
    pub fn pass_wire(&mut self) -> bool {
        let sends = self.uart.sends_at_once();
        if sends {
            self.uart.transmitter_mut().set_thr_pending(true);
        }
        sends
    }

    /// Makes a THR-empty interrupt pending, as when the last byte leaves the transmitter's queue.
    ///
    /// For an owner who finds that a write of FCR emptied the queue: a switch of the FIFOs does so
    /// without the interrupt. Check `is_interrupting` after it.
    ///
    /// # Examples
    ///
    /// ```
    /// # include!(concat!(env!("CARGO_MANIFEST_DIR"), "/examples.rs"));
    /// # fn main() {}
    /// # fn example(chip: &mut LiveChip, value: u8) -> Outcome<()> {
    /// let held = chip.held_len();
    /// chip.write(offsets::FCR as u8, value);
    /// if chip.held_len() < held {
    ///     chip.raise_thr_empty();
    /// }
    /// # Ok(()) }
    /// ```
    ///
    /// # Proved
    ///
    /// - `self` becomes [`with_thr_pending`](uart_chip::proved::chip#with_thr_pending) `true self.old`: whether a THR-empty interrupt is pending.
    ///
    /// <details><summary>The clauses</summary>
    ///
    /// [How to read them](uart_spec::proved):
    ///
    /// ```text
    /// ensures { self.new ≡ spec.with_thr_pending true self.old }
    /// ```
    ///
    /// </details>
    pub fn raise_thr_empty(&mut self) {
        let transmitter = self.uart.transmitter_mut();
        transmitter.set_thr_pending(true);
    }

    /// Returns the byte that is sent if the guest writes this value to DATA: cut to the word length
    /// if the chip cuts characters, else the value itself.
    ///
    /// # Proved
    ///
    /// - Returns [`cut_of`](uart_chip::proved::chip#cut_of) `self.now value`: a byte as the chip sends and receives it now: cut to its word length, if the chip has the option.
    ///
    /// <details><summary>The clauses</summary>
    ///
    /// [How to read them](uart_spec::proved):
    ///
    /// ```text
    /// ensures { result ≡ spec.cut_of self.now value }
    /// ```
    ///
    /// </details>
    #[inline]
    #[must_use]
    pub fn cut(&self, value: u8) -> u8 {
        cut(&self.uart, value)
    }

    /// Receives a byte without errors, if there is room for it. Returns whether there is. If not,
    /// nothing changes.
    ///
    /// The effect is that of [`LiveChipWith::arrive`]. Most input is of this kind.
    ///
    /// # Proved
    ///
    /// - *room*: returns `not (spec.receive_room self.old == 0)`.
    ///   - [`receive_room`](uart_chip::proved::chip#receive_room): how many characters can arrive before one is lost; in loopback each one is lost.
    /// - *arrived*: if it returns `true`: `self` becomes [`arrive_live`](uart_chip::proved::chip#arrive_live) `byte 0 self.old`: a character arrives without a schedule, cut to the word length.
    /// - *left*: if it returns `false`: nothing changes.
    ///
    /// <details><summary>The clauses</summary>
    ///
    /// [How to read them](uart_spec::proved):
    ///
    /// ```text
    /// ensures room { result ≡ not (spec.receive_room self.old == 0) }
    /// ensures arrived { result ≡ true → self.new ≡ spec.arrive_live byte 0 self.old }
    /// ensures left { result ≡ false → self.new ≡ self.old }
    /// ```
    ///
    /// </details>
    #[inline]
    pub fn arrive_in_room(&mut self, byte: u8) -> bool {
        let receiver = self.uart.receiver();
        let room = room_of(self.uart.fifo(), receiver.size());
        if self.uart.is_loopback() || receiver.queue_len() >= room {
            return false;
        }
        // Of what can become of an arrival this is the first case, without a test of the others.
        let byte = cut(&self.uart, byte);
        let receiver = self.uart.receiver_mut();
        receiver.put(Character {
            byte,
            errors: 0,
            origin: Origin::Live,
        });
        receiver.set_timeout_ticks(0);
        receiver.set_unscheduled_lost(false);
        true
    }

    /// Returns whether the guest has an interrupt enabled. If not, the interrupt line is down.
    ///
    /// # Proved
    ///
    /// - *on*: returns `not (self.now.latches.ier == 0)`.
    /// - *live*: [`IsLive`](crate::proved::live#IsLive) `(fifo_size FIFO) self.now`: the chip is sound and has nothing of a schedule: no event is to come, no arrival has a mark, none can be lost unnoticed; the wire has room for at most as much as a wire may have, the FIFOs have this size and no switch of it, and flow control is left to the driver.
    ///   - [`fifo_size`](crate::proved::size#fifo_size): the size of FIFOs that hold so many characters; a number that is no size counts as 16.
    ///
    /// <details><summary>The clauses</summary>
    ///
    /// [How to read them](uart_spec::proved):
    ///
    /// ```text
    /// ensures on { result ≡ not (self.now.latches.ier == 0) }
    /// ensures live { IsLive (fifo_size FIFO) self.now }
    /// ```
    ///
    /// </details>
    #[inline]
    #[must_use]
    pub fn has_interrupts_on(&self) -> bool {
        !self.uart.ier().is_empty()
    }

    /// Returns whether the guest has the interrupt of received characters enabled.
    ///
    /// # Proved
    ///
    /// - *on*: returns [`has_any`](uart_spec::proved::bits#has_any) `self.now.latches.ier IER.DATA_READY.0`: the value has at least one of these bits.
    /// - *live*: [`IsLive`](crate::proved::live#IsLive) `(fifo_size FIFO) self.now`: the chip is sound and has nothing of a schedule: no event is to come, no arrival has a mark, none can be lost unnoticed; the wire has room for at most as much as a wire may have, the FIFOs have this size and no switch of it, and flow control is left to the driver.
    ///   - [`fifo_size`](crate::proved::size#fifo_size): the size of FIFOs that hold so many characters; a number that is no size counts as 16.
    ///
    /// <details><summary>The clauses</summary>
    ///
    /// [How to read them](uart_spec::proved):
    ///
    /// ```text
    /// ensures on { result ≡ has_any self.now.latches.ier IER.DATA_READY.0 }
    /// ensures live { IsLive (fifo_size FIFO) self.now }
    /// ```
    ///
    /// </details>
    #[inline]
    #[must_use]
    pub fn has_input_interrupt_on(&self) -> bool {
        self.uart.ier().intersects(IER::DATA_READY)
    }

    /// Returns whether the guest has the interrupt of an empty THR enabled.
    ///
    /// # Proved
    ///
    /// - *on*: returns [`has_any`](uart_spec::proved::bits#has_any) `self.now.latches.ier IER.THR_EMPTY.0`: the value has at least one of these bits.
    /// - *live*: [`IsLive`](crate::proved::live#IsLive) `(fifo_size FIFO) self.now`: the chip is sound and has nothing of a schedule: no event is to come, no arrival has a mark, none can be lost unnoticed; the wire has room for at most as much as a wire may have, the FIFOs have this size and no switch of it, and flow control is left to the driver.
    ///   - [`fifo_size`](crate::proved::size#fifo_size): the size of FIFOs that hold so many characters; a number that is no size counts as 16.
    ///
    /// <details><summary>The clauses</summary>
    ///
    /// [How to read them](uart_spec::proved):
    ///
    /// ```text
    /// ensures on { result ≡ has_any self.now.latches.ier IER.THR_EMPTY.0 }
    /// ensures live { IsLive (fifo_size FIFO) self.now }
    /// ```
    ///
    /// </details>
    #[inline]
    #[must_use]
    pub fn has_output_interrupt_on(&self) -> bool {
        self.uart.ier().intersects(IER::THR_EMPTY)
    }

    /// Returns whether the interrupt line is up if a reception timeout is due, and a THR-empty
    /// interrupt is pending or is not.
    ///
    /// For an owner who lets so much time pass that a timeout is due: then it is
    /// `is_interrupting`, without a look at the trigger level and at the time.
    ///
    /// # Proved
    ///
    /// - *up*: returns `is_some (spec.interrupt (when_due is_thr_pending self.now))`.
    ///   - [`interrupt`](uart_chip::proved::chip#interrupt): the interrupt of the highest priority among those that are enabled and pending.
    ///   - [`when_due`](crate::proved::quick#when_due): a chip whose reception timeout is due, and whose THR-empty interrupt is pending, or is not.
    /// - *live*: [`IsLive`](crate::proved::live#IsLive) `(fifo_size FIFO) self.now`: the chip is sound and has nothing of a schedule: no event is to come, no arrival has a mark, none can be lost unnoticed; the wire has room for at most as much as a wire may have, the FIFOs have this size and no switch of it, and flow control is left to the driver.
    ///   - [`fifo_size`](crate::proved::size#fifo_size): the size of FIFOs that hold so many characters; a number that is no size counts as 16.
    ///
    /// <details><summary>The clauses</summary>
    ///
    /// [How to read them](uart_spec::proved):
    ///
    /// ```text
    /// ensures up { result ≡ is_some (spec.interrupt (when_due is_thr_pending self.now)) }
    /// ensures live { IsLive (fifo_size FIFO) self.now }
    /// ```
    ///
    /// </details>
    #[inline]
    #[must_use]
    pub fn interrupts_when_due(&self, is_thr_pending: bool) -> bool {
        interrupts_when_due(&self.uart, is_thr_pending)
    }

    /// Reads DATA for the guest, as [`LiveChipWith::read`] does.
    ///
    /// # Proved
    ///
    /// - *answers*: returns [`answer`](uart_chip::proved::chip#answer) `offsets.DATA self.old`: what a read of the register returns.
    /// - *after*: `self` becomes [`after_read`](uart_chip::proved::chip#after_read) `offsets.DATA self.old`: the chip after a read of the register.
    /// - *live*: [`IsLive`](crate::proved::live#IsLive) `(fifo_size FIFO) self.old`: the chip is sound and has nothing of a schedule: no event is to come, no arrival has a mark, none can be lost unnoticed; the wire has room for at most as much as a wire may have, the FIFOs have this size and no switch of it, and flow control is left to the driver.
    ///   - [`fifo_size`](crate::proved::size#fifo_size): the size of FIFOs that hold so many characters; a number that is no size counts as 16.
    ///
    /// <details><summary>The clauses</summary>
    ///
    /// [How to read them](uart_spec::proved):
    ///
    /// ```text
    /// ensures answers { result ≡ spec.answer offsets.DATA self.old }
    /// ensures after { self.new ≡ spec.after_read offsets.DATA self.old }
    /// ensures live { IsLive (fifo_size FIFO) self.old }
    /// ```
    ///
    /// </details>
    #[inline]
    pub fn read_data(&mut self) -> u8 {
        if self.uart.is_dlab_set() {
            return self.uart.read(offsets::DATA as u8);
        }
        take_front(self.uart.receiver_mut())
    }

    /// Reads LSR for the guest, if it shows no error and no character that waits has one. Otherwise
    /// returns `None`, and nothing changes.
    ///
    /// The value and the effect are those of [`LiveChipWith::read`]. A guest that waits makes this
    /// read again and again.
    ///
    /// # Proved
    ///
    /// - *value*: returns [`clear_status`](crate::proved::quick#clear_status) `self.old`: what a read of LSR returns, if it shows no error and no character that waits has one.
    /// - *read*: if it returns `Some`: `self` becomes [`after_read`](uart_chip::proved::chip#after_read) `offsets.LSR self.old`: the chip after a read of the register.
    /// - *left*: if it returns `None`: nothing changes.
    /// - *live*: [`IsLive`](crate::proved::live#IsLive) `(fifo_size FIFO) self.old`: the chip is sound and has nothing of a schedule: no event is to come, no arrival has a mark, none can be lost unnoticed; the wire has room for at most as much as a wire may have, the FIFOs have this size and no switch of it, and flow control is left to the driver.
    ///   - [`fifo_size`](crate::proved::size#fifo_size): the size of FIFOs that hold so many characters; a number that is no size counts as 16.
    ///
    /// <details><summary>The clauses</summary>
    ///
    /// [How to read them](uart_spec::proved):
    ///
    /// ```text
    /// ensures value { result ≡ clear_status self.old }
    /// ensures read { is_some result ≡ true → self.new ≡ spec.after_read offsets.LSR self.old }
    /// ensures left { is_some result ≡ false → self.new ≡ self.old }
    /// ensures live { IsLive (fifo_size FIFO) self.old }
    /// ```
    ///
    /// </details>
    #[inline]
    pub fn read_clear_status(&mut self) -> Option<u8> {
        if self.uart.receiver().has_errors() {
            return None;
        }
        let receiver = self.uart.receiver().status();
        let status = receiver.union(self.uart.transmitter().status());
        if status.intersects(LSR::LINE_ERRORS) {
            return None;
        }
        // Without an error there is nothing to clear. All that is new is that the front was
        // reported.
        if self.uart.receiver().queue_len() > 0 {
            self.uart.receiver_mut().set_front_reported(true);
        }
        Some(status.bits())
    }

    /// Lets `count` ticks pass. Returns the number of jumps that this took, which is at most two
    /// more than a FIFO holds characters, whatever `count` is: 18 with FIFOs of 16.
    ///
    /// A jump ends at the tick in which a character enters or leaves the shift register, or takes
    /// all ticks that are left.
    ///
    /// What was sent in this time is on the `wire`. Check `is_interrupting` after it.
    ///
    /// # Examples
    ///
    /// ```
    /// # include!(concat!(env!("CARGO_MANIFEST_DIR"), "/examples.rs"));
    /// # fn main() {}
    /// # fn example(chip: &mut LiveChip, elapsed: u16) -> Outcome<()> {
    /// chip.ticks(elapsed);
    /// # Ok(()) }
    /// ```
    ///
    /// # Proved
    ///
    /// - *after*: `self` becomes [`ticks`](uart_chip::proved::chip#ticks) `count self.old`: the chip after so many ticks.
    /// - *jumps*: returns [`jumps_in`](uart_chip::proved::jumps#jumps_in) `count self.old`: how many jumps so many ticks are: each ends with a tick in which a character moves, and the last one with the last tick.
    /// - *most*: `result ≤ most_jumps (fifo_size FIFO)`.
    ///   - [`most_jumps`](uart_chip::proved::jumps#most_jumps): the most jumps that any number of ticks takes with a FIFO of this size, which are 18 with one of 16: one for each character in the queue, and for the one that enters or leaves the shift register, and one for what is left.
    ///   - [`fifo_size`](crate::proved::size#fifo_size): the size of FIFOs that hold so many characters; a number that is no size counts as 16.
    ///
    /// <details><summary>The clauses</summary>
    ///
    /// [How to read them](uart_spec::proved):
    ///
    /// ```text
    /// ensures after { self.new ≡ spec.ticks count self.old }
    /// ensures jumps { result ≡ jumps_in count self.old }
    /// ensures most { result ≤ most_jumps (fifo_size FIFO) }
    /// ```
    ///
    /// </details>
    pub fn ticks(&mut self, count: u16) -> usize {
        self.uart.ticks(count)
    }

    /// Receives a character from the remote, with these errors: parity, framing and break, as bits
    /// of LSR.
    ///
    /// In loopback the character is lost. If the FIFO is full, the character is dropped; without
    /// FIFO it replaces the one that was received before, which is dropped. The guest sees a drop
    /// as the overrun flag. To lose none, check `receive_room` first. Check `is_interrupting` after
    /// it.
    ///
    /// # Errors
    ///
    /// `BadErrors` if `errors` has any other bit. Nothing changes then.
    ///
    /// # Examples
    ///
    /// ```
    /// # include!(concat!(env!("CARGO_MANIFEST_DIR"), "/examples.rs"));
    /// # fn main() {}
    /// # fn example(chip: &mut LiveChip, byte: u8) -> Outcome<()> {
    /// if chip.receive_room() > 0 {
    ///     chip.arrive(byte, LSR::empty())?;
    /// }
    /// # Ok(()) }
    /// ```
    ///
    /// # Proved
    ///
    /// - *accepted*: if [`IsWithin`](uart_spec::proved::bits#IsWithin) `errors.0 LSR.CHARACTER_ERRORS.0`: returns `Ok`, and `self` becomes [`arrive_live`](uart_chip::proved::chip#arrive_live) `byte errors.0 self.old`: a character arrives without a schedule, cut to the word length.
    ///   - [`IsWithin`](uart_spec::proved::bits#IsWithin): no bit outside of the mask is set.
    /// - *refused*: if `bit_and errors.0 LSR.CHARACTER_ERRORS.0 ≢ errors.0`: returns `Err InputError.BadErrors`, and nothing changes.
    ///
    /// <details><summary>The clauses</summary>
    ///
    /// [How to read them](uart_spec::proved):
    ///
    /// ```text
    /// ensures accepted { IsWithin errors.0 LSR.CHARACTER_ERRORS.0 → IsOk result × (self.new ≡ spec.arrive_live byte errors.0 self.old) }
    /// ensures refused { bit_and errors.0 LSR.CHARACTER_ERRORS.0 ≢ errors.0 → (result ≡ Err InputError.BadErrors) × (self.new ≡ self.old) }
    /// ```
    ///
    /// </details>
    #[inline]
    pub fn arrive(&mut self, byte: u8, errors: LSR) -> Result<(), InputError> {
        if errors.intersection(LSR::CHARACTER_ERRORS) != errors {
            return Err(InputError::BadErrors);
        }
        self.uart.arrive_live(byte, errors.bits());
        Ok(())
    }

    /// Receives a character as [`LiveChipWith::arrive`] does, but a reception timeout that is due
    /// stays due.
    ///
    /// It then stays due until the guest reads DATA, or writes FCR so that the FIFO is emptied, or
    /// a character comes back in loopback. Only ISR and `is_interrupting` show the difference.
    ///
    /// # Errors
    ///
    /// `BadErrors` if `errors` has a bit other than parity, framing and break. Nothing changes
    /// then.
    ///
    /// # Examples
    ///
    /// ```
    /// # include!(concat!(env!("CARGO_MANIFEST_DIR"), "/examples.rs"));
    /// # fn main() {}
    /// # fn example(chip: &mut LiveChip, byte: u8) -> Outcome<()> {
    /// if chip.receive_room() > 0 {
    ///     chip.arrive_holding_timeout(byte, LSR::empty())?;
    /// }
    /// # Ok(()) }
    /// ```
    ///
    /// # Proved
    ///
    /// - *accepted*: if [`IsWithin`](uart_spec::proved::bits#IsWithin) `errors.0 LSR.CHARACTER_ERRORS.0`: returns `Ok`, and `self` becomes [`arrive_holding`](crate::proved::held#arrive_holding) `byte errors.0 self.old`: a character arrives, and a timeout that is due stays due.
    ///   - [`IsWithin`](uart_spec::proved::bits#IsWithin): no bit outside of the mask is set.
    /// - *refused*: if `bit_and errors.0 LSR.CHARACTER_ERRORS.0 ≢ errors.0`: returns `Err InputError.BadErrors`, and nothing changes.
    ///
    /// <details><summary>The clauses</summary>
    ///
    /// [How to read them](uart_spec::proved):
    ///
    /// ```text
    /// ensures accepted { IsWithin errors.0 LSR.CHARACTER_ERRORS.0 → IsOk result × (self.new ≡ arrive_holding byte errors.0 self.old) }
    /// ensures refused { bit_and errors.0 LSR.CHARACTER_ERRORS.0 ≢ errors.0 → (result ≡ Err InputError.BadErrors) × (self.new ≡ self.old) }
    /// ```
    ///
    /// </details>
    pub fn arrive_holding_timeout(&mut self, byte: u8, errors: LSR) -> Result<(), InputError> {
        // The receiver's count of ticks says whether a timeout is due. So no bit has to be kept and
        // saved for a held timeout, and every other contract is as it was.
        let is_due = self.uart.is_timed_out();
        self.arrive(byte, errors)?;
        if is_due {
            self.uart.expire_timeout();
        }
        Ok(())
    }

    /// Sets the inputs of the modem: CTS, DSR, RI and CD, as bits of MSR. Check `is_interrupting`
    /// after it.
    ///
    /// # Errors
    ///
    /// `BadLines` if `inputs` has any other bit. Nothing changes then.
    ///
    /// # Examples
    ///
    /// ```
    /// # include!(concat!(env!("CARGO_MANIFEST_DIR"), "/examples.rs"));
    /// # fn main() {}
    /// # fn example(chip: &mut LiveChip) -> Outcome<()> {
    /// chip.set_lines(MSR::CTS.union(MSR::DSR))?;
    /// # Ok(()) }
    /// ```
    ///
    /// # Proved
    ///
    /// - *accepted*: if [`IsWithin`](uart_spec::proved::bits#IsWithin) `inputs.0 MSR.LINES.0`: returns `Ok`, and `self` becomes [`change_lines`](uart_chip::proved::chip#change_lines) `inputs.0 self.old`: the modem's inputs change.
    ///   - [`IsWithin`](uart_spec::proved::bits#IsWithin): no bit outside of the mask is set.
    /// - *refused*: if `bit_and inputs.0 MSR.LINES.0 ≢ inputs.0`: returns `Err InputError.BadLines`, and nothing changes.
    ///
    /// <details><summary>The clauses</summary>
    ///
    /// [How to read them](uart_spec::proved):
    ///
    /// ```text
    /// ensures accepted { IsWithin inputs.0 MSR.LINES.0 → IsOk result × (self.new ≡ spec.change_lines inputs.0 self.old) }
    /// ensures refused { bit_and inputs.0 MSR.LINES.0 ≢ inputs.0 → (result ≡ Err InputError.BadLines) × (self.new ≡ self.old) }
    /// ```
    ///
    /// </details>
    pub fn set_lines(&mut self, inputs: MSR) -> Result<(), InputError> {
        if inputs.intersection(MSR::LINES) != inputs {
            return Err(InputError::BadLines);
        }
        self.uart.change_lines(inputs.bits());
        Ok(())
    }

    /// Returns the level of the interrupt line: whether a read of ISR would show an interrupt.
    /// Changes nothing.
    ///
    /// # Examples
    ///
    /// ```
    /// # include!(concat!(env!("CARGO_MANIFEST_DIR"), "/examples.rs"));
    /// # fn main() {}
    /// # mod monitor {
    /// # pub struct Outcome { pub sent: usize, pub is_interrupting: bool }
    /// # }
    /// # fn example(chip: &mut LiveChip, sent: usize) -> monitor::Outcome {
    /// # use monitor::Outcome;
    /// Outcome {
    ///     sent,
    ///     is_interrupting: chip.is_interrupting(),
    /// }
    /// # }
    /// ```
    ///
    /// # Proved
    ///
    /// - *pending*: returns `is_some (spec.interrupt self.now)`.
    ///   - [`interrupt`](uart_chip::proved::chip#interrupt): the interrupt of the highest priority among those that are enabled and pending.
    /// - *shown*: returns `not (has_any (spec.answer offsets.ISR self.now) ISR.INTERRUPT_STATUS.0)`.
    ///   - [`has_any`](uart_spec::proved::bits#has_any): the value has at least one of these bits.
    ///   - [`answer`](uart_chip::proved::chip#answer): what a read of the register returns.
    /// - *live*: [`IsLive`](crate::proved::live#IsLive) `(fifo_size FIFO) self.now`: the chip is sound and has nothing of a schedule: no event is to come, no arrival has a mark, none can be lost unnoticed; the wire has room for at most as much as a wire may have, the FIFOs have this size and no switch of it, and flow control is left to the driver.
    ///   - [`fifo_size`](crate::proved::size#fifo_size): the size of FIFOs that hold so many characters; a number that is no size counts as 16.
    ///
    /// <details><summary>The clauses</summary>
    ///
    /// [How to read them](uart_spec::proved):
    ///
    /// ```text
    /// ensures pending { result ≡ is_some (spec.interrupt self.now) }
    /// ensures shown { result ≡ not (has_any (spec.answer offsets.ISR self.now) ISR.INTERRUPT_STATUS.0) }
    /// ensures live { IsLive (fifo_size FIFO) self.now }
    /// ```
    ///
    /// </details>
    #[inline]
    #[must_use]
    pub fn is_interrupting(&self) -> bool {
        self.uart.is_interrupting()
    }

    /// Returns the bytes that were sent and have not been taken, in order.
    ///
    /// # Examples
    ///
    /// ```
    /// # include!(concat!(env!("CARGO_MANIFEST_DIR"), "/examples.rs"));
    /// # fn main() {}
    /// # fn example(chip: &mut LiveChip, sink: &mut [u8]) -> Outcome<()> {
    /// let sent = chip.wire().len().min(sink.len());
    /// sink[..sent].copy_from_slice(&chip.wire()[..sent]);
    /// # Ok(()) }
    /// ```
    ///
    /// # Proved
    ///
    /// - Returns `self.now.transmitter.wire`.
    ///
    /// <details><summary>The clauses</summary>
    ///
    /// [How to read them](uart_spec::proved):
    ///
    /// ```text
    /// ensures { result.now ≡ self.now.transmitter.wire }
    /// ```
    ///
    /// </details>
    #[must_use]
    pub fn wire(&self) -> &[u8] {
        self.uart.transmitter().wire()
    }

    /// Removes this number of bytes from the front of the wire, or all if there are fewer. The wire
    /// has room for more then.
    ///
    /// # Examples
    ///
    /// ```
    /// # include!(concat!(env!("CARGO_MANIFEST_DIR"), "/examples.rs"));
    /// # fn main() {}
    /// # fn example(chip: &mut LiveChip, sent: usize) -> Outcome<()> {
    /// chip.take_wire(sent);
    /// # Ok(()) }
    /// ```
    ///
    /// # Proved
    ///
    /// - `self` becomes [`take_wire`](uart_chip::proved::chip#take_wire) `count self.old`: a number of bytes are taken from the front of the wire.
    ///
    /// <details><summary>The clauses</summary>
    ///
    /// [How to read them](uart_spec::proved):
    ///
    /// ```text
    /// ensures { self.new ≡ spec.take_wire count self.old }
    /// ```
    ///
    /// </details>
    #[inline]
    pub fn take_wire(&mut self, count: usize) {
        self.uart.take_wire(count);
    }

    /// Returns how many more bytes the wire has room for.
    ///
    /// # Proved
    ///
    /// - *room*: returns `self.now.transmitter.capacity - length self.now.transmitter.wire`.
    /// - *live*: [`IsLive`](crate::proved::live#IsLive) `(fifo_size FIFO) self.now`: the chip is sound and has nothing of a schedule: no event is to come, no arrival has a mark, none can be lost unnoticed; the wire has room for at most as much as a wire may have, the FIFOs have this size and no switch of it, and flow control is left to the driver.
    ///   - [`fifo_size`](crate::proved::size#fifo_size): the size of FIFOs that hold so many characters; a number that is no size counts as 16.
    ///
    /// <details><summary>The clauses</summary>
    ///
    /// [How to read them](uart_spec::proved):
    ///
    /// ```text
    /// ensures room { result ≡ self.now.transmitter.capacity - length self.now.transmitter.wire }
    /// ensures live { IsLive (fifo_size FIFO) self.now }
    /// ```
    ///
    /// </details>
    #[inline]
    #[must_use]
    pub fn wire_room(&self) -> usize {
        self.uart.transmitter().wire_room()
    }

    /// Returns whether what the guest sends comes back to its receiver.
    ///
    /// # Proved
    ///
    /// - Returns [`is_loopback`](uart_chip::proved::chip#is_loopback) `self.now.latches`: whether what leaves the transmitter comes back to the receiver.
    ///
    /// <details><summary>The clauses</summary>
    ///
    /// [How to read them](uart_spec::proved):
    ///
    /// ```text
    /// ensures { result ≡ spec.is_loopback self.now.latches }
    /// ```
    ///
    /// </details>
    #[must_use]
    pub fn is_loopback(&self) -> bool {
        self.uart.is_loopback()
    }

    /// Returns whether the guest has DLAB set: then DATA and IER are the divisor latch.
    ///
    /// # Proved
    ///
    /// - Returns [`is_dlab_set`](uart_chip::proved::chip#is_dlab_set) `self.now.latches`: whether offsets 0 and 1 are the divisor latch.
    ///
    /// <details><summary>The clauses</summary>
    ///
    /// [How to read them](uart_spec::proved):
    ///
    /// ```text
    /// ensures { result ≡ spec.is_dlab_set self.now.latches }
    /// ```
    ///
    /// </details>
    #[must_use]
    pub fn is_dlab_set(&self) -> bool {
        self.uart.is_dlab_set()
    }

    /// Returns the outputs of the guest as the lines have them: those of DTR, RTS, OUT1 and OUT2
    /// that are on, and no other bit. In loopback all are off.
    ///
    /// # Examples
    ///
    /// ```
    /// # include!(concat!(env!("CARGO_MANIFEST_DIR"), "/examples.rs"));
    /// # fn main() {}
    /// # use uart_16550_chip::registers::MCR;
    /// # fn example(chip: &LiveChip) -> Outcome<()> {
    /// let is_driving = chip.outputs().contains(MCR::RTS);
    /// # Ok(()) }
    /// ```
    ///
    /// # Proved
    ///
    /// - `result.0` is [`outputs`](crate::proved::outputs#outputs) `self.now.latches`: the outputs as the lines have them: DTR, RTS, OUT1 and OUT2 as MCR has them; in loopback all are off.
    ///
    /// <details><summary>The clauses</summary>
    ///
    /// [How to read them](uart_spec::proved):
    ///
    /// ```text
    /// ensures { result.0 ≡ outputs self.now.latches }
    /// ```
    ///
    /// </details>
    #[must_use]
    pub fn outputs(&self) -> MCR {
        if self.uart.is_loopback() {
            return MCR::from_bits_retain(0);
        }
        let outputs = MCR::DTR
            .union(MCR::RTS)
            .union(MCR::OUT_1)
            .union(MCR::OUT_2_INT_ENABLE);
        self.uart.mcr().intersection(outputs)
    }

    /// Returns whether the guest sends a break: LCR bit 6 is set, and a line would be at 0 as long.
    ///
    /// The chip has no line, so what the guest writes in a break is on the wire all the same. On a
    /// real line it would be lost.
    ///
    /// # Proved
    ///
    /// - Returns [`has_any`](uart_spec::proved::bits#has_any) `self.now.latches.lcr LCR.SET_BREAK.0`: the value has at least one of these bits.
    ///
    /// <details><summary>The clauses</summary>
    ///
    /// [How to read them](uart_spec::proved):
    ///
    /// ```text
    /// ensures { result ≡ has_any self.now.latches.lcr LCR.SET_BREAK.0 }
    /// ```
    ///
    /// </details>
    #[must_use]
    pub fn is_breaking(&self) -> bool {
        self.uart.lcr().intersects(LCR::SET_BREAK)
    }

    /// Returns the size of the FIFOs, which is that of `FIFO` characters.
    ///
    /// # Proved
    ///
    /// - *size*: returns [`fifo_size`](crate::proved::size#fifo_size) `FIFO`: the size of FIFOs that hold so many characters; a number that is no size counts as 16.
    /// - *transmitter*: returns `self.now.transmitter.size`.
    /// - *live*: [`IsLive`](crate::proved::live#IsLive) `(fifo_size FIFO) self.now`: the chip is sound and has nothing of a schedule: no event is to come, no arrival has a mark, none can be lost unnoticed; the wire has room for at most as much as a wire may have, the FIFOs have this size and no switch of it, and flow control is left to the driver.
    ///
    /// <details><summary>The clauses</summary>
    ///
    /// [How to read them](uart_spec::proved):
    ///
    /// ```text
    /// ensures size { result ≡ fifo_size FIFO }
    /// ensures transmitter { result ≡ self.now.transmitter.size }
    /// ensures live { IsLive (fifo_size FIFO) self.now }
    /// ```
    ///
    /// </details>
    #[inline]
    #[must_use]
    pub fn fifo_size(&self) -> FifoSize {
        self.uart.transmitter().size()
    }

    /// Returns whether the guest has the FIFOs on.
    ///
    /// # Proved
    ///
    /// - Returns `self.now.fifo`.
    ///
    /// <details><summary>The clauses</summary>
    ///
    /// [How to read them](uart_spec::proved):
    ///
    /// ```text
    /// ensures { result ≡ self.now.fifo }
    /// ```
    ///
    /// </details>
    #[must_use]
    pub fn has_fifo_on(&self) -> bool {
        self.uart.fifo()
    }

    /// Makes a reception timeout due now, if the FIFO is on and a character waits in it.
    ///
    /// For an owner who lets no time pass between a character and its timeout. While nothing moves
    /// in the transmitter, this is what four character times do. Check `is_interrupting` after it.
    ///
    /// # Proved
    ///
    /// - `self` becomes [`expire`](crate::proved::held#expire) `self.old`: the ticks towards a reception timeout are at their limit.
    ///
    /// <details><summary>The clauses</summary>
    ///
    /// [How to read them](uart_spec::proved):
    ///
    /// ```text
    /// ensures { self.new ≡ expire self.old }
    /// ```
    ///
    /// </details>
    pub fn expire_timeout(&mut self) {
        self.uart.expire_timeout();
    }

    /// Returns how many characters can be received before one is lost. In loopback that is 0.
    ///
    /// # Examples
    ///
    /// ```
    /// # include!(concat!(env!("CARGO_MANIFEST_DIR"), "/examples.rs"));
    /// # fn main() {}
    /// # fn example(chip: &mut LiveChip, byte: u8) -> Outcome<()> {
    /// if chip.receive_room() > 0 {
    ///     chip.arrive(byte, LSR::empty())?;
    /// }
    /// # Ok(()) }
    /// ```
    ///
    /// # Proved
    ///
    /// - Returns [`receive_room`](uart_chip::proved::chip#receive_room) `self.now`: how many characters can arrive before one is lost; in loopback each one is lost.
    ///
    /// <details><summary>The clauses</summary>
    ///
    /// [How to read them](uart_spec::proved):
    ///
    /// ```text
    /// ensures { result ≡ spec.receive_room self.now }
    /// ```
    ///
    /// </details>
    #[must_use]
    pub fn receive_room(&self) -> usize {
        self.uart.receive_room()
    }

    /// Returns the number of received characters that the guest has not read.
    ///
    /// # Proved
    ///
    /// - Returns `length (waiting self.now.receiver)`.
    ///   - [`waiting`](uart_chip::proved::receiver#waiting): the received bytes that have not been read.
    ///
    /// <details><summary>The clauses</summary>
    ///
    /// [How to read them](uart_spec::proved):
    ///
    /// ```text
    /// ensures { result ≡ length (waiting self.now.receiver) }
    /// ```
    ///
    /// </details>
    #[must_use]
    pub fn waiting_len(&self) -> usize {
        self.uart.receiver().waiting_len()
    }

    /// Returns the number of bytes in the transmitter, which are still to be sent.
    ///
    /// # Proved
    ///
    /// - Returns `length (held self.now.transmitter)`.
    ///   - [`held`](uart_chip::proved::transmitter#held): what is still to be sent, in order.
    ///
    /// <details><summary>The clauses</summary>
    ///
    /// [How to read them](uart_spec::proved):
    ///
    /// ```text
    /// ensures { result ≡ length (held self.now.transmitter) }
    /// ```
    ///
    /// </details>
    #[must_use]
    pub fn held_len(&self) -> usize {
        self.uart.transmitter().held_len()
    }

    /// Returns the divisor in the divisor latch, from which the baud rate follows.
    ///
    /// # Proved
    ///
    /// - Returns [`divisor`](uart_chip::proved::chip#divisor) `self.now.latches`: what the divisor latch holds.
    ///
    /// <details><summary>The clauses</summary>
    ///
    /// [How to read them](uart_spec::proved):
    ///
    /// ```text
    /// ensures { result ≡ spec.divisor self.now.latches }
    /// ```
    ///
    /// </details>
    #[must_use]
    pub fn divisor(&self) -> u16 {
        self.uart.divisor()
    }

    /// Returns how many writes of DATA found no room in the transmitter, up to `u64::MAX`.
    ///
    /// # Proved
    ///
    /// - Returns `self.now.transmitter.overflows`.
    ///
    /// <details><summary>The clauses</summary>
    ///
    /// [How to read them](uart_spec::proved):
    ///
    /// ```text
    /// ensures { result ≡ self.now.transmitter.overflows }
    /// ```
    ///
    /// </details>
    #[must_use]
    pub fn overflows(&self) -> u64 {
        self.uart.transmitter().overflows()
    }
}
