//! Worked examples on a live chip.

use crate::machines::{DATA, FCR, IER, ISR, LCR, LSR, MCR, MSR, SPR};
use proved_uart_machine::{
    Character, Chip, ChipData, ChipError, InputError, LiveChip, Origin, RestoreError, Shifting,
};
use uart_spec::registers;

fn live(chip: Chip) -> LiveChip {
    LiveChip::new(chip, 4, 64).unwrap()
}

/// Returns an owner's view of the chip: what is on the wire, to go out, and waiting, and the room for both.
fn lengths(chip: &LiveChip) -> [usize; 5] {
    [
        chip.wire().len(),
        chip.held_len(),
        chip.waiting_len(),
        chip.wire_room(),
        chip.receive_room(),
    ]
}

#[test]
fn a_byte_goes_out_and_a_character_comes_in() {
    let mut chip = live(Chip::Uart16550A);
    chip.write(DATA, 0x41);
    assert_eq!(lengths(&chip), [0, 1, 0, 64, 1]);
    assert_eq!(chip.ticks(4), 2);
    assert_eq!(lengths(&chip), [0, 1, 0, 64, 1]);
    assert_eq!(chip.ticks(1), 1);
    assert_eq!(chip.wire(), [0x41]);
    assert_eq!(lengths(&chip), [1, 0, 0, 63, 1]);
    chip.take_wire(1);
    assert_eq!(chip.arrive(0x42, registers::LSR::empty()), Ok(()));
    assert_eq!(lengths(&chip), [0, 0, 1, 64, 0]);
    assert_eq!(chip.read(DATA), 0x42);
}

/// Sends a byte at once if the chip does that now, and returns whether it was sent.
fn sends_at_once(chip: &mut LiveChip, byte: u8) -> bool {
    let sends = chip.sends_at_once();
    if sends {
        chip.send_at_once(byte);
    }
    sends
}

#[test]
fn a_byte_is_sent_at_once_if_the_transmitter_is_idle() {
    let mut chip = LiveChip::new(Chip::Uart16550A, 1, 2).unwrap();
    assert!(sends_at_once(&mut chip, 0x41));
    assert_eq!(chip.wire(), [0x41]);
    // As after a write of DATA and two ticks, the empty THR is an interrupt.
    chip.write(IER, 0x02);
    assert_eq!((chip.read(LSR), chip.read(ISR)), (0x60, 0x02));
    // Under DLAB and in loopback no byte is sent.
    for (register, value, usual) in [(LCR, 0x80, 0x00), (MCR, 0x10, 0x00)] {
        chip.write(register, value);
        assert!(!sends_at_once(&mut chip, 0x42));
        chip.write(register, usual);
    }
    // Nor is it before a byte that waits, or with a full wire.
    chip.write(DATA, 0x42);
    assert!(!sends_at_once(&mut chip, 0x43));
    chip.ticks(2);
    assert!(!sends_at_once(&mut chip, 0x43));
    chip.take_wire(1);
    assert!(sends_at_once(&mut chip, 0x43));
    assert_eq!(chip.wire(), [0x42, 0x43]);
}

#[test]
fn live_chips_are_built_up_to_the_limits() {
    for (char_ticks, wire_capacity, want) in [
        (1, 0, None),
        (1000, 64, None),
        (0, 65, Some(ChipError::BadTicks)),
        (1001, 0, Some(ChipError::BadTicks)),
        (1, 65, Some(ChipError::BadWire)),
    ] {
        let built = LiveChip::new(Chip::Uart16450, char_ticks, wire_capacity);
        assert_eq!(built.err(), want, "with {char_ticks} ticks");
    }
}

#[test]
fn the_divisor_and_overflows() {
    let mut chip = live(Chip::Uart16450);
    for (register, value) in [
        (LCR, 0x83),
        (DATA, 0x0c),
        (LCR, 0x03),
        (DATA, 0x41),
        (DATA, 0x42),
    ] {
        chip.write(register, value);
    }
    assert_eq!((chip.divisor(), chip.overflows()), (12, 1));
}

// The line is up as long as ISR shows an interrupt, and what serves the interrupt takes it down.
#[test]
fn the_interrupt_line() {
    let mut chip = live(Chip::Uart16450);
    assert!(!chip.is_interrupting());
    chip.write(IER, 0x0f);
    assert!(chip.is_interrupting());
    assert_eq!(chip.read(ISR), 0x02);
    assert!(!chip.is_interrupting());
    chip.arrive(0x41, registers::LSR::PARITY_ERROR).unwrap();
    chip.set_lines(registers::MSR::CTS).unwrap();
    for (shown, served_by, read) in [(0x06, LSR, 0x65), (0x04, DATA, 0x41), (0x00, MSR, 0x11)] {
        assert!(chip.is_interrupting());
        assert_eq!(chip.read(ISR), shown);
        assert_eq!(chip.read(served_by), read);
    }
    assert!(!chip.is_interrupting());
}

#[test]
fn other_bits_do_not_come_in() {
    let mut chip = live(Chip::Uart16450);
    let refused = chip.arrive(0x41, registers::LSR::OVERRUN_ERROR);
    assert_eq!(refused, Err(InputError::BadErrors));
    let refused = chip.set_lines(registers::MSR::DELTA_CTS);
    assert_eq!(refused, Err(InputError::BadLines));
    assert_eq!((chip.read(LSR), chip.read(MSR)), (0x60, 0x00));
}

#[test]
fn bytes_leave_a_full_wire_in_order() {
    let mut chip = LiveChip::new(Chip::Uart16550A, 1, 2).unwrap();
    chip.write(FCR, 0x01);
    for byte in [1, 2, 3, 4, 5] {
        chip.write(DATA, byte);
    }
    for (taken, left) in [(0, [1, 2]), (1, [2, 3]), (2, [4, 5])] {
        chip.take_wire(taken);
        chip.ticks(100);
        assert_eq!(chip.wire(), left);
    }
}

#[test]
fn characters_are_read_in_order_or_an_overrun_shows() {
    for (chip, line, read) in [
        (Chip::Uart16550A, 0x61, [1, 2, 3]),
        (Chip::Uart16450, 0x63, [3, 3, 3]),
    ] {
        let mut chip = live(chip);
        chip.write(FCR, 0x01);
        for byte in [1, 2, 3] {
            chip.arrive(byte, registers::LSR::empty()).unwrap();
        }
        assert_eq!(chip.read(LSR), line);
        assert_eq!([(); 3].map(|()| chip.read(DATA)), read);
    }
}

/// How the owner of a chip passes characters to it.
#[derive(Clone, Copy, Debug)]
enum Arriving {
    Withdraws,
    Holds,
}

impl Arriving {
    fn arrive(self, chip: &mut LiveChip, byte: u8) {
        let errors = registers::LSR::empty();
        match self {
            Arriving::Withdraws => chip.arrive(byte, errors),
            Arriving::Holds => chip.arrive_holding_timeout(byte, errors),
        }
        .unwrap();
    }
}

/// What came of sixteen characters: the runs of the guest's handler, those in which it found no interrupt, and the sum of what it read.
#[derive(Debug, Default, PartialEq, Eq)]
struct Runs {
    made: usize,
    for_nothing: usize,
    sum: usize,
}

impl Runs {
    /// The handler reads ISR and, if there is an interrupt, all that waits.
    fn run(&mut self, chip: &mut LiveChip) {
        self.made += 1;
        if chip.read(ISR) == 0xc1 {
            self.for_nothing += 1;
            return;
        }
        for _ in 0..16 {
            if chip.read(LSR) == 0x60 {
                return;
            }
            self.sum += usize::from(chip.read(DATA));
        }
    }
}

// A character arrives every four character times, as the timeout is due. The handler runs if the
// interrupt line was up before.
#[test]
fn runs_of_a_handler() {
    for (arriving, want) in [
        // The trigger level, 8, is reached by the 8th character and by the 16th; the handler runs
        // between them too.
        (
            Arriving::Withdraws,
            Runs {
                made: 14,
                for_nothing: 12,
                sum: 136,
            },
        ),
        // It runs after each second character, and reads two.
        (
            Arriving::Holds,
            Runs {
                made: 8,
                for_nothing: 0,
                sum: 136,
            },
        ),
    ] {
        let mut chip = live(Chip::Uart16550A);
        chip.write(FCR, 0x81);
        chip.write(IER, 0x05);
        let mut runs = Runs::default();
        for byte in 1..=16 {
            let was_interrupting = chip.is_interrupting();
            arriving.arrive(&mut chip, byte);
            if was_interrupting {
                runs.run(&mut chip);
            }
            chip.ticks(16);
        }
        assert_eq!(runs, want, "{arriving:?}");
    }
}

// What ISR shows after each step, with the FIFO on and a trigger level of 14.
#[test]
fn a_timeout_is_held_until_data_is_read() {
    for (arriving, shown) in [
        (Arriving::Withdraws, [0xc1, 0xcc, 0xc1, 0xc1, 0xc1]),
        (Arriving::Holds, [0xc1, 0xcc, 0xcc, 0xc1, 0xc1]),
    ] {
        let mut chip = live(Chip::Uart16550A);
        chip.write(FCR, 0xc1);
        chip.write(IER, 0x01);
        arriving.arrive(&mut chip, 0x41);
        chip.ticks(15);
        let early = chip.read(ISR);
        chip.ticks(1);
        let due = chip.read(ISR);
        arriving.arrive(&mut chip, 0x42);
        let after_another = chip.read(ISR);
        assert_eq!(chip.read(DATA), 0x41);
        let after_a_read = chip.read(ISR);
        chip.ticks(16);
        chip.write(FCR, 0xc3);
        arriving.arrive(&mut chip, 0x43);
        let after_a_reset = chip.read(ISR);
        assert_eq!(
            [early, due, after_another, after_a_read, after_a_reset],
            shown,
            "{arriving:?}"
        );
    }
}

/// Returns a chip that is busy in each part: bytes on the wire, in the shift register and behind it, characters of which one has an error,
/// an overrun, changed lines, and interrupts.
fn busy() -> LiveChip {
    let mut chip = live(Chip::Uart16550A);
    chip.write(FCR, 0x41);
    chip.write(IER, 0x0f);
    chip.write(LCR, 0x1b);
    chip.write(MCR, 0x0b);
    chip.write(SPR, 0xa5);
    for byte in [1, 2, 3] {
        chip.write(DATA, byte);
    }
    chip.ticks(6);
    for byte in 0..17 {
        chip.arrive(byte, registers::LSR::PARITY_ERROR).unwrap();
    }
    chip.set_lines(registers::MSR::DSR).unwrap();
    chip
}

/// Lets a chip jump over this many ticks, and returns what its owner and its guest, who reads each register, see of it then.
fn seen_after(chip: &mut LiveChip, count: u16) -> (usize, [usize; 5], bool, [u8; 8]) {
    (
        chip.ticks(count),
        lengths(chip),
        chip.is_interrupting(),
        [DATA, IER, ISR, LCR, MCR, LSR, MSR, SPR].map(|register| chip.read(register)),
    )
}

/// Asserts that both do the same from now on.
#[track_caller]
fn go_on_alike(one: &mut LiveChip, other: &mut LiveChip) {
    for count in [0, 1, 3, 100] {
        assert_eq!(seen_after(one, count), seen_after(other, count));
        assert_eq!(one.wire(), other.wire());
    }
}

#[test]
fn a_restored_chip_behaves_as_the_saved_one() {
    let mut saved = busy();
    let mut restored = LiveChip::from_data(&saved.data(), saved.wire()).unwrap();
    assert_eq!(lengths(&restored), [1, 2, 16, 63, 0]);
    go_on_alike(&mut saved, &mut restored);
    assert_eq!(restored.wire(), [1, 2, 3]);
}

#[test]
fn a_read_of_a_plain_register_changes_nothing() {
    let (mut read, mut unread) = (busy(), busy());
    for (register, want) in [(IER, 0x0f), (LCR, 0x1b), (MCR, 0x0b), (SPR, 0xa5)] {
        assert_eq!(read.read(register), want);
    }
    go_on_alike(&mut read, &mut unread);
}

/// One change of the data of a fresh chip.
#[derive(Clone, Copy, Debug)]
enum Change {
    Cuts,
    TurnsFifoOn(Chip),
    Interrupts(u8),
    ModemControl(u8),
    Inputs(u8),
    Lines(u8),
    Deltas(u8),
    Queued(&'static [u8]),
    TicksLeft(u16),
    CharTicks(u16),
    WireCapacity(usize),
    Waiting(u8),
    TwoWait,
    ScheduledWaits,
    TimeoutTicks(u16),
}

impl Change {
    fn make(self, data: &mut ChipData) {
        let ChipData {
            latches,
            transmitter,
            receiver,
            modem,
            ..
        } = data;
        let mut waits = |errors, origin| {
            receiver.queue.push(Character {
                byte: 0x41,
                errors,
                origin,
            });
        };
        match self {
            Change::Cuts => data.cuts = true,
            Change::TurnsFifoOn(model) => {
                data.model = model;
                data.fifo = true;
            }
            Change::Interrupts(bits) => latches.ier = registers::IER::from_bits_retain(bits),
            Change::ModemControl(bits) => latches.mcr = registers::MCR::from_bits_retain(bits),
            Change::Inputs(bits) => modem.inputs = registers::MSR::from_bits_retain(bits),
            Change::Lines(bits) => modem.lines = registers::MSR::from_bits_retain(bits),
            Change::Deltas(bits) => modem.deltas = registers::MSR::from_bits_retain(bits),
            Change::Queued(bytes) => transmitter.queue = bytes.try_into().unwrap(),
            Change::TicksLeft(ticks_left) => {
                let byte = 0x41;
                transmitter.shift_register = Some(Shifting { byte, ticks_left });
            }
            Change::CharTicks(ticks) => transmitter.char_ticks = ticks,
            Change::WireCapacity(capacity) => transmitter.wire_capacity = capacity,
            Change::Waiting(errors) => waits(errors, Origin::Live),
            Change::TwoWait => {
                waits(0, Origin::Live);
                waits(0, Origin::Looped);
            }
            Change::ScheduledWaits => waits(0, Origin::Arrived(0)),
            Change::TimeoutTicks(ticks) => receiver.timeout_ticks = ticks,
        }
    }
}

/// Restores a fresh chip whose data were changed, with a byte on its wire, and returns why that is refused.
fn refused_with(change: Change) -> Option<RestoreError> {
    let mut data = live(Chip::Uart16450).data();
    change.make(&mut data);
    LiveChip::from_data(&data, &[0x41]).err()
}

#[test]
fn only_data_of_a_live_chip_are_restored() {
    for (change, is_restored) in [
        (Change::Cuts, true),
        (Change::TurnsFifoOn(Chip::Uart16550A), true),
        (Change::TurnsFifoOn(Chip::Uart16450), false),
        (Change::Interrupts(0x0f), true),
        (Change::Interrupts(0x10), false),
        (Change::ModemControl(0x1f), true),
        (Change::ModemControl(0x20), false),
        (Change::Inputs(0xf0), true),
        (Change::Inputs(0x01), false),
        (Change::Lines(0xf0), true),
        (Change::Lines(0x08), false),
        (Change::Deltas(0x0f), true),
        (Change::Deltas(0x10), false),
        (Change::Queued(&[1]), true),
        (Change::Queued(&[1, 2]), false),
        (Change::TicksLeft(0), false),
        (Change::TicksLeft(1), true),
        (Change::TicksLeft(4), true),
        (Change::TicksLeft(5), false),
        (Change::CharTicks(0), false),
        (Change::CharTicks(1), true),
        (Change::CharTicks(1000), true),
        (Change::CharTicks(1001), false),
        (Change::WireCapacity(0), false),
        (Change::WireCapacity(1), true),
        (Change::WireCapacity(64), true),
        (Change::WireCapacity(65_537), false),
        (Change::Waiting(0x1c), true),
        (Change::Waiting(0x02), false),
        (Change::TwoWait, false),
        (Change::ScheduledWaits, false),
        (Change::TimeoutTicks(16), true),
        (Change::TimeoutTicks(17), false),
    ] {
        let want = (!is_restored).then_some(RestoreError::BadData);
        assert_eq!(refused_with(change), want, "{change:?}");
    }
}

#[test]
fn a_longer_wire_is_not_restored() {
    for wire_capacity in [65, 65_536] {
        let refused = refused_with(Change::WireCapacity(wire_capacity));
        assert_eq!(refused, Some(RestoreError::BadWire), "{wire_capacity}");
    }
}

#[test]
fn texts_of_the_refusals() {
    for (text, want) in [
        (
            ChipError::BadTicks.to_string(),
            "a character takes 1 to 1000 ticks",
        ),
        (
            ChipError::BadWire.to_string(),
            "the wire has room for at most 64 bytes",
        ),
        (
            InputError::BadErrors.to_string(),
            "a character has other error bits than parity, framing and break",
        ),
        (
            InputError::BadLines.to_string(),
            "the modem lines have other bits than CTS, DSR, RI and CD",
        ),
        (
            RestoreError::BadData.to_string(),
            "the data are not those of a sound chip",
        ),
        (
            RestoreError::BadWire.to_string(),
            "the wire has room for at most 64 bytes",
        ),
    ] {
        assert_eq!(text, want);
    }
}
