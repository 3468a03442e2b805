//! Machines that were saved with a device of vm-superio go on.

use std::cell::Cell;
use std::convert::Infallible;
use uart_16550_chip::{NoEvents, Serial};
use uart_16550_vmm::{SuperioState, TriggerBy};

/// Linux at its prompt.
const AT_PROMPT: SuperioState = SuperioState {
    baud_divisor_low: 1,
    baud_divisor_high: 2,
    interrupt_enable: 0x05,
    line_control: 0x1b,
    modem_control: 0x0b,
    modem_status: 0xb0,
    scratch: 0x5a,
    in_buffer: b"",
};

/// How often the interrupt is triggered, and what the guest finds: IER, ISR, LCR, MCR, LSR, MSR, SPR.
fn found(theirs: &SuperioState) -> (u32, [u8; 7]) {
    let count = Cell::new(0);
    let trigger = TriggerBy(|| {
        count.set(count.get() + 1);
        Ok::<(), Infallible>(())
    });
    let (state, _) = theirs.to_state().unwrap();
    let Ok(mut serial) = Serial::from_state(&state, trigger, NoEvents, Vec::new()) else {
        panic!("a state of a device");
    };
    let registers = [1, 2, 3, 4, 5, 6, 7].map(|register| serial.read(register));
    drop(serial);
    (count.get(), registers)
}

#[test]
fn the_guest_finds_its_registers() {
    assert_eq!(
        found(&AT_PROMPT),
        (0, [0x05, 0xc1, 0x1b, 0x0b, 0x60, 0xb0, 0x5a])
    );
    let (state, rest) = AT_PROMPT.to_state().unwrap();
    assert_eq!((state.chip.latches.dll, state.chip.latches.dlm), (1, 2));
    assert!(rest.is_empty() && state.output.is_empty());
}

/// What waits is there as it came, whatever the word length is now, and interrupts.
#[test]
fn what_waits_is_received() {
    for line_control in [0x03, 0x00] {
        let theirs = SuperioState {
            line_control,
            in_buffer: b"~ls",
            ..AT_PROMPT
        };
        let (triggers, registers) = found(&theirs);
        assert_eq!((triggers, registers[1], registers[4]), (1, 0xcc, 0x61));
        let (state, rest) = theirs.to_state().unwrap();
        let queue = state.chip.receiver.queue;
        assert!(queue.iter().map(|character| character.byte).eq(*b"~ls"));
        assert!(rest.is_empty());
    }
}

#[test]
fn what_has_no_room_is_returned() {
    let waiting: Vec<u8> = (0..64).collect();
    let theirs = SuperioState {
        in_buffer: &waiting,
        ..AT_PROMPT
    };
    let (state, rest) = theirs.to_state().unwrap();
    assert_eq!(
        (state.chip.receiver.queue.len(), rest),
        (16, &waiting[16..])
    );
    let waiting = [0; 65];
    let error = SuperioState {
        in_buffer: &waiting,
        ..AT_PROMPT
    }
    .to_state()
    .unwrap_err();
    assert_eq!(error.0, 65);
    assert_eq!(
        error.to_string(),
        "65 characters wait, and a device of vm-superio has room for 64"
    );
}

/// In loopback MSR shows the outputs. The lines are what they were before, and nothing that waited is lost.
#[test]
fn a_guest_in_loopback_goes_on() {
    let theirs = SuperioState {
        modem_control: 0x1a,
        modem_status: 0x90,
        in_buffer: b"x",
        ..AT_PROMPT
    };
    let (_, registers) = found(&theirs);
    assert_eq!(
        (registers[3], registers[4], registers[5]),
        (0x1a, 0x61, 0x90)
    );
    let (state, _) = theirs.to_state().unwrap();
    assert_eq!(state.chip.modem.inputs.bits() & 0xf0, 0xb0);
}

/// While DLAB is set the divisor is in the place of DATA and IER. What is not of these registers is left out.
#[test]
fn any_registers_are_those_of_a_device() {
    for bits in 0..=u8::MAX {
        let theirs = SuperioState {
            baud_divisor_low: bits,
            baud_divisor_high: bits,
            interrupt_enable: bits,
            line_control: bits,
            modem_control: bits,
            modem_status: bits,
            scratch: bits,
            in_buffer: b"x",
        };
        let (_, registers) = found(&theirs);
        let ier = if bits & 0x80 == 0 { bits & 0x0f } else { bits };
        assert_eq!(
            (registers[0], registers[2], registers[3], registers[6]),
            (ier, bits, bits & 0x1f, bits)
        );
    }
}
