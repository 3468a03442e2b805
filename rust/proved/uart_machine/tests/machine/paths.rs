//! Each public path of the crate but its laws, named once.

use crate::machines::{arrive, machine};
use geesetrunk_kit::ArrayVec;
use geesetrunk_kit::alloc::Global;
use proved_uart_machine::script::{
    Cause, Input, Output, PlayError, Script, ScriptError, Std, StreamFault, parse, play,
};
use proved_uart_machine::{
    Answer, ArrivalMark, CALL_BYTES, Call, Character, Chip, ChipData, InputError, Latches,
    LiveChip, ModemData, Origin, ReceiverData, RestoreError, Shifting, TransmitterData, perform,
    run,
};
use uart_16550::{Uart16550, Uart16550Tty};
use uart_spec::registers::{FifoTriggerLevel, IER, LCR, LSR, MCR, MSR};

#[test]
fn no_calls_are_run_and_one_is_performed() {
    let machine = machine(Chip::Uart16450, 4, 64, &[arrive(0x41)]);
    let mut terminal = Uart16550Tty::from_inner(Uart16550::new_with_backend(machine));
    let calls: [Call; 0] = [];
    let mut answers: [Answer; 0] = [];
    run(&mut terminal, &calls, &mut answers);
    let mark = terminal.inner().backend().mark(0);
    assert_eq!(mark, Some(ArrivalMark::Pending));
    assert_eq!(perform(&mut terminal, &Call::Spr), Answer::Register(0));
    assert_eq!(CALL_BYTES, 64);
}

/// Moves one byte of the input to the output.
fn moved<R: Input, W: Output>(reader: &mut R, writer: &mut W) -> Result<usize, StreamFault> {
    let mut byte = [0];
    let count = reader.read(&mut byte)?;
    writer.write(&byte[..count])
}

#[test]
fn scripts_are_parsed_and_played() {
    let parsed: Result<Script, ScriptError> = parse(Global::heap(), b"lsr");
    let misplaced = ScriptError::Refused {
        line: 1,
        cause: Cause::Misplaced,
    };
    assert_eq!(parsed.err(), Some(misplaced));
    let mut output = Vec::new();
    let mut writer = Std::new(&mut output);
    let mut script = Std::new(b"chip 16450 4 64".as_slice());
    let played: Result<(), PlayError> = play(Global::heap(), &mut script, &mut writer);
    assert_eq!(played, Ok(()));
    assert_eq!(moved(&mut Std::new(b"!".as_slice()), &mut writer), Ok(1));
    assert_eq!(output, b"wire -\nheld -\nwaiting -\nmarks -\n!");
}

/// Returns the data of a 16450 that shifts a byte out while a character waits.
fn live_data() -> ChipData {
    let mut queue = ArrayVec::new();
    queue.push(Character {
        byte: 0x42,
        errors: 0,
        origin: Origin::Live,
    });
    ChipData {
        model: Chip::Uart16450,
        latches: Latches {
            ier: IER::empty(),
            lcr: LCR::empty(),
            mcr: MCR::empty(),
            scr: 0,
            dll: 12,
            dlm: 0,
        },
        fifo: false,
        transmitter: TransmitterData {
            queue: ArrayVec::new(),
            shift_register: Some(Shifting {
                byte: 0x41,
                ticks_left: 1,
            }),
            wire_capacity: 64,
            char_ticks: 4,
            overflows: 0,
            is_thr_pending: true,
        },
        receiver: ReceiverData {
            queue,
            is_overrun: false,
            is_front_reported: false,
            last_byte: 0,
            timeout_ticks: 0,
            trigger: FifoTriggerLevel::One,
        },
        modem: ModemData {
            inputs: MSR::empty(),
            lines: MSR::empty(),
            deltas: MSR::empty(),
        },
        cuts: false,
    }
}

#[test]
fn data_are_a_live_chip() {
    let restored: Result<LiveChip, RestoreError> = LiveChip::from_data(&live_data(), &[]);
    let mut chip = restored.unwrap();
    chip.ticks(1);
    assert_eq!(chip.wire(), [0x41]);
    assert_eq!(chip.waiting_len(), 1);
    assert_eq!(chip.divisor(), 12);
    let refused: Result<(), InputError> = chip.arrive(0, LSR::DATA_READY);
    assert_eq!(refused, Err(InputError::BadErrors));
}
