//! Plays a script from a reader to a writer.

use std::{CollectWith as _, ToVecWith as _, Vec};

use std::alloc::{AllocError, Global};
use uart_16550::{Uart16550, Uart16550Tty};
use uart_calls::Answer;
use uart_chip::{ArrivalMark, Device16550};
use uart_language::limits::MOST_READ;
use uart_language::{Input, Output, PlayError, Script, parse, read_all, render, write_all};
use uart_run::run;

/// Returns the machine of a script, with FIFOs of the size that it names, and with automatic flow
/// control if that chip has it, under its schedule.
///
/// # Errors
///
/// If memory for the schedule or the machine could not be allocated.
pub fn machine_for(alloc: Global, script: &Script) -> Result<Device16550, AllocError> {
    let schedule = script.events().to_vec_with(alloc)?;
    let machine = Device16550::new_sized(
        alloc,
        script.chip(),
        script.fifo_size(),
        script.ticks(),
        script.wire_capacity(),
        schedule,
        script.cut(),
    );
    match machine {
        Ok(machine) if script.has_auto_flow() => Ok(machine.with_auto_flow()),
        Ok(machine) => Ok(machine),
        Err(_) => Err(AllocError),
    }
}

// Returns the machine of the script under a new driver, with the limit and the size of FIFOs that
// the script sets.
fn terminal_for(alloc: Global, script: &Script) -> Result<Uart16550Tty<Device16550>, AllocError> {
    let mut uart = Uart16550::new_with_backend(machine_for(alloc, script)?);
    uart.set_spin_limit(script.limit());
    uart.set_fifo_size(script.driver_fifo_size());
    Ok(Uart16550Tty::from_inner(uart))
}

// Returns as many answers as there are calls, for `run` to overwrite.
fn empty_answers(alloc: Global, count: usize) -> Result<Vec<Answer>, AllocError> {
    let mut answers = Vec::new(alloc);
    for _i in 0..count {
        answers.push(Answer::Done)?;
    }
    Ok(answers)
}

// Returns the bytes that are still to be sent, first the one in the shift register.
fn held_of(alloc: Global, machine: &Device16550) -> Result<Vec<u8>, AllocError> {
    (0..machine.held_len())
        .filter_map(|i| machine.held_at(i))
        .collect_with(alloc)
}

// Returns the received bytes that have not been read.
fn waiting_of(alloc: Global, machine: &Device16550) -> Result<Vec<u8>, AllocError> {
    (0..machine.waiting_len())
        .filter_map(|i| machine.waiting_at(i))
        .collect_with(alloc)
}

// Returns what became of each arrival.
fn marks_of(alloc: Global, machine: &Device16550) -> Result<Vec<ArrivalMark>, AllocError> {
    (0..machine.arrivals())
        .filter_map(|i| machine.mark(i))
        .collect_with(alloc)
}

// Returns what is printed for answers and the last state of the machine.
fn printed_for(
    alloc: Global,
    answers: &[Answer],
    machine: &Device16550,
) -> Result<Vec<u8>, AllocError> {
    let held = held_of(alloc, machine)?;
    let waiting = waiting_of(alloc, machine)?;
    let marks = marks_of(alloc, machine)?;
    render(alloc, answers, machine.wire(), &held, &waiting, &marks)
}

// Runs a script, and returns what is printed for it.
fn output_for(alloc: Global, script: &Script) -> Result<Vec<u8>, AllocError> {
    let mut terminal = terminal_for(alloc, script)?;
    let calls = script.calls();
    let mut answers = empty_answers(alloc, calls.len())?;
    run(&mut terminal, calls, &mut answers);
    let output = printed_for(alloc, &answers, terminal.inner().backend())?;
    Ok(output)
}

/// Reads a script, plays it, and writes its output.
///
/// The whole output is built before any of it is written. So a refusal has written nothing, and
/// after a write fault what was written is a beginning of the output. What is written for a script
/// is a function of the script ([`scripts_have_one_output`](crate::laws::scripts_have_one_output)).
///
/// # Errors
///
/// - `Refused`, with the first faulty line and what is wrong with it, if the input is not a script.
/// - `ReadFault` if the reader failed, `WriteFault` if the writer failed or accepted no byte.
/// - `OutOfMemory` if memory could not be allocated.
pub fn play<R: Input, W: Output>(
    alloc: Global,
    reader: &mut R,
    writer: &mut W,
) -> Result<(), PlayError> {
    let text = read_all(alloc, reader)?;
    let script = parse(alloc, &text)?;
    let output = output_for(alloc, &script)?;
    match write_all(writer, &output) {
        Ok(()) => Ok(()),
        Err(_) => Err(PlayError::WriteFault),
    }
}
