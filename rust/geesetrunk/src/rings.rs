//! Scripts with rings: their calls, made over a device under a schedule, and what is printed for them.
//!
//! What each call does is proved, over every device. That the calls are those of the script, in order, is
//! plain Rust here.

use crate::end::End;
use crate::heap;
use crate::ring_language::{RingScript, ScriptCall};
use geesetrunk_kit::alloc::AllocError;
use geesetrunk_kit::{ArrayVec, Vec as List};
use geesetrunk_kit_of_rings::alloc::Global;
use uart_16550::Uart16550;
use uart_16550::backend::Backend;
use uart_calls::Answer;
use uart_chip::Device16550;
use uart_language::{push_answer, render};
use uart_play::machine_for;
use uart_ring::{ErrorNotes, HandleEnd, Handled, StuckError, Uart16550Ring};
use uart_ring_runs::{RingAnswer, RingCall, perform_ring};
use uart_spec::Received;

/// A device under a schedule, on which the calls of a script are made.
pub trait Scheduled: Backend {
    /// Notes that a call begins.
    fn begin(&mut self) {}

    /// Goes on to the next mark of the schedule.
    fn next(&mut self);

    /// Notes that the call has returned.
    fn end(&mut self) {}
}

impl Scheduled for Device16550 {
    fn next(&mut self) {
        Device16550::next(self);
    }
}

/// The rings of a script over a device. Below the driver the errors of the received bytes are noted, which makes no access.
pub type NotedRings<B> = Uart16550Ring<ErrorNotes<B>>;

/// Returns the rings of a script over a device: empty, over a new driver with the limit of the script, which takes the FIFOs for the size
/// of the script.
///
/// # Errors
///
/// `AllocError` if out of memory.
pub fn rings_over<B: Backend>(script: &RingScript, device: B) -> Result<NotedRings<B>, AllocError> {
    let room = script.capacities();
    let notes = ErrorNotes::new(Global::heap(), device, room.receive).map_err(|_| AllocError)?;
    let mut uart = Uart16550::new_with_backend(notes);
    uart.set_spin_limit(script.plain().limit());
    uart.set_fifo_size(script.plain().driver_fifo_size());
    Uart16550Ring::new(Global::heap(), uart, room.transmit, room.receive).map_err(|_| AllocError)
}

// Appends what a handler returned.
fn push_handled(out: &mut List<u8>, handled: Handled) -> Result<(), AllocError> {
    push_answer(heap(), out, &Answer::Count(handled.served))?;
    let end: &[u8] = match handled.end {
        HandleEnd::Idle => b" idle",
        HandleEnd::Unknown => b" unknown",
        HandleEnd::Limit => b" limit",
    };
    out.extend_from_slice(end)
}

fn stuck_text(error: StuckError) -> String {
    match error {
        StuckError::Unknown(isr) => format!("err Unknown {:02x}", isr.bits()),
        StuckError::Pending(interrupt) => format!("err Pending {interrupt:?}"),
    }
}

// Appends an answer as it is printed: as the answer of the driver that has the same, if there is one.
fn push_ring_answer(out: &mut List<u8>, answer: RingAnswer) -> Result<(), AllocError> {
    let as_of_driver = match answer {
        RingAnswer::Count(count) => Answer::Count(count),
        RingAnswer::Bytes(bytes) => Answer::Bytes(bytes),
        RingAnswer::Line(bits) => Answer::Register(bits.bits()),
        RingAnswer::Modem(bits) => Answer::Register(bits.bits()),
        RingAnswer::Replaced(Some(byte)) | RingAnswer::Told(Some(byte)) => Answer::Register(byte),
        RingAnswer::Replaced(None) | RingAnswer::Told(None) => {
            return out.extend_from_slice(b"ok -");
        }
        RingAnswer::Low(is_low) => Answer::Flag(is_low),
        RingAnswer::Driver(answer) => answer,
        RingAnswer::Done => Answer::Done,
        RingAnswer::Handled(handled) | RingAnswer::Tried(Ok(handled)) => {
            return push_handled(out, handled);
        }
        RingAnswer::Tried(Err(error)) => {
            return out.extend_from_slice(stuck_text(error).as_bytes());
        }
    };
    push_answer(heap(), out, &as_of_driver)
}

// Takes bytes with their errors, and appends what is printed for it.
fn push_taken<B: Backend>(
    out: &mut List<u8>,
    ring: &mut NotedRings<B>,
    slots: usize,
) -> Result<(), AllocError> {
    let mut slots = vec![Received::default(); slots];
    match ring.take_with_errors(&mut slots) {
        Ok(count) => {
            let mut taken = ArrayVec::new();
            for received in slots.into_iter().take(count) {
                // A script has at most as many slots.
                let _ = taken.try_push(received);
            }
            push_answer(heap(), out, &Answer::BytesWithErrors(taken))
        }
        Err(error) => out.extend_from_slice(format!("err Unnoted {}", error.bytes).as_bytes()),
    }
}

/// Makes the calls in turn, and returns the lines that are printed for them.
///
/// # Errors
///
/// `AllocError` if out of memory.
pub fn run_rings<B: Scheduled>(
    ring: &mut NotedRings<B>,
    calls: &[ScriptCall],
) -> Result<List<u8>, AllocError> {
    let mut answers = List::new(heap());
    for call in calls {
        ring.inner_mut().backend_mut().backend_mut().begin();
        match call {
            ScriptCall::OfRun(call) => push_ring_answer(&mut answers, perform_ring(ring, call))?,
            ScriptCall::TakeWithErrors(slots) => push_taken(&mut answers, ring, *slots)?,
        }
        let device = ring.inner_mut().backend_mut().backend_mut();
        // For this one the rings do nothing.
        if *call == ScriptCall::OfRun(RingCall::Next) {
            device.next();
        }
        device.end();
        answers.push(b'\n')?;
    }
    Ok(answers)
}

/// Returns the last lines of an output: how many bytes are left in the rings.
pub fn ring_lines<B: Backend>(ring: &Uart16550Ring<B>) -> String {
    let (transmit, receive) = (ring.transmit_len(), ring.receive_len());
    format!("transmit {transmit}\nreceive {receive}\n")
}

/// Plays a script with rings, and returns what is printed for it.
///
/// # Errors
///
/// How a program ends that is out of memory.
pub fn play_rings(script: &RingScript) -> Result<Vec<u8>, End> {
    let mut ring = rings_over(script, machine_for(heap(), script.plain())?)?;
    let mut output = run_rings(&mut ring, script.calls())?.to_vec();
    let machine = ring.inner().backend().backend();
    let held: Vec<u8> = (0..machine.held_len())
        .filter_map(|index| machine.held_at(index))
        .collect();
    let waiting: Vec<u8> = (0..machine.waiting_len())
        .filter_map(|index| machine.waiting_at(index))
        .collect();
    let marks: Vec<_> = (0..machine.arrivals())
        .filter_map(|index| machine.mark(index))
        .collect();
    let last = render(heap(), &[], machine.wire(), &held, &waiting, &marks)?;
    output.extend_from_slice(&last);
    output.extend_from_slice(ring_lines(&ring).as_bytes());
    Ok(output)
}
