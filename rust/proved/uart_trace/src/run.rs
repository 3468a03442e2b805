//! Runs a script, and tells a listener of each call and each access.

use crate::listener::Listener;
use crate::recorder::Recorder;
use std::alloc::{AllocError, Global};
use uart_16550::{Uart16550, Uart16550Tty};
use uart_calls::{Call, perform};
use uart_chip::Device16550;
use uart_language::{Script, ScriptError, parse};
use uart_play::machine_for;

// A driver under its terminal, over the machine of a script and a recorder.
type Terminal<L> = Uart16550Tty<Recorder<Device16550, L>>;

// Returns a new driver with the limit of the script, which takes the FIFOs for the size of the
// script, over its machine and a recorder.
fn terminal_for<L: Listener>(
    alloc: Global,
    script: &Script,
    listener: L,
) -> Result<Terminal<L>, AllocError> {
    let machine = machine_for(alloc, script)?;
    let mut uart = Uart16550::new_with_backend(Recorder::new(machine, listener));
    uart.set_spin_limit(script.limit());
    uart.set_fifo_size(script.driver_fifo_size());
    Ok(Uart16550Tty::from_inner(uart))
}

// Makes one call, and `next` as a call of the machine.
fn make<L: Listener>(uart: &mut Terminal<L>, call: &Call) {
    match call {
        Call::Next => uart.inner_mut().backend_mut().next(),
        _ => {
            perform(uart, call);
        }
    }
}

// Makes one call, and tells the listener where it begins and ends.
fn tell_call<L: Listener>(uart: &mut Terminal<L>, call: &Call) {
    uart.inner_mut().backend_mut().begin();
    make(uart, call);
    uart.inner_mut().backend_mut().end();
}

// Makes the calls in turn.
fn tell_calls<L: Listener>(uart: &mut Terminal<L>, calls: &[Call]) {
    for i in 0..calls.len() {
        tell_call(uart, &calls[i]);
    }
}

// Runs a script, and returns the listener.
fn tell_script<L: Listener>(
    alloc: Global,
    script: &Script,
    listener: L,
) -> Result<L, AllocError> {
    let mut terminal = terminal_for(alloc, script, listener)?;
    tell_calls(&mut terminal, script.calls());
    match terminal.inner_mut().backend_mut().take_listener() {
        Some(listener) => Ok(listener),
        // Nobody has taken it before, so this is no answer that a caller gets.
        None => Err(AllocError),
    }
}

/// Runs a script, tells the listener of each call and of each access that it makes, and returns the
/// listener.
///
/// The calls are those of the script, in order, made by a new driver with the limit of the script,
/// which takes the FIFOs for the size of the script, over its machine. The listener is told of each
/// access once, in order, before the next one is made.
///
/// # Errors
///
/// - `Refused`, with the first faulty line and what is wrong with it, if the text is not a script.
/// - `OutOfMemory` if memory for the script or its machine could not be allocated.
pub fn tell<L: Listener>(alloc: Global, text: &[u8], listener: L) -> Result<L, ScriptError> {
    let script = parse(alloc, text)?;
    Ok(tell_script(alloc, &script, listener)?)
}
