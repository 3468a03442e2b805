//! Whether a recorded list of accesses is one that a call of the driver makes.

use crate::performing::perform;
use crate::tape::{Recorded, Request, Tape};
use uart_16550::{DriverState, Uart16550, Uart16550Tty};
use uart_call::{Answer, Call};

/// What a call returned, and the state of the driver after it.
#[derive(Debug)]
pub struct Returned {
    /// The answer of the call.
    pub answer: Answer,
    /// The state of the driver after it.
    pub state: DriverState,
}

/// What a driver does at some point of a call.
#[derive(Debug)]
pub enum Turn {
    /// It makes this access.
    Asks(Request),
    /// It returns.
    Returns(Returned),
}

/// How many of the accesses of a list a driver makes, and what it does then.
#[derive(Debug)]
pub struct Followed {
    /// The number of accesses from the first on that the driver makes.
    pub kept: usize,
    /// What it does after these.
    pub turn: Turn,
}

/// What the driver does next in a call, after some accesses.
#[derive(Debug)]
pub enum NextStep {
    /// The call is done.
    Done(Returned),
    /// The driver makes this access.
    Asked(Request),
    /// No list of the call starts with the accesses that were made.
    Strayed,
}

/// Returns how many of these accesses the driver makes in this call, starting from this state, and
/// what it does instead of the first that it does not make. Allocates no memory.
#[must_use]
pub fn follow<R: Recorded>(accesses: &[R], state: &DriverState, call: &Call) -> Followed {
    let mut uart = Uart16550Tty::from_inner(Uart16550::from_state(Tape::new(accesses), state));
    let answer = perform(&mut uart, call);
    let tape = uart.inner().backend();
    let turn = match tape.asked() {
        Some(request) => Turn::Asks(request),
        None => Turn::Returns(Returned {
            answer,
            state: uart.inner().state(),
        }),
    };
    Followed {
        kept: accesses.len() - tape.left(),
        turn,
    }
}

/// Returns whether these accesses are a list of this call, starting from this state: if so, what
/// the call returned, and the state of the driver after it; `None` if they are not, whatever the
/// call might have returned. Allocates no memory.
#[must_use]
pub fn check<R: Recorded>(accesses: &[R], state: &DriverState, call: &Call) -> Option<Returned> {
    match next(accesses, state, call) {
        NextStep::Done(returned) => Some(returned),
        NextStep::Asked(_) => None,
        NextStep::Strayed => None,
    }
}

/// Returns what the driver does next in this call, starting from this state, after it has made
/// these accesses. Allocates no memory.
#[must_use]
pub fn next<R: Recorded>(made: &[R], state: &DriverState, call: &Call) -> NextStep {
    let Followed { kept, turn } = follow(made, state, call);
    if kept < made.len() {
        return NextStep::Strayed;
    }
    match turn {
        Turn::Returns(returned) => NextStep::Done(returned),
        Turn::Asks(request) => NextStep::Asked(request),
    }
}
