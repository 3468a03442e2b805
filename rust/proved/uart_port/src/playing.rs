//! Plays calls on a real chip.

use std::{Vec};

use crate::ports::{GuardedPorts, PortFile};
use crate::report_error::ReportError;
use crate::trace::Trace;
use std::alloc::Global;
use std::io::Write;
use std::num::NonZeroU64;
use uart_16550::backend::PioBackend;
use uart_16550::{Uart16550, Uart16550Tty};
use uart_calls::{Answer, Call, perform};
use uart_language::push_answer;
use uart_spec::FifoSize;

/// A driver under its terminal, at the ports of a file.
pub type Terminal<F> = Uart16550Tty<PioBackend<GuardedPorts<F>>>;

/// Returns a new driver at the ports of a file, from this one on, with this spin limit and this
/// size of FIFOs. If the chip's are smaller, bytes are lost.
#[must_use]
pub fn terminal_at<F: PortFile>(
    port: u16,
    limit: NonZeroU64,
    fifo_size: FifoSize,
    file: F,
) -> Terminal<F> {
    let Ok(mut uart) = Uart16550::new_port(port, GuardedPorts::new(file)) else {
        unreachable!()
    };
    uart.set_spin_limit(limit);
    uart.set_fifo_size(fifo_size);
    Uart16550Tty::from_inner(uart)
}

/// Where answers are printed and, if there is one, the trace of the run.
pub struct Report<W, T> {
    alloc: Global,
    writer: W,
    trace: Option<Trace<T>>,
}

// Returns whether a call is one of the driver.
fn is_driven(call: &Call) -> bool {
    !matches!(call, Call::Next)
}

impl<W: Write, T: Write> Report<W, T> {
    /// Returns a report that prints to this writer, and writes this trace.
    #[must_use]
    pub fn new(alloc: Global, writer: W, trace: Option<Trace<T>>) -> Self {
        Report {
            alloc,
            writer,
            trace,
        }
    }

    // Writes that this call is made, as its line of the script.
    fn call(&mut self, call: &Call, text: &[u8]) -> Result<(), ReportError> {
        match &mut self.trace {
            Some(trace) if is_driven(call) => trace.call(text).map_err(ReportError::Trace),
            _ => Ok(()),
        }
    }

    // Prints the answer of this call, which has returned.
    fn answer(&mut self, call: &Call, answer: &Answer) -> Result<(), ReportError> {
        let mut text = Vec::new(self.alloc);
        push_answer(self.alloc, &mut text, answer)?;
        match &mut self.trace {
            Some(trace) if is_driven(call) => trace.answer(&text).map_err(ReportError::Trace)?,
            _ => {}
        }
        text.extend_from_slice(b"\n")?;
        self.writer.write_all(&text).map_err(ReportError::Output)
    }
}

/// Makes the calls in turn and prints each answer when the call has returned, up to the first
/// fault.
///
/// The call with the fault has no answer, and no call after it is made; the access object has the
/// fault. The line of each call is for the trace.
///
/// # Errors
///
/// If an answer cannot be printed, or the trace cannot be written. No call is made after that.
pub fn play<F: PortFile, W: Write, T: Write>(
    uart: &mut Terminal<F>,
    calls: &[Call],
    lines: &[&[u8]],
    report: &mut Report<W, T>,
) -> Result<(), ReportError> {
    for i in 0..calls.len() {
        let call = &calls[i];
        report.call(call, lines.get(i).copied().unwrap_or(&[]))?;
        let answer = perform(uart, call);
        if uart.inner().backend().access().fault().is_some() {
            return Ok(());
        }
        report.answer(call, &answer)?;
    }
    Ok(())
}
