//! Plays the calls of a script on a real chip at an I/O port, through Linux's file of ports: see
//! `uart_port --help`.
#![forbid(unsafe_code)]

use geesetrunk::command_line::{Given, Reply, words};
use geesetrunk::commands::UART_PORT;
use geesetrunk::end::{End, ended};
use geesetrunk::port::{Run, base_in, play};
use geesetrunk::streams::{first_bytes, open, print, standard_output};
use geesetrunk::text::STANDARD_INPUT;
use std::process::ExitCode;
use uart_trace::MOST_READ;

fn run(given: &Given) -> Result<(), End> {
    let operand = |index: usize| given.operands().get(index).map(String::as_str);
    let base = base_in(operand(0).unwrap_or_default())?;
    let text = open(operand(1).unwrap_or(STANDARD_INPUT))
        .and_then(|file| first_bytes(file, MOST_READ))
        .map_err(|cause| End::unread("the script", cause))?;
    let run = Run {
        base,
        device: given.value("device").unwrap_or("/dev/port"),
        trace: given.value("trace"),
        text: &text,
    };
    let mut out = standard_output().map_err(End::unwritten)?;
    play(&run, &mut out)
}

fn main() -> ExitCode {
    let outcome = words().and_then(|words| match UART_PORT.read(words) {
        Ok(given) => run(&given),
        Err(Reply::Text(text)) => print(text.as_bytes()),
        Err(Reply::Wrong(cause)) => Err(End::failed(cause)),
    });
    ended(outcome)
}
