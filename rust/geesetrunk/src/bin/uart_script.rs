//! Plays a script from standard input, and prints its output to standard output.
#![forbid(unsafe_code)]

use geesetrunk::heap;
use geesetrunk::streams::{standard_input, standard_output};
use std::io::{self, Write};
use std::process::ExitCode;
use uart_play::{PlayError, Std, play};

// Returns the exit status for an error.
fn status(error: PlayError) -> u8 {
    match error {
        PlayError::Refused { .. } => 1,
        PlayError::ReadFault | PlayError::WriteFault => 2,
        PlayError::OutOfMemory => 3,
    }
}

fn run() -> Result<(), PlayError> {
    let input = standard_input().map_err(|_| PlayError::ReadFault)?;
    let mut output = standard_output().map_err(|_| PlayError::WriteFault)?;
    let outcome = play(heap(), &mut Std::new(input), &mut Std::new(&mut output));
    match outcome {
        Ok(()) | Err(PlayError::WriteFault) => {}
        // As a filter, the program prints why it stops where its output goes.
        Err(error) => {
            let _ = writeln!(output, "{error}");
        }
    }
    outcome
}

fn main() -> ExitCode {
    match run() {
        Ok(()) => ExitCode::SUCCESS,
        Err(error) => {
            if error == PlayError::WriteFault {
                let _ = writeln!(io::stderr(), "{error}");
            }
            ExitCode::from(status(error))
        }
    }
}
