//! What is done with a script: it is played, checked, traced or drawn.

use crate::end::{End, Status};
use crate::excerpt::Form;
use crate::fault::Explanation;
use crate::heap;
use crate::history::History;
use crate::page::page_of_run;
use crate::picture::picture;
use crate::ring_language::{AnyScript, parse};
use crate::rings::play_rings;
use crate::streams::{Output, print, script_of, standard_output};
use crate::table::write_table;
use crate::terminal::Style;
use crate::text::{counted, file_name};
use crate::trace::{write_ring_trace, write_trace};
use std::fs::File;
use std::io::{self, Write};
use uart_chip::Chip;
use uart_language::fields::ChipKind;
use uart_language::{Script, ScriptError};
use uart_play::{PlayError, Std, play};
use uart_spec::FifoSize;
use uart_trace::plain;

/// What to do with a script.
#[derive(Clone, Copy, Debug, PartialEq, Eq)]
pub enum Task {
    /// Print its output.
    Play,
    /// Find its first fault.
    Check,
    /// Print its register accesses.
    Trace,
    /// Print its timeline.
    Timeline(Form),
    /// Print a page for a browser, with its run step by step.
    Page,
}

/// Returns the kind of chip of a script.
pub fn kind_of(script: &Script) -> ChipKind {
    ChipKind {
        model: script.chip(),
        size: script.fifo_size(),
        auto_flow: script.has_auto_flow(),
    }
}

/// Returns the name of a chip, with the size of its FIFOs if they are larger than those of its model.
pub fn name_of(chip: ChipKind) -> String {
    match (chip.model, chip.size) {
        (Chip::Uart16450, _) => "16450".into(),
        (Chip::Uart16550A, FifoSize::Sixteen) => "16550A".into(),
        (Chip::Uart16550A, size) => format!("16550A with FIFOs of {}", size.characters()),
    }
}

/// Returns the title of a timeline: the file by its name, without the folders that it lies in, and the
/// chip of its script.
pub fn title(file: &str, script: &Script) -> String {
    let (name, chip) = (file_name(file), name_of(kind_of(script)));
    let ticks = counted(script.ticks().into(), "tick");
    format!("{name}: {chip}, {ticks} a character")
}

// Returns how the program ends if a script that is accepted is not played to its end. If the output
// failed, it has the cause.
fn unplayed(error: PlayError) -> End {
    match error {
        PlayError::OutOfMemory => End::out_of_memory(),
        _ => End::new(Status::Failed, error.to_string()),
    }
}

/// Returns what is printed for a script.
///
/// # Errors
///
/// How the program ends that is out of memory.
pub fn printed_for(script: &AnyScript, text: &[u8]) -> Result<Vec<u8>, End> {
    match script {
        AnyScript::Plain(_) => {
            let mut printed = Vec::new();
            play(heap(), &mut Std::new(text), &mut Std::new(&mut printed)).map_err(unplayed)?;
            Ok(printed)
        }
        AnyScript::Rings(script) => play_rings(script),
    }
}

// Writes what is requested of a script that is accepted.
fn write_output(
    task: Task,
    file: &str,
    script: &AnyScript,
    text: &[u8],
    out: &mut Output<File>,
) -> Result<(), End> {
    if let (Task::Play, AnyScript::Plain(_)) = (task, script) {
        return play(heap(), &mut Std::new(text), &mut Std::new(out)).map_err(unplayed);
    }
    let printed = printed_for(script, text)?;
    let history = || History::new(text, &printed);
    match task {
        Task::Play => out.write_all(&printed).map_err(End::unwritten),
        Task::Check => Ok(()),
        Task::Trace => match script {
            AnyScript::Plain(script) => {
                write_trace(script, text, &printed, Std::new(out)).map_err(unplayed)
            }
            AnyScript::Rings(_) => write_ring_trace(script, text, &history(), out),
        },
        Task::Page => {
            let page = page_of_run(file_name(file), text);
            out.write_all(page.as_bytes()).map_err(End::unwritten)
        }
        Task::Timeline(Form::Table) => write_table(script, text, &history(), out),
        Task::Timeline(Form::Picture) => {
            let picture = picture(script, text, &history(), &title(file, script.plain()))?;
            out.write_all(picture.as_bytes()).map_err(End::unwritten)
        }
    }
}

// Prints why a script is refused. `play` prints the line of `uart_script` to standard output too.
fn refused(task: Task, explanation: &Explanation<'_>, error: ScriptError) -> Result<(), End> {
    if task == Task::Play {
        print(format!("{error}\n").as_bytes())?;
    }
    let mut text = String::new();
    let style = Style::of(&io::stderr());
    if explanation.write(&mut text, style).is_ok() {
        // If standard error cannot be written, the exit status still says that there is a fault.
        let _ = io::stderr().write_all(text.as_bytes());
    }
    Err(End::told(Status::Refused))
}

/// Does what is requested with the script of this name, and prints it.
///
/// # Errors
///
/// How the program ends: the file cannot be read, the script is refused, or the output cannot be
/// written.
pub fn report(task: Task, file: &str) -> Result<(), End> {
    let bytes = script_of(file)?;
    let text = plain(heap(), &bytes)?;
    match parse(&text) {
        Ok(script) => {
            let out = standard_output().map_err(End::unwritten)?;
            let mut out = Output::new(out);
            let outcome = write_output(task, file, &script, &text, &mut out);
            // If the output cannot be written, that is why nothing else worked.
            out.finish().map_err(End::unwritten)?;
            outcome
        }
        Err(error @ ScriptError::Refused { line, cause }) => {
            refused(task, &Explanation::new(file, &bytes, line, cause), error)
        }
        Err(ScriptError::OutOfMemory) => Err(End::out_of_memory()),
    }
}
