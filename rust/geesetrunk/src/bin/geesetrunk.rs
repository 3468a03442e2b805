//! Plays scripts for a serial chip and its driver, shows what happened, and judges recordings and
//! traces, for people: see `geesetrunk --help`.
#![forbid(unsafe_code)]

use geesetrunk::accepted::Accepted;
use geesetrunk::budget::budget;
use geesetrunk::census::{self, Request, Told};
use geesetrunk::command_line::{Given, Reply, Shell, completions, manual_page, words};
use geesetrunk::commands::{GEESETRUNK, Job};
use geesetrunk::end::{End, Status, ended};
use geesetrunk::excerpt::{Excerpt, Form, MOST_EVENTS, USUAL_EVENTS, timeline_of};
use geesetrunk::explain::{explained, explanations};
use geesetrunk::findings::{Format, Judging, judged, verified};
use geesetrunk::import::import;
use geesetrunk::judging::Judge;
use geesetrunk::link::{Link, LinkOutput, MOST_DELAY, USUAL_DELAY, link};
use geesetrunk::log::Log;
use geesetrunk::near::nearest;
use geesetrunk::options::{import_of, known_of, number_in, value_of};
use geesetrunk::page::print_page_of_log;
use geesetrunk::port::base_in;
use geesetrunk::sarif::Sarif;
use geesetrunk::script::{Task, report};
use geesetrunk::show::{Filter, REGISTERS, show};
use geesetrunk::stats::stats;
use geesetrunk::streams::{Output, print, standard_output};
use geesetrunk::terminal::{Colour, Style, choose_colour};
use geesetrunk::text::STANDARD_INPUT;
use std::cell::RefCell;
use std::io::{self, Write};
use std::num::NonZeroU64;
use std::process::ExitCode;
use uart_16550::DEFAULT_SPIN_LIMIT;
use uart_language::fields::size_in;
use uart_spec::FifoSize;

// Returns the files of a command line.
fn files(given: &Given) -> Vec<&str> {
    match given.operands() {
        [] => vec![STANDARD_INPUT],
        files => files.iter().map(String::as_str).collect(),
    }
}

// Does something with each file. If that ends badly for some, each cause is printed, and the program
// ends as for the worst.
fn each(given: &Given, mut act: impl FnMut(&str) -> Result<(), End>) -> Result<(), End> {
    let mut worst = None;
    for file in files(given) {
        let status = act(file).err().map(End::report);
        worst = worst.max(status);
        if let Some(Status::OutOfMemory | Status::BrokenPipe) = status {
            break;
        }
    }
    worst.map_or(Ok(()), |status| Err(End::told(status)))
}

fn format_of<'a>(given: &Given, sarif: &'a Sarif) -> Format<'a> {
    if given.has("sarif") {
        Format::Sarif(sarif)
    } else if given.has("json") {
        Format::Json
    } else if given.has("all") {
        Format::AllLines(Style::of(&io::stdout()))
    } else {
        Format::Lines(Style::of(&io::stdout()))
    }
}

// Does something whose findings are printed. Around those of SARIF is a document, also if a file is not read to its end.
fn find(given: &Given, act: impl FnOnce(Format<'_>) -> Result<(), End>) -> Result<(), End> {
    let sarif = Sarif::default();
    let format = format_of(given, &sarif);
    if !given.has("sarif") {
        return act(format);
    }
    if given.has("json") {
        return Err(End::failed("--json and --sarif are two forms: choose one"));
    }
    print(sarif.head().as_bytes())?;
    let outcome = act(format);
    let is_complete = match &outcome {
        Ok(()) => true,
        Err(end) => end.status() == Status::Refused,
    };
    print(sarif.end(is_complete).as_bytes())?;
    outcome
}

// Returns an error if a page is asked for, and something that it does not have.
fn check_page(given: &Given) -> Result<(), End> {
    let others = [
        "all", "settled", "json", "sarif", "text", "line", "last", "allow", "baseline",
    ];
    match others.into_iter().find(|other| given.has(other)) {
        Some(other) if given.has("html") => Err(End::failed(format!(
            "--html has a form of its own: leave --{other} out"
        ))),
        _ => Ok(()),
    }
}

// Prints the page of a log. Two pages would be no document.
fn print_page(given: &Given, judge: Judge) -> Result<(), End> {
    let [file] = files(given)[..] else {
        return Err(End::failed("--html prints one page: name one file"));
    };
    let judging = Judging {
        judge,
        format: Format::Json,
        is_settled: false,
        import: import_of(given)?,
        known: known_of(given)?,
        accepted: &Accepted::default(),
    };
    print_page_of_log(file, &judging)
}

// Returns which findings are accepted.
fn accepted_of(given: &Given) -> Result<Accepted, End> {
    let mut accepted = Accepted::default();
    if let Some(names) = given.value("allow") {
        accepted.allow(names)?;
    }
    if let Some(file) = given.value("baseline") {
        accepted.read_baseline(file)?;
    }
    Ok(accepted)
}

fn judge(given: &Given, judge: Judge) -> Result<(), End> {
    let (import, known) = (import_of(given)?, known_of(given)?);
    check_page(given)?;
    let accepted = accepted_of(given)?;
    if given.has("html") {
        return print_page(given, judge);
    }
    find(given, |format| {
        let judging = Judging {
            judge,
            format,
            is_settled: given.has("settled"),
            import,
            known,
            accepted: &accepted,
        };
        each(given, |file| judged(file, &judging))
    })
}

// Returns what is to be drawn of a recording.
fn excerpt_of<'a>(given: &Given, file: &'a str, form: Form) -> Result<Excerpt<'a>, End> {
    let line = match given.value("line").map(number_in) {
        None => None,
        Some(Some(line)) if line > 0 => Some(line),
        Some(_) => {
            let most = u64::MAX;
            return Err(End::failed(format!(
                "the line must be a number from 1 to {most}"
            )));
        }
    };
    let most = match given.value("last").map(number_in) {
        None => USUAL_EVENTS,
        Some(Some(count)) if (1..=MOST_EVENTS as u64).contains(&count) => count as usize,
        Some(_) => {
            let cause = format!("the number of events must be from 1 to {MOST_EVENTS}");
            return Err(End::failed(cause));
        }
    };
    Ok(Excerpt {
        form,
        file,
        line,
        most,
        known: known_of(given)?,
    })
}

fn draw(given: &Given, file: &str, form: Form) -> Result<(), End> {
    let excerpt = excerpt_of(given, file, form)?;
    let import = import_of(given)?;
    let output = RefCell::new(Output::new(standard_output().map_err(End::unwritten)?));
    let mut log = Log::open(file, "timeline", &import, &output)?;
    let timeline = timeline_of(&excerpt, &mut log).map_err(|stop| log.ended(stop))?;
    log.close();
    let mut output = output.into_inner();
    // The output keeps the cause of a failed write, and its end reports it.
    let _ = output.write_all(timeline.as_bytes());
    output.finish().map_err(End::unwritten)
}

fn timeline(given: &Given) -> Result<(), End> {
    check_page(given)?;
    let form = if given.has("text") {
        Form::Table
    } else {
        Form::Picture
    };
    let of_recording = [
        "recording",
        "line",
        "last",
        "format",
        "base",
        "stride",
        "port",
        "irq",
        "clock",
        "divisor",
        "fifo",
        "chip",
    ];
    let is_of_recording = of_recording.iter().any(|flag| given.has(flag));
    if given.has("html") && is_of_recording {
        return print_page(given, Judge::Audit);
    }
    each(given, |file| {
        if given.has("html") {
            report(Task::Page, file)
        } else if is_of_recording {
            draw(given, file, form)
        } else {
            report(Task::Timeline(form), file)
        }
    })
}

fn play_link(given: &Given) -> Result<(), End> {
    let delay = match given.value("delay").map(number_in) {
        None => USUAL_DELAY,
        Some(Some(delay)) if (1..=MOST_DELAY).contains(&delay) => delay,
        Some(_) => {
            let cause = format!("the delay must be a number of ticks from 1 to {MOST_DELAY}");
            return Err(End::failed(cause));
        }
    };
    let output = match (given.has("picture"), given.has("bounds")) {
        (false, false) => LinkOutput::Text,
        (false, true) => LinkOutput::TextWithBounds,
        (true, false) => LinkOutput::Picture,
        (true, true) => {
            return Err(End::failed(
                "a picture has no bounds: leave one of the two out",
            ));
        }
    };
    let operand = |index: usize| given.operands().get(index).map_or("", String::as_str);
    link(&Link {
        files: [operand(0), operand(1)],
        delay,
        output,
    })
}

fn verify(given: &Given) -> Result<(), End> {
    let limit = match given.value("limit") {
        Some(word) => number_in(word),
        None => Some(DEFAULT_SPIN_LIMIT),
    };
    let Some(limit) = limit.and_then(NonZeroU64::new) else {
        let most = u64::MAX;
        return Err(End::failed(format!(
            "the limit must be a number from 1 to {most}"
        )));
    };
    let fifo_size = match given.value("fifo-size") {
        Some(word) => size_in(word.as_bytes()),
        None => Ok(FifoSize::Sixteen),
    };
    let Ok(fifo_size) = fifo_size else {
        return Err(End::failed(
            "the size of the FIFOs must be 16, 32, 64, 128 or 256",
        ));
    };
    find(given, |format| {
        each(given, |file| verified(file, limit, fifo_size, format))
    })
}

fn show_recording(given: &Given) -> Result<(), End> {
    let line = |word: &str| number_in(word).filter(|line| *line > 0);
    let wants = "the number of a line, from 1 on";
    let mut registers = Vec::new();
    for name in given
        .value("register")
        .into_iter()
        .flat_map(|names| names.split(','))
    {
        // The scratch register has two names.
        let name = if name.eq_ignore_ascii_case("SCR") {
            "SPR"
        } else {
            name
        };
        let known = REGISTERS
            .into_iter()
            .find(|known| known.eq_ignore_ascii_case(name));
        let Some(known) = known else {
            let near = nearest(name, REGISTERS);
            let tip = near.map_or(String::new(), |near| format!(". A similar one is {near}"));
            let all = REGISTERS.join(", ");
            return Err(End::failed(format!(
                "no register is called '{name}': they are {all}{tip}"
            )));
        };
        registers.push(known);
    }
    let filter = Filter {
        registers,
        writes: given.has("writes"),
        from: value_of(given, "from", line, wants)?.unwrap_or(1),
        to: value_of(given, "to", line, wants)?,
        bytes: given.has("bytes"),
    };
    if filter.to.is_some_and(|to| to < filter.from) {
        return Err(End::failed("--to is before --from: there is no such line"));
    }
    let import = import_of(given)?;
    let are_several = given.operands().len() > 1;
    each(given, |file| {
        if are_several {
            print(format!("{file}:\n").as_bytes())?;
        }
        show(file, &import, &filter)
    })
}

// Asks the chip at a port, or judges a recording of that.
fn take_census(given: &Given) -> Result<(), End> {
    let told = match given.has("json") {
        true => Told::Json,
        false => Told::Table,
    };
    let of_port = ["device", "record", "even-if-used"];
    match (given.operands(), given.value("judge")) {
        ([], None) => Err(End::failed(
            "name a port, as 2f8, or a recording by --judge",
        )),
        ([_, ..], Some(_)) => Err(End::failed(
            "--judge reads a recording and asks no port: leave the port out",
        )),
        ([], Some(file)) => match of_port.into_iter().find(|flag| given.has(flag)) {
            Some(flag) => Err(End::failed(format!(
                "--judge reads a recording and asks no port: leave --{flag} out"
            ))),
            None => census::judge(file, told),
        },
        ([port, ..], None) => {
            let request = Request {
                base: base_in(port)?,
                device: given.value("device").unwrap_or("/dev/port"),
                record: given.value("record"),
                is_forced: given.has("even-if-used"),
            };
            census::ask(&request, told)
        }
    }
}

// Explains names, or lists all of them.
fn explain(given: &Given) -> Result<(), End> {
    if given.operands().is_empty() {
        let width = explanations().map(|row| row.name.len()).max().unwrap_or(0);
        let rows: String = explanations()
            .map(|row| format!("{:width$}  {}\n", row.name, row.kind))
            .collect();
        return print(rows.as_bytes());
    }
    // Nothing is explained if a name is none.
    let mut texts = Vec::new();
    for name in given.operands() {
        let row = explained(name).map_err(|near| {
            let tip = near.map_or(String::new(), |near| format!(". A similar name is {near}"));
            let all = "geesetrunk explain lists all names";
            End::failed(format!(
                "no finding and no error is called '{name}'{tip}. {all}"
            ))
        })?;
        texts.push(row.to_string());
    }
    print(texts.join("\n").as_bytes())
}

fn complete(given: &Given) -> Result<(), End> {
    let name = given.operands().first().map_or("", String::as_str);
    match Shell::named(name) {
        Some(shell) => print(completions(&GEESETRUNK, shell).as_bytes()),
        None => Err(End::failed("the shell must be bash, fish or zsh")),
    }
}

fn run(job: Job, given: &Given) -> Result<(), End> {
    let wants = "auto, always or never";
    if let Some(colour) = value_of(given, "color", Colour::named, wants)? {
        choose_colour(colour);
    }
    match job {
        Job::Report(task) => each(given, |file| report(task, file)),
        Job::Timeline => timeline(given),
        Job::Link => play_link(given),
        Job::Judge(who) => judge(given, who),
        Job::Verify => verify(given),
        Job::Import => {
            let log = import_of(given)?;
            each(given, |file| import(file, &log))
        }
        Job::Show => show_recording(given),
        Job::Stats => {
            let (log, known) = (import_of(given)?, known_of(given)?);
            each(given, |file| stats(file, &log, &known, given.has("whole")))
        }
        Job::Census => take_census(given),
        Job::Explain => explain(given),
        Job::Budget => print(budget(given)?.as_bytes()),
        Job::Completions => complete(given),
        Job::Manual => print(manual_page(&GEESETRUNK).as_bytes()),
    }
}

fn main() -> ExitCode {
    let outcome = words().and_then(|words| match GEESETRUNK.read(words) {
        Ok((command, given)) => run(command.job, &given),
        Err(Reply::Text(text)) => print(text.as_bytes()),
        Err(Reply::Wrong(cause)) => Err(End::failed(cause)),
    });
    ended(outcome)
}
