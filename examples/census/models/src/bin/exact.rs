//! `exact FILE..` judges the loopback of recordings by the chip in software, of the kind that fits best. See the module of this name.

use std::process::ExitCode;
use std::{env, fs};

use census_models::{Kind, Recording, judge_by_all};

fn name_of(kind: Kind) -> String {
    let bytes = if kind.cuts { ", which cuts characters" } else { "" };
    match kind.fifo {
        Some(size) => format!("a 16550A with FIFOs of {size}{bytes}"),
        None => format!("a 16450{bytes}"),
    }
}

/// Prints what is found in a file, and returns how many differences that are.
fn judge_file(name: &str) -> Result<usize, String> {
    let text = fs::read_to_string(name).map_err(|error| error.to_string())?;
    let recording = Recording::parse(&text).map_err(|error| error.to_string())?;
    let (kind, verdict) = judge_by_all(&recording);
    for (line, text) in &verdict.differences {
        println!("{name}:{line}: difference: {text}");
    }
    let (count, s) = (verdict.differences.len(), if verdict.differences.len() == 1 { "" } else { "s" });
    println!(
        "{name}: {count} difference{s} from {}, in {} reads; at most {} states, {} times given up",
        name_of(kind),
        verdict.judged,
        verdict.most,
        verdict.given_up
    );
    Ok(count)
}

fn main() -> ExitCode {
    let names: Vec<String> = env::args().skip(1).collect();
    if names.is_empty() {
        eprintln!("usage: exact FILE..");
        return ExitCode::from(2);
    }
    let mut differences = 0;
    for name in names {
        match judge_file(&name) {
            Ok(count) => differences += count,
            Err(error) => {
                eprintln!("exact: {name}: {error}");
                return ExitCode::from(2);
            }
        }
    }
    ExitCode::from(u8::from(differences > 0))
}
