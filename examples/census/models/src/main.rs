//! `census_models MODEL [RULE]` takes the census of a chip in software, and prints the table on standard error, and rows and recording on
//! standard output. With a RULE the chip deviates in it.

use std::env;
use std::io::{self, Write};
use std::process::ExitCode;

use census_models::{DEVIATIONS, MODELS, Model, model, take};

fn chosen(words: &[String]) -> Option<Box<dyn Model>> {
    match words {
        [name] => model(name),
        [name, rule] if name == "live" => DEVIATIONS.iter().find(|one| one.rule == rule).map(|one| one.chip()),
        _ => None,
    }
}

fn main() -> ExitCode {
    let words: Vec<String> = env::args().skip(1).collect();
    let Some(mut model) = chosen(&words) else {
        eprintln!("usage: census_models {} | live RULE", MODELS.join(" | "));
        return ExitCode::from(2);
    };
    let census = take(&mut *model);
    let told = io::stderr().write_all(census.table.as_bytes()).and_then(|()| io::stdout().write_all(census.text.as_bytes()));
    match told {
        Ok(()) => ExitCode::SUCCESS,
        Err(error) => {
            eprintln!("census_models: {error}");
            ExitCode::from(2)
        }
    }
}
