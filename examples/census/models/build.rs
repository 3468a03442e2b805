//! Compiles the census, which is C, by the compiler named `cc`, and makes the names of its rules of `rules.h`.

use std::path::{Path, PathBuf};
use std::process::Command;
use std::{env, fs};

fn run(command: &mut Command) {
    let status = command.status().unwrap_or_else(|error| panic!("{command:?}: {error}"));
    assert!(status.success(), "{command:?}: {status}");
}

/// The second word of each `RULE(constant, "name", ..)`, as a list of Rust.
fn names_of(rules: &str) -> String {
    let names: Vec<&str> = rules.lines().filter(|line| line.starts_with("RULE(")).map(|line| line.split('"').nth(1).unwrap()).collect();
    format!("/// The names of the rules, in the order of the table.\npub const RULES: [&str; {}] = {names:?};\n", names.len())
}

fn main() {
    let models = PathBuf::from(env::var("CARGO_MANIFEST_DIR").unwrap());
    let (census, chip) = (models.join(".."), models.join("../../../c"));
    let out = PathBuf::from(env::var("OUT_DIR").unwrap());
    for name in ["census.c", "census.h", "text.c", "text.h", "rules.h"] {
        println!("cargo::rerun-if-changed={}", census.join(name).display());
    }
    fs::write(out.join("rules.rs"), names_of(&fs::read_to_string(census.join("rules.h")).unwrap())).unwrap();
    let sources = [census.join("census.c"), census.join("text.c"), models.join("src/chip_in_c.c"), chip.join("uart_port.c")];
    let objects = sources.map(|source| {
        println!("cargo::rerun-if-changed={}", source.display());
        let object = out.join(Path::new(source.file_name().unwrap())).with_extension("o");
        // As many as `ENTRIES` of src/census.rs.
        let words = ["-std=c99", "-O1", "-Wall", "-Wextra", "-Werror", "-DCENSUS_ENTRIES=12000", "-I"];
        run(Command::new("cc").args(words).arg(&chip).args(["-c", "-o"]).args([&object, &source]));
        object
    });
    run(Command::new("ar").arg("rcs").arg(out.join("libcensus.a")).args(objects));
    println!("cargo::rustc-link-search={}", out.display());
    println!("cargo::rustc-link-lib=static=census");
}
