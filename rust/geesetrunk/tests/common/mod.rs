//! What the tests of the programs share: how a program is run, and where the examples are.
#![allow(dead_code, reason = "each test uses some of it")]

use std::fs;
use std::io::Write;
use std::path::{Path, PathBuf};
use std::process::{Command, Output, Stdio};
use std::thread;

/// The program `geesetrunk`.
pub const GEESETRUNK: &str = env!("CARGO_BIN_EXE_geesetrunk");

/// The program `uart_script`.
pub const UART_SCRIPT: &str = env!("CARGO_BIN_EXE_uart_script");

/// The program `uart_port`.
pub const UART_PORT: &str = env!("CARGO_BIN_EXE_uart_port");

/// The folder with the examples.
pub const EXAMPLES: &str = concat!(env!("CARGO_MANIFEST_DIR"), "/../../examples");

/// The folder with the documents.
pub const DOCS: &str = concat!(env!("CARGO_MANIFEST_DIR"), "/../../docs");

/// Runs a program in a folder with these words and this input, and returns what comes of it.
pub fn run_in(folder: &Path, program: &str, words: &[&str], input: &[u8]) -> Output {
    let mut child = Command::new(program)
        .args(words)
        .current_dir(folder)
        .stdin(Stdio::piped())
        .stdout(Stdio::piped())
        .stderr(Stdio::piped())
        .spawn()
        .unwrap();
    let mut stdin = child.stdin.take().unwrap();
    let input = input.to_vec();
    // A program may end before it has read everything, or print more than a pipe holds.
    let writer = thread::spawn(move || stdin.write_all(&input));
    let output = child.wait_with_output().unwrap();
    let _ = writer.join().unwrap();
    output
}

/// Runs a program in the folder of the examples.
pub fn run(program: &str, words: &[&str], input: &[u8]) -> Output {
    run_in(Path::new(EXAMPLES), program, words, input)
}

/// The exit status of a program, with what it printed on standard output and on standard error.
pub fn parts(output: &Output) -> (i32, String, String) {
    (
        output.status.code().expect("the program was ended"),
        String::from_utf8_lossy(&output.stdout).into(),
        String::from_utf8_lossy(&output.stderr).into(),
    )
}

/// The files of a folder of examples with this extension, of which each has one beside it with the
/// other extension, and the bytes of that.
pub fn examples(folder: &str, extension: &str, other: &str) -> Vec<(PathBuf, Vec<u8>)> {
    let entries = fs::read_dir(Path::new(EXAMPLES).join(folder)).unwrap();
    let mut found: Vec<_> = entries
        .map(|entry| entry.unwrap().path())
        .filter(|path| path.extension().is_some_and(|is| is == extension))
        .filter_map(|path| {
            let stored = fs::read(path.with_extension(other)).ok()?;
            Some((path, stored))
        })
        .collect();
    found.sort();
    assert!(!found.is_empty(), "no {extension} in {folder}");
    found
}

/// Fails unless what was printed for an example is what is stored.
#[track_caller]
pub fn assert_as_stored(path: &Path, printed: &[u8], stored: &[u8]) {
    let (printed, stored) = (
        String::from_utf8_lossy(printed),
        String::from_utf8_lossy(stored),
    );
    assert!(
        printed == stored,
        "{}: printed\n{printed}\nand stored is\n{stored}",
        path.display()
    );
}

/// A random number generator of few lines: xorshift.
pub struct Random(pub u64);

impl Random {
    /// A number from 0 on, less than this one.
    pub fn below(&mut self, most: u64) -> u64 {
        self.0 ^= self.0 << 13;
        self.0 ^= self.0 >> 7;
        self.0 ^= self.0 << 17;
        (self.0 >> 11) % most
    }

    /// One of these.
    pub fn pick<'a, T>(&mut self, among: &'a [T]) -> &'a T {
        &among[self.below(among.len() as u64) as usize]
    }

    /// Whether the one case among so many is there.
    pub fn is_one_in(&mut self, cases: u64) -> bool {
        self.below(cases) == 0
    }
}
