//! The command line of a program: a table of what it accepts, from which words are read, and from
//! which the help, the completions of shells and the manual page are made.

mod completions;
mod help;
mod manual_page;
mod reading;

pub use completions::{Shell, completions};
pub use manual_page::manual_page;
pub use reading::{Given, Reply, words};

/// How many words an operand takes.
#[derive(Clone, Copy, Debug, PartialEq, Eq)]
pub enum Count {
    /// One, which has to be there.
    One,
    /// One, or none.
    AtMostOne,
    /// Any number.
    Any,
}

/// What a command takes by its place.
#[derive(Debug)]
pub struct Operand {
    /// Its name, in capitals.
    pub name: &'static str,
    /// How many words it takes.
    pub count: Count,
    /// What it is.
    pub help: &'static str,
}

/// What a command takes behind `--NAME`.
#[derive(Debug)]
pub struct Flag {
    /// Its name, without the two hyphens.
    pub name: &'static str,
    /// The name of its value, in capitals, if it has one.
    pub value: Option<&'static str>,
    /// What it does.
    pub help: &'static str,
}

/// What a command accepts, and the job that it is for.
#[derive(Debug)]
pub struct Command<J: 'static> {
    /// Its job.
    pub job: J,
    /// Its name, with that of its program in front if it is a part of one.
    pub name: &'static str,
    /// What it does.
    pub about: &'static str,
    /// What it takes by its place. Only the last may take any number of words.
    pub operands: &'static [Operand],
    /// What it takes by name.
    pub flags: &'static [Flag],
    /// What the help says behind all that.
    pub more: Option<&'static str>,
}

/// A program with commands.
#[derive(Debug)]
pub struct Program<J: 'static> {
    /// Its name.
    pub name: &'static str,
    /// Its version.
    pub version: &'static str,
    /// What it does.
    pub about: &'static str,
    /// Its commands.
    pub commands: &'static [Command<J>],
    /// Returns what a value or an operand of this name can be, in capitals as they are named. It is empty if that is no list.
    pub values: fn(&str) -> Vec<&'static str>,
    /// What the help says behind all that.
    pub more: &'static str,
}

impl Operand {
    // Returns the name as usages show it.
    fn shown(&self) -> String {
        match self.count {
            Count::One => format!("<{}>", self.name),
            Count::AtMostOne => format!("[{}]", self.name),
            Count::Any => format!("[{}]...", self.name),
        }
    }
}

impl Flag {
    // Returns the name as usages show it.
    fn shown(&self) -> String {
        match self.value {
            Some(value) => format!("--{} <{value}>", self.name),
            None => format!("--{}", self.name),
        }
    }
}

impl<J> Command<J> {
    // Returns the name without that of the program.
    fn word(&self) -> &'static str {
        self.name.rsplit(' ').next().unwrap_or(self.name)
    }
}
