//! The help of a program and of a command, and their usages.

use super::{Command, Program};
use std::fmt::Write;

/// The help of a command that prints the help of another.
pub(super) const HELP: &str = "Print this message or the help of the given subcommand(s)";

/// The help of the flag for help, and of the one for the version.
pub(super) const PRINT_HELP: &str = "Print help";

pub(super) const PRINT_VERSION: &str = "Print version";

// Returns rows of two columns.
fn table(rows: &[(String, &str)]) -> String {
    let width = rows.iter().map(|(left, _)| left.len()).max().unwrap_or(0);
    rows.iter()
        .map(|(left, right)| format!("  {left:width$}  {right}\n"))
        .collect()
}

impl<J> Command<J> {
    /// Returns how the command is used.
    pub(super) fn usage(&self) -> String {
        let mut usage = format!("Usage: {}", self.name);
        if !self.flags.is_empty() {
            usage.push_str(" [OPTIONS]");
        }
        for operand in self.operands {
            usage.push(' ');
            usage.push_str(&operand.shown());
        }
        usage
    }

    /// Returns the help of the command.
    pub fn help(&self) -> String {
        let operands: Vec<_> = self
            .operands
            .iter()
            .map(|operand| (operand.shown(), operand.help))
            .collect();
        let flags: Vec<_> = self
            .flags
            .iter()
            .map(|flag| (format!("    {}", flag.shown()), flag.help))
            .chain([("-h, --help".into(), PRINT_HELP)])
            .collect();
        let mut help = format!("{}\n\n{}\n", self.about, self.usage());
        if !operands.is_empty() {
            let _ = write!(help, "\nArguments:\n{}", table(&operands));
        }
        let _ = write!(help, "\nOptions:\n{}", table(&flags));
        if let Some(more) = self.more {
            let _ = write!(help, "\n{more}\n");
        }
        help
    }
}

impl<J> Program<J> {
    /// Returns how the program is used.
    pub(super) fn usage(&self) -> String {
        format!("Usage: {} <COMMAND>", self.name)
    }

    /// Returns the help of the program.
    pub fn help(&self) -> String {
        let commands: Vec<_> = self
            .commands
            .iter()
            .map(|command| (command.word().into(), command.about))
            .chain([("help".into(), HELP)])
            .collect();
        let flags = [
            ("-h, --help".into(), PRINT_HELP),
            ("-V, --version".into(), PRINT_VERSION),
        ];
        format!(
            "{}\n\n{}\n\nCommands:\n{}\nOptions:\n{}\n{}\n",
            self.about,
            self.usage(),
            table(&commands),
            table(&flags),
            self.more
        )
    }
}
