//! The manual page, as `man` reads it.

use super::help::{PRINT_HELP, PRINT_VERSION};
use super::{Command, Count, Program};
use std::fmt::Write;

// Returns a text in which no letter is one of the language of manual pages.
fn escaped(text: &str) -> String {
    let text = text.replace('\\', "\\e").replace('-', "\\-");
    let lines = text.split('\n').map(|line| match line {
        line if line.starts_with(['.', '\'']) => format!("\\&{line}"),
        line => line.into(),
    });
    lines.collect::<Vec<_>>().join("\n")
}

fn bold(text: &str) -> String {
    format!("\\fB{}\\fR", escaped(text))
}

fn italic(text: &str) -> String {
    format!("\\fI{}\\fR", escaped(text))
}

// Returns a paragraph with a head.
fn item(head: &str, text: &str) -> String {
    format!(".TP\n{head}\n{}\n", escaped(text))
}

// Returns how a command is used.
fn synopsis<J>(command: &Command<J>) -> String {
    let mut text = bold(command.name);
    for flag in command.flags {
        let name = bold(&format!("--{}", flag.name));
        let _ = match flag.value {
            Some(value) => write!(text, " [{name} {}]", italic(value)),
            None => write!(text, " [{name}]"),
        };
    }
    for operand in command.operands {
        let name = italic(operand.name);
        let _ = match operand.count {
            Count::One => write!(text, " {name}"),
            Count::AtMostOne => write!(text, " [{name}]"),
            Count::Any => write!(text, " [{name} ...]"),
        };
    }
    text
}

fn commands<J>(program: &Program<J>) -> String {
    let mut text = String::from(".SH COMMANDS\n");
    for command in program.commands {
        text += &item(&synopsis(command), command.about);
        for flag in command.flags {
            let value = flag.value.map(|value| format!(" {}", italic(value)));
            let head = bold(&format!("--{}", flag.name)) + &value.unwrap_or_default();
            let _ = write!(text, ".RS\n{}.RE\n", item(&head, flag.help));
        }
    }
    text
}

// Returns the paragraphs of a text, of which the lines that begin with a space are kept as they are.
fn paragraphs(text: &str) -> String {
    let mut page = String::new();
    let mut is_table = false;
    for line in text.lines() {
        if line.starts_with(' ') != is_table {
            is_table = !is_table;
            page.push_str(if is_table { ".nf\n" } else { ".fi\n" });
        }
        match line {
            "" => page.push_str(".PP\n"),
            line => {
                page.push_str(&escaped(line));
                page.push('\n');
            }
        }
    }
    if is_table {
        page.push_str(".fi\n");
    }
    page
}

/// Returns the manual page of a program.
pub fn manual_page<J>(program: &Program<J>) -> String {
    let name = program.name;
    let (summary, about) = program
        .about
        .split_once("\n\n")
        .unwrap_or((program.about, ""));
    let title = format!(
        ".TH {} 1 \"\" \"{name} {}\"\n",
        name.to_uppercase(),
        program.version
    );
    let summary = escaped(&summary.replace('\n', " "));
    let synopsis = format!(
        "{} {} [{} ...]",
        bold(name),
        italic("COMMAND"),
        italic("WORD")
    );
    let help = item(&format!("{}, {}", bold("-h"), bold("--help")), PRINT_HELP);
    let version = item(
        &format!("{}, {}", bold("-V"), bold("--version")),
        PRINT_VERSION,
    );
    [
        title,
        format!(".SH NAME\n{name} \\- {summary}\n"),
        format!(".SH SYNOPSIS\n{synopsis}\n"),
        format!(".SH DESCRIPTION\n{}", paragraphs(about)),
        commands(program),
        format!(".SH OPTIONS\n{help}{version}"),
        format!(".SH EXIT STATUS\n{}", paragraphs(program.more)),
    ]
    .concat()
}
