//! The completions of shells.

use super::{Command, Program};
use std::fmt::Write;

/// A shell with completions.
#[derive(Clone, Copy, Debug, PartialEq, Eq)]
pub enum Shell {
    /// GNU Bash.
    Bash,
    /// Fish.
    Fish,
    /// Zsh.
    Zsh,
}

impl Shell {
    /// Returns the shell of this name.
    pub fn named(name: &str) -> Option<Self> {
        match name {
            "bash" => Some(Shell::Bash),
            "fish" => Some(Shell::Fish),
            "zsh" => Some(Shell::Zsh),
            _ => None,
        }
    }
}

fn command_words<J>(program: &Program<J>) -> String {
    let words: Vec<_> = program.commands.iter().map(Command::word).collect();
    words.join(" ")
}

// Returns the words that a value or an operand of this name can be, with spaces between them.
fn value_words<J>(program: &Program<J>, name: &str) -> String {
    (program.values)(name).join(" ")
}

// Returns the words that the operands of a command can be. It is empty for files.
fn operand_words<J>(program: &Program<J>, command: &Command<J>) -> String {
    let last = command.operands.last();
    last.map_or(String::new(), |operand| value_words(program, operand.name))
}

fn flag_words<J>(command: &Command<J>) -> String {
    let flags = command.flags.iter().map(|flag| format!("--{}", flag.name));
    flags.chain(["--help".into()]).collect::<Vec<_>>().join(" ")
}

// Bash completes a word that begins with a hyphen by a flag of the command, one behind such a flag by what its value can be, and else by
// what the command takes, which mostly are files.
fn bash<J>(program: &Program<J>) -> String {
    let name = program.name;
    let mut text = format!(
        "_{name}() {{\n    \
         local word=${{COMP_WORDS[COMP_CWORD]}} before=${{COMP_WORDS[COMP_CWORD-1]}} flags= values=\n    \
         COMPREPLY=()\n    \
         if ((COMP_CWORD == 1)); then\n        \
         COMPREPLY=($(compgen -W '{} help --help --version' -- \"$word\"))\n        \
         return\n    \
         fi\n    \
         case ${{COMP_WORDS[1]}} in\n",
        command_words(program)
    );
    for command in program.commands {
        let _ = writeln!(
            text,
            "        {}) flags='{}' values='{}' ;;",
            command.word(),
            flag_words(command),
            operand_words(program, command)
        );
    }
    text.push_str("    esac\n    case ${COMP_WORDS[1]}:$before in\n");
    for command in program.commands {
        for flag in command.flags {
            let values = value_words(program, flag.value.unwrap_or_default());
            if !values.is_empty() {
                let (word, flag) = (command.word(), flag.name);
                let _ = writeln!(text, "        {word}:--{flag}) values='{values}' ;;");
            }
        }
    }
    let _ = write!(
        text,
        "    esac\n    \
         [[ $word == -* ]] && values=$flags\n    \
         COMPREPLY=($(compgen -W \"$values\" -- \"$word\"))\n\
         }}\n\
         complete -o bashdefault -o default -F _{name} {name}\n"
    );
    text
}

// Fish and Zsh quote as a shell does: a quote ends the text, stands escaped, and begins it again.
fn quoted(text: &str) -> String {
    format!("'{}'", text.replace('\'', "'\\''"))
}

fn fish<J>(program: &Program<J>) -> String {
    let name = program.name;
    let mut text = String::new();
    for command in program.commands {
        let (word, about) = (command.word(), quoted(command.about));
        let _ = writeln!(
            text,
            "complete -c {name} -n __fish_use_subcommand -a {word} -d {about}"
        );
        let operands = operand_words(program, command);
        if !operands.is_empty() {
            let _ = writeln!(
                text,
                "complete -c {name} -n '__fish_seen_subcommand_from {word}' -f -a '{operands}'"
            );
        }
        for flag in command.flags {
            let value = match flag.value.map(|value| value_words(program, value)) {
                None => String::new(),
                Some(values) if values.is_empty() => " -r".into(),
                Some(values) => format!(" -x -a '{values}'"),
            };
            let (flag, help) = (flag.name, quoted(flag.help));
            let _ = writeln!(
                text,
                "complete -c {name} -n '__fish_seen_subcommand_from {word}' -l {flag}{value} -d {help}"
            );
        }
    }
    text
}

fn zsh<J>(program: &Program<J>) -> String {
    let name = program.name;
    let mut text = format!("#compdef {name}\n\n_{name}() {{\n    local -a commands=(\n");
    for command in program.commands {
        let row = format!("{}:{}", command.word(), command.about);
        let _ = writeln!(text, "        {}", quoted(&row));
    }
    text.push_str(
        "    )\n    if ((CURRENT == 2)); then\n        _describe command commands\n        return\n    fi\n    \
         case $words[2] in\n",
    );
    for command in program.commands {
        let flags: String = command
            .flags
            .iter()
            .map(|flag| {
                let value = match flag.value.map(|value| (value, value_words(program, value))) {
                    None => String::new(),
                    Some((value, values)) if values.is_empty() => format!(":{value}:"),
                    Some((value, values)) => format!(":{value}:({values})"),
                };
                format!(
                    " {}",
                    quoted(&format!(
                        "--{}[{}]{value}",
                        flag.name,
                        flag.help.replace(['[', ']'], "")
                    ))
                )
            })
            .collect();
        let operands = match operand_words(program, command) {
            words if words.is_empty() => "'*:file:_files'".into(),
            words => format!("'*:word:({words})'"),
        };
        let _ = writeln!(
            text,
            "        {}) _arguments{flags} {operands} ;;",
            command.word()
        );
    }
    let _ = write!(text, "    esac\n}}\n\n_{name} \"$@\"\n");
    text
}

/// Returns what a shell reads to complete the words of a program.
pub fn completions<J>(program: &Program<J>, shell: Shell) -> String {
    match shell {
        Shell::Bash => bash(program),
        Shell::Fish => fish(program),
        Shell::Zsh => zsh(program),
    }
}
