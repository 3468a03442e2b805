//! The words of a command line, and what they give to a command.

use super::{Command, Count, Flag, Program};
use crate::end::End;
use crate::near::nearest;
use crate::text::printable;
use std::ffi::OsString;

const MORE: &str = "For more information, try '--help'.";

/// What was given to a command.
#[derive(Debug, Default, PartialEq, Eq)]
pub struct Given {
    operands: Vec<String>,
    flags: Vec<(&'static str, String)>,
}

/// What a command line gets that gives no command anything to do.
#[derive(Debug, PartialEq, Eq)]
pub enum Reply {
    /// A text that is requested: the help or the version.
    Text(String),
    /// Why the words mean nothing.
    Wrong(String),
}

impl Given {
    /// Returns the words that were given by their place.
    pub fn operands(&self) -> &[String] {
        &self.operands
    }

    /// Returns whether this flag was given.
    pub fn has(&self, flag: &str) -> bool {
        self.value(flag).is_some()
    }

    /// Returns the value of this flag, if it was given. That of a flag without a value is empty.
    pub fn value(&self, flag: &str) -> Option<&str> {
        let mut flags = self.flags.iter();
        flags
            .find(|(name, _)| *name == flag)
            .map(|(_, value)| value.as_str())
    }
}

/// Returns the words of this process's command line, behind the program's name.
///
/// # Errors
///
/// How the program ends if a word is not UTF-8, or has a control character.
// Words are printed, and most of them are names of files: a newline in one would be the end of a line that others read, and a terminal
// would do what an escape says.
pub fn words() -> Result<Vec<String>, End> {
    let words: Vec<String> = std::env::args_os()
        .skip(1)
        .map(OsString::into_string)
        .collect::<Result<_, _>>()
        .map_err(|_| End::failed("a word of the command line is not UTF-8"))?;
    match words.iter().find(|word| word.contains(char::is_control)) {
        Some(word) => Err(End::failed(format!(
            "a word of the command line has a control character: {}. Read a file of such a name from standard input",
            printable(word.as_bytes())
        ))),
        None => Ok(words),
    }
}

fn wrong(cause: &str, usage: &str) -> Reply {
    Reply::Wrong(format!("error: {cause}\n\n{usage}\n\n{MORE}"))
}

impl<J> Command<J> {
    fn unexpected(&self, word: &str) -> Reply {
        let mut cause = format!("unexpected argument '{word}' found");
        let flags = self.flags.iter().map(|flag| flag.name);
        if let Some(near) = word
            .strip_prefix("--")
            .and_then(|word| nearest(word, flags.chain(["help"])))
        {
            cause += &format!("\n\n  tip: a similar argument exists: '--{near}'");
        }
        wrong(&cause, &self.usage())
    }

    // Returns how many words the operands take at most.
    fn most_operands(&self) -> usize {
        match self.operands.last() {
            Some(operand) if operand.count == Count::Any => usize::MAX,
            _ => self.operands.len(),
        }
    }

    // Adds a flag, whose value is in the same word, or else is the next one.
    fn add_flag(
        &self,
        given: &mut Given,
        word: &str,
        rest: &mut impl Iterator<Item = String>,
    ) -> Result<(), Reply> {
        let (name, value) = match word.split_once('=') {
            Some((name, value)) => (name, Some(value.to_string())),
            None => (word, None),
        };
        let is_this = |flag: &&Flag| name.strip_prefix("--") == Some(flag.name);
        let flag = self.flags.iter().find(is_this);
        let flag = flag.ok_or_else(|| self.unexpected(name))?;
        let shown = flag.shown();
        if given.has(flag.name) {
            let cause = format!("the argument '{shown}' cannot be used multiple times");
            return Err(wrong(&cause, &self.usage()));
        }
        let value = match (flag.value, value) {
            (None, None) => String::new(),
            (None, Some(value)) => {
                let cause = format!(
                    "unexpected value '{value}' for '{shown}' found; no more were expected"
                );
                return Err(wrong(&cause, &self.usage()));
            }
            (Some(_), Some(value)) => value,
            (Some(_), None) => rest.next().ok_or_else(|| {
                let cause = format!("a value is required for '{shown}' but none was supplied");
                Reply::Wrong(format!("error: {cause}\n\n{MORE}"))
            })?,
        };
        given.flags.push((flag.name, value));
        Ok(())
    }

    // Returns an error if an operand that has to be there is not.
    fn check_operands(&self, given: &Given) -> Result<(), Reply> {
        let missing: String = self
            .operands
            .iter()
            .skip(given.operands.len())
            .filter(|operand| operand.count == Count::One)
            .map(|operand| format!("\n  {}", operand.shown()))
            .collect();
        if missing.is_empty() {
            return Ok(());
        }
        let cause = format!("the following required arguments were not provided:{missing}");
        Err(wrong(&cause, &self.usage()))
    }

    /// Returns what these words give to the command.
    ///
    /// A word with a value is as `--limit 3` or `--limit=3`. Behind `--` no word is a flag.
    ///
    /// # Errors
    ///
    /// The help, or why the words mean nothing.
    pub fn read(&self, words: impl IntoIterator<Item = String>) -> Result<Given, Reply> {
        let mut given = Given::default();
        let mut words = words.into_iter();
        let mut may_be_flags = true;
        while let Some(word) = words.next() {
            let is_flag = may_be_flags && word.len() > 1 && word.starts_with('-');
            match word.as_str() {
                "--" if is_flag => may_be_flags = false,
                "--help" | "-h" if is_flag => return Err(Reply::Text(self.help())),
                _ if is_flag => self.add_flag(&mut given, &word, &mut words)?,
                _ if given.operands.len() < self.most_operands() => given.operands.push(word),
                _ => return Err(self.unexpected(&word)),
            }
        }
        self.check_operands(&given)?;
        Ok(given)
    }
}

impl<J> Program<J> {
    fn command(&self, word: &str) -> Result<&'static Command<J>, Reply> {
        let mut commands = self.commands.iter();
        commands
            .find(|command| command.word() == word)
            .ok_or_else(|| {
                let mut cause = format!("unrecognized subcommand '{word}'");
                let commands = self.commands.iter().map(Command::word);
                if let Some(near) = nearest(word, commands.chain(["help"])) {
                    cause += &format!("\n\n  tip: a similar subcommand exists: '{near}'");
                }
                wrong(&cause, &self.usage())
            })
    }

    /// Returns the command that the words name, and what they give to it.
    ///
    /// # Errors
    ///
    /// The help, the version, or why the words mean nothing.
    ///
    /// # Examples
    ///
    /// ```
    /// use geesetrunk::commands::{GEESETRUNK, Job};
    ///
    /// let words = ["verify", "--limit", "3", "a.trace"].map(String::from);
    /// let Ok((command, given)) = GEESETRUNK.read(words) else {
    ///     panic!("these words mean something");
    /// };
    /// assert_eq!(command.job, Job::Verify);
    /// assert_eq!(given.value("limit"), Some("3"));
    /// assert_eq!(given.operands(), ["a.trace"]);
    /// ```
    pub fn read(
        &self,
        words: impl IntoIterator<Item = String>,
    ) -> Result<(&'static Command<J>, Given), Reply> {
        let mut words = words.into_iter();
        let Some(first) = words.next() else {
            return Err(Reply::Wrong(self.help().trim_end().into()));
        };
        match first.as_str() {
            "--help" | "-h" => Err(Reply::Text(self.help())),
            "--version" | "-V" => {
                let (name, version) = (self.name, self.version);
                Err(Reply::Text(format!("{name} {version}\n")))
            }
            "help" => Err(Reply::Text(match words.next() {
                Some(word) => self.command(&word)?.help(),
                None => self.help(),
            })),
            word if word.starts_with('-') => {
                let cause = format!("unexpected argument '{word}' found");
                Err(wrong(&cause, &self.usage()))
            }
            word => {
                let command = self.command(word)?;
                Ok((command, command.read(words)?))
            }
        }
    }
}

#[cfg(test)]
mod tests {
    use super::super::Operand;
    use super::*;

    const SING: Command<()> = Command {
        job: (),
        name: "choir sing",
        about: "Sings",
        operands: &[
            Operand {
                name: "SONG",
                count: Count::One,
                help: "The song",
            },
            Operand {
                name: "VOICE",
                count: Count::Any,
                help: "A voice",
            },
        ],
        flags: &[
            Flag {
                name: "loud",
                value: None,
                help: "Sings loudly",
            },
            Flag {
                name: "key",
                value: Some("KEY"),
                help: "The key",
            },
        ],
        more: None,
    };

    const CHOIR: Program<()> = Program {
        name: "choir",
        version: "1.0",
        about: "Does what choirs do",
        commands: &[SING],
        values: |_| Vec::new(),
        more: "More",
    };

    fn read(line: &str) -> Result<Given, Reply> {
        SING.read(line.split_whitespace().map(String::from))
    }

    #[track_caller]
    fn assert_wrong(line: &str, cause: &str) {
        match read(line) {
            Err(Reply::Wrong(text)) => assert!(text.contains(cause), "{text}"),
            other => panic!("{other:?}"),
        }
    }

    #[test]
    fn operands_and_flags_in_any_order() {
        let given = read("--loud carol alto --key=G bass").unwrap();
        assert_eq!(given.operands(), ["carol", "alto", "bass"]);
        assert!(given.has("loud"));
        assert_eq!(given.value("key"), Some("G"));
        assert_eq!(read("carol --key A").unwrap().value("key"), Some("A"));
        assert!(!read("carol").unwrap().has("loud"));
    }

    #[test]
    fn behind_two_hyphens_no_word_is_a_flag() {
        let given = read("-- --loud -- -").unwrap();
        assert_eq!(given.operands(), ["--loud", "--", "-"]);
        assert_eq!(read("-").unwrap().operands(), ["-"]);
    }

    #[test]
    fn words_that_mean_nothing() {
        assert_wrong(
            "",
            "error: the following required arguments were not provided:\n  <SONG>\n",
        );
        assert_wrong(
            "a --soft",
            "error: unexpected argument '--soft' found\n\n\
             Usage: choir sing [OPTIONS] <SONG> [VOICE]...\n\nFor",
        );
        assert_wrong("a -l", "unexpected argument '-l' found");
        assert_wrong(
            "a --loud --loud",
            "the argument '--loud' cannot be used multiple times",
        );
        assert_wrong(
            "a --key",
            "a value is required for '--key <KEY>' but none was supplied\n\nFor",
        );
        assert_wrong(
            "a --loud=very",
            "unexpected value 'very' for '--loud' found",
        );
    }

    #[test]
    fn a_program_has_commands_help_and_a_version() {
        let read = |line: &str| CHOIR.read(line.split_whitespace().map(String::from));
        assert_eq!(read("sing carol").unwrap().0.name, "choir sing");
        let texts = [
            ("--help", CHOIR.help()),
            ("-h", CHOIR.help()),
            ("help", CHOIR.help()),
            ("help sing", SING.help()),
            ("sing --help", SING.help()),
            ("sing carol -h", SING.help()),
            ("--version", "choir 1.0\n".into()),
        ];
        for (line, text) in texts {
            assert_eq!(read(line).unwrap_err(), Reply::Text(text), "{line}");
        }
        for line in ["", "dance", "help dance", "--loud"] {
            assert!(matches!(read(line), Err(Reply::Wrong(_))), "{line}");
        }
    }
}
