//! Texts in JSON.

use std::fmt::{self, Write};

/// A text in quotes, as JSON has it.
///
/// # Examples
///
/// ```
/// use geesetrunk::json::Quoted;
///
/// assert_eq!(Quoted("a \"b\"\n").to_string(), r#""a \"b\"\n""#);
/// ```
#[derive(Clone, Copy, Debug)]
pub struct Quoted<'a>(pub &'a str);

impl fmt::Display for Quoted<'_> {
    fn fmt(&self, f: &mut fmt::Formatter<'_>) -> fmt::Result {
        f.write_char('"')?;
        for letter in self.0.chars() {
            match letter {
                '"' => f.write_str("\\\"")?,
                '\\' => f.write_str("\\\\")?,
                '\n' => f.write_str("\\n")?,
                '\r' => f.write_str("\\r")?,
                '\t' => f.write_str("\\t")?,
                // DEL may stand in JSON, and terminals act on it.
                '\0'..=' ' if letter != ' ' => write!(f, "\\u{:04x}", u32::from(letter))?,
                '\x7f' => f.write_str("\\u007f")?,
                _ => f.write_char(letter)?,
            }
        }
        f.write_char('"')
    }
}

#[cfg(test)]
mod tests {
    use super::*;

    #[test]
    fn what_json_reserves_is_escaped() {
        assert_eq!(Quoted("a\\b/\"c\"").to_string(), r#""a\\b/\"c\"""#);
        assert_eq!(
            Quoted("\0\x1b\n\r\t\x7f ü").to_string(),
            r#""\u0000\u001b\n\r\t\u007f ü""#
        );
    }
}
