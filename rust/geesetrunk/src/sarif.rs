//! Findings as SARIF 2.1.0, the form in which code hosts and editors take them: one document for a command.

use crate::explain::{Explanation, explanations};
use crate::json::Quoted;
use std::cell::Cell;
use std::fmt::Write;

/// A document of which findings are written as they come.
#[derive(Debug, Default)]
pub struct Sarif {
    has_result: Cell<bool>,
}

// Returns the level of a kind of finding, in the words of SARIF.
fn level(kind: &str) -> &'static str {
    match kind {
        "note" | "undecided" => "note",
        "warning" => "warning",
        _ => "error",
    }
}

fn rule(row: &Explanation<'_>) -> String {
    format!(
        "{{\"id\":{},\"shortDescription\":{{\"text\":{}}},\"help\":{{\"text\":{}}},\"defaultConfiguration\":{{\"level\":{}}}}}",
        Quoted(row.name),
        Quoted(row.what),
        Quoted(row.remedy),
        Quoted(level(row.kind)),
    )
}

// Returns a file as the reference to a resource: what a reference may not have is written by its number.
fn uri(file: &str) -> String {
    let mut uri = String::new();
    for byte in file.bytes() {
        match byte {
            b'a'..=b'z' | b'A'..=b'Z' | b'0'..=b'9' | b'-' | b'.' | b'_' | b'~' | b'/' => {
                uri.push(byte.into());
            }
            // A text in memory takes everything.
            byte => {
                let _ = write!(uri, "%{byte:02X}");
            }
        }
    }
    uri
}

impl Sarif {
    /// Returns the document up to its results. Its rules are the findings that have a name.
    pub fn head(&self) -> String {
        let rules: Vec<_> = explanations()
            .filter(|row| row.is_finding())
            .map(|row| rule(&row))
            .collect();
        format!(
            "{{\"$schema\":\"https://json.schemastore.org/sarif-2.1.0.json\",\"version\":\"2.1.0\",\"runs\":[{{\"tool\":{{\"driver\":\
             {{\"name\":\"geesetrunk\",\"version\":{},\"rules\":[{}]}}}},\"results\":[",
            Quoted(env!("CARGO_PKG_VERSION")),
            rules.join(",")
        )
    }

    /// Returns a result, with the comma before it if it is not the first one.
    pub fn result(
        &self,
        file: &str,
        line: &str,
        kind: &str,
        name: &str,
        text: &str,
        times: u64,
    ) -> String {
        let comma = if self.has_result.replace(true) {
            ","
        } else {
            ""
        };
        format!(
            "{comma}\n{{\"ruleId\":{},\"level\":{},\"message\":{{\"text\":{}}},\"locations\":[{{\"physicalLocation\":\
             {{\"artifactLocation\":{{\"uri\":{}}},\"region\":{{\"startLine\":{line}}}}}}}],\"occurrenceCount\":{}}}",
            Quoted(name),
            Quoted(level(kind)),
            Quoted(text),
            Quoted(&uri(file)),
            times.max(1),
        )
    }

    /// Returns what is behind the results, and whether all files were read to their end.
    pub fn end(&self, is_complete: bool) -> String {
        format!("\n],\"invocations\":[{{\"executionSuccessful\":{is_complete}}}]}}]}}\n")
    }
}

#[cfg(test)]
mod tests {
    use super::*;

    #[test]
    fn a_file_is_a_reference() {
        assert_eq!(uri("a b/c.log"), "a%20b/c.log");
        assert_eq!(uri("\u{e4}"), "%C3%A4");
    }

    #[test]
    fn results_have_commas_between_them() {
        let sarif = Sarif::default();
        let result = |_| sarif.result("a", "3", "difference", "not-kept", "it \"is\"", 2);
        let [first, second] = [0, 1].map(result);
        assert!(first.starts_with("\n{\"ruleId\":\"not-kept\",\"level\":\"error\""));
        assert!(second.starts_with(",\n"));
    }
}
