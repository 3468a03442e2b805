//! The page as a document with data in it, for one run or one recording. Nothing runs in it but what shows the data.

use super::{entries, explanations_of_all, explored, findings};
use crate::end::{End, Status};
use crate::findings::Judging;
use crate::json::Quoted;
use crate::judging::{Judge, judge_recording};
use crate::log::Log;
use crate::streams::{bytes_of, print};

const PAGE: &str = include_str!("../../../web/page/index.html");
const STYLE: &str = include_str!("../../../web/page/style.css");
// Each needs those before it, as in `rust/web/page.py`.
const SCRIPTS: [&str; 9] = [
    include_str!("../../../web/page/names.js"),
    include_str!("../../../web/page/runner.js"),
    include_str!("../../../web/page/chip.js"),
    include_str!("../../../web/page/timeline.js"),
    include_str!("../../../web/page/script.js"),
    include_str!("../../../web/page/link.js"),
    include_str!("../../../web/page/recording.js"),
    include_str!("../../../web/page/live.js"),
    include_str!("../../../web/page/main.js"),
];

/// The most bytes of a log in a page. What is larger no browser shows well.
const MOST_OF_LOG: usize = 4 * 1024 * 1024;

// Returns the page with this object of JSON. No text in it ends the element that it is in.
fn document(data: &str) -> String {
    let data = data.replace('<', "\\u003c");
    let given = format!("<script id=\"given\" type=\"application/json\">{data}</script>");
    PAGE.replacen("/* STYLE */", STYLE, 1)
        .replacen("/* SCRIPTS */", &SCRIPTS.join("\n"), 1)
        .replacen("<!-- DATA -->", &given, 1)
}

/// Returns the page of the run of a script with this text.
pub fn page_of_run(name: &str, text: &[u8]) -> String {
    let script = String::from_utf8_lossy(text);
    let (name, script, run) = (Quoted(name), Quoted(&script), explored(text));
    document(&format!(
        "{{\"name\":{name},\"script\":{script},\"run\":{run}}}"
    ))
}

/// Prints the page of the log of this name, with what both judges find in it.
///
/// # Errors
///
/// How the program ends: the judge that is asked for found something that is wrong, the log cannot be read to its end or is too long for a
/// page, or the output cannot be written.
pub fn print_page_of_log(file: &str, judging: &Judging<'_>) -> Result<(), End> {
    let (import, known) = (&judging.import, &judging.known);
    let bytes = bytes_of(file, MOST_OF_LOG as u64 + 1)?;
    if bytes.len() > MOST_OF_LOG {
        let cause = format!("{file}: a page has at most {MOST_OF_LOG} bytes of a log");
        return Err(End::failed(cause));
    }
    let mut log = Log::over(file, &bytes[..], import)?;
    let mut is_wrong = false;
    let outcome = judge_recording(judging.judge, known, &mut log, |found| {
        is_wrong |= matches!(found.kind.severity(), "warning" | "difference");
        Ok(())
    });
    outcome.map_err(|stop| log.ended(stop))?;
    let found = |judge| findings(file, &bytes, judge, import, known);
    let text = String::from_utf8_lossy(&bytes);
    let data = format!(
        "{{\"name\":{},\"log\":{},\"audit\":{},\"replay\":{},\"read\":{},\"explained\":{}}}",
        Quoted(file),
        Quoted(&text),
        found(Judge::Audit),
        found(Judge::Replay),
        entries(file, &bytes, import),
        explanations_of_all(),
    );
    print(document(&data).as_bytes())?;
    if is_wrong {
        Err(End::told(Status::Refused))
    } else {
        Ok(())
    }
}

#[cfg(test)]
mod tests {
    use super::*;

    #[test]
    fn a_page_has_its_parts_once() {
        for place in ["/* STYLE */", "/* SCRIPTS */", "<!-- DATA -->"] {
            assert_eq!(PAGE.matches(place).count(), 1, "{place}");
            assert!(!STYLE.contains(place) && !SCRIPTS.concat().contains(place));
        }
        let page = page_of_run("a.script", b"chip 16550a 4 64\n# </script>\nlsr\n");
        assert!(page.contains(
            r#"{"name":"a.script","script":"chip 16550a 4 64\n# \u003c/script>\nlsr\n""#
        ));
        assert!(page.contains("function showChip") && page.contains("--panel"));
    }
}
