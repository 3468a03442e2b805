//! Pages for a browser that the program prints. `integration/web` looks at them in one.

mod common;

use common::{EXAMPLES, GEESETRUNK, examples, parts, run};
use geesetrunk::page::explored;
use std::fs;

// Returns the data of the page that these words print, with the exit status.
fn data(words: &[&str], input: &[u8]) -> (i32, String) {
    let (status, page, errors) = parts(&run(GEESETRUNK, words, input));
    assert!(page.starts_with("<!doctype html>"), "{words:?}: {errors}");
    let mut elements = page.split("<script id=\"given\" type=\"application/json\">");
    let data = elements
        .nth(1)
        .and_then(|rest| rest.split("</script>").next());
    (status, data.unwrap().to_owned())
}

#[test]
fn a_page_has_a_run() {
    let script = format!("{EXAMPLES}/overrun.script");
    let (status, run) = data(&["timeline", "--html", &script], b"");
    assert_eq!(status, 0);
    assert!(
        run.starts_with("{\"name\":\"overrun.script\",\"script\":\"chip 16450 4 64\\n"),
        "{run}"
    );
    assert!(
        run.contains("[\"lsr\",\"ok 62\"]") && run.contains("\"stray\":null"),
        "{run}"
    );
}

// The chip that is shown goes beside that of the run, whatever chip that is. It is looked at after each step, so a look that changed
// anything would be seen too.
#[test]
fn each_run_has_the_chip_that_is_shown() {
    let mut shown = 0;
    let rings = examples("rings", "script", "out");
    for (path, _) in examples("", "script", "out").into_iter().chain(rings) {
        let run = explored(&fs::read(&path).unwrap());
        if run.starts_with("{\"chip\":") {
            assert!(run.contains(",\"stray\":null}"), "{}", path.display());
            shown += 1;
        }
    }
    assert!(shown > 90, "{shown}");
}

#[test]
fn a_page_has_what_was_found() {
    let log = format!("{EXAMPLES}/recordings/wrong-driver.recording");
    for (words, status) in [
        (&["audit", "--html"][..], 1),
        (&["replay", "--html"], 0),
        (&["timeline", "--html", "--recording"], 1),
    ] {
        let (found, log) = data(&[words, &[&log]].concat(), b"");
        assert_eq!(found, status, "{words:?}");
        assert!(log.contains("\"sent-beyond-room\""), "{words:?}");
    }
    let (status, log) = data(&["audit", "--html"], b"# </script><b>\nr 5 60\n");
    assert_eq!(status, 0);
    assert!(!log.contains('<'), "{log}");
}

#[test]
fn what_has_no_page_is_said() {
    for (words, input, status, start) in [
        (
            &["audit", "--html", "a", "b"][..],
            "",
            2,
            "--html prints one page: name one file\n",
        ),
        (
            &["audit", "--html", "--json"],
            "",
            2,
            "--html has a form of its own: leave --json out\n",
        ),
        (
            &["timeline", "--text", "--html"],
            "",
            2,
            "--html has a form of its own: leave --text out\n",
        ),
        (&["audit", "--html"], "r 5\n", 2, "-:1:"),
        (&["timeline", "--html"], "sing\n", 1, "-:1:1: "),
    ] {
        let (found, page, errors) = parts(&run(GEESETRUNK, words, input.as_bytes()));
        assert_eq!((found, page.as_str()), (status, ""), "{words:?}");
        assert!(errors.starts_with(start), "{errors}");
    }
    let long = "r 5 60\n".repeat(600_000);
    let (status, _, errors) = parts(&run(GEESETRUNK, &["audit", "--html"], long.as_bytes()));
    assert_eq!(
        (status, errors.as_str()),
        (2, "-: a page has at most 4194304 bytes of a log\n")
    );
}
