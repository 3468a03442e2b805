//! Words that are near to another: what somebody may have meant.

// A word of so many letters may have this many that are wrong.
const LETTERS_A_MISTAKE: usize = 3;

// Returns how many letters have to be changed, added, left out or exchanged with their neighbour.
fn distance(a: &[u8], b: &[u8]) -> usize {
    let mut before_last: Vec<usize> = Vec::new();
    let mut last: Vec<usize> = (0..=b.len()).collect();
    for (i, letter) in a.iter().enumerate() {
        let mut row = vec![i + 1];
        for (j, other) in b.iter().enumerate() {
            let same = last[j] + usize::from(letter != other);
            let mut least = same.min(last[j + 1] + 1).min(row[j] + 1);
            if i > 0 && j > 0 && *letter == b[j - 1] && a[i - 1] == *other {
                least = least.min(before_last[j - 1] + 1);
            }
            row.push(least);
        }
        before_last = std::mem::replace(&mut last, row);
    }
    last.last().copied().unwrap_or(0)
}

/// Returns the word of these that is nearest to a word, if one is near enough to be meant.
///
/// # Examples
///
/// ```
/// use geesetrunk::near::nearest;
///
/// let commands = ["play", "check", "replay"];
/// assert_eq!(nearest("paly", commands), Some("play"));
/// assert_eq!(nearest("dance", commands), None);
/// ```
pub fn nearest<'a>(word: &str, words: impl IntoIterator<Item = &'a str>) -> Option<&'a str> {
    // What is longer than any word is none of them.
    const LONGEST: usize = 64;
    if word.is_empty() || word.len() > LONGEST {
        return None;
    }
    let lower = word.to_ascii_lowercase();
    let most = (word.len() / LETTERS_A_MISTAKE).max(1);
    words
        .into_iter()
        .map(|known| {
            (
                distance(lower.as_bytes(), known.to_ascii_lowercase().as_bytes()),
                known,
            )
        })
        .filter(|(distance, known)| *distance <= most && *distance < known.len())
        .min_by_key(|(distance, _)| *distance)
        .map(|(_, known)| known)
}

#[cfg(test)]
mod tests {
    use super::*;

    #[test]
    fn a_mistake_in_three_letters_is_near() {
        let words = ["json", "all", "settled", "receive", "r"];
        for (word, near) in [
            ("jsno", Some("json")),
            ("recieve", Some("receive")),
            ("setled", Some("settled")),
            ("Json", Some("json")),
            ("al", Some("all")),
            ("x", None),
            ("", None),
            ("picture", None),
        ] {
            assert_eq!(nearest(word, words), near, "{word}");
        }
        assert_eq!(nearest(&"a".repeat(1000), words), None);
    }
}
