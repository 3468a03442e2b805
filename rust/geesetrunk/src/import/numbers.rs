//! Numbers and times, as logs write them.

// The digits of a fraction of a second that are kept.
const NANO_DIGITS: usize = 9;

const SECOND: i128 = 1_000_000_000;

/// Returns a number of decimal digits.
pub fn decimal(word: &[u8]) -> Option<u64> {
    digits_in(word, 10)
}

/// Returns a number of hexadecimal digits, which may stand behind `0x`.
pub fn hexadecimal(word: &[u8]) -> Option<u64> {
    digits_in(without_prefix(word).unwrap_or(word), 16)
}

/// Returns a number that is hexadecimal if it stands behind `0x`, and decimal else.
pub fn number(word: &[u8]) -> Option<u64> {
    match without_prefix(word) {
        Some(digits) => digits_in(digits, 16),
        None => decimal(word),
    }
}

fn without_prefix(word: &[u8]) -> Option<&[u8]> {
    word.strip_prefix(b"0x")
        .or_else(|| word.strip_prefix(b"0X"))
}

fn digits_in(word: &[u8], radix: u32) -> Option<u64> {
    if word.is_empty() {
        return None;
    }
    word.iter().try_fold(0u64, |number, &byte| {
        let digit = char::from(byte).to_digit(radix)?;
        number.checked_mul(radix.into())?.checked_add(digit.into())
    })
}

/// Returns a time of seconds with a fraction, in nanoseconds. It may be negative, as it is before a trigger.
pub fn seconds(word: &[u8]) -> Option<i128> {
    let (is_negative, word) = match word.strip_prefix(b"-") {
        Some(rest) => (true, rest),
        None => (false, word),
    };
    let (whole, fraction) = match word.iter().position(|&byte| byte == b'.') {
        Some(point) => (&word[..point], &word[point + 1..]),
        None => (word, &b"0"[..]),
    };
    let kept = &fraction[..fraction.len().min(NANO_DIGITS)];
    if !fraction.iter().all(u8::is_ascii_digit) {
        return None;
    }
    let scale = 10u64.pow((NANO_DIGITS - kept.len()) as u32);
    let nanoseconds =
        i128::from(decimal(whole)?) * SECOND + i128::from(decimal(kept)?) * i128::from(scale);
    Some(if is_negative {
        -nanoseconds
    } else {
        nanoseconds
    })
}

// Returns the number of days from 1970 to a day of the Gregorian calendar, in the way of Howard Hinnant's days_from_civil.
fn days_of(year: i128, month: i128, day: i128) -> i128 {
    let year = if month <= 2 { year - 1 } else { year };
    let era = year.div_euclid(400);
    let year_of_era = year.rem_euclid(400);
    let month_from_march = (month + 9) % 12;
    let day_of_year = (153 * month_from_march + 2) / 5 + day - 1;
    let day_of_era = year_of_era * 365 + year_of_era / 4 - year_of_era / 100 + day_of_year;
    era * 146_097 + day_of_era - 719_468
}

// Returns the offset of a zone in nanoseconds: Z, +HH:MM, +HHMM, or nothing.
fn zone_of(word: &[u8]) -> Option<i128> {
    let (sign, rest) = match word {
        [] | b"Z" | b"z" => return Some(0),
        [b'+', rest @ ..] => (1, rest),
        [b'-', rest @ ..] => (-1, rest),
        _ => return None,
    };
    let (hours, minutes) = match rest {
        [a, b, b':', c, d] | [a, b, c, d] => ([*a, *b], [*c, *d]),
        [a, b] => ([*a, *b], *b"00"),
        _ => return None,
    };
    let minutes = i128::from(decimal(&hours)?) * 60 + i128::from(decimal(&minutes)?);
    Some(sign * minutes * 60 * SECOND)
}

/// Returns a time of ISO 8601, as in `2024-05-06T07:08:09.123456Z`, in nanoseconds since 1970.
pub fn iso_time(word: &[u8]) -> Option<i128> {
    if word.len() < 19 || word[4] != b'-' || word[7] != b'-' || !matches!(word[10], b'T' | b't') {
        return None;
    }
    if word[13] != b':' || word[16] != b':' {
        return None;
    }
    let part = |from: usize, to: usize| decimal(&word[from..to]).map(i128::from);
    let days = days_of(part(0, 4)?, part(5, 7)?, part(8, 10)?);
    let minutes = (days * 24 + part(11, 13)?) * 60 + part(14, 16)?;
    let rest = &word[17..];
    let end = rest
        .iter()
        .position(|byte| !matches!(byte, b'0'..=b'9' | b'.' | b','))
        .unwrap_or(rest.len());
    let second: Vec<u8> = rest[..end]
        .iter()
        .map(|&byte| if byte == b',' { b'.' } else { byte })
        .collect();
    Some(minutes * 60 * SECOND + seconds(&second)? - zone_of(&rest[end..])?)
}

#[cfg(test)]
mod tests {
    use super::*;

    #[test]
    fn numbers() {
        assert_eq!(number(b"0x3f8"), Some(0x3f8));
        assert_eq!(number(b"16"), Some(16));
        assert_eq!(hexadecimal(b"16"), Some(0x16));
        for word in [&b""[..], b"0x", b"g", b"+1", b"-1", b"0x1ffffffffffffffff"] {
            assert_eq!(number(word), None);
        }
    }

    #[test]
    fn times() {
        assert_eq!(seconds(b"1045.095010"), Some(1_045_095_010_000));
        assert_eq!(seconds(b"1045.094997182"), Some(1_045_094_997_182));
        assert_eq!(seconds(b"0.0000000019"), Some(1));
        assert_eq!(seconds(b"-0.5"), Some(-500_000_000));
        assert_eq!(seconds(b"7"), Some(7_000_000_000));
        for word in [&b""[..], b".5", b"1.x", b"1.2.3"] {
            assert_eq!(seconds(word), None);
        }
    }

    #[test]
    fn times_of_iso() {
        assert_eq!(iso_time(b"1970-01-01T00:00:00Z"), Some(0));
        assert_eq!(
            iso_time(b"2024-02-29T12:00:00.5Z"),
            Some(1_709_208_000_500_000_000)
        );
        assert_eq!(
            iso_time(b"2024-02-29T13:00:00,5+01:00"),
            iso_time(b"2024-02-29T12:00:00.5Z")
        );
        assert_eq!(iso_time(b"2024-02-29 12:00:00"), None);
        assert_eq!(iso_time(b"2024-02-29T12:00:00.5UTC"), None);
    }
}
