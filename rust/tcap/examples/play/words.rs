//! What the words of a line stand for.

use std::ops::RangeInclusive;

/// A decimal number in a range, without leading zeros or a plus sign.
pub fn number(word: &str, range: RangeInclusive<i128>) -> Option<i128> {
    let digits = word.strip_prefix('-').unwrap_or(word);
    let is_zero = word == "0";
    let is_written = !digits.is_empty() && digits.bytes().all(|digit| digit.is_ascii_digit());
    if !is_zero && (!is_written || digits.starts_with('0')) {
        return None;
    }
    word.parse().ok().filter(|value| range.contains(value))
}

/// A number that the type holds.
pub fn held<T: TryFrom<i128>>(word: &str) -> Option<T> {
    number(word, i128::from(i64::MIN)..=i128::from(u64::MAX))?.try_into().ok()
}

/// Hexadecimal, or `-` for none.
pub fn octets(word: &str) -> Option<Vec<u8>> {
    if word == "-" {
        return Some(Vec::new());
    }
    if word.is_empty() || word.len() % 2 != 0 || !word.bytes().all(|digit| digit.is_ascii_hexdigit()) {
        return None;
    }
    (0..word.len()).step_by(2).map(|at| u8::from_str_radix(&word[at..at + 2], 16).ok()).collect()
}

/// An address: at most 255 octets.
pub fn address(word: &str) -> Option<Vec<u8>> {
    octets(word).filter(|octets| octets.len() <= 255)
}

/// The limit of a line `idle`: at most 2^62.
pub fn idle_limit(word: &str) -> Option<u64> {
    held(word).filter(|limit| *limit <= 1 << 62)
}

/// A value, or `-` where it is absent.
pub fn absent<T>(word: &str, read: impl Fn(&str) -> Option<T>) -> Option<Option<T>> {
    match word {
        "-" => Some(None),
        word => read(word).map(Some),
    }
}

/// Octets that are absent where they are empty.
pub fn some(octets: &[u8]) -> Option<&[u8]> {
    Some(octets).filter(|octets| !octets.is_empty())
}

/// docs/FORMATS.md, play: an address has at most 255 octets, an idle limit is at most 4611686018427387904.
#[test]
fn words_that_are_too_large_are_of_no_form() {
    assert_eq!((address(&"00".repeat(255)), address(&"00".repeat(256))), (Some(vec![0; 255]), None));
    assert_eq!(
        ["0", "4611686018427387904", "4611686018427387905", "01"].map(idle_limit),
        [Some(0), Some(4_611_686_018_427_387_904), None, None]
    );
}
