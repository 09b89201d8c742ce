//! The words of a line.

use std::iter::Peekable;
use std::str::{FromStr, Split};

/// How many bytes a line may have, without its LF.
const LONGEST_LINE: usize = 256;
/// How many bytes a row of a pipe may have.
pub const LONGEST_ROW: usize = 16;

/// The words of a line that weren't taken yet. Each taking call gives `None` where the next word isn't of its kind.
pub struct Words<'a>(Peekable<Split<'a, char>>);

impl<'a> Words<'a> {
    /// The words of `line`, between which exactly one space stands. `None` where the line is too long or isn't text.
    pub fn of(line: &'a [u8]) -> Option<Self> {
        if line.len() > LONGEST_LINE {
            return None;
        }
        let line = std::str::from_utf8(line).ok()?;
        Some(Words(line.split(' ').peekable()))
    }

    /// The next word, which is a name.
    pub fn name(&mut self) -> Option<&'a str> {
        self.0.next()
    }

    /// The next word as a number in decimal digits, that its type can hold.
    pub fn number<N: FromStr>(&mut self) -> Option<N> {
        self.0.next().and_then(number)
    }

    /// The next word as a row of at most 16 bytes with commas between, or `-` for none.
    pub fn row(&mut self) -> Option<Vec<u8>> {
        let word = self.0.next()?;
        if word == "-" {
            return Some(Vec::new());
        }
        let row: Vec<u8> = word.split(',').map(number).collect::<Option<_>>()?;
        (row.len() <= LONGEST_ROW).then_some(row)
    }

    /// The next word as a number of bytes that a row may have.
    pub fn row_length(&mut self) -> Option<usize> {
        self.number().filter(|length| *length <= LONGEST_ROW)
    }

    /// Whether no word is left.
    pub fn is_empty(&mut self) -> bool {
        self.0.peek().is_none()
    }

    /// `thing`, where no word is left.
    pub fn end<T>(mut self, thing: T) -> Option<T> {
        self.is_empty().then_some(thing)
    }
}

/// The number that `word` writes in decimal digits.
fn number<N: FromStr>(word: &str) -> Option<N> {
    let digits = !word.is_empty() && word.bytes().all(|byte| byte.is_ascii_digit());
    digits.then(|| word.parse().ok()).flatten()
}

#[cfg(test)]
mod tests {
    use super::Words;

    fn number(word: &str) -> Option<u32> {
        Words::of(word.as_bytes())?.number()
    }

    #[test]
    fn a_number_is_digits_that_its_type_can_hold() {
        assert_eq!(number("0007"), Some(7));
        assert_eq!(number("4294967295"), Some(u32::MAX));
        for word in ["4294967296", "+7", "-7", "", "7.", "x", "\u{661}"] {
            assert_eq!(number(word), None, "{word}");
        }
    }

    #[test]
    fn a_row_has_at_most_sixteen_bytes() {
        let row = |word: &str| Words::of(word.as_bytes())?.row();
        assert_eq!(row("-"), Some(vec![]));
        assert_eq!(row("1,02,255"), Some(vec![1, 2, 255]));
        assert_eq!(row(&["9"; 16].join(",")), Some(vec![9; 16]));
        for word in [&["9"; 17].join(","), "256", "1,", ",1", "1,,2", "1,-", ""] {
            assert_eq!(row(word), None, "{word}");
        }
    }

    #[test]
    fn a_line_has_at_most_256_bytes() {
        assert!(Words::of(&[b'0'; 256]).is_some());
        assert!(Words::of(&[b'0'; 257]).is_none());
    }
}
