//! Marks: the comments that say whose a text is.

use crate::fields::Text;
use crate::lines::Part;

const WORD: &[u8] = b"SUGGESTED ";

#[derive(Clone, Copy, Debug, PartialEq, Eq)]
pub enum Comment {
    Ordinary,
    /// A mark that names the field at this place of the file, from 1.
    Mark(usize),
    Unreadable,
}

impl Comment {
    /// "A `com` line whose trimmed rest is one closed text beginning
    /// `SUGGESTED ` is a mark; any other is an ordinary comment."
    pub fn read(rest: Part<'_>) -> Comment {
        let Some(text) = Text::read(rest.trimmed()) else {
            return Comment::Ordinary;
        };
        match text.stored().strip_prefix(WORD) {
            None => Comment::Ordinary,
            Some(digits) => field_number(digits).map_or(Comment::Unreadable, Comment::Mark),
        }
    }
}

/// "the field number, without leading zeros, and nothing more". No table has
/// a field of more than two digits, so a number too great for `usize` names
/// none, as an unreadable one does: both are 15.
fn field_number(digits: &[u8]) -> Option<usize> {
    if digits.is_empty() || digits[0] == b'0' {
        return None;
    }
    digits.iter().try_fold(0usize, |number, &b| {
        let digit = b.is_ascii_digit().then(|| usize::from(b - b'0'))?;
        number.checked_mul(10)?.checked_add(digit)
    })
}

/// The marks that wait for the next `rec`: the fields of document 01's table
/// that they speak of, and the place that the last of them named.
#[derive(Clone, Copy, Debug, Default, PartialEq, Eq)]
pub struct Marks {
    bits: u32,
    last: usize,
}

impl Marks {
    pub fn is_empty(self) -> bool {
        self.bits == 0
    }

    pub fn has(self, field: usize) -> bool {
        self.bits >> field & 1 == 1
    }

    /// "Several marks of one record rise strictly", and "A mark's number counts
    /// in the file's own order": false if this place does not lie behind those
    /// that wait. The field that stands there is one of the table's.
    pub fn add(&mut self, place: usize, field: usize) -> bool {
        if place <= self.last {
            return false;
        }
        self.last = place;
        self.bits |= 1 << field;
        true
    }
}

#[cfg(test)]
mod tests {
    use super::*;

    fn read(rest: &[u8]) -> Comment {
        Comment::read(Part { at: 0, bytes: rest })
    }

    #[test]
    fn marks() {
        assert_eq!(read(b" \"SUGGESTED 3\""), Comment::Mark(3));
        assert_eq!(read(b"\"SUGGESTED 12\"  "), Comment::Mark(12));
    }

    #[test]
    fn ordinary_comments() {
        for rest in [
            &b""[..],
            b" SUGGESTED 3",
            b" \"SUGGESTED 3",
            b" SUGGESTED 3\"",
            b" \"SUGGESTED 3\" x",
            b" \"SUGGESTED 3\"; \"x\"",
            b" \"SUGGESTED\"",
            b" \"suggested 3\"",
            b" \" SUGGESTED 3\"",
            b" \"\"SUGGESTED 3\"\"",
            b" \"SUGGESTED3\"",
        ] {
            assert_eq!(read(rest), Comment::Ordinary, "{}", rest.escape_ascii());
        }
    }

    #[test]
    fn unreadable_marks() {
        for rest in [
            &b"\"SUGGESTED \""[..],
            b"\"SUGGESTED 03\"",
            b"\"SUGGESTED 0\"",
            b"\"SUGGESTED 3 \"",
            b"\"SUGGESTED  3\"",
            b"\"SUGGESTED -3\"",
            b"\"SUGGESTED x\"",
            b"\"SUGGESTED 3;\"",
            b"\"SUGGESTED \"\"3\"\"\"",
            b"\"SUGGESTED 18446744073709551619\"",
            b"\"SUGGESTED 4294967299000000000000000000000003\"",
        ] {
            assert_eq!(read(rest), Comment::Unreadable, "{}", rest.escape_ascii());
        }
    }

    #[test]
    fn rising() {
        let mut marks = Marks::default();
        assert!(marks.add(2, 4) && marks.add(3, 1));
        assert!(!marks.add(3, 1) && !marks.add(1, 3));
        assert!(marks.has(4) && marks.has(1) && !marks.has(2) && !marks.has(3));
    }
}
