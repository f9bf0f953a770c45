//! What the calls hand back. Refusals and rows have the layout of the C
//! boundary, so that lent rows pass through it as they are.

use std::error::Error;
use std::fmt::{self, Display, Formatter};

use crate::number;

/// "file over 16,777,216 bytes" is refused by 1; a form over it by 21.
pub const LIMIT: usize = 16_777_216;

/// Cells a value takes: its kind, its number or first place, 0 or the place
/// after it; of a missing number the last two are 0.
pub const CELLS: usize = 3;

/// A number and its place: section from 1, 0 for header and trailer, and line.
/// Number 0 means sound.
#[repr(C)]
#[derive(Clone, Copy, Debug, Default, PartialEq, Eq)]
pub struct Refusal {
    pub number: u32,
    pub section: usize,
    pub line: usize,
}

impl Refusal {
    pub const SOUND: Refusal = Refusal::placeless(number::SOUND);

    pub const fn new(number: u32, section: usize, line: usize) -> Refusal {
        Refusal {
            number,
            section,
            line,
        }
    }

    /// "1, 21 to 24 and a fill's 11, 4 and 13 have 0 and 0."
    pub const fn placeless(number: u32) -> Refusal {
        Refusal::new(number, 0, 0)
    }

    pub const fn is_sound(self) -> bool {
        self.number == number::SOUND
    }
}

/// `refused with 13 at section 2, line 5: number out of range, or text over its
/// size`; header and trailer are places too, and the number may have none.
impl Display for Refusal {
    fn fmt(&self, out: &mut Formatter<'_>) -> fmt::Result {
        let Refusal {
            number,
            section,
            line,
        } = self;
        let words = number::in_words(*number);
        match (*number, *section) {
            (number::SOUND, _) => write!(out, "{words}"),
            (number::HEADER, 0) => write!(out, "refused with 2 at header, line {line}: {words}"),
            (number::TRAILER, 0) => write!(out, "refused with 3 at trailer, line {line}: {words}"),
            (_, 0) => write!(out, "refused with {number}: {words}"),
            _ => write!(
                out,
                "refused with {number} at section {section}, line {line}: {words}"
            ),
        }
    }
}

impl Error for Refusal {}

/// "one row a section with table number, place, length, record count and
/// verdict"; the verdict stands with its line.
#[repr(C)]
#[derive(Clone, Copy, Debug, Default, PartialEq, Eq)]
pub struct Row {
    /// 0 if the `tbl` line fails.
    pub table: u32,
    /// The section's first byte, from 0.
    pub place: usize,
    pub length: usize,
    pub records: usize,
    pub verdict: u32,
    pub line: usize,
}

impl Row {
    pub const fn is_sound(self) -> bool {
        self.verdict == number::SOUND
    }

    pub fn span(self) -> Span {
        Span {
            from: self.place,
            to: self.place + self.length,
        }
    }
}

/// Section, record and field, each from 1.
#[derive(Clone, Copy, Debug, PartialEq, Eq)]
pub struct At {
    pub section: usize,
    pub record: usize,
    /// The column's number in VDV 452's table, wherever the file's `atr` has
    /// it, and whatever number a mark in the file gives it.
    pub field: usize,
}

impl At {
    pub const fn new(section: usize, record: usize, field: usize) -> At {
        At {
            section,
            record,
            field,
        }
    }
}

/// Bytes of the file, up to before the last place.
#[derive(Clone, Copy, Debug, Default, PartialEq, Eq)]
pub struct Span {
    pub from: usize,
    pub to: usize,
}

impl Span {
    /// The span's bytes; nothing if it does not lie within the file.
    pub fn of(self, file: &[u8]) -> &[u8] {
        file.get(self.from..self.to).unwrap_or_default()
    }
}

#[derive(Clone, Copy, Debug, Default, PartialEq, Eq)]
pub struct Date {
    pub year: u64,
    pub month: u64,
    pub day: u64,
}

#[derive(Clone, Copy, Debug, Default, PartialEq, Eq)]
pub struct Time {
    pub hour: u64,
    pub minute: u64,
    pub second: u64,
}

/// "the texts, date, time and character set, not the mode or the date's form";
/// texts by their bytes between the quotes.
#[derive(Clone, Copy, Debug, Default, PartialEq, Eq)]
pub struct Header {
    pub source: Span,
    pub date: Date,
    pub time: Time,
    /// ISO8859-1, else ASCII.
    pub latin: bool,
    pub ver: Span,
    pub ifv: Span,
    pub dve: Option<Span>,
    pub fft: Option<Span>,
}

/// "Each text handed out says whose it is: the operator's, or a suggestion."
#[derive(Clone, Copy, Debug, PartialEq, Eq)]
pub enum Owner {
    Operator,
    Suggestion,
}

/// "a record's value is from now on a number, a missing number or a text with
/// its owner".
#[derive(Clone, Copy, Debug, PartialEq, Eq)]
pub enum Value {
    /// In a column of days a Gregorian day, year, month and day as YYYYMMDD.
    Number(u64),
    /// An empty field of a column whose number may be missing. It is not 0.
    Missing,
    /// What stands between the quotes, doubled quotes still doubled, up to
    /// the spaces at its end.
    Text { span: Span, owner: Owner },
}

impl Value {
    /// Kind 0 is a number, 1 the operator's text, 2 a suggestion, 3 a missing
    /// number.
    pub fn cells(self) -> [u64; CELLS] {
        match self {
            Value::Number(number) => [0, number, 0],
            Value::Missing => [3, 0, 0],
            Value::Text { span, owner } => {
                let kind = match owner {
                    Owner::Operator => 1,
                    Owner::Suggestion => 2,
                };
                [kind, span.from as u64, span.to as u64]
            }
        }
    }
}

/// A text's own bytes in lent room: how many they are, and whose the text is.
#[derive(Clone, Copy, Debug, PartialEq, Eq)]
pub struct Copied {
    pub length: usize,
    pub owner: Owner,
}

/// The value that three cells stand for.
///
/// ```
/// assert_eq!(vdv::value_in(&[0, 0, 0]), Some(vdv::Value::Number(0)));
/// assert_eq!(vdv::value_in(&[3, 0, 0]), Some(vdv::Value::Missing));
/// ```
pub fn value_in(cells: &[u64]) -> Option<Value> {
    let &[kind, from, to] = cells else {
        return None;
    };
    let span = || -> Option<Span> {
        Some(Span {
            from: usize::try_from(from).ok()?,
            to: usize::try_from(to).ok()?,
        })
    };
    let owner = match kind {
        0 => return Some(Value::Number(from)),
        1 => Owner::Operator,
        2 => Owner::Suggestion,
        3 => return Some(Value::Missing),
        _ => return None,
    };
    Some(Value::Text {
        span: span()?,
        owner,
    })
}

/// What a text's stored bytes say: "a doubled quote inside stands for one".
pub fn own_bytes(stored: &[u8]) -> Vec<u8> {
    let mut bytes = Vec::with_capacity(stored.len());
    let mut after_quote = false;
    for &byte in stored {
        let second = after_quote && byte == b'"';
        after_quote = byte == b'"' && !second;
        if !second {
            bytes.push(byte);
        }
    }
    bytes
}

#[cfg(test)]
mod tests {
    use super::*;

    #[test]
    fn refusals_in_words() {
        let words = |number, section, line| Refusal::new(number, section, line).to_string();
        assert_eq!(
            words(13, 2, 5),
            "refused with 13 at section 2, line 5: number out of range, or text over its size"
        );
        assert_eq!(
            words(2, 0, 3),
            "refused with 2 at header, line 3: header breaks a rule"
        );
        assert_eq!(
            words(3, 0, 0),
            "refused with 3 at trailer, line 0: trailer breaks a rule"
        );
        assert_eq!(
            words(26, 3, 4),
            "refused with 26 at section 3, line 4: no such day"
        );
        assert_eq!(words(21, 0, 0), "refused with 21: no room");
        assert_eq!(Refusal::SOUND.to_string(), "sound");
    }

    #[test]
    fn doubled_quotes_stand_for_one() {
        assert_eq!(own_bytes(b"Bake \"\"1\"\""), b"Bake \"1\"");
        assert_eq!(own_bytes(b"\"\"\"\""), b"\"\"");
        assert_eq!(own_bytes(b""), b"");
    }

    #[test]
    fn cells_and_back() {
        let span = Span { from: 7, to: 9 };
        for value in [
            Value::Number(81_890),
            Value::Missing,
            Value::Text {
                span,
                owner: Owner::Operator,
            },
            Value::Text {
                span,
                owner: Owner::Suggestion,
            },
        ] {
            assert_eq!(value_in(&value.cells()), Some(value));
        }
        assert_eq!(value_in(&[4, 0, 0]), None);
        assert_eq!(value_in(&[0, 0]), None);
    }

    #[test]
    fn a_span_beyond_the_file_has_no_bytes() {
        assert_eq!(Span { from: 1, to: 3 }.of(b"abc"), b"bc");
        assert_eq!(Span { from: 1, to: 4 }.of(b"abc"), b"");
        assert_eq!(Span { from: 2, to: 1 }.of(b"abc"), b"");
    }
}
