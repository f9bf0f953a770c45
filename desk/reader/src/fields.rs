//! Fields: separation, texts and numbers.

use std::borrow::Cow;
use std::ops::Range;

use crate::lines::Part;

/// The trimmed fields of what follows a command's `;`. k separating `;` make
/// k fields, so there is always one.
pub struct Fields<'a> {
    rest: Option<Part<'a>>,
}

impl<'a> Fields<'a> {
    pub fn of(rest: Part<'a>) -> Fields<'a> {
        Fields { rest: Some(rest) }
    }

    /// The field, if there is exactly one.
    pub fn only(rest: Part<'a>) -> Option<Part<'a>> {
        let mut fields = Fields::of(rest);
        let field = fields.next();
        if fields.next().is_some() {
            return None;
        }
        field
    }

    /// All fields, if there are exactly N.
    pub fn exactly<const N: usize>(rest: Part<'a>) -> Option<[Part<'a>; N]> {
        let mut found = [rest; N];
        let mut fields = Fields::of(rest);
        for slot in &mut found {
            *slot = fields.next()?;
        }
        fields.next().is_none().then_some(found)
    }
}

impl<'a> Iterator for Fields<'a> {
    type Item = Part<'a>;

    fn next(&mut self) -> Option<Part<'a>> {
        let rest = self.rest.take()?;
        let mut inside = false;
        for (i, &byte) in rest.bytes.iter().enumerate() {
            match byte {
                b'"' => inside = !inside,
                b';' if !inside => {
                    self.rest = Some(rest.slice(i + 1..rest.bytes.len()));
                    return Some(rest.slice(0..i).trimmed());
                }
                _ => {}
            }
        }
        Some(rest.trimmed())
    }
}

/// A closed quoted string: what stands between its quotes, as stored.
#[derive(Clone, Copy, Debug, PartialEq, Eq)]
pub struct Text<'a> {
    inner: Part<'a>,
    doubled: usize,
}

impl<'a> Text<'a> {
    /// "A text field is one closed quoted string with nothing beside it".
    pub(crate) fn read(field: Part<'a>) -> Option<Text<'a>> {
        let length = field.bytes.len();
        if length < 2 || field.bytes[0] != b'"' || field.bytes[length - 1] != b'"' {
            return None;
        }
        let inner = field.slice(1..length - 1);
        let mut doubled = 0;
        let mut bytes = inner.bytes.iter();
        while let Some(&byte) = bytes.next() {
            if byte == b'"' {
                if bytes.next() != Some(&b'"') {
                    return None;
                }
                doubled += 1;
            }
        }
        Some(Text { inner, doubled })
    }

    /// "Spaces at the end of a text in a record no longer belong to it."
    pub(crate) fn unpadded(self) -> Text<'a> {
        let inner = self.inner.slice(0..unpadded(self.inner.bytes).len());
        Text { inner, ..self }
    }

    /// As it stands between the quotes, doubled quotes still doubled.
    pub fn stored(&self) -> &'a [u8] {
        self.inner.bytes
    }

    pub fn span(&self) -> Range<usize> {
        self.inner.span()
    }

    /// "a doubled quote counting once".
    pub fn size(&self) -> usize {
        self.inner.bytes.len() - self.doubled
    }

    pub fn is_empty(&self) -> bool {
        self.inner.bytes.is_empty()
    }

    /// The text's own bytes, one at a time.
    pub fn own_bytes(&self) -> impl Iterator<Item = u8> + 'a {
        let mut after_quote = false;
        self.inner.bytes.iter().copied().filter(move |&byte| {
            let second = after_quote && byte == b'"';
            after_quote = byte == b'"' && !second;
            !second
        })
    }

    /// The text with its doubled quotes undone; borrowed if it has none.
    pub fn undone(&self) -> Cow<'a, [u8]> {
        if self.doubled == 0 {
            Cow::Borrowed(self.inner.bytes)
        } else {
            Cow::Owned(self.own_bytes().collect())
        }
    }
}

/// A text without the spaces at its end.
pub(crate) fn unpadded(text: &[u8]) -> &[u8] {
    let end = text.iter().rposition(|&byte| byte != b' ');
    &text[..end.map_or(0, |last| last + 1)]
}

/// "A number is an optional `-` and 1 to 18 digits, leading zeros allowed".
pub fn read_number(field: &[u8]) -> Option<i64> {
    let (negative, digits) = match field.strip_prefix(b"-") {
        Some(digits) => (true, digits),
        None => (false, field),
    };
    if digits.is_empty() || digits.len() > 18 {
        return None;
    }
    let mut value = 0;
    for &digit in digits {
        if !digit.is_ascii_digit() {
            return None;
        }
        value = value * 10 + i64::from(digit - b'0');
    }
    Some(if negative { -value } else { value })
}

#[cfg(test)]
mod tests {
    use super::*;

    fn part(bytes: &[u8]) -> Part<'_> {
        Part { at: 0, bytes }
    }

    fn split(rest: &[u8]) -> Vec<&[u8]> {
        Fields::of(part(rest)).map(|f| f.bytes).collect()
    }

    fn undone(field: &[u8]) -> Option<Vec<u8>> {
        Text::read(part(field)).map(|t| t.undone().into_owned())
    }

    #[test]
    fn as_many_fields_as_separators() {
        assert_eq!(split(b""), [b""]);
        assert_eq!(split(b"0;"), [&b"0"[..], b""]);
        assert_eq!(split(b" 7 ; 1; "), [&b"7"[..], b"1", b""]);
    }

    #[test]
    fn a_quote_hides_separators_until_the_next() {
        assert_eq!(split(b" \"a;b\" ; c"), [&b"\"a;b\""[..], b"c"]);
        assert_eq!(split(b"\"a; 1; 2"), [b"\"a; 1; 2"]);
    }

    #[test]
    fn row_3_a_doubled_quote_stands_for_one() {
        assert_eq!(
            undone(b"\"Bake \"\"1\"\"\"").as_deref(),
            Some(&b"Bake \"1\""[..])
        );
        let text = Text::read(part(b"\"Bake \"\"1\"\"\"")).unwrap();
        assert_eq!(text.size(), 8);
    }

    #[test]
    fn closed_texts() {
        assert_eq!(undone(b"\"\"").as_deref(), Some(&b""[..]));
        assert_eq!(undone(b"\"\"\"\"").as_deref(), Some(&b"\""[..]));
        assert_eq!(undone(b"\"a\"\"\"\"b\"").as_deref(), Some(&b"a\"\"b"[..]));
    }

    #[test]
    fn padding_does_not_belong_to_a_records_text() {
        for (field, own, span) in [
            (&b"\"HP \""[..], &b"HP"[..], 1..3),
            (b"\" HP\"", b" HP", 1..4),
            (b"\"   \"", b"", 1..1),
            (b"\"\"", b"", 1..1),
            (b"\"a\"\"  \"", b"a\"", 1..4),
        ] {
            let text = Text::read(part(field)).unwrap().unpadded();
            assert_eq!(text.undone().as_ref(), own);
            assert_eq!(text.span(), span);
            assert_eq!(text.size(), own.len());
        }
    }

    #[test]
    fn not_texts() {
        for field in [
            &b""[..],
            b"\"",
            b"\"\"\"",
            b"\"a",
            b"a\"",
            b"\"a\"b",
            b"b\"a\"",
            b"\"a\" \"b\"",
            b"\"a\"\"",
            b"7",
        ] {
            assert_eq!(undone(field), None, "{}", field.escape_ascii());
        }
    }

    #[test]
    fn numbers() {
        assert_eq!(read_number(b"0004"), Some(4));
        assert_eq!(read_number(b"-0"), Some(0));
        assert_eq!(read_number(b"-00012"), Some(-12));
        assert_eq!(read_number(&[b'9'; 18]), Some(999_999_999_999_999_999));
        assert_eq!(read_number(&[b'0'; 19]), None);
        for field in [
            &b""[..],
            b"-",
            b"+1",
            b"- 1",
            b"1.0",
            b"--1",
            b"1 2",
            b"\"1\"",
        ] {
            assert_eq!(read_number(field), None, "{}", field.escape_ascii());
        }
    }
}
