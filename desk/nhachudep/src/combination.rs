//! Which column of a connection breaks the combination that its control centre
//! asks for. That one does the library has said; this only looks which, to show
//! it.

use std::ops::Range;

use vdv::own_bytes;

use crate::latin::shown;
use crate::pointing::{own_size, read_number, Line};

const CENTRE: &str = "LEITSTELLENKENNUNG";

/// What is expected of a column.
#[derive(Clone, Copy, Debug, PartialEq, Eq)]
enum Expected {
    Zero,
    AboveZero,
    Empty,
    Filled,
}

/// "With LEITSTELLENKENNUNG 0, LinienID, RichtungsID and ASBID are empty, and
/// ZUB_LI_NR and ZUB_ORT_REF_ORT lie above 0", as the columns stand in VDV 452.
const OWN: &[(&str, Expected)] = &[
    ("ZUB_LI_NR", Expected::AboveZero),
    ("ZUB_ORT_REF_ORT", Expected::AboveZero),
    ("LinienID", Expected::Empty),
    ("RichtungsID", Expected::Empty),
    ("ASBID", Expected::Empty),
];

/// "with 1 to 255 the three texts are filled, and ZUB_LI_NR, ZUB_LI_RI_NR and
/// ZUB_ORT_REF_ORT are 0".
const ANOTHER: &[(&str, Expected)] = &[
    ("ZUB_LI_NR", Expected::Zero),
    ("ZUB_LI_RI_NR", Expected::Zero),
    ("ZUB_ORT_REF_ORT", Expected::Zero),
    ("LinienID", Expected::Filled),
    ("RichtungsID", Expected::Filled),
    ("ASBID", Expected::Filled),
];

impl Expected {
    fn is_met(self, field: &[u8]) -> bool {
        match self {
            Expected::Zero => read_number(field) == Some(0),
            Expected::AboveZero => read_number(field).is_some_and(|number| number > 0),
            Expected::Empty => own_size(field) == Some(0),
            Expected::Filled => own_size(field).is_some_and(|size| size > 0),
        }
    }

    fn in_words(self) -> &'static str {
        match self {
            Expected::Zero => "0",
            Expected::AboveZero => "a number above 0",
            Expected::Empty => "an empty text",
            Expected::Filled => "a text",
        }
    }
}

/// The first column that is not as the combination asks.
#[derive(Debug, PartialEq, Eq)]
pub struct Broken {
    /// Where it stands in the line.
    pub part: Range<usize>,
    column: &'static str,
    found: String,
    expected: Expected,
    centre: i64,
}

impl Broken {
    pub fn of(line: &Line<'_>) -> Option<Broken> {
        let centre = read_number(&line.content[line.field_named(CENTRE)?])?;
        let expected = if centre == 0 { OWN } else { ANOTHER };
        expected.iter().find_map(|&(column, expected)| {
            let part = line.field_named(column)?;
            let field = &line.content[part.clone()];
            (!expected.is_met(field)).then(|| Broken {
                found: as_found(field),
                part,
                column,
                expected,
                centre,
            })
        })
    }

    pub fn notes(&self) -> Vec<String> {
        let (column, found, expected) = (self.column, &self.found, self.expected.in_words());
        let rule = match self.centre {
            0 => {
                "(own control centre), LinienID, RichtungsID and ASBID are empty, and ZUB_LI_NR \
                 and ZUB_ORT_REF_ORT lie above 0"
            }
            _ => {
                "(another control centre), LinienID, RichtungsID and ASBID are filled, and \
                 ZUB_LI_NR, ZUB_LI_RI_NR and ZUB_ORT_REF_ORT are 0"
            }
        };
        vec![
            format!("{column} stands here, and is {found}; {expected} is expected"),
            format!("with {CENTRE} {} {rule}", self.centre),
        ]
    }
}

/// A field as it is told of: a text without the spaces at its end.
fn as_found(field: &[u8]) -> String {
    let text = field.strip_prefix(b"\"");
    let text = text.and_then(|text| text.strip_suffix(b"\""));
    match text.map(<[u8]>::trim_ascii_end) {
        None => shown(field),
        Some(b"") => "empty".to_owned(),
        Some(text) => format!("\"{}\"", shown(&own_bytes(text))),
    }
}

#[cfg(test)]
mod tests {
    use super::*;
    use crate::arrangement::Standing;
    use vdv::tables::CONNECTIONS;

    const OWN_RULE: &str = "with LEITSTELLENKENNUNG 0 (own control centre), LinienID, \
        RichtungsID and ASBID are empty, and ZUB_LI_NR and ZUB_ORT_REF_ORT lie above 0";

    fn line<'a>(atr: &[&str], content: &'a str) -> Line<'a> {
        let atr = format!("atr; {}", atr.join("; "));
        Line {
            content: content.as_bytes(),
            number: vdv::number::COMBINATION,
            table: Some(&CONNECTIONS),
            standing: Standing::of(&CONNECTIONS, atr.as_bytes()),
            is_among_records: true,
            latin: true,
            lost: &[],
        }
    }

    fn names() -> Vec<&'static str> {
        let columns = CONNECTIONS.columns.iter();
        columns.map(|column| column.name).collect()
    }

    /// A connection with these in LEITSTELLENKENNUNG, the feeder's three numbers
    /// and its three texts.
    fn connection(centre: &str, numbers: &str, texts: &str) -> String {
        format!("rec; 7; 1; \"\"; \"\"; {centre}; {numbers}; ; ; ; {texts}; 5; 0; 9; ; ; ")
    }

    /// What is pointed at, and what is said of it.
    fn broken(centre: &str, numbers: &str, texts: &str) -> Option<(String, Vec<String>)> {
        let content = connection(centre, numbers, texts);
        let broken = Broken::of(&line(&names(), &content))?;
        Some((content[broken.part.clone()].to_owned(), broken.notes()))
    }

    #[test]
    fn the_own_control_centre() {
        let none = "\"\"; \" \"; \"\"";
        for numbers in ["12; 0; 117", "12; 2; 117", "0012; 1; 1"] {
            assert_eq!(broken("0", numbers, none), None);
        }
        for (numbers, texts, part, said) in [
            (
                "0; 1; 117",
                none,
                "0",
                "ZUB_LI_NR stands here, and is 0; a number above 0",
            ),
            (
                "12; 1; -0",
                none,
                "-0",
                "ZUB_ORT_REF_ORT stands here, and is -0; a number above 0",
            ),
            (
                "12; 1; 7",
                "\"S1  \"; \"\"; \"\"",
                "\"S1  \"",
                "LinienID stands here, and is \"S1\"; an empty text",
            ),
            (
                "12; 1; 7",
                "\"\"; \"\"\"\"; \"\"",
                "\"\"\"\"",
                "RichtungsID stands here, and is \"\"\"; an empty text",
            ),
            (
                "0; 0; 0",
                "\"S1\"; \"H\"; \"B1\"",
                "0",
                "ZUB_LI_NR stands here, and is 0; a number above 0",
            ),
        ] {
            let (pointed, notes) = broken("00", numbers, texts).unwrap();
            assert_eq!(pointed, part);
            assert_eq!(notes, [format!("{said} is expected"), OWN_RULE.to_owned()]);
        }
    }

    #[test]
    fn another_control_centre() {
        let all = "\"S1\"; \"H\"; \"B1\"";
        assert_eq!(broken("255", "0; 0; 0", all), None);
        for (numbers, texts, said) in [
            ("12; 0; 0", all, "ZUB_LI_NR stands here, and is 12; 0"),
            ("0; 2; 0", all, "ZUB_LI_RI_NR stands here, and is 2; 0"),
            (
                "0; 0; 117",
                all,
                "ZUB_ORT_REF_ORT stands here, and is 117; 0",
            ),
            (
                "0; 0; 0",
                "\"\"; \"H\"; \"B1\"",
                "LinienID stands here, and is empty; a text",
            ),
            (
                "0; 0; 0",
                "\"S1\"; \"H\"; \"   \"",
                "ASBID stands here, and is empty; a text",
            ),
        ] {
            let (_, notes) = broken("17", numbers, texts).unwrap();
            assert_eq!(notes[0], format!("{said} is expected"));
            assert_eq!(
                notes[1],
                "with LEITSTELLENKENNUNG 17 (another control centre), LinienID, RichtungsID and \
                 ASBID are filled, and ZUB_LI_NR, ZUB_LI_RI_NR and ZUB_ORT_REF_ORT are 0"
            );
        }
    }

    /// The first is the first in VDV 452, wherever it stands in the file.
    #[test]
    fn columns_in_the_sender_s_order() {
        let mut reversed = names();
        reversed.reverse();
        let content =
            "rec; ; ; ; 9; 0; 5; \"B1\"; \"\"; \"S1\"; ; ; ; 0; 1; 0; 0; \"\"; \"\"; 1; 7";
        let line = line(&reversed, content);
        let broken = Broken::of(&line).unwrap();
        assert_eq!(broken.part, 48..49);
        assert_eq!(broken.column, "ZUB_LI_NR");
        assert_eq!(line.parts(), [broken.part]);
    }
}
