//! What a refusal's number leaves open: which column stands at the place, and
//! what it asks. A column is called by its name, for its number in the file's
//! own order need not be that in VDV 452's table.

use vdv::number;
use vdv::tables::{Column, Kind};

use crate::arrangement::Standing;
use crate::combination::Broken;
use crate::days;
use crate::lines::{fields, rest};
use crate::pointing::Line;

/// Digits that a number has at most.
const DIGITS: usize = 18;

pub fn notes(line: &Line<'_>) -> Vec<String> {
    match line.number {
        number::ATR => line.flaws().map_or(Vec::new(), |flaws| flaws.notes()),
        number::FRM => explain_format(line).into_iter().collect(),
        number::NOT_A_TEXT | number::NOT_A_NUMBER | number::RANGE if line.has_command(b"rec") => {
            explain_field(line).unwrap_or_default()
        }
        number::NO_SUCH_DAY => explain_day(line).unwrap_or_default(),
        number::MARK => explain_mark(line),
        number::COMBINATION => Broken::of(line).map_or(Vec::new(), |broken| broken.notes()),
        _ => Vec::new(),
    }
}

fn explain_field(line: &Line<'_>) -> Option<Vec<String>> {
    let place = line.odd_place()?;
    let column = line.standing.as_ref()?.column_at(place)?;
    let (name, is_empty) = (column.name, line.field(place)?.is_empty());
    let asked = match column.kind {
        Kind::Number { low, high } | Kind::Day { low, high } => {
            format!("a number from {low} to {high}")
        }
        Kind::Text { size } => format!("a text of up to {size} bytes"),
    };
    let empty = explain_empty(column, is_empty);
    let mut notes = vec![format!("{name} stands here, {asked}{empty}")];
    if column.is_day() {
        notes.push(days::EXPECTED.to_owned());
    }
    Some(notes)
}

fn explain_day(line: &Line<'_>) -> Option<Vec<String>> {
    let place = line.odd_place()?;
    let column = line.standing.as_ref()?.column_at(place)?;
    days::notes(column.name, &line.content[line.field(place)?])
}

/// What an empty field means in a column, or that it means nothing there.
fn explain_empty(column: &Column, is_empty: bool) -> &'static str {
    match (column.is_text(), column.may_be_missing, is_empty) {
        (false, true, _) => "; for a missing number the field is left empty",
        (false, false, true) => ", and may not be left out",
        (true, _, true) => "; an empty text is `\"\"`",
        _ => "",
    }
}

/// "`frm` with one format a column", as the columns stand.
fn explain_format(line: &Line<'_>) -> Option<String> {
    let standing = line.standing.as_ref()?;
    let count = fields(line.content).len();
    let Some(place) = line.odd_place() else {
        let column = standing.column_at(count + 1)?;
        return Some(format!("no format of {}", expect_format(column)));
    };
    Some(match standing.column_at(place) {
        Some(column) => format!("format of {}", expect_format(column)),
        None => {
            let (table, width) = (standing.table.name, standing.table.columns.len());
            format!("{table} has {width} columns, and {count} formats stand here")
        }
    })
}

/// "A format is `num[n.0]` or `char[n]` as the column's kind asks, n from 1 to
/// 255 without leading zeros."
fn expect_format(column: &Column) -> String {
    let format = match column.kind {
        Kind::Number { .. } | Kind::Day { .. } => "num[n.0]",
        Kind::Text { .. } => "char[n]",
    };
    format!("{}: {format} is expected, n from 1 to 255", column.name)
}

fn explain_mark(line: &Line<'_>) -> Vec<String> {
    if line.has_command(b"end") {
        return vec!["the mark before it speaks of no record".to_owned()];
    }
    if !line.is_among_records {
        return vec!["a mark stands behind `frm` and before `end`".to_owned()];
    }
    let Some(standing) = line.standing.as_ref() else {
        return Vec::new();
    };
    if line.has_command(b"rec") {
        let marked = standing.markable().into_iter();
        return marked
            .map(|(column, _)| format!("{} is marked, and empty", column.name))
            .collect();
    }
    match rest(line.content).and_then(mark_number) {
        None => {
            vec!["after `SUGGESTED ` comes a number without leading zeros, and no more".to_owned()]
        }
        Some(number) => explain_number(standing, number),
    }
}

/// "A mark's number counts in the file's own order."
fn explain_number(standing: &Standing, number: usize) -> Vec<String> {
    let markable = standing.markable();
    if markable.is_some_and(|(_, place)| place == number) {
        let words = "the marks of one record rise: this one is no higher than the last";
        return vec![words.to_owned()];
    }
    let (table, width) = (standing.table.name, standing.table.columns.len());
    let named = match standing.column_at(number) {
        None => format!("{table} has {width} columns, and the mark counts to {number}"),
        Some(column) => {
            let (name, place) = (column.name, ordinal(number));
            format!("{name} stands {place} in this `atr`, and may not be marked")
        }
    };
    let allowed = match markable {
        None => format!("no column of {table} may be marked"),
        Some((column, place)) => {
            let (name, place) = (column.name, ordinal(place));
            format!("only {name} may be marked, which stands {place}")
        }
    };
    vec![named, allowed]
}

/// The number of a mark that can be read.
fn mark_number(rest: &[u8]) -> Option<usize> {
    let digits = rest.strip_prefix(b"\"SUGGESTED ")?.strip_suffix(b"\"")?;
    let is_number = digits.len() <= DIGITS && digits.iter().all(u8::is_ascii_digit);
    match (is_number, digits.first()) {
        (true, Some(b'1'..=b'9')) => std::str::from_utf8(digits).ok()?.parse().ok(),
        _ => None,
    }
}

/// `1st`, `2nd`, `11th`.
fn ordinal(number: usize) -> String {
    let end = match (number % 100, number % 10) {
        (11..=13, _) => "th",
        (_, 1) => "st",
        (_, 2) => "nd",
        (_, 3) => "rd",
        _ => "th",
    };
    format!("{number}{end}")
}

#[cfg(test)]
mod tests {
    use super::*;
    use vdv::tables;

    const DAYS: &str = "atr; TAGESART_TEXT; TAGESART_NR; BASIS_VERSION";

    fn line<'a>(atr: &str, content: &'a str, number: u32, table: u32) -> Line<'a> {
        let table = tables::numbered(table);
        Line {
            content: content.as_bytes(),
            number,
            table,
            standing: table.and_then(|table| Standing::of(table, atr.as_bytes())),
            is_among_records: true,
            latin: false,
            lost: &[],
        }
    }

    fn said(content: &str, number: u32) -> Vec<String> {
        notes(&line(DAYS, content, number, 290))
    }

    #[test]
    fn fields_are_called_by_the_column_that_stands_there() {
        let text = "TAGESART_TEXT stands here, a text of up to 40 bytes";
        let day_type = "TAGESART_NR stands here, a number from 1 to 999";
        let version = "BASIS_VERSION stands here, a number from 1 to 999999999";
        assert_eq!(said("rec; 7; 1; \"a\"", 11), [text]);
        assert_eq!(said("rec; \"a\"; x; 7", 12), [day_type]);
        assert_eq!(said("rec; \"a\"; 1; 0", 13), [version]);
        assert!(said("end; x", 12).is_empty());
    }

    #[test]
    fn what_is_left_out_is_said() {
        let number = "TAGESART_NR stands here, a number from 1 to 999, and may not be left out";
        assert_eq!(said("rec; \"a\"; ; 7", 12), [number]);
        let text = "TAGESART_TEXT stands here, a text of up to 40 bytes; an empty text is `\"\"`";
        assert_eq!(said("rec; ; 1; 7", 11), [text]);
    }

    /// An empty field there is none of the fields at fault.
    #[test]
    fn what_may_be_missing_is_said() {
        let names: Vec<&str> = tables::CONNECTIONS.columns.iter().map(|c| c.name).collect();
        let atr = format!("atr; {}", names.join("; "));
        let said = |fields: &str, number| {
            let content = format!("rec; 7; 1; \"\"; \"\"; 0; 12; 1; 5; ; {fields}");
            notes(&line(&atr, &content, number, 432))
        };
        let point = "ZUB_ORT_NR stands here, a number from 1 to 999999; for a missing number \
            the field is left empty";
        assert_eq!(said("0; ; \"\"; \"\"; \"\"; 5; 0; 5; ; ; ", 13), [point]);
        assert_eq!(said("x; ; \"\"; \"\"; \"\"; 5; 0; 5; ; ; ", 12), [point]);
        let number = "ABB_LI_NR stands here, a number from 1 to 999, and may not be left out";
        assert_eq!(said("; ; \"\"; \"\"; \"\"; ; 0; 5; ; ; ", 12), [number]);
        let zero = "ABB_ORT_REF_ORT stands here, a number from 1 to 999999";
        assert_eq!(said("; ; \"\"; \"\"; \"\"; 5; 0; 0; ; ; ", 13), [zero]);
    }

    #[test]
    fn days_are_told_how_they_are_written() {
        let atr = "atr; TAGESART_NR; BETRIEBSTAG; BETRIEBSTAG_TEXT; BASIS_VERSION";
        let said = |fields: &str, number| {
            let content = format!("rec; {fields}; \"\"; 7");
            notes(&line(atr, &content, number, 348))
        };
        let number = "BETRIEBSTAG stands here, a number from 1 to 99999999";
        assert_eq!(said("1; 0", 13), [number, days::EXPECTED]);
        assert_eq!(said("1; 100000000", 13), [number, days::EXPECTED]);
        assert_eq!(said("1; 29.02.2024", 12), [number, days::EXPECTED]);
        let missing = format!("{number}, and may not be left out");
        assert_eq!(said("1; ", 12), [&missing, days::EXPECTED]);
        let february = [
            "BETRIEBSTAG stands here, and is no day: 2023 has no 29 February",
            "20230229 reads as year 2023, month 2, day 29",
            days::EXPECTED,
        ];
        assert_eq!(said("1;20230229 ", 26), february);
        let day_type = "TAGESART_NR stands here, a number from 1 to 999";
        assert_eq!(said("1000; 20230229", 13), [day_type]);
        let format = "format of BETRIEBSTAG: num[n.0] is expected, n from 1 to 255";
        let formats = line(atr, "frm; num[3.0]; char[8]; char[40]; num[9.0]", 9, 348);
        assert_eq!(notes(&formats), [format]);
    }

    #[test]
    fn formats_are_those_of_the_columns_that_stand_there() {
        let number = "format of TAGESART_NR: num[n.0] is expected, n from 1 to 255";
        assert_eq!(said("frm; char[40]; num[3]; num[9.0]", 9), [number]);
        let text = "format of TAGESART_TEXT: char[n] is expected, n from 1 to 255";
        assert_eq!(said("frm; num[9.0]; num[3.0]; char[40]", 9), [text]);
        let missing = "no format of BASIS_VERSION: num[n.0] is expected, n from 1 to 255";
        assert_eq!(said("frm; char[40]; num[3.0]", 9), [missing]);
        let many = "MENGE_TAGESART has 3 columns, and 4 formats stand here";
        assert_eq!(
            said("frm; char[40]; num[3.0]; num[9.0]; num[9.0]", 9),
            [many]
        );
    }

    #[test]
    fn marks_count_in_the_file_s_own_order() {
        let only = "only TAGESART_TEXT may be marked, which stands 1st";
        assert_eq!(
            said("com; \"SUGGESTED 3\"", 15),
            [
                "BASIS_VERSION stands 3rd in this `atr`, and may not be marked",
                only
            ]
        );
        assert_eq!(
            said("com; \"SUGGESTED 4\"", 15),
            [
                "MENGE_TAGESART has 3 columns, and the mark counts to 4",
                only
            ]
        );
        let again = "the marks of one record rise: this one is no higher than the last";
        assert_eq!(said("com; \"SUGGESTED 1\"", 15), [again]);
        let validity = "atr; BASIS_VERSION; VER_GUELTIGKEIT";
        assert_eq!(
            notes(&line(validity, "com; \"SUGGESTED 2\"", 15, 993)),
            [
                "VER_GUELTIGKEIT stands 2nd in this `atr`, and may not be marked",
                "no column of BASIS_VER_GUELTIGKEIT may be marked"
            ]
        );
    }

    #[test]
    fn marks_that_speak_of_nothing() {
        let number = "after `SUGGESTED ` comes a number without leading zeros, and no more";
        for mark in ["x", "", "01", "1 ", "-1", "1234567890123456789", "\"\""] {
            let content = format!("com; \"SUGGESTED {mark}\"");
            assert_eq!(said(&content, 15), [number], "{mark}");
        }
        let empty = "TAGESART_TEXT is marked, and empty";
        assert_eq!(said("rec; \"\"; 1; 7", 15), [empty]);
        assert_eq!(
            said("end; 0", 15),
            ["the mark before it speaks of no record"]
        );
        let outside = Line {
            is_among_records: false,
            ..line(DAYS, "com; \"SUGGESTED 1\"", 15, 290)
        };
        assert_eq!(
            notes(&outside),
            ["a mark stands behind `frm` and before `end`"]
        );
    }

    #[test]
    fn ordinals() {
        let words = [1, 2, 3, 4, 11, 12, 13, 20, 21, 22, 23, 111]
            .map(ordinal)
            .join(" ");
        let expected = "1st 2nd 3rd 4th 11th 12th 13th 20th 21st 22nd 23rd 111th";
        assert_eq!(words, expected);
    }
}
