//! Why a number is no day. That it is none the library has said; this only looks
//! why, to say it.

use crate::latin::shown;
use crate::pointing::read_number;

/// "Gregorian dates from 00010101 to 99991231, the number's value read as
/// YYYYMMDD with leading zeros optional".
pub const EXPECTED: &str = "a day is YYYYMMDD, from 00010101 to 99991231, leading zeros optional";

/// The months and the days that each has, February where it has no 29th.
const MONTHS: [(&str, u64); 12] = [
    ("January", 31),
    ("February", 28),
    ("March", 31),
    ("April", 30),
    ("May", 31),
    ("June", 30),
    ("July", 31),
    ("August", 31),
    ("September", 30),
    ("October", 31),
    ("November", 30),
    ("December", 31),
];

const FEBRUARY: u64 = 2;

/// Days that the longest month has.
const LONGEST: u64 = 31;

pub fn is_day(field: &[u8]) -> bool {
    Parts::read(field).is_some_and(|parts| parts.flaw().is_none())
}

/// What is said of a field that is no day, in the column of this name.
pub fn notes(column: &str, field: &[u8]) -> Option<Vec<String>> {
    let parts = Parts::read(field)?;
    let (flaw, found) = (parts.flaw()?, shown(field));
    let Parts { year, month, day } = parts;
    Some(vec![
        format!("{column} stands here, and is no day: {flaw}"),
        format!("{found} reads as year {year}, month {month}, day {day}"),
        EXPECTED.to_owned(),
    ])
}

/// A number "read as YYYYMMDD", whether there is such a day or not.
#[derive(Clone, Copy, Debug, PartialEq, Eq)]
struct Parts {
    year: u64,
    month: u64,
    day: u64,
}

impl Parts {
    fn read(field: &[u8]) -> Option<Parts> {
        let number = u64::try_from(read_number(field)?).ok()?;
        Some(Parts {
            year: number / 10_000,
            month: number / 100 % 100,
            day: number % 100,
        })
    }

    /// Why there is no such day, if there is none.
    fn flaw(self) -> Option<String> {
        let Parts { year, month, day } = self;
        if year == 0 {
            return Some("there is no year 0".to_owned());
        }
        let Some((name, length)) = month_of(year, month) else {
            return Some(format!("there is no month {month}"));
        };
        match day {
            0 => Some("there is no day 0".to_owned()),
            _ if day <= length => None,
            _ if day <= LONGEST => Some(format!("{year:04} has no {day} {name}")),
            _ => Some(format!("{name} has no day {day}")),
        }
    }
}

/// A month's name and the days that it has in a year.
fn month_of(year: u64, month: u64) -> Option<(&'static str, u64)> {
    let index = usize::try_from(month.checked_sub(1)?).ok()?;
    let (name, days) = *MONTHS.get(index)?;
    let more = u64::from(month == FEBRUARY && is_leap(year));
    Some((name, days + more))
}

/// Whether February has a 29th in a year of the Gregorian calendar.
fn is_leap(year: u64) -> bool {
    year.is_multiple_of(4) && (!year.is_multiple_of(100) || year.is_multiple_of(400))
}

#[cfg(test)]
mod tests {
    use super::*;
    use crate::columns::wrapped;

    fn flaw(field: &str) -> Option<String> {
        Parts::read(field.as_bytes()).unwrap().flaw()
    }

    #[test]
    fn days() {
        for field in [
            "20240229",
            "20000229",
            "16000229",
            "40229",
            "20230228",
            "20230430",
            "20231231",
            "00010101",
            "10101",
            "000000000020240229",
            "99991231",
        ] {
            assert_eq!(flaw(field), None, "{field}");
            assert!(is_day(field.as_bytes()), "{field}");
            assert_eq!(notes("BETRIEBSTAG", field.as_bytes()), None, "{field}");
        }
    }

    #[test]
    fn days_that_their_month_does_not_have() {
        for (field, words) in [
            ("20230229", "2023 has no 29 February"),
            ("20230230", "2023 has no 30 February"),
            ("20230231", "2023 has no 31 February"),
            ("20240230", "2024 has no 30 February"),
            ("19000229", "1900 has no 29 February"),
            ("20230431", "2023 has no 31 April"),
            ("20230631", "2023 has no 31 June"),
            ("20230931", "2023 has no 31 September"),
            ("20231131", "2023 has no 31 November"),
            ("50229", "0005 has no 29 February"),
            ("99991232", "December has no day 32"),
            ("20230199", "January has no day 99"),
            ("20230232", "February has no day 32"),
        ] {
            assert_eq!(flaw(field).as_deref(), Some(words), "{field}");
            assert!(!is_day(field.as_bytes()), "{field}");
        }
    }

    #[test]
    fn numbers_that_are_none() {
        for (field, words) in [
            ("20231301", "there is no month 13"),
            ("20231300", "there is no month 13"),
            ("20230001", "there is no month 0"),
            ("20239931", "there is no month 99"),
            ("20230100", "there is no day 0"),
            ("20240200", "there is no day 0"),
            ("1", "there is no year 0"),
            ("100", "there is no year 0"),
            ("1231", "there is no year 0"),
            ("00000229", "there is no year 0"),
            ("9999", "there is no year 0"),
        ] {
            assert_eq!(flaw(field).as_deref(), Some(words), "{field}");
            assert!(!is_day(field.as_bytes()), "{field}");
        }
    }

    /// No guess at another way to write a day.
    #[test]
    fn what_a_number_reads_as() {
        for (field, flaw, reading) in [
            (
                "29022024",
                "there is no month 20",
                "29022024 reads as year 2902, month 20, day 24",
            ),
            (
                "0020230231",
                "2023 has no 31 February",
                "0020230231 reads as year 2023, month 2, day 31",
            ),
            (
                "230229",
                "0023 has no 29 February",
                "230229 reads as year 23, month 2, day 29",
            ),
            (
                "1231",
                "there is no year 0",
                "1231 reads as year 0, month 12, day 31",
            ),
        ] {
            let expected = [
                format!("BETRIEBSTAG stands here, and is no day: {flaw}"),
                reading.to_owned(),
                EXPECTED.to_owned(),
            ];
            assert_eq!(
                notes("BETRIEBSTAG", field.as_bytes()).as_deref(),
                Some(&expected[..])
            );
        }
    }

    /// Each year's days follow one another: 365 of them, or 366.
    #[test]
    fn a_year_s_days_are_counted() {
        let days = |year: u64| {
            let all = (0..10_000).map(|rest| (year * 10_000 + rest).to_string());
            all.filter(|field| is_day(field.as_bytes())).count()
        };
        for (year, count) in [
            (0, 0),
            (1, 365),
            (4, 366),
            (1900, 365),
            (2000, 366),
            (2023, 365),
            (2024, 366),
            (2100, 365),
            (9999, 365),
        ] {
            assert_eq!(days(year), count, "{year}");
        }
    }

    /// One line each on a terminal, behind a note's indent.
    #[test]
    fn notes_are_short() {
        for field in ["20230931", "99991232", "20231301", "000000000020230931"] {
            for note in notes("VER_GUELTIGKEIT", field.as_bytes()).unwrap() {
                assert!(!wrapped(9, &note).contains('\n'), "{note}");
            }
        }
    }
}
