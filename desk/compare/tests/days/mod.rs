//! Wrong readings of days: calendars with a mistake in them, and 26 at the wrong
//! place among the other numbers.

use compare::{Library, Plain};
use vdv::tables::{Table, CALENDAR, VALIDITY};
use vdv::{number, Refusal};

use crate::arranged::{judge_by_place, put_fields, walk_sections};

/// What 13 leaves to the calendar.
const RANGE: std::ops::RangeInclusive<i64> = 1..=99_999_999;

/// A day that there is not.
const NO_DAY: &[u8] = b"20230229";

/// A day as it is written: its table, its value, and its number of digits.
#[derive(Clone, Copy)]
pub struct Day {
    table: &'static Table,
    value: i64,
    digits: usize,
}

/// Which days a calendar has.
pub type Calendar = fn(Day) -> bool;

fn is_leap(year: i64) -> bool {
    year % 4 == 0 && (year % 100 != 0 || year % 400 == 0)
}

fn is_day(value: i64, is_leap: fn(i64) -> bool) -> bool {
    let (year, month, day) = (value / 10_000, value / 100 % 100, value % 100);
    let last = match month {
        2 => 28 + i64::from(is_leap(year)),
        4 | 6 | 9 | 11 => 30,
        1..=12 => 31,
        _ => 0,
    };
    (1..=9999).contains(&year) && (1..=last).contains(&day)
}

fn is_real(value: i64) -> bool {
    is_day(value, is_leap)
}

pub fn with_leap_day_in_1900(day: Day) -> bool {
    is_day(day.value, |year| is_leap(year) || year == 1900)
}

pub fn without_leap_day_in_2000(day: Day) -> bool {
    is_day(day.value, |year| year % 4 == 0 && year % 100 != 0)
}

pub fn with_leap_day_every_fourth_year(day: Day) -> bool {
    is_day(day.value, |year| year % 4 == 0)
}

pub fn with_31_days_in_april(day: Day) -> bool {
    is_real(day.value) || day.value % 10_000 == 431
}

pub fn with_31_days_in_all_months(day: Day) -> bool {
    is_real(day.value / 100 * 100 + 1) && (1..=31).contains(&(day.value % 100))
}

/// The month behind December as January.
pub fn with_month_13(day: Day) -> bool {
    is_real(day.value) || day.value / 100 % 100 == 13 && is_real(day.value - 1200)
}

pub fn with_month_0(day: Day) -> bool {
    is_real(day.value) || day.value / 100 % 100 == 0 && is_real(day.value + 100)
}

pub fn with_day_0(day: Day) -> bool {
    is_real(day.value) || day.value % 100 == 0 && is_real(day.value + 1)
}

/// The year before the first as any other that 400 divides.
pub fn with_year_0(day: Day) -> bool {
    is_real(day.value) || day.value / 10_000 == 0 && is_real(day.value + 4_000_000)
}

pub fn with_a_day_after_the_last(day: Day) -> bool {
    is_real(day.value) || day.value == 99_991_232
}

/// "leading zeros optional".
pub fn with_eight_digits(day: Day) -> bool {
    is_real(day.value) && day.digits == 8
}

pub fn of_validity_alone(day: Day) -> bool {
    is_real(day.value) || *day.table == CALENDAR
}

pub fn of_operation_alone(day: Day) -> bool {
    is_real(day.value) || *day.table == VALIDITY
}

/// Some day that there is, another one for another number.
fn stand_in(value: i64) -> Vec<u8> {
    let (year, month, day) = (3000 + value % 6000, value / 6000 % 12, value / 72_000 % 28);
    format!("{year}{:02}{:02}", month + 1, day + 1).into_bytes()
}

fn number_in(field: &[u8]) -> Option<i64> {
    let field = field.trim_ascii();
    let digits = field.strip_prefix(b"-").unwrap_or(field);
    let is_number = (1..=18).contains(&digits.len()) && digits.iter().all(u8::is_ascii_digit);
    std::str::from_utf8(field)
        .ok()
        .filter(|_| is_number)?
        .parse()
        .ok()
}

/// The file with other days, in the records that stand at a place that counts.
fn with_days(
    file: &[u8],
    counts: impl Fn(usize, usize) -> bool,
    change: impl Fn(Day) -> Option<Vec<u8>>,
) -> Vec<u8> {
    walk_sections(file, |line, place| {
        let mut fields = line.fields();
        let columns = place.arrangement.columns();
        let is_record = line.command() == b"rec" && fields.len() == columns.len();
        if !is_record || !counts(place.section, place.line) {
            return;
        }
        for (field, column) in fields.iter_mut().zip(columns) {
            let value = number_in(field).filter(|_| place.table.columns[*column].is_day());
            let day = value.map(|value| Day {
                table: place.table,
                value,
                digits: field.trim_ascii().len(),
            });
            if let Some(other) = day.and_then(&change) {
                *field = other;
            }
        }
        put_fields(line, &fields);
    })
}

/// The file's answer by another calendar.
pub fn judge_by(file: &[u8], calendar: Calendar) -> Refusal {
    let changed = with_days(
        file,
        |_, _| true,
        |day| match (is_real(day.value), calendar(day)) {
            (true, false) => Some(NO_DAY.to_vec()),
            (false, true) if RANGE.contains(&day.value) => Some(stand_in(day.value)),
            _ => None,
        },
    );
    Plain.check(&changed)
}

/// What the file gives with the day at the refused place mended.
fn mended(file: &[u8], right: Refusal) -> Refusal {
    let changed = with_days(
        file,
        |section, line| (section, line) == (right.section, right.line),
        |day| (!is_real(day.value)).then(|| stand_in(day.value.abs())),
    );
    Plain.check(&changed)
}

/// 26 after 11, 12 and 13 of every field.
pub fn judge_fields_first(file: &[u8], right: Refusal) -> Refusal {
    let other = mended(file, right);
    let is_of_field = (number::NOT_A_TEXT..=number::RANGE).contains(&other.number);
    if is_of_field && (other.section, other.line) == (right.section, right.line) {
        other
    } else {
        right
    }
}

/// 26 before 13, for a number that is no day because it is out of range.
pub fn judge_day_first(file: &[u8], right: Refusal) -> Refusal {
    if mended(file, right) == right {
        return right;
    }
    Refusal {
        number: number::NO_SUCH_DAY,
        ..right
    }
}

/// 26 for what stands where documents 01 and 02 have the day.
pub fn judge_days_by_place(file: &[u8], right: Refusal) -> Refusal {
    judge_by_place(file, right, number::NO_SUCH_DAY, |place, fields| {
        let columns = place.table.columns.iter().zip(fields);
        let mut days = columns.filter(|(column, _)| column.is_day());
        days.any(|(_, field)| number_in(field).is_some_and(|value| !is_real(value)))
    })
}

/// What the wrong calendars are told from is the right one.
#[test]
fn a_right_calendar_changes_nothing() {
    for index in 0..500 {
        let file = samples::damaged(&mut samples::Random::of_file(17, index));
        assert_eq!(
            judge_by(&file, |day| is_real(day.value)),
            Plain.check(&file)
        );
    }
}
