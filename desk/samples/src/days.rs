//! Days: "Gregorian dates from 00010101 to 99991231, the number's value read as
//! YYYYMMDD", and numbers that are nearly one.

use vdv::number::{NO_SUCH_DAY, RANGE};
use vdv::Date;

use crate::random::Random;

pub const FIRST: Date = date(1, 1, 1);
pub const LAST: Date = date(9999, 12, 31);

/// Years whose February is told by the rules for 4, 100 and 400.
const LEAP_YEARS: [u64; 8] = [4, 400, 1600, 1996, 2000, 2024, 2400, 9996];
const COMMON_YEARS: [u64; 7] = [1, 100, 1800, 1900, 2023, 2100, 9999];

/// Months of 30 days.
const SHORT_MONTHS: [u64; 4] = [4, 6, 9, 11];

/// What a careless reader takes for a day, each with the number that it must
/// give.
pub const NEAR_MISSES: [(u64, u32); 20] = [
    (20_230_229, NO_SUCH_DAY),
    (20_230_231, NO_SUCH_DAY),
    (19_000_229, NO_SUCH_DAY),
    (21_000_229, NO_SUCH_DAY),
    (20_240_230, NO_SUCH_DAY),
    (20_230_431, NO_SUCH_DAY),
    (20_231_131, NO_SUCH_DAY),
    (20_230_001, NO_SUCH_DAY),
    (20_231_301, NO_SUCH_DAY),
    (20_230_100, NO_SUCH_DAY),
    (20_230_132, NO_SUCH_DAY),
    (1, NO_SUCH_DAY),
    (100, NO_SUCH_DAY),
    (101, NO_SUCH_DAY),
    (1_231, NO_SUCH_DAY),
    (99_991_232, NO_SUCH_DAY),
    (99_999_999, NO_SUCH_DAY),
    (0, RANGE),
    (100_000_000, RANGE),
    (202_402_290, RANGE),
];

const fn date(year: u64, month: u64, day: u64) -> Date {
    Date { year, month, day }
}

pub const fn number_of(date: Date) -> u64 {
    (date.year * 100 + date.month) * 100 + date.day
}

fn is_leap(year: u64) -> bool {
    year.is_multiple_of(4) && (!year.is_multiple_of(100) || year.is_multiple_of(400))
}

fn days_of(year: u64, month: u64) -> u64 {
    match month {
        2 if is_leap(year) => 29,
        2 => 28,
        month if SHORT_MONTHS.contains(&month) => 30,
        _ => 31,
    }
}

/// This day and every later one.
pub fn from(first: Date) -> impl Iterator<Item = Date> {
    std::iter::successors(Some(first), |day| next(*day))
}

fn next(Date { year, month, day }: Date) -> Option<Date> {
    if day < days_of(year, month) {
        Some(date(year, month, day + 1))
    } else if month < LAST.month {
        Some(date(year, month + 1, 1))
    } else {
        (year < LAST.year).then(|| date(year + 1, 1, 1))
    }
}

/// Any day: often at a border of the calendar or of a month, often one of few,
/// so that keys have it in common.
pub fn draw(random: &mut Random) -> Date {
    match random.below(10) {
        0 => random.pick(&[FIRST, LAST]),
        1 => date(draw_leap_year(random), 2, 29),
        2 => {
            let (year, any) = (draw_year(random), random.between(1, 12));
            let month = random.pick(&[2, any]);
            date(year, month, days_of(year, month))
        }
        3..=5 => date(2024, 1, random.between(1, 12)),
        _ => {
            let (year, month) = (random.between(1, 9999), random.between(1, 12));
            date(year, month, random.between(1, days_of(year, month)))
        }
    }
}

fn draw_year(random: &mut Random) -> u64 {
    match random.below(3) {
        0 => random.pick(&LEAP_YEARS),
        1 => random.pick(&COMMON_YEARS),
        _ => random.between(1, 9999),
    }
}

fn draw_leap_year(random: &mut Random) -> u64 {
    if random.percent(50) {
        return random.pick(&LEAP_YEARS);
    }
    let year = 4 * random.between(1, 2499);
    // Four years after a century without a leap day there is one.
    if is_leap(year) {
        year
    } else {
        year + 4
    }
}

fn draw_common_year(random: &mut Random) -> u64 {
    if random.percent(70) {
        return random.pick(&COMMON_YEARS);
    }
    let year = random.between(1, 9998);
    if is_leap(year) {
        year + 1
    } else {
        year
    }
}

/// 29 February of a year that has none.
pub fn draw_false_leap_day(random: &mut Random) -> u64 {
    number_of(date(draw_common_year(random), 2, 29))
}

/// A number of eight digits at most that is no day, by one part of it.
pub fn draw_no_day(random: &mut Random) -> u64 {
    let Date { year, month, day } = draw(random);
    number_of(match random.below(8) {
        0 => date(year, random.pick(&SHORT_MONTHS), 31),
        1 => date(year, month, days_of(year, month) + 1),
        2 => date(year, month, 32),
        3 => date(year, month, 0),
        4 => date(year, 0, day),
        5 => date(year, 13, day),
        6 => date(0, month, day),
        _ => date(LAST.year, LAST.month, LAST.day + 1),
    })
}

#[cfg(test)]
mod tests {
    use super::*;
    use std::collections::BTreeSet;

    #[test]
    fn days_follow_each_other() {
        assert_eq!(from(FIRST).count(), 3_652_059);
        assert_eq!(from(FIRST).last(), Some(LAST));
        let numbers = |first, count| -> Vec<u64> {
            let days = from(first).take(count);
            days.map(number_of).collect()
        };
        assert_eq!(numbers(FIRST, 2), [10_101, 10_102]);
        for (year, march) in [(1900, true), (2000, false), (2023, true), (2024, false)] {
            let after = numbers(date(year, 2, 28), 2)[1] % 10_000;
            assert_eq!(after, if march { 301 } else { 229 });
        }
        assert_eq!(numbers(date(2023, 12, 31), 2), [20_231_231, 20_240_101]);
    }

    #[test]
    fn what_is_drawn_is_a_day_or_none() {
        let days: BTreeSet<u64> = from(FIRST).map(number_of).collect();
        let mut random = Random::new(1);
        for _ in 0..20_000 {
            assert!(days.contains(&number_of(draw(&mut random))));
            for no_day in [draw_false_leap_day(&mut random), draw_no_day(&mut random)] {
                assert!(!days.contains(&no_day) && (1..=99_999_999).contains(&no_day));
            }
        }
        for (number, meant) in NEAR_MISSES {
            assert!(!days.contains(&number));
            let is_in_range = (1..=99_999_999).contains(&number);
            assert_eq!(meant == NO_SUCH_DAY, is_in_range, "{number}");
        }
    }
}
