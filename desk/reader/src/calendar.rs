//! The Gregorian calendar, carried back to the year 1.

#[derive(Clone, Copy, Debug, PartialEq, Eq)]
pub struct Date {
    pub year: u16,
    pub month: u8,
    pub day: u8,
}

impl Date {
    /// The date, if there is such a day: "from 00010101 to 99991231".
    pub(crate) fn real(year: u16, month: u16, day: u16) -> Option<Date> {
        let is_real = (1..=9999).contains(&year) && (1..=days_of(year, month)).contains(&day);
        is_real.then_some(Date {
            year,
            month: month as u8,
            day: day as u8,
        })
    }

    /// "the number's value read as YYYYMMDD with leading zeros optional".
    pub(crate) fn numbered(value: i64) -> Option<Date> {
        let year = u16::try_from(value / 10_000).ok()?;
        let [month, day] = [value / 100 % 100, value % 100].map(|part| part as u16);
        Date::real(year, month, day)
    }
}

/// 0 if there is no such month.
fn days_of(year: u16, month: u16) -> u16 {
    match month {
        1 | 3 | 5 | 7 | 8 | 10 | 12 => 31,
        4 | 6 | 9 | 11 => 30,
        2 if is_leap(year) => 29,
        2 => 28,
        _ => 0,
    }
}

fn is_leap(year: u16) -> bool {
    year.is_multiple_of(4) && (!year.is_multiple_of(100) || year.is_multiple_of(400))
}

#[cfg(test)]
mod tests {
    use super::*;

    /// Days of four centuries, and of the time from March up to each month.
    const CYCLE: i64 = 146_097;
    const BEFORE: [i64; 12] = [0, 31, 61, 92, 122, 153, 184, 214, 245, 275, 306, 337];

    /// The number of the day that comes so many days after 1 March of the year
    /// 0. Years are counted from March, so that a leap day is the last of its
    /// year, its century and its cycle: it is what is left when 36524, 1461 and
    /// 365 days have been taken off as often as can be.
    fn number_of(count: i64) -> i64 {
        let (cycle, left) = (count / CYCLE, count % CYCLE);
        let century = (left / 36_524).min(3);
        let left = left - century * 36_524;
        let (fourth, left) = (left / 1_461, left % 1_461);
        let single = (left / 365).min(3);
        let left = left - single * 365;
        let year = 400 * cycle + 100 * century + 4 * fourth + single;
        let months = BEFORE.iter().filter(|before| **before <= left).count() as i64;
        let day = left - BEFORE[months as usize - 1] + 1;
        let (year, month) = match months {
            1..=10 => (year, months + 2),
            _ => (year + 1, months - 10),
        };
        (year * 100 + month) * 100 + day
    }

    /// 1 January of the year 1 is 306 days after 1 March of the year 0, and
    /// there are 3,652,059 days up to the end of the year 9999.
    fn days() -> impl Iterator<Item = i64> {
        (306..306 + 3_652_059).map(number_of)
    }

    #[test]
    fn the_count_of_days_begins_and_ends_as_it_should() {
        assert_eq!(days().next(), Some(10_101));
        assert_eq!(days().last(), Some(99_991_231));
        assert_eq!(number_of(306 + 3_652_059), 100_000_101);
        assert!(days().is_sorted_by(|one, next| one < next));
    }

    /// Each number below 0 to over 99999999 is a day exactly if the count of
    /// days comes to it.
    #[test]
    fn every_number_is_a_day_or_none() {
        let mut days = days().peekable();
        for value in -10_000..=100_010_000 {
            let is_counted = days.next_if_eq(&value).is_some();
            assert_eq!(Date::numbered(value).is_some(), is_counted, "{value}");
        }
        assert_eq!(days.next(), None);
    }

    #[test]
    fn a_number_s_digits_are_year_month_and_day() {
        let date = |year, month, day| Some(Date { year, month, day });
        assert_eq!(Date::numbered(20_240_229), date(2024, 2, 29));
        assert_eq!(Date::numbered(10_101), date(1, 1, 1));
        assert_eq!(Date::numbered(99_991_231), date(9999, 12, 31));
        for value in [i64::MIN, i64::MAX, 655_360_101, 655_370_101] {
            assert_eq!(Date::numbered(value), None, "{value}");
        }
    }
}
