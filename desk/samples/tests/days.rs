//! What the draws reach of days: real ones of all kinds, numbers that are none,
//! and calendars with many.

mod common;

use std::collections::{BTreeMap, BTreeSet};

use common::{refused, table_at};
use samples::arrangement::is_arranged;
use samples::days::NEAR_MISSES;
use samples::large::{file, Order, Shape};
use samples::{Random, Sample};
use vdv::number;
use vdv::tables::{Table, CALENDAR, VALIDITY};
use vdv::LIMIT;

const TABLES: [&Table; 2] = [&VALIDITY, &CALENDAR];

fn drawn() -> impl Iterator<Item = Sample> {
    (0..1_500).map(|index| samples::sound(&mut Random::of_file(3, index)))
}

/// Where a table has its day, counted from 0.
fn day_column(table: &Table) -> usize {
    table.columns.iter().position(|c| c.is_day()).unwrap()
}

fn days_of(sample: &Sample, table: &Table) -> Vec<u64> {
    let contents = sample.model.tables.iter();
    let of_table = contents.filter(|content| content.table == table);
    let records = of_table.flat_map(|content| &content.records);
    records.map(|r| r[day_column(table)].number()).collect()
}

type IsOfKind = fn(u64) -> bool;

#[test]
fn days_of_all_kinds_are_drawn() {
    let kinds: [(&str, IsOfKind); 9] = [
        ("the first", |day| day == 10_101),
        ("the last", |day| day == 99_991_231),
        ("a leap day", |day| day % 10_000 == 229),
        ("a leap day of a century", |day| day % 1_000_000 == 229),
        ("the end of another February", |day| day % 10_000 == 228),
        ("the end of a century's other February", |day| {
            day % 1_000_000 == 228 && day / 1_000_000 % 4 > 0
        }),
        ("the end of a month of 30 days", |day| {
            day % 100 == 30 && [4, 6, 9, 11].contains(&(day / 100 % 100))
        }),
        ("before the year 1000", |day| day < 10_000_000),
        ("after the year 3000", |day| day > 30_000_000),
    ];
    for table in TABLES {
        let days: Vec<u64> = drawn().flat_map(|s| days_of(&s, table)).collect();
        for (kind, is_of_kind) in kinds {
            let found = days.iter().filter(|day| is_of_kind(**day)).count();
            assert!(found >= 2, "{}: {kind}: {found}", table.name);
        }
        let different: BTreeSet<_> = days.iter().collect();
        assert!(different.len() >= 400, "{}", different.len());
    }
}

/// "with leading zeros optional": the first day with as many digits as it needs,
/// with eight, and with more.
#[test]
fn days_are_dressed() {
    let mut digits = BTreeMap::new();
    for file in drawn().map(|sample| sample.bytes()) {
        for word in file.split(|byte| !byte.is_ascii_digit()) {
            let zeros = word.iter().take_while(|byte| **byte == b'0').count();
            if word[zeros..] == *b"10101" {
                *digits.entry(word.len()).or_insert(0) += 1;
            }
        }
    }
    let more: usize = digits.range(9..).map(|(_, count)| count).sum();
    assert!(
        digits[&5] >= 20 && digits[&8] >= 5 && more >= 3,
        "{digits:?}"
    );
}

/// A file that has this day in this table.
fn file_with(table: &Table, day: u64) -> Vec<u8> {
    let sample = (0..).map(|index| samples::sound(&mut Random::of_file(7, index)));
    let mut models = sample.map(|sample| sample.model);
    let is_it = |content: &&mut samples::Content| content.table == table;
    models
        .find_map(|mut model| {
            let content = model.tables.iter_mut().find(is_it)?;
            content.records.first_mut()?[day_column(table)] = samples::Datum::Number(day);
            Some(samples::form::form(&model))
        })
        .unwrap()
}

#[test]
fn near_misses_are_what_they_must_be() {
    for table in TABLES {
        for (day, meant) in NEAR_MISSES {
            let answer = reader::check(&file_with(table, day));
            assert_eq!((u32::from(answer.number), answer.line), (meant, 4), "{day}");
        }
        let answer = reader::check(&file_with(table, 20_240_229));
        assert!(answer.is_sound());
    }
}

/// In how many files with this damage a record of each table gives the number,
/// and in how many of them columns are arranged.
fn broken(name: &str, number: u32) -> BTreeMap<u16, [usize; 2]> {
    let mut met = BTreeMap::new();
    for (file, answer) in refused(name, number) {
        let [files, arranged] = met.entry(table_at(&file, answer)).or_insert([0; 2]);
        *files += 1;
        *arranged += usize::from(is_arranged(&file));
    }
    met
}

#[test]
fn days_of_both_tables_are_broken() {
    let is_met = |name: &str, number: u32| {
        let met = broken(name, number);
        let tables: Vec<_> = met.keys().copied().collect();
        assert_eq!(tables, [348, 993], "{name}: {met:?}");
        let mut counts = met.values();
        assert!(
            counts.all(|[all, arranged]| *all >= 20 && *arranged >= 10),
            "{name}: {met:?}"
        );
    };
    is_met("day nearly missed", number::NO_SUCH_DAY);
    is_met("day nearly missed", number::RANGE);
    is_met("leap day in a common year", number::NO_SUCH_DAY);
    is_met("no such day", number::NO_SUCH_DAY);
    is_met("no such day and more wrong", number::NO_SUCH_DAY);
    is_met("no such day and more wrong", number::NOT_A_NUMBER);
    is_met("no such day and more wrong", number::RANGE);
    let texts = broken("no such day and more wrong", number::NOT_A_TEXT);
    assert!(texts.len() == 1 && texts[&348][0] >= 5, "{texts:?}");
}

/// The days of a large file's table, as they stand.
fn large_days(file: &[u8], table: &Table) -> Vec<u64> {
    let rows = reader::list(file).unwrap();
    let number = |row: &reader::Row| u32::from(row.table) == table.number;
    let section = rows.iter().position(number).unwrap() + 1;
    let mut days = Vec::new();
    reader::visit(file, section, |record| {
        if let Some(reader::Value::Number(day)) = record.value(day_column(table) + 1) {
            days.push(day.unsigned_abs());
        }
    })
    .unwrap();
    days
}

#[test]
fn large_files_have_many_days() {
    let full = file(Shape::Calendar(Order::Rising), LIMIT, 1);
    let days = large_days(&full, &CALENDAR);
    assert!((350_000..400_000).contains(&days.len()), "{}", days.len());
    assert!(days.is_sorted_by(|one, next| one < next));
    let leap_days = days.iter().filter(|day| **day % 10_000 == 229).count();
    assert!(leap_days > 100, "{leap_days}");

    let eight = file(Shape::Eight(Order::Rising), LIMIT, 1);
    let days = large_days(&eight, &VALIDITY);
    assert!((20_000..40_000).contains(&days.len()), "{}", days.len());
    assert!(days.is_sorted_by(|one, next| one < next));
    assert_eq!(days[..2], [10_000_101, 10_000_102]);
}
