//! What the draws reach of connections, transfers and missing numbers.

mod common;

use std::collections::{BTreeMap, BTreeSet};

use common::{refused, table_at};
use samples::{Datum, Random, Record, Sample};
use vdv::number;
use vdv::tables::{Table, CONNECTIONS, TRANSFERS};

fn drawn() -> impl Iterator<Item = Sample> {
    (0..600).map(|index| samples::sound(&mut Random::of_file(3, index)))
}

fn records(sample: &Sample, table: &Table) -> Vec<Record> {
    let contents = sample.model.tables.iter();
    let of_table = contents.filter(|content| content.table == table);
    of_table
        .flat_map(|content| content.records.clone())
        .collect()
}

fn has_line(file: &[u8], is_it: impl Fn(&[u8]) -> bool) -> bool {
    file.split(|byte| *byte == b'\n').any(is_it)
}

/// How many of the drawn sound files have such a line.
fn share(is_it: impl Fn(&[u8]) -> bool) -> usize {
    drawn().filter(|s| has_line(&s.bytes(), &is_it)).count()
}

#[test]
fn each_number_that_may_be_missing_is_so_and_is_not() {
    let (mut missing, mut there) = ([0; 20], [0; 20]);
    for record in drawn().flat_map(|sample| records(&sample, &CONNECTIONS)) {
        for (column, datum) in record.iter().enumerate() {
            match datum {
                Datum::Missing => missing[column] += 1,
                _ => there[column] += 1,
            }
        }
    }
    for (index, column) in CONNECTIONS.columns.iter().enumerate() {
        assert_eq!(
            missing[index] >= 100,
            column.may_be_missing,
            "{}",
            column.name
        );
        assert!(there[index] >= 100, "{}", column.name);
        assert!(
            missing[index] == 0 || column.may_be_missing,
            "{}",
            column.name
        );
    }
}

/// Nothing at all, spaces, and the end of the line.
#[test]
fn missing_numbers_are_dressed() {
    let is_rec = |line: &[u8]| line.trim_ascii_start().starts_with(b"rec");
    let holds = |line: &[u8], part: &[u8]| line.windows(part.len()).any(|w| w == part);
    let found = [
        share(|line| is_rec(line) && holds(line, b";;")),
        share(|line| is_rec(line) && holds(line, b";  ;")),
        share(|line| is_rec(line) && line.ends_with(b";")),
        share(|line| is_rec(line) && line.ends_with(b"; ")),
        share(|line| is_rec(line) && line.ends_with(b"; \r")),
    ];
    assert!(found.iter().all(|count| *count >= 5), "{found:?}");
}

#[test]
fn feeders_of_both_kinds() {
    let mut met = BTreeMap::new();
    for record in drawn().flat_map(|sample| records(&sample, &CONNECTIONS)) {
        let key = (record[4].number() > 0, record[6].number());
        *met.entry(key).or_insert(0) += 1;
    }
    let kinds: Vec<_> = met.keys().copied().collect();
    assert_eq!(kinds, [(false, 0), (false, 1), (false, 2), (true, 0)]);
    assert!(met.values().all(|count| *count >= 50), "{met:?}");
}

#[test]
fn marks_at_places_of_two_digits() {
    let is_mark = |line: &[u8]| {
        let number = line.trim_ascii().strip_suffix(b"\"");
        number.is_some_and(|n| n.len() > 2 && n[n.len() - 2..].iter().all(u8::is_ascii_digit))
            && line.trim_ascii().starts_with(b"com; \"SUGGESTED 1")
    };
    assert!(share(is_mark) >= 10, "{}", share(is_mark));
}

/// In how many files with this damage a record of each table gives the number.
fn broken(name: &str, number: u32) -> BTreeMap<u16, usize> {
    let mut met = BTreeMap::new();
    for (file, answer) in refused(name, number) {
        *met.entry(table_at(&file, answer)).or_insert(0) += 1;
    }
    met
}

#[test]
fn keys_of_every_table_are_repeated() {
    let met = broken("primary key repeated", number::PRIMARY_KEY);
    assert_eq!(met.len(), 10, "{met:?}");
    assert!(met.values().all(|count| *count >= 20), "{met:?}");
}

#[test]
fn numbers_of_every_table_are_left_out() {
    let met = broken("number left out", number::NOT_A_NUMBER);
    assert_eq!(met.len(), 10, "{met:?}");
    assert!(met.values().all(|count| *count >= 20), "{met:?}");
}

#[test]
fn connections_are_broken() {
    let zero = broken("0 for a missing number", number::RANGE);
    let wrong = broken("combination wrong", number::COMBINATION);
    let first = broken("combination and more wrong", number::COMBINATION);
    let other = broken("combination and more wrong", number::RANGE);
    for met in [zero, wrong, first, other] {
        assert_eq!(met.len(), 1, "{met:?}");
        assert!(met[&432] >= 200, "{met:?}");
    }
}

/// Transfers whose version, connection or day type is not there.
#[test]
fn every_reference_of_transfers_is_broken() {
    let met = broken("transfer astray", number::REFERENCE);
    assert_eq!(met.len(), 1, "{met:?}");
    assert!(met[&232] >= 200, "{met:?}");
    let mut lost = BTreeMap::new();
    for (file, answer) in refused("transfer astray", number::REFERENCE) {
        *lost.entry(lost_by(&file, answer)).or_insert(0) += 1;
    }
    for parents in [vec![432], vec![290], vec![485, 432, 290]] {
        assert!(lost.get(&parents).is_some_and(|n| *n >= 20), "{lost:?}");
    }
}

/// The tables in which the refused transfer finds no record.
fn lost_by(file: &[u8], answer: reader::Answer) -> Vec<u32> {
    let numbers = |record: &reader::Record<'_>| -> Vec<i64> {
        let value = |value| match value {
            reader::Value::Number(number) => number,
            _ => 0,
        };
        record.values().map(value).collect()
    };
    let mut keys = BTreeSet::new();
    for (index, row) in reader::list(file).unwrap().iter().enumerate() {
        for record in &reader::table(file, index + 1).unwrap().records {
            let width = if row.table == 485 { 1 } else { 2 };
            keys.insert((u32::from(row.table), numbers(record)[..width].to_vec()));
        }
    }
    let transfers = reader::table(file, answer.section).unwrap().records;
    let refused = transfers.iter().find(|r| r.line == answer.line).unwrap();
    let values = numbers(refused);
    let references = TRANSFERS.references.iter();
    let lost = references.filter(|reference| {
        let key = reference.fields.iter().map(|field| values[field - 1]);
        !keys.contains(&(reference.to, key.collect()))
    });
    lost.map(|reference| reference.to).collect()
}
