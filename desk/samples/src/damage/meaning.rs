//! Damage to what a file says: keys, references, points, ranges. Counts stay
//! right, so that the file breaks this rule and no other.

use vdv::tables::{Kind, Table, CONNECTIONS, DAY_TYPES, LINKS, POINT_TYPES, VERSIONS};
use vdv::Owner;

use crate::model::{Datum, Model, Record};
use crate::random::Random;
use crate::texts;

/// A record of a table that passes, by table and record from 0.
pub(super) fn pick_record(
    random: &mut Random,
    model: &Model,
    passes: impl Fn(&Table) -> bool,
) -> Option<(usize, usize)> {
    let tables = model.tables.iter().enumerate();
    let places: Vec<_> = tables
        .filter(|(_, content)| passes(content.table))
        .flat_map(|(table, content)| (0..content.records.len()).map(move |r| (table, r)))
        .collect();
    random.choose(&places).copied()
}

fn put_anywhere(random: &mut Random, records: &mut Vec<Record>, record: Record) {
    records.insert(random.below(records.len() + 1), record);
}

pub fn repeat_primary_key(random: &mut Random, model: &mut Model) {
    let Some((table, record)) = pick_record(random, model, |_| true) else {
        return;
    };
    let content = &mut model.tables[table];
    let mut again = content.records[record].clone();
    if let Some(field) = content.table.markable {
        again[field - 1] = Datum::Text(b"noch einmal".to_vec(), Owner::Operator);
    }
    put_anywhere(random, &mut content.records, again);
}

/// Another primary key with the same second one.
pub fn repeat_second_key(random: &mut Random, model: &mut Model) {
    let has_second = |table: &Table| !table.second.is_empty();
    let Some((table, record)) = pick_record(random, model, has_second) else {
        return;
    };
    let content = &mut model.tables[table];
    let mut again = content.records[record].clone();
    let version = again[0].number();
    let Kind::Number { high, .. } = content.table.columns[1].kind else {
        return;
    };
    let is_free = |number: &u64| {
        let mut same_version = content.records.iter().filter(|r| r[0].number() == version);
        same_version.all(|r| r[1].number() != *number)
    };
    if let Some(number) = (1..=high).find(is_free) {
        again[1] = Datum::Number(number);
        put_anywhere(random, &mut content.records, again);
    }
}

pub fn lose_parent(random: &mut Random, model: &mut Model) {
    let parents = [&VERSIONS, &DAY_TYPES, &POINT_TYPES, &LINKS, &CONNECTIONS];
    if let Some((table, record)) = pick_record(random, model, |t| parents.contains(&t)) {
        model.tables[table].records.remove(record);
    }
}

/// Another value in a column by which the record refers, or may refer.
pub fn lead_reference_astray(random: &mut Random, model: &mut Model) {
    let Some((table, record)) = pick_record(random, model, |t| *t != VERSIONS) else {
        return;
    };
    let content = &mut model.tables[table];
    let column = random.below(content.table.columns.len());
    if let Kind::Number { low, high } = content.table.columns[column].kind {
        let number = random.between(low, high);
        content.records[record][column] = Datum::Number(number);
    }
}

pub fn make_points_the_same(random: &mut Random, model: &mut Model) {
    let has_points = |table: &Table| [225, 247].contains(&table.number);
    if let Some((table, record)) = pick_record(random, model, has_points) {
        let content = &mut model.tables[table];
        let first = content.table.columns.len() - 5;
        let record = &mut content.records[record];
        record[first + 2] = record[first].clone();
        record[first + 3] = record[first + 1].clone();
    }
}

pub fn leave_range(random: &mut Random, model: &mut Model) {
    let Some((table, record)) = pick_record(random, model, |_| true) else {
        return;
    };
    let content = &mut model.tables[table];
    let column = random.below(content.table.columns.len());
    let kind = content.table.columns[column].kind;
    if let Kind::Number { low, high } | Kind::Day { low, high } = kind {
        let beyond = [high + 1, 999_999_999_999_999_999, low.saturating_sub(1)];
        content.records[record][column] = Datum::Number(random.pick(&beyond));
    }
}

pub fn lengthen_text(random: &mut Random, model: &mut Model) {
    let has_text = |table: &Table| table.columns.iter().any(|column| column.is_text());
    let Some((table, record)) = pick_record(random, model, has_text) else {
        return;
    };
    let latin = model.header.latin;
    let content = &mut model.tables[table];
    for (datum, column) in content.records[record]
        .iter_mut()
        .zip(content.table.columns)
    {
        if let Kind::Text { size } = column.kind {
            let length = size + 1 + random.below(2);
            let text = texts::any(random, latin, length);
            *datum = Datum::Text(text, Owner::Operator);
        }
    }
}

/// The whole table again, or its head alone.
pub fn repeat_table(random: &mut Random, model: &mut Model) {
    let Some(mut again) = random.choose(&model.tables).cloned() else {
        return;
    };
    if random.percent(50) {
        again.records.clear();
    }
    let place = random.below(model.tables.len() + 1);
    model.tables.insert(place, again);
}
