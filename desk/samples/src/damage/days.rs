//! Damage to days: numbers that look like one, and other fields of the same
//! record beside them.

use vdv::tables::{Column, Kind, Table};
use vdv::Owner;

use super::meaning::pick_record;
use crate::days;
use crate::model::{Datum, Model, Record};
use crate::random::Random;

/// Some record of a table that has days, and its columns.
fn some_record<'m>(
    random: &mut Random,
    model: &'m mut Model,
) -> Option<(&'m mut Record, &'static [Column])> {
    let has_days = |table: &Table| table.columns.iter().any(Column::is_day);
    let (table, record) = pick_record(random, model, has_days)?;
    let content = &mut model.tables[table];
    Some((&mut content.records[record], content.table.columns))
}

fn put_day(record: &mut Record, columns: &[Column], number: u64) {
    for (datum, column) in record.iter_mut().zip(columns) {
        if column.is_day() {
            *datum = Datum::Number(number);
        }
    }
}

fn change_day(random: &mut Random, model: &mut Model, draw: impl FnOnce(&mut Random) -> u64) {
    if let Some((record, columns)) = some_record(random, model) {
        put_day(record, columns, draw(random));
    }
}

pub fn nearly_miss_day(random: &mut Random, model: &mut Model) {
    change_day(random, model, |random| random.pick(&days::NEAR_MISSES).0);
}

/// "20240229 passes, 20230229 does not."
pub fn put_false_leap_day(random: &mut Random, model: &mut Model) {
    change_day(random, model, days::draw_false_leap_day);
}

pub fn put_no_day(random: &mut Random, model: &mut Model) {
    change_day(random, model, days::draw_no_day);
}

/// "26, no such day, at its field directly after 13": another field of the
/// record is 11, 12 or 13, and which of the two stands further left decides; or
/// its text is marked and empty, which is judged after all fields.
pub fn put_no_day_and_more(random: &mut Random, model: &mut Model) {
    let Some((record, columns)) = some_record(random, model) else {
        return;
    };
    put_day(record, columns, days::draw_no_day(random));
    let others = columns.iter().enumerate().filter(|(_, c)| !c.is_day());
    let others: Vec<_> = others.collect();
    let (place, column) = random.pick(&others);
    record[place] = draw_wrong(random, column);
}

/// An empty field is no text, and no number where none may be missing.
fn draw_wrong(random: &mut Random, column: &Column) -> Datum {
    match column.kind {
        _ if random.percent(40) => Datum::Missing,
        Kind::Number { high, .. } | Kind::Day { high, .. } => Datum::Number(high + 1),
        Kind::Text { .. } if random.percent(50) => Datum::Text(Vec::new(), Owner::Suggestion),
        Kind::Text { size } => Datum::Text(vec![b'x'; size + 1], Owner::Operator),
    }
}
