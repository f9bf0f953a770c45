//! Damage to connections and transfers, and to numbers that are missing where
//! none may be.

use vdv::tables::{Column, Table, CONNECTIONS, TRANSFERS};
use vdv::Owner;

use super::meaning::pick_record;
use crate::feeder;
use crate::model::{Datum, Model, Record};
use crate::random::Random;

/// ABB_LI_NR and ABB_ORT_REF_ORT of 432, counted from 0: 0 is in neither range.
const NEVER_ZERO: [usize; 2] = [14, 16];

/// ANSCHLUSS_NAME of 432, counted from 0.
const NAME: usize = 2;

/// Columns of 232 by which it refers, each with the highest number of its range.
const REFERRING: [(usize, u64); 3] = [(0, 999_999_999), (1, 32_764), (2, 999)];

fn some_record<'m>(
    random: &mut Random,
    model: &'m mut Model,
    table: &Table,
) -> Option<&'m mut Record> {
    let (section, record) = pick_record(random, model, |t| t == table)?;
    Some(&mut model.tables[section].records[record])
}

/// Another value in some column of this kind.
fn put_where(
    random: &mut Random,
    model: &mut Model,
    datum: Datum,
    takes: impl Fn(&Column) -> bool,
) {
    let has_column = |table: &Table| table.columns.iter().any(&takes);
    let Some((table, record)) = pick_record(random, model, has_column) else {
        return;
    };
    let content = &mut model.tables[table];
    let columns = content.table.columns.iter().enumerate();
    let columns: Vec<usize> = columns.filter(|(_, c)| takes(c)).map(|(i, _)| i).collect();
    content.records[record][random.pick(&columns)] = datum;
}

/// An empty field is a missing number only "Where a column there allows NULL".
pub fn leave_number_out(random: &mut Random, model: &mut Model) {
    put_where(random, model, Datum::Missing, |column| {
        !column.is_text() && !column.may_be_missing
    });
}

/// A missing number is not 0.
pub fn put_zero(random: &mut Random, model: &mut Model) {
    put_where(random, model, Datum::Number(0), |column| {
        column.may_be_missing
    });
}

pub fn break_combination(random: &mut Random, model: &mut Model) {
    let latin = model.header.latin;
    if let Some(record) = some_record(random, model, &CONNECTIONS) {
        feeder::turn_some(random, latin, record);
    }
}

/// "25, wrong combination, after 14 and before 15": the same record breaks 13
/// or 15 too.
pub fn break_combination_and_more(random: &mut Random, model: &mut Model) {
    let latin = model.header.latin;
    let Some(record) = some_record(random, model, &CONNECTIONS) else {
        return;
    };
    feeder::turn_some(random, latin, record);
    if random.percent(50) {
        record[random.pick(&NEVER_ZERO)] = Datum::Number(0);
    } else {
        record[NAME] = Datum::Text(Vec::new(), Owner::Suggestion);
    }
}

/// "REC_UMS refers to 432, 290 and 485."
pub fn lead_transfer_astray(random: &mut Random, model: &mut Model) {
    if let Some(record) = some_record(random, model, &TRANSFERS) {
        let (column, high) = random.pick(&REFERRING);
        record[column] = Datum::Number(random.between(1, high));
    }
}
