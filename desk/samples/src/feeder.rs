//! How a connection names its feeder: by numbers of one's own, or by the texts
//! agreed with another control centre.

use vdv::Owner;

use crate::model::{Datum, Record};
use crate::random::Random;
use crate::texts;

/// Columns of 432, counted from 0.
const CENTRE: usize = 4;
const LINE: usize = 5;
const DIRECTION: usize = 6;
const STOP: usize = 7;

/// Each with the highest number of its range.
const NUMBERS: [(usize, u64); 4] = [(CENTRE, 255), (LINE, 999), (DIRECTION, 2), (STOP, 999_999)];

/// LinienID, RichtungsID and ASBID, each with its size.
const TEXTS: [(usize, usize); 3] = [(11, 6), (12, 6), (13, 10)];

/// Either of the two, in a record that has its other values.
pub fn draw(random: &mut Random, latin: bool, record: &mut Record) {
    if random.percent(50) {
        name_own(random, record);
    } else {
        name_foreign(random, latin, record);
    }
}

/// "With LEITSTELLENKENNUNG 0, LinienID, RichtungsID and ASBID are empty, and
/// ZUB_LI_NR and ZUB_ORT_REF_ORT lie above 0".
fn name_own(random: &mut Random, record: &mut Record) {
    record[CENTRE] = Datum::Number(0);
    for (column, high) in [(LINE, 999), (STOP, 999_999)] {
        record[column] = above_zero(random, high);
    }
    for (column, _) in TEXTS {
        record[column] = empty();
    }
}

/// "with 1 to 255 the three texts are filled, and ZUB_LI_NR, ZUB_LI_RI_NR and
/// ZUB_ORT_REF_ORT are 0".
fn name_foreign(random: &mut Random, latin: bool, record: &mut Record) {
    record[CENTRE] = above_zero(random, 255);
    for column in [LINE, DIRECTION, STOP] {
        record[column] = Datum::Number(0);
    }
    for (column, size) in TEXTS {
        record[column] = filled(random, latin, size);
    }
}

fn above_zero(random: &mut Random, high: u64) -> Datum {
    let any = random.between(1, high);
    Datum::Number(random.pick(&[1, high, any, any]))
}

fn empty() -> Datum {
    Datum::Text(Vec::new(), Owner::Operator)
}

fn filled(random: &mut Random, latin: bool, size: usize) -> Datum {
    let mut text = texts::unpadded(texts::draw(random, latin, size));
    if text.is_empty() {
        text.push(b'7');
    }
    Datum::Text(text, Owner::Operator)
}

/// One of the seven values, or several, turned to what the other way of naming
/// asks for: 0 and above, empty and filled.
pub fn turn_some(random: &mut Random, latin: bool, record: &mut Record) {
    let count = random.pick(&[1, 1, 1, 2, 4]);
    for _ in 0..count {
        turn_one(random, latin, record);
    }
}

fn turn_one(random: &mut Random, latin: bool, record: &mut Record) {
    let place = random.below(NUMBERS.len() + TEXTS.len());
    match NUMBERS.get(place) {
        Some(&(column, high)) => {
            record[column] = match record[column].number() {
                0 => above_zero(random, high),
                _ => Datum::Number(0),
            };
        }
        None => {
            let (column, size) = TEXTS[place - NUMBERS.len()];
            record[column] = match &record[column] {
                Datum::Text(text, _) if text.is_empty() => filled(random, latin, size),
                _ => empty(),
            };
        }
    }
}

#[cfg(test)]
mod tests {
    use super::*;
    use std::collections::BTreeSet;

    /// Columns that differ.
    fn turned(one: &Record, other: &Record) -> Vec<usize> {
        let columns = 0..one.len();
        columns
            .filter(|column| one[*column] != other[*column])
            .collect()
    }

    #[test]
    fn every_value_is_turned_by_itself() {
        let mut random = Random::new(1);
        let mut met = BTreeSet::new();
        for _ in 0..2_000 {
            let mut record = vec![Datum::Number(1); 20];
            draw(&mut random, true, &mut record);
            let before = record.clone();
            turn_some(&mut random, true, &mut record);
            met.insert((before[CENTRE].number() == 0, turned(&before, &record)));
        }
        let columns = NUMBERS.iter().map(|n| n.0).chain(TEXTS.iter().map(|t| t.0));
        for column in columns {
            for is_own in [true, false] {
                assert!(met.contains(&(is_own, vec![column])), "{column} {is_own}");
            }
        }
        assert!(met.iter().any(|(_, columns)| columns.len() > 2));
    }
}
