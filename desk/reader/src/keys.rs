//! 17 to 20: what only the whole file can break, once every section is sound.

use std::collections::HashSet;
use std::ops::Range;

use crate::answer::{number, Answer};
use crate::header::Charset;
use crate::section::{Field, Record, Records};
use crate::tables::{position, Kind, Table, ALL, EIGHT_DIGITS};

/// A key's values in one number: each column's value is a digit in a base as
/// wide as the column, so that equal numbers mean equal keys.
type Key = u128;

/// A sound section of the file.
pub struct Sound {
    pub number: usize,
    pub region: Range<usize>,
    pub table: &'static Table,
    pub records: usize,
}

/// The keys of each of the ten tables.
type KeySets = [HashSet<Key>; 10];

/// The first of 17, 18, 19, 20, each at its first place in file order.
pub fn judge(file: &[u8], charset: Charset, sections: &[Sound]) -> Answer {
    if let Some(second) = table_met_before(sections) {
        return Answer::new(number::TABLE_TWICE, second, 1);
    }
    let mut primary = KeySets::default();
    let mut first_second_key = None;
    for section in sections {
        let keys = &mut primary[place_of(section.table.number)];
        keys.reserve(section.records);
        let mut seconds = HashSet::new();
        let mut records = Records::of(file, section.region.clone(), charset);
        while let Ok(Some(record)) = records.next() {
            if !keys.insert(own_key(record, section.table, section.table.primary)) {
                return Answer::new(number::PRIMARY_KEY, section.number, record.line);
            }
            if section.table.second.is_empty() || first_second_key.is_some() {
                continue;
            }
            if !seconds.insert(own_key(record, section.table, section.table.second)) {
                let answer = Answer::new(number::SECOND_KEY, section.number, record.line);
                first_second_key = Some(answer);
            }
        }
    }
    first_second_key
        .or_else(|| lost_reference(file, charset, sections, &primary))
        .unwrap_or(Answer::SOUND)
}

fn table_met_before(sections: &[Sound]) -> Option<usize> {
    let mut met = [false; 10];
    sections
        .iter()
        .find(|section| std::mem::replace(&mut met[place_of(section.table.number)], true))
        .map(|section| section.number)
}

fn lost_reference(
    file: &[u8],
    charset: Charset,
    sections: &[Sound],
    primary: &KeySets,
) -> Option<Answer> {
    for section in sections.iter().filter(|s| !s.table.references.is_empty()) {
        let mut records = Records::of(file, section.region.clone(), charset);
        while let Ok(Some(record)) = records.next() {
            let finds_all = section.table.references.iter().all(|reference| {
                let target = place_of(reference.to);
                primary[target].contains(&reference_key(record, &ALL[target], reference.by))
            });
            if !finds_all {
                let answer = Answer::new(number::REFERENCE, section.number, record.line);
                return Some(answer);
            }
        }
    }
    None
}

fn place_of(table: u16) -> usize {
    position(table).expect("a sound section's table is one of the ten")
}

fn own_key(record: &Record<'_>, table: &Table, columns: &[usize]) -> Key {
    columns.iter().fold(0, |key, &column| {
        extend(key, record.fields()[column], table.columns[column].kind)
    })
}

/// The target's primary key with the values of the referring record. The
/// referring columns' ranges lie within the target's.
fn reference_key(record: &Record<'_>, target: &Table, by: &[usize]) -> Key {
    by.iter().zip(target.primary).fold(0, |key, (&from, &to)| {
        extend(key, record.fields()[from], target.columns[to].kind)
    })
}

fn extend(key: Key, field: Field<'_>, kind: Kind) -> Key {
    match (field, kind) {
        (Field::Number(value), Kind::Number { low, high }) => {
            key * (high - low + 1) as Key + (value - low) as Key
        }
        (Field::Number(value), Kind::Day) => key * (EIGHT_DIGITS + 1) as Key + value as Key,
        // Bytes count from 1 and absent ones as 0, so that "HP" and "HP1"
        // differ. A second key's text has at most six bytes.
        (Field::Text(text), Kind::Text { size }) => {
            let mut bytes = text.own_bytes();
            (0..size).fold(key, |key, _| {
                key * 257 + bytes.next().map_or(0, |b| Key::from(b) + 1)
            })
        }
        _ => unreachable!("no key has a missing number or another kind than its column"),
    }
}

#[cfg(test)]
mod tests {
    use super::*;

    #[test]
    fn every_key_fits() {
        for table in &ALL {
            for columns in [table.primary, table.second] {
                let top = columns.iter().try_fold(1u128, |top, &column| {
                    match table.columns[column].kind {
                        Kind::Number { low, high } => top.checked_mul((high - low + 1) as u128),
                        Kind::Day => top.checked_mul((EIGHT_DIGITS + 1) as u128),
                        Kind::Text { size } => top.checked_mul(257u128.checked_pow(size as u32)?),
                    }
                });
                assert!(top.is_some(), "{}", table.name);
            }
        }
    }

    #[test]
    fn references_lie_within_their_target() {
        for table in &ALL {
            for reference in table.references {
                let target = &ALL[place_of(reference.to)];
                for (&from, &to) in reference.by.iter().zip(target.primary) {
                    let (
                        Kind::Number { low, high },
                        Kind::Number {
                            low: least,
                            high: most,
                        },
                    ) = (table.columns[from].kind, target.columns[to].kind)
                    else {
                        panic!("{} refers by a text or a day", table.name);
                    };
                    assert!(least <= low && high <= most, "{}", table.name);
                }
            }
        }
    }
}
