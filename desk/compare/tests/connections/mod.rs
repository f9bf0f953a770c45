//! Wrong readings of connections, of their transfers, and of numbers that are
//! missing.

use std::collections::BTreeSet;

use compare::{Library, Plain};
use samples::page::Line;
use vdv::tables::{Column, Table, CONNECTIONS, TRANSFERS};
use vdv::{number, Refusal};

use crate::arranged::{judge_by_place, put_fields, value_of, walk_sections, Place};

/// Columns of 432, counted from 0: LEITSTELLENKENNUNG, the feeder's line,
/// direction and stop, and its three texts.
const CENTRE: usize = 4;
const LINE: usize = 5;
const DIRECTION: usize = 6;
const STOP: usize = 7;
const TEXTS: [usize; 3] = [11, 12, 13];

/// A record's fields by column.
type Fields = Vec<Vec<u8>>;

fn by_column(line: &Line, place: &Place<'_>) -> Option<Fields> {
    match line.command() {
        b"rec" => place.arrangement.by_column(&line.fields()),
        _ => None,
    }
}

fn is_empty(field: &[u8]) -> bool {
    field.trim_ascii().is_empty()
}

/// The file with another field for each that has something to change.
fn with_fields(file: &[u8], change: impl Fn(&Column, &[u8]) -> Option<&'static [u8]>) -> Vec<u8> {
    walk_sections(file, |line, place| {
        let Some(mut fields) = by_column(line, &place) else {
            return;
        };
        for (field, column) in fields.iter_mut().zip(place.table.columns) {
            if let Some(other) = change(column, field) {
                *field = other.to_vec();
            }
        }
        put_fields(line, &place.arrangement.arrange(&fields));
    })
}

/// The file in which what may be missing is no number.
pub fn with_missing_refused(file: &[u8]) -> Vec<u8> {
    with_fields(file, |column, field| {
        (column.may_be_missing && is_empty(field)).then_some(b"x")
    })
}

/// The file in which 0 stands for a missing number.
pub fn with_zeros_missing(file: &[u8]) -> Vec<u8> {
    with_fields(file, |column, field| {
        let is_zero = [&b"0"[..], b"-0"].contains(&field.trim_ascii());
        (column.may_be_missing && is_zero).then_some(b"")
    })
}

/// The file in which no number is missing where none may be.
pub fn with_numbers_put_in(file: &[u8]) -> Vec<u8> {
    with_fields(file, |column, field| {
        let is_left_out = !column.is_text() && !column.may_be_missing && is_empty(field);
        is_left_out.then_some(b"1")
    })
}

fn number_in(field: &[u8]) -> Option<i64> {
    std::str::from_utf8(field.trim_ascii()).ok()?.parse().ok()
}

/// Whether a text is filled: more than quotes and spaces stand there.
fn is_filled(field: &[u8]) -> bool {
    let text = field.trim_ascii();
    let inside = text.strip_prefix(b"\"").and_then(|t| t.strip_suffix(b"\""));
    inside.is_some_and(|text| !is_empty(text))
}

/// Whether fields in document 02's order are a wrong combination; not if one is
/// no number.
fn is_wrong(fields: &[Vec<u8>]) -> bool {
    let numbers = [CENTRE, LINE, DIRECTION, STOP].map(|column| number_in(&fields[column]));
    let filled = TEXTS.map(|column| is_filled(&fields[column]));
    match numbers {
        [Some(0), Some(line), Some(_), Some(stop)] => {
            filled != [false; 3] || line <= 0 || stop <= 0
        }
        [Some(_), Some(line), Some(direction), Some(stop)] => {
            filled != [true; 3] || [line, direction, stop] != [0; 3]
        }
        _ => false,
    }
}

/// The record at a refused place, if it is one of this table.
fn record_at(file: &[u8], right: Refusal, table: &Table) -> Option<Fields> {
    let mut found = None;
    walk_sections(file, |line, place| {
        let is_there = (place.section, place.line) == (right.section, right.line);
        if is_there && place.table == table {
            found = by_column(line, &place);
        }
    });
    found
}

/// 25 before 13.
pub fn judge_combination_first(file: &[u8], right: Refusal) -> Refusal {
    match record_at(file, right, &CONNECTIONS) {
        Some(fields) if is_wrong(&fields) => Refusal {
            number: number::COMBINATION,
            ..right
        },
        _ => right,
    }
}

/// 25 after 15: what the file gives with this combination mended.
pub fn judge_mark_first(file: &[u8], right: Refusal) -> Refusal {
    let mended = walk_sections(file, |line, place| {
        if (place.section, place.line) != (right.section, right.line) {
            return;
        }
        if let Some(mut fields) = by_column(line, &place) {
            for (column, number) in [
                (CENTRE, b"0"),
                (LINE, b"1"),
                (DIRECTION, b"0"),
                (STOP, b"1"),
            ] {
                fields[column] = number.to_vec();
            }
            for column in TEXTS {
                fields[column] = b"\"\"".to_vec();
            }
            put_fields(line, &place.arrangement.arrange(&fields));
        }
    });
    let answer = Plain.check(&mended);
    let is_mark_there = answer
        == Refusal {
            number: number::MARK,
            ..right
        };
    if is_mark_there {
        answer
    } else {
        right
    }
}

/// 25 for what stands where document 02 has the combination.
pub fn judge_combination_by_place(file: &[u8], right: Refusal) -> Refusal {
    judge_by_place(file, right, number::COMBINATION, |place, fields| {
        *place.table == CONNECTIONS && is_wrong(fields)
    })
}

/// 25 for a feeder of one's own in direction 0.
pub fn refuse_no_direction(file: &[u8], right: Refusal) -> Refusal {
    let mut first = None;
    walk_sections(file, |line, place| {
        let fields = by_column(line, &place).filter(|_| *place.table == CONNECTIONS);
        let Some(fields) = fields else {
            return;
        };
        let zeros = [CENTRE, DIRECTION].map(|column| number_in(&fields[column]) == Some(0));
        if zeros == [true; 2] && first.is_none() {
            first = Some(Refusal::new(number::COMBINATION, place.section, place.line));
        }
    });
    first.unwrap_or(right)
}

/// 15 for a mark of a place with two digits.
pub fn refuse_two_digits(file: &[u8], right: Refusal) -> Refusal {
    let mut first = None;
    walk_sections(file, |line, place| {
        let mark = line.content.trim_ascii().strip_suffix(b"\"");
        let number = mark.and_then(|mark| mark.rsplit(|byte| *byte == b' ').next());
        let is_number = number.is_some_and(|n| n.len() == 2 && n.iter().all(u8::is_ascii_digit));
        if line.command() == b"com" && is_number && first.is_none() {
            first = Some(Refusal::new(number::MARK, place.section, place.line));
        }
    });
    first.unwrap_or(right)
}

/// Whether the refused record is a transfer that finds its version and its day
/// type, so that it lacks its connection alone.
pub fn lacks_connection_alone(file: &[u8], right: Refusal) -> bool {
    let Some(transfer) = record_at(file, right, &TRANSFERS) else {
        return false;
    };
    let mut keys = BTreeSet::new();
    walk_sections(file, |line, place| {
        let Some(fields) = by_column(line, &place) else {
            return;
        };
        let key = place.table.primary.iter();
        let key: Fields = key.map(|field| value_of(&fields[field - 1])).collect();
        keys.insert((place.table.number, key));
    });
    let mut references = TRANSFERS.references.iter();
    references.all(|reference| {
        let key = reference.fields.iter();
        let key: Fields = key.map(|field| value_of(&transfer[field - 1])).collect();
        (reference.to == CONNECTIONS.number) != keys.contains(&(reference.to, key))
    })
}

/// The form whose `rec` lines are changed, into lent room.
pub fn write_changed(
    file: &[u8],
    out: &mut [u8],
    change: impl Fn(&mut Line),
) -> Result<usize, Refusal> {
    let mut form = vec![0; 2 * file.len() + 1024];
    let length = Plain.write(file, &mut form)?;
    let changed = walk_sections(&form[..length], |line, _| {
        if line.command() == b"rec" {
            change(line);
        }
    });
    let room = out.get_mut(..changed.len());
    let room = room.ok_or(Refusal::placeless(number::NO_ROOM))?;
    room.copy_from_slice(&changed);
    Ok(changed.len())
}

/// A written record with 0 for each missing number.
pub fn put_zeros(line: &mut Line) {
    let mut fields = line.fields();
    for field in fields.iter_mut().filter(|field| is_empty(field)) {
        *field = b" 0".to_vec();
    }
    put_fields(line, &fields);
}

/// A written record without the space behind its last `;`.
pub fn lose_last_space(line: &mut Line) {
    if line.content.ends_with(b"; ") {
        line.content.pop();
    }
}
