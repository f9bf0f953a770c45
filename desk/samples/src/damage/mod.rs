//! Damage to a sound file, on three levels: to what it says, to its lines, to
//! its bytes. Each piece is drawn; some do no harm.

mod bytes;
mod columns;
mod connections;
mod days;
mod header;
mod lines;
mod marks;
mod meaning;
mod sections;

use crate::dress;
use crate::meaning as model;
use crate::model::Model;
use crate::page::Page;
use crate::random::Random;

/// One piece of damage, by the name reports give it.
#[derive(Clone, Copy)]
pub struct Damage {
    pub name: &'static str,
    level: Level,
}

#[derive(Clone, Copy)]
enum Level {
    Meaning(fn(&mut Random, &mut Model)),
    Lines(fn(&mut Random, &mut Page)),
    Bytes(fn(&mut Random, &mut Vec<u8>)),
}

const fn to_meaning(name: &'static str, damage: fn(&mut Random, &mut Model)) -> Damage {
    let level = Level::Meaning(damage);
    Damage { name, level }
}

const fn to_lines(name: &'static str, damage: fn(&mut Random, &mut Page)) -> Damage {
    let level = Level::Lines(damage);
    Damage { name, level }
}

const fn to_bytes(name: &'static str, damage: fn(&mut Random, &mut Vec<u8>)) -> Damage {
    let level = Level::Bytes(damage);
    Damage { name, level }
}

pub const ALL: [Damage; 58] = [
    to_meaning("primary key repeated", meaning::repeat_primary_key),
    to_meaning("second key repeated", meaning::repeat_second_key),
    to_meaning("parent lost", meaning::lose_parent),
    to_meaning("reference astray", meaning::lead_reference_astray),
    to_meaning("points made the same", meaning::make_points_the_same),
    to_meaning("value out of range", meaning::leave_range),
    to_meaning("text too long", meaning::lengthen_text),
    to_meaning("table twice", meaning::repeat_table),
    to_meaning("number left out", connections::leave_number_out),
    to_meaning("0 for a missing number", connections::put_zero),
    to_meaning("combination wrong", connections::break_combination),
    to_meaning(
        "combination and more wrong",
        connections::break_combination_and_more,
    ),
    to_meaning("transfer astray", connections::lead_transfer_astray),
    to_meaning("day nearly missed", days::nearly_miss_day),
    to_meaning("leap day in a common year", days::put_false_leap_day),
    to_meaning("no such day", days::put_no_day),
    to_meaning("no such day and more wrong", days::put_no_day_and_more),
    to_lines("line dropped", lines::drop_line),
    to_lines("line doubled", lines::double_line),
    to_lines("lines swapped", lines::swap_lines),
    to_lines("line cut", lines::cut_line),
    to_lines("lines joined", lines::join_lines),
    to_lines("foreign line", lines::add_foreign_line),
    to_lines("record of too few fields", sections::drop_field),
    to_lines("record of too many fields", sections::add_field),
    to_lines("odd field", sections::change_field),
    to_lines("several odd fields", sections::change_several_fields),
    to_lines("end count wrong", sections::change_end),
    to_lines("end dropped", sections::drop_end),
    to_lines("record after end", sections::put_record_behind_end),
    to_lines("unknown table", sections::change_table_name),
    to_lines("column missing", columns::drop_name),
    to_lines("column twice", columns::repeat_name),
    to_lines("column unknown", columns::change_name),
    to_lines("column too many", columns::add_name),
    to_lines("columns exchanged", columns::exchange_names),
    to_lines(
        "formats of another order",
        columns::arrange_formats_otherwise,
    ),
    to_lines("record of another order", columns::arrange_record_otherwise),
    to_lines("mark numbered by column", columns::number_mark_by_column),
    to_lines("mark of another place", columns::move_mark),
    to_lines("format changed", sections::change_format),
    to_lines("formats exchanged", sections::exchange_formats),
    to_lines("mark misplaced", marks::put_mark_anywhere),
    to_lines("mark before a record", marks::put_mark_before_record),
    to_lines("mark malformed", marks::malform_mark),
    to_lines("mark doubled", marks::double_mark),
    to_lines("second eof", header::add_second_eof),
    to_lines("table after eof", header::put_table_behind_eof),
    to_lines("eof count wrong", header::change_eof),
    to_lines("line after eof", header::put_line_behind_eof),
    to_lines("header line changed", header::change_header_line),
    to_lines("header line dropped", header::drop_header_line),
    to_lines("header line doubled", header::double_header_line),
    to_bytes("bytes replaced", |random, file| {
        bytes::replace_some(random, file)
    }),
    to_bytes("quote dropped", bytes::drop_quote),
    to_bytes("quote added", bytes::add_quote),
    to_bytes("file cut", bytes::cut_file),
    to_bytes("bytes added or dropped", bytes::add_or_drop),
];

/// A small file with one to three pieces of damage.
pub fn damaged(random: &mut Random) -> Vec<u8> {
    let count = random.pick(&[1, 1, 1, 1, 2, 3]);
    let pieces: Vec<Damage> = (0..count).map(|_| random.pick(&ALL)).collect();
    with(random, &pieces)
}

/// A small file with these pieces of damage.
pub fn with(random: &mut Random, pieces: &[Damage]) -> Vec<u8> {
    let most = model::draw_size(random).max(2);
    let mut model = model::draw(random, most);
    for piece in pieces {
        if let Level::Meaning(damage) = piece.level {
            damage(random, &mut model);
        }
    }
    let mut page = dress::dress(random, &model);
    for piece in pieces {
        if let Level::Lines(damage) = piece.level {
            damage(random, &mut page);
        }
    }
    let mut bytes = page.bytes();
    for piece in pieces {
        if let Level::Bytes(damage) = piece.level {
            damage(random, &mut bytes);
        }
    }
    bytes
}
