//! Demand 3: damage stays where it is. A run of whole lines after the first
//! `tbl` line is replaced by any other lines; every table whose lines stand
//! outside it, its closing line included, reads as before.

use std::ops::Range;

use samples::{texts, Random};
use vdv::{own_bytes, value_in, Row, Span, Value, CELLS};

use crate::difference::{law, Difference};
use crate::library::{all_rows, table_cells, Library};

/// A file with a run of its lines replaced.
pub struct Replaced {
    pub file: Vec<u8>,
    /// The run in the file as it was.
    pub run: Range<usize>,
    pub length: usize,
}

/// Lines that reach furthest: lost quotes, table lines, other orders, ends.
const LINES: [&[u8]; 15] = [
    b"tbl; MENGE_TAGESART\n",
    b"atr; TAGESART_TEXT; BASIS_VERSION; TAGESART_NR\n",
    b"tbl; EINZELANSCHLUSS\n",
    b"rec; 7; 1; ; 3; \n",
    b"tbl; REC_ORT\n",
    b"eof; 1\n",
    b"end; 0\n",
    b"rec; 7; 1; \"School day\n",
    b"com; \"SUGGESTED 3\"\n",
    b"com; \"\n",
    b"\"\n",
    b"\n",
    b"\xff\x00\r\r\n",
    b"chs; \"ASCII\"\n",
    b"mod; DD.MM.YYYY; HH:MM:SS; free\n",
];

/// Some run of whole lines after the first table's line, replaced. None if the
/// file has no sections to read.
pub fn replace_lines(library: &dyn Library, random: &mut Random, file: &[u8]) -> Option<Replaced> {
    let first = all_rows(library, file).ok()?.rows.first()?.place;
    let starts: Vec<usize> = line_starts(file).filter(|start| *start > first).collect();
    let one = *random.choose(&starts)?;
    let other = match random.below(4) {
        0 => file.len(),
        _ => *random.choose(&starts)?,
    };
    let run = one.min(other)..one.max(other);
    let mut lines = draw_lines(random, file);
    if run.end == file.len() && random.percent(30) {
        lines.pop();
    }
    let changed = [&file[..run.start], &lines, &file[run.end..]].concat();
    Some(Replaced {
        file: changed,
        run,
        length: lines.len(),
    })
}

/// Where lines begin, behind a last LF too.
fn line_starts(file: &[u8]) -> impl Iterator<Item = usize> + '_ {
    let feeds = file.iter().enumerate().filter(|(_, byte)| **byte == b'\n');
    feeds.map(|(place, _)| place + 1)
}

/// Whole lines: drawn ones, and ones the file has elsewhere.
fn draw_lines(random: &mut Random, file: &[u8]) -> Vec<u8> {
    let own: Vec<&[u8]> = file.split_inclusive(|byte| *byte == b'\n').collect();
    let mut lines = Vec::new();
    for _ in 0..random.below(5) {
        match random.below(3) {
            0 => lines.extend_from_slice(random.pick(&LINES)),
            1 => {
                let line = random.choose(&own).copied().unwrap_or_default();
                lines.extend_from_slice(line.strip_suffix(b"\n").unwrap_or(line));
                lines.push(b'\n');
            }
            _ => {
                let length = random.below(40);
                lines.extend(texts::any(random, true, length));
                lines.push(b'\n');
            }
        }
    }
    lines
}

/// What a section hands out: its row and its values, with places counted from
/// its first byte.
#[derive(PartialEq)]
struct Reading {
    row: Row,
    values: Vec<Value>,
    texts: Vec<Vec<u8>>,
}

fn readings(library: &dyn Library, file: &[u8]) -> Vec<Reading> {
    let rows = all_rows(library, file).map_or(Vec::new(), |listing| listing.rows);
    let sections = rows.iter().enumerate();
    sections
        .map(|(index, row)| reading(library, file, index + 1, *row))
        .collect()
}

fn reading(library: &dyn Library, file: &[u8], section: usize, row: Row) -> Reading {
    let cells = table_cells(library, file, section, row).unwrap_or_default();
    let found = || cells.chunks(CELLS).filter_map(value_in);
    let text = |value| match value {
        Value::Text { span, .. } => Some(own_bytes(span.of(file))),
        Value::Number(_) | Value::Missing => None,
    };
    Reading {
        row: Row { place: 0, ..row },
        values: found()
            .map(|value| counted_from(row.place, value))
            .collect(),
        texts: found().filter_map(text).collect(),
    }
}

fn counted_from(place: usize, value: Value) -> Value {
    match value {
        Value::Text { span, owner } => Value::Text {
            span: Span {
                from: span.from.wrapping_sub(place),
                to: span.to.wrapping_sub(place),
            },
            owner,
        },
        number => number,
    }
}

/// Whether every table outside the run reads as before.
pub fn hold(library: &dyn Library, file: &[u8], replaced: &Replaced) -> Result<usize, Difference> {
    let rows = all_rows(library, file).map_or(Vec::new(), |listing| listing.rows);
    let run = &replaced.run;
    // A section's closing line begins where it ends; that line stands before
    // the run too.
    let before = rows.iter().filter(|row| row.span().to < run.start).count();
    let behind = rows.iter().filter(|row| row.place >= run.end).count();

    let was = readings(library, file);
    let is = readings(library, &replaced.file);
    let places = |file: &[u8]| all_rows(library, file).map_or(Vec::new(), |l| l.rows);
    let now = places(&replaced.file);
    law(
        now.len() >= before + behind,
        &"demand 3: no table outside the run is lost",
    )?;
    law(
        was[..before] == is[..before] && rows[..before] == now[..before],
        &format_args!("demand 3: {before} tables before {run:?} read as before"),
    )?;
    let (were, are) = (rows.len() - behind, now.len() - behind);
    let moved = |row: &Row| row.place + replaced.length - (run.end - run.start);
    let in_place = rows[were..]
        .iter()
        .zip(&now[are..])
        .all(|(r, n)| moved(r) == n.place);
    law(
        was[were..] == is[are..] && in_place,
        &format_args!("demand 3: {behind} tables behind {run:?} read as before"),
    )?;
    Ok(before + behind)
}
