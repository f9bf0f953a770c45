//! A refused line as it is shown: under its number in the file, with marks
//! below the parts at fault, and notes on what else is plain to see.

use std::ops::Range;

use vdv::{all_rows, number, tables, Refusal};

use crate::arrangement::Standing;
use crate::columns::wrapped;
use crate::explaining;
use crate::latin::{shown, width};
use crate::lines::{command, each_line, first_with, header_lines, line_from, lines_of, Shown};
use crate::pointing::Line;
use crate::references::Lost;
use crate::refusals::Part;
use crate::terminal::{Paint, Tone};

/// Columns of a line that are shown; more is cut round the place.
const SHOWN: usize = 120;

/// Columns before a note's words.
const NOTE: usize = 9;

pub struct Picture {
    /// The line's number in the file, the line, and the marks below it.
    line: Option<(usize, String, String)>,
    notes: Vec<String>,
}

impl Picture {
    pub fn of(file: &[u8], refusal: Refusal) -> Picture {
        let mut notes = Vec::new();
        let found = line_of(file, refusal);
        let lost = Lost::of(file, refusal);
        let line = found.map(|found| {
            let mut line = read_line(file, refusal, found.content);
            line.lost = lost.as_ref().map_or(&[], |lost| lost.reference.fields);
            if line.has_odd_quotes() {
                notes.push("its quotes do not pair: one is missing or too many".to_owned());
            }
            notes.extend(explaining::notes(&line));
            let (content, marks) = window(line.content, &line.parts());
            (found.number, content, marks)
        });
        notes.extend(match Part::of(refusal) {
            Part::Header => missing_in_header(file, refusal.line),
            Part::Trailer => count_in_trailer(file, refusal.line),
            Part::Section => missing_end(file, refusal),
            Part::Nothing => None,
        });
        notes.extend(lost.map(|lost| lost.sentence()));
        Picture { line, notes }
    }

    /// A line that is not refused, and what is said of it.
    pub fn of_line(shown: Shown<'_>, note: String) -> Picture {
        let (content, marks) = window(shown.content, &[]);
        Picture {
            line: Some((shown.number, content, marks)),
            notes: vec![note],
        }
    }

    pub fn painted(&self, paint: Paint) -> String {
        let mut text = String::new();
        if let Some((number, content, marks)) = &self.line {
            text.push_str(&format!("{number:6} | {content}\n"));
            let marks = marks.trim_end();
            if !marks.is_empty() {
                let marks = paint.tone(Tone::Refused, marks);
                text.push_str(&format!("       | {marks}\n"));
            }
        }
        for note in &self.notes {
            let note = wrapped(NOTE, note);
            let note = paint.tone(Tone::Faint, format_args!("= {}", note.trim_start()));
            text.push_str(&format!("       {note}\n"));
        }
        text
    }
}

fn line_of<'f>(file: &'f [u8], refusal: Refusal) -> Option<Shown<'f>> {
    let place = match Part::of(refusal) {
        Part::Header => 0,
        Part::Trailer => first_with(file, &[b"eof"])?,
        Part::Section => vdv::section(file, refusal.section).ok()?.place,
        Part::Nothing => return None,
    };
    line_from(file, place, refusal.line)
}

fn read_line<'f>(file: &[u8], refusal: Refusal, content: &'f [u8]) -> Line<'f> {
    let row = vdv::section(file, refusal.section).ok();
    let section = row.map_or(&[][..], |row| row.span().of(file));
    let table = row.and_then(|row| tables::numbered(row.table));
    Line {
        content,
        number: refusal.number,
        table,
        standing: table.and_then(|table| Standing::of(table, section)),
        is_among_records: is_among_records(section, refusal.line),
        latin: vdv::header(file).is_ok_and(|header| header.latin),
        lost: &[],
    }
}

fn is_among_records(section: &[u8], line: usize) -> bool {
    let before = each_line(section).take(line.saturating_sub(1));
    let last = before
        .filter_map(command)
        .filter(|name| *name != b"com")
        .last();
    matches!(last, Some(b"frm" | b"rec"))
}

/// What is shown of a line, and the marks under it.
fn window(content: &[u8], parts: &[Range<usize>]) -> (String, String) {
    let first = parts.first().map_or(0, |part| part.start);
    let from = if width(content) <= SHOWN {
        0
    } else {
        first.saturating_sub(SHOWN / 3)
    };
    let mut to = from;
    while to < content.len() && width(&content[from..to + 1]) <= SHOWN {
        to += 1;
    }
    let before = if from > 0 { ".." } else { "" };
    let after = if to < content.len() { ".." } else { "" };
    let line = format!("{before}{}{after}", shown(&content[from..to]));
    let mut marks = " ".repeat(before.len());
    for place in from..to {
        let is_marked = parts.iter().any(|part| part.contains(&place));
        let mark = if is_marked { "^" } else { " " };
        marks.push_str(&mark.repeat(width(&content[place..place + 1])));
    }
    (line, marks)
}

/// "else the header's line count if something is missing": only the last line
/// can speak of that.
fn missing_in_header(file: &[u8], line: usize) -> Option<String> {
    let lines = header_lines(file);
    if line != lines.len() {
        return None;
    }
    let found: Vec<_> = lines.into_iter().filter_map(command).collect();
    let needed: [&[u8]; 5] = [b"mod", b"src", b"chs", b"ver", b"ifv"];
    let missing = needed.into_iter().filter(|name| !found.contains(name));
    let missing: Vec<String> = missing.map(shown).collect();
    (!missing.is_empty()).then(|| format!("missing in the header: {}", missing.join(", ")))
}

fn count_in_trailer(file: &[u8], line: usize) -> Option<String> {
    match line {
        0 => Some("no `eof` line stands".to_owned()),
        1 => {
            let count = all_rows(file).ok()?.rows.len();
            Some(format!("`tbl` lines in the file: {count}"))
        }
        _ => Some("only blank lines may follow `eof`".to_owned()),
    }
}

/// "section ends without `end` (place: its last line ..)".
fn missing_end(file: &[u8], refusal: Refusal) -> Option<String> {
    if refusal.number != number::ORDER {
        return None;
    }
    let row = vdv::section(file, refusal.section).ok()?;
    let lines = lines_of(row.span().of(file));
    let has_end = lines.iter().any(|line| command(line) == Some(b"end"));
    let is_last = lines.len() == refusal.line;
    (is_last && !has_end).then(|| "the section has no `end`".to_owned())
}

#[cfg(test)]
mod tests {
    use super::*;

    #[test]
    fn short_lines_are_shown_whole() {
        let (line, marks) = window(b"rec; \xfc\x1b", &[5..6, 6..7]);
        assert_eq!(line, "rec; ü\\x1b");
        assert_eq!(marks, "     ^^^^^");
    }

    #[test]
    fn long_lines_are_cut_round_the_place() {
        let content = [b"x".repeat(500), b"!".to_vec(), b"y".repeat(500)].concat();
        let (line, marks) = window(&content, &[500..501, 505..506]);
        assert!(line.starts_with("..x") && line.ends_with("y.."));
        assert_eq!(line.find('!'), marks.find('^'));
        assert_eq!(line.len(), SHOWN + 4);
    }
}
