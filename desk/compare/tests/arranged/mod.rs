//! Wrong readings of files whose columns are arranged. Most take a file for
//! another one, which a right implementation then reads: such a file has the
//! same lines, and where more than its answer is asked for, of the same length.

use std::collections::BTreeSet;

use samples::page::Line;
use samples::Arrangement;
use vdv::tables::{named, Table};
use vdv::{number, At, Refusal};

/// A line of a section from its `atr` on, which names an arrangement.
pub struct Place<'a> {
    pub table: &'static Table,
    pub arrangement: &'a Arrangement,
    pub section: usize,
    pub line: usize,
}

/// Every line of the file with its end, first changed if it stands in an
/// arranged section.
fn walk(file: &[u8], mut see: impl FnMut(&mut Line, Place<'_>)) -> Vec<u8> {
    walk_sections(file, |line, place| {
        if !place.arrangement.is_plain() {
            see(line, place);
        }
    })
}

/// Every line of the file with its end, first changed if its section says which
/// column stands where.
pub fn walk_sections(file: &[u8], mut see: impl FnMut(&mut Line, Place<'_>)) -> Vec<u8> {
    let mut out = Vec::with_capacity(file.len());
    let (mut table, mut arrangement) = (None, None);
    let (mut section, mut number) = (0, 0);
    for whole in file.split_inclusive(|byte| *byte == b'\n') {
        let content = whole.strip_suffix(b"\n").unwrap_or(whole);
        let content = content.strip_suffix(b"\r").unwrap_or(content);
        let mut line = Line::unended(content);
        number += 1;
        match line.command() {
            b"tbl" => {
                (section, number) = (section + 1, 1);
                table = named(line.fields().concat().trim_ascii());
                arrangement = None;
            }
            b"eof" => (table, arrangement) = (None, None),
            b"atr" if arrangement.is_none() => {
                arrangement = table.and_then(|table| Arrangement::named(&line.fields(), table));
            }
            _ => {}
        }
        if let (Some(table), Some(arrangement)) = (table, &arrangement) {
            let place = Place {
                table,
                arrangement,
                section,
                line: number,
            };
            see(&mut line, place);
        }
        out.extend_from_slice(&line.content);
        out.extend_from_slice(&whole[content.len()..]);
    }
    out
}

/// The arrangement of this section, if it has another than document 01's.
fn arrangement_of(file: &[u8], section: usize) -> Option<Arrangement> {
    let mut found = None;
    walk(file, |_, place| {
        if place.section == section {
            found = Some(place.arrangement.clone());
        }
    });
    found
}

/// The line with other fields behind the same command, spaces and all.
pub fn put_fields(line: &mut Line, fields: &[Vec<u8>]) {
    let stop = line.content.iter().position(|byte| *byte == b';');
    line.content.truncate(stop.unwrap_or(0));
    for field in fields {
        line.content.push(b';');
        line.content.extend_from_slice(field);
    }
}

/// A mark's number changed.
fn renumber(line: &mut Line, change: impl FnOnce(usize) -> Option<usize>) {
    const WORD: &[u8] = b"\"SUGGESTED ";
    let mut words = line.content.windows(WORD.len());
    let Some(at) = words.position(|word| word == WORD) else {
        return;
    };
    let from = at + WORD.len();
    let digits = line.content[from..]
        .iter()
        .take_while(|b| b.is_ascii_digit());
    let to = from + digits.count();
    let number = std::str::from_utf8(&line.content[from..to]).map(str::parse);
    if let (Ok(Ok(number)), Some(b'"')) = (number, line.content.get(to)) {
        if let Some(number) = change(number) {
            let digits = number.to_string().into_bytes();
            line.content.splice(from..to, digits);
        }
    }
}

/// A mark's number changed, if the line keeps its length.
fn renumber_in_place(line: &mut Line, change: impl FnOnce(usize) -> Option<usize>) {
    let mut changed = line.clone();
    renumber(&mut changed, change);
    if changed.content.len() == line.content.len() {
        *line = changed;
    }
}

fn field_at(arrangement: &Arrangement, place: usize) -> Option<usize> {
    let column = arrangement.columns().get(place.checked_sub(1)?)?;
    Some(column + 1)
}

/// The file in which mark n stands where column n is.
pub fn with_marks_by_column(file: &[u8]) -> Vec<u8> {
    walk(file, |line, place| {
        if line.command() == b"com" {
            renumber_in_place(line, |number| place.arrangement.place_of(number));
        }
    })
}

/// The file in which format n stands where column n is.
pub fn with_formats_by_column(file: &[u8]) -> Vec<u8> {
    walk(file, |line, place| {
        let formats = line.fields();
        if line.command() == b"frm" && formats.len() == place.table.columns.len() {
            put_fields(line, &place.arrangement.arrange(&formats));
        }
    })
}

/// The file with every table in document 01's order.
pub fn straightened(file: &[u8]) -> Vec<u8> {
    walk(file, |line, place| match line.command() {
        b"atr" | b"frm" | b"rec" => {
            if let Some(fields) = place.arrangement.by_column(&line.fields()) {
                put_fields(line, &fields);
            }
        }
        b"com" => renumber(line, |number| field_at(place.arrangement, number)),
        _ => {}
    })
}

/// A place whose field is named by where it stands in the file.
pub fn by_place(file: &[u8], at: At) -> At {
    let arrangement = arrangement_of(file, at.section);
    let field = arrangement.and_then(|arrangement| field_at(&arrangement, at.field));
    At::new(at.section, at.record, field.unwrap_or(at.field))
}

/// A form's lines, each with the arrangement that its section has in the file.
fn walk_form(form: &mut [u8], file: &[u8], change: impl Fn(&mut Line, &Arrangement)) {
    let mut section = 0;
    let mut out = Vec::with_capacity(form.len());
    for whole in form.split(|byte| *byte == b'\n') {
        let mut line = Line::unended(whole);
        section += usize::from(line.command() == b"tbl");
        if let Some(arrangement) = arrangement_of(file, section) {
            change(&mut line, &arrangement);
        }
        out.extend_from_slice(&line.content);
        out.push(b'\n');
    }
    out.pop();
    form.copy_from_slice(&out);
}

/// A written form put into the file's own order.
pub fn rearrange(form: &mut [u8], file: &[u8]) {
    walk_form(form, file, |line, arrangement| match line.command() {
        b"atr" | b"frm" | b"rec" => put_fields(line, &arrangement.arrange(&line.fields())),
        b"com" => renumber_in_place(line, |number| arrangement.place_of(number)),
        _ => {}
    });
}

/// A written form whose marks have kept the file's numbers.
pub fn number_as_before(form: &mut [u8], file: &[u8]) {
    walk_form(form, file, |line, arrangement| {
        if line.command() == b"com" {
            renumber_in_place(line, |number| arrangement.place_of(number));
        }
    });
}

/// The file's answer with this rule judged in arranged sections by what
/// `breaks` says of a record's fields from the left.
pub fn judge_by_place(
    file: &[u8],
    right: Refusal,
    rule: u32,
    mut breaks: impl FnMut(&Place<'_>, &[Vec<u8>]) -> bool,
) -> Refusal {
    if right.number != number::SOUND && right.number < rule {
        return right;
    }
    let mut first = None;
    walk(file, |line, place| {
        let fields: Vec<_> = line.fields().iter().map(|f| value_of(f)).collect();
        let is_record = line.command() == b"rec" && fields.len() == place.table.columns.len();
        if is_record && breaks(&place, &fields) && first.is_none() {
            first = Some(Refusal::new(rule, place.section, place.line));
        }
    });
    let was_found = right.number == rule && arrangement_of(file, right.section).is_some();
    first.unwrap_or(if was_found { Refusal::SOUND } else { right })
}

/// A field without spaces and leading zeros.
pub fn value_of(field: &[u8]) -> Vec<u8> {
    let field = field.trim_ascii();
    let digits = field.iter().position(|byte| *byte != b'0');
    field[digits.unwrap_or(0)..].to_vec()
}

/// 14 for what stands where document 01 has the two points.
pub fn judge_points_by_place(file: &[u8], right: Refusal) -> Refusal {
    judge_by_place(file, right, number::SAME_POINTS, |place, fields| {
        let has_points = [225, 247].contains(&place.table.number);
        has_points && {
            let first = fields.len() - 5;
            fields[first..first + 2] == fields[first + 2..first + 4]
        }
    })
}

/// 18 for what stands where document 01 has the primary key.
pub fn judge_keys_by_place(file: &[u8], right: Refusal) -> Refusal {
    let mut met = BTreeSet::new();
    judge_by_place(file, right, number::PRIMARY_KEY, |place, fields| {
        let key = place.table.primary.iter();
        let key: Vec<_> = key.map(|field| fields[field - 1].clone()).collect();
        !met.insert((place.section, key))
    })
}

/// 8 for every order but document 01's.
pub fn refuse_arranged(file: &[u8], right: Refusal) -> Refusal {
    let mut first = None;
    walk(file, |line, place| {
        if line.command() == b"atr" && first.is_none() {
            first = Some(Refusal::new(number::ATR, place.section, place.line));
        }
    });
    match right.number {
        number::SOUND => first.unwrap_or(right),
        _ => right,
    }
}
