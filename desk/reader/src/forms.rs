//! The written file, filling and stripping.

use crate::answer::{number, Answer, LIMIT};
use crate::fields::{unpadded, Text};
use crate::file::Opened;
use crate::header::{Charset, Header};
use crate::lines::{is_latin, is_plain};
use crate::section::{Field, Record};
use crate::tables::{Kind, Table};

/// The longest text a fill takes: every column that may be filled has this
/// size.
const FILL_SIZE: usize = 40;

/// How the form differs from the file's own values.
enum Change<'t> {
    None,
    Fill(Filling<'t>),
    Strip,
}

/// Section, record and field from 1; the field by its number in document 01's
/// table, wherever its column stands in the file.
struct Filling<'t> {
    section: usize,
    record: usize,
    field: usize,
    text: &'t [u8],
}

/// The file's written form, its length given.
pub fn write(file: &[u8], out: &mut [u8]) -> Result<usize, Answer> {
    let opened = open_sound(file)?;
    hand_out(&form(&opened, &Change::None), out)
}

/// The written form with marked texts empty and no marks.
pub fn strip(file: &[u8], out: &mut [u8]) -> Result<usize, Answer> {
    let opened = open_sound(file)?;
    hand_out(&form(&opened, &Change::Strip), out)
}

/// The written form with this text and its mark. "Order: verdict, 24, 23, 22,
/// text empty 11, text byte not allowed in a `rec` 4, over 40 bytes 13, 21."
/// "a fill's text is trimmed likewise".
pub fn fill(
    file: &[u8],
    section: usize,
    record: usize,
    field: usize,
    text: &[u8],
    out: &mut [u8],
) -> Result<usize, Answer> {
    let opened = open_sound(file)?;
    let filling = Filling {
        section,
        record,
        field,
        text: unpadded(text),
    };
    may_fill(&opened, &filling).map_err(Answer::placeless)?;
    hand_out(&form(&opened, &Change::Fill(filling)), out)
}

/// "Only a file with verdict 0 is written; else its verdict is given."
fn open_sound(file: &[u8]) -> Result<Opened<'_>, Answer> {
    let opened = Opened::open(file)?;
    let answer = opened.answer();
    if answer.is_sound() {
        Ok(opened)
    } else {
        Err(answer)
    }
}

fn may_fill(opened: &Opened<'_>, filling: &Filling<'_>) -> Result<(), u8> {
    let (record, table) = find(opened, filling.section, filling.record).ok_or(number::NO_SUCH)?;
    let column = filling.field.checked_sub(1).ok_or(number::NO_SUCH)?;
    let field = record.fields().get(column).ok_or(number::NO_SUCH)?;
    if table.markable != Some(filling.field) {
        return Err(number::MAY_NOT_FILL);
    }
    if !matches!(field, Field::Text(text) if text.is_empty()) {
        return Err(number::NOT_EMPTY);
    }
    if filling.text.is_empty() {
        return Err(number::NOT_A_TEXT);
    }
    let allowed = match opened.header.charset {
        Charset::Ascii => is_plain(filling.text),
        Charset::Latin1 => is_latin(filling.text),
    };
    if !allowed {
        return Err(number::BYTE);
    }
    if filling.text.len() > FILL_SIZE {
        return Err(number::RANGE);
    }
    Ok(())
}

fn find<'a>(
    opened: &Opened<'a>,
    section: usize,
    record: usize,
) -> Option<(Record<'a>, &'static Table)> {
    let mut records = opened.records(section)?;
    let table = records.heading()?;
    let mut left = record;
    while let Ok(Some(found)) = records.next() {
        left = left.checked_sub(1)?;
        if left == 0 {
            return Some((*found, table));
        }
    }
    None
}

/// "21 exactly if the form is longer than the lent output or than 16,777,216
/// bytes"; bytes after the form keep their values.
fn hand_out(form: &[u8], out: &mut [u8]) -> Result<usize, Answer> {
    if form.len() > LIMIT {
        return Err(Answer::placeless(number::NO_ROOM));
    }
    match out.get_mut(..form.len()) {
        Some(start) => {
            start.copy_from_slice(form);
            Ok(form.len())
        }
        None => Err(Answer::placeless(number::NO_ROOM)),
    }
}

/// The form of a sound file.
fn form(opened: &Opened<'_>, change: &Change<'_>) -> Vec<u8> {
    let mut out = Vec::with_capacity(opened.file.len() + opened.file.len() / 4);
    put_header(&mut out, &opened.header);
    for section in 1..=opened.section_count() {
        put_section(&mut out, opened, section, change);
    }
    put_command(&mut out, b"eof");
    put_number(&mut out, opened.section_count());
    out.push(b'\n');
    out
}

fn put_header(out: &mut Vec<u8>, header: &Header<'_>) {
    out.extend_from_slice(b"mod; DD.MM.YYYY; HH:MM:SS; free\nsrc; ");
    put_text(out, header.source);
    let (date, time) = (header.date, header.time);
    let stamp = format!(
        "; \"{:02}.{:02}.{:04}\"; \"{:02}:{:02}:{:02}\"\n",
        date.day, date.month, date.year, time.hour, time.minute, time.second
    );
    out.extend_from_slice(stamp.as_bytes());
    out.extend_from_slice(match header.charset {
        Charset::Ascii => b"chs; \"ASCII\"\n",
        Charset::Latin1 => b"chs; \"ISO8859-1\"\n",
    });
    let texts: [(&[u8], Option<Text<'_>>); 4] = [
        (b"ver", Some(header.version)),
        (b"ifv", Some(header.interface)),
        (b"dve", header.data),
        (b"fft", header.format),
    ];
    for (command, text) in texts {
        if let Some(text) = text {
            put_command(out, command);
            put_text(out, text);
            out.push(b'\n');
        }
    }
}

fn put_section(out: &mut Vec<u8>, opened: &Opened<'_>, section: usize, change: &Change<'_>) {
    let Some(mut records) = opened.records(section) else {
        return;
    };
    let Some(table) = records.heading() else {
        return;
    };
    put_table_lines(out, table);
    let mut count = 0;
    while let Ok(Some(record)) = records.next() {
        count += 1;
        put_record(out, record, (section, count), change);
    }
    put_command(out, b"end");
    put_number(out, count);
    out.push(b'\n');
}

fn put_table_lines(out: &mut Vec<u8>, table: &Table) {
    put_command(out, b"tbl");
    out.extend_from_slice(table.name.as_bytes());
    out.extend_from_slice(b"\natr");
    for column in table.columns {
        out.extend_from_slice(b"; ");
        out.extend_from_slice(column.name.as_bytes());
    }
    out.extend_from_slice(b"\nfrm");
    for column in table.columns {
        let format = match column.kind {
            Kind::Number { .. } | Kind::Day => format!("; num[{}.0]", column.written),
            Kind::Text { .. } => format!("; char[{}]", column.written),
        };
        out.extend_from_slice(format.as_bytes());
    }
    out.push(b'\n');
}

fn put_record(out: &mut Vec<u8>, record: &Record<'_>, place: (usize, usize), change: &Change<'_>) {
    let filling = match change {
        Change::Fill(filling) if (filling.section, filling.record) == place => Some(filling),
        _ => None,
    };
    let filled = |field| filling.filter(|filling| filling.field == field);
    let strips = matches!(change, Change::Strip);
    for field in 1..=record.len() {
        if filled(field).is_some() || record.is_marked(field) && !strips {
            out.extend_from_slice(b"com; \"SUGGESTED ");
            put_number(out, field);
            out.extend_from_slice(b"\"\n");
        }
    }
    out.extend_from_slice(b"rec");
    for (column, value) in record.fields().iter().enumerate() {
        let field = column + 1;
        out.extend_from_slice(b"; ");
        match value {
            Field::Number(value) => put_number(out, value.unsigned_abs() as usize),
            Field::Missing => {}
            Field::Text(_) if strips && record.is_marked(field) => out.extend_from_slice(b"\"\""),
            Field::Text(text) => match filled(field) {
                Some(filling) => put_own_bytes(out, filling.text),
                None => put_text(out, *text),
            },
        }
    }
    out.push(b'\n');
}

fn put_command(out: &mut Vec<u8>, command: &[u8]) {
    out.extend_from_slice(command);
    out.extend_from_slice(b"; ");
}

/// A text as the file stores it: its doubled quotes stay doubled.
fn put_text(out: &mut Vec<u8>, text: Text<'_>) {
    out.push(b'"');
    out.extend_from_slice(text.stored());
    out.push(b'"');
}

/// A lent text: each quote in it is doubled.
fn put_own_bytes(out: &mut Vec<u8>, text: &[u8]) {
    out.push(b'"');
    for &byte in text {
        if byte == b'"' {
            out.push(b'"');
        }
        out.push(byte);
    }
    out.push(b'"');
}

fn put_number(out: &mut Vec<u8>, value: usize) {
    let mut digits = [0; 20];
    let mut at = digits.len();
    let mut left = value;
    loop {
        at -= 1;
        digits[at] = b'0' + (left % 10) as u8;
        left /= 10;
        if left == 0 {
            break;
        }
    }
    out.extend_from_slice(&digits[at..]);
}
