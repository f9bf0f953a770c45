//! `show`: the records of a file's tables.

use vdv::tables::{self, Table};
use vdv::{all_rows, own_bytes, table_cells, value_in, Owner, Row, Span, Value, CELLS};

use super::list::{tell_refusal, verdict};
use super::Work;
use crate::advice::{self, Fate};
use crate::columns::{Cell, Sheet, Side};
use crate::input::Source;
use crate::json::Json;
use crate::latin::{characters, shown};
use crate::refusals;
use crate::terminal::Tone;
use crate::trouble::{Outcome, Trouble};

/// Before a suggestion, and before the operator's text.
const OURS: &str = "* ";
const THEIRS: &str = "  ";

/// A section to show, with its values if it is sound.
pub struct Section {
    pub number: usize,
    pub row: Row,
    pub values: Vec<Value>,
}

impl Section {
    pub fn table(&self) -> Option<&'static Table> {
        tables::numbered(self.row.table)
    }

    pub fn records(&self) -> impl Iterator<Item = &[Value]> {
        let width = self.table().map_or(1, |table| table.columns.len());
        self.values.chunks(width)
    }
}

/// Sections of a file with their values, those of one table if it is named.
pub fn read_sections(
    file: &[u8],
    rows: &[Row],
    table: Option<&Table>,
) -> Result<Vec<Section>, Trouble> {
    let wanted = |row: &Row| table.is_none_or(|table| table.number == row.table);
    let mut sections = Vec::new();
    for (index, row) in rows.iter().enumerate().filter(|(_, row)| wanted(row)) {
        let number = index + 1;
        let cells = match row.is_sound() {
            true => table_cells(file, number, *row),
            false => Ok(Vec::new()),
        };
        let cells = cells.map_err(|refusal| Trouble::System(refusals::sentence(refusal)))?;
        sections.push(Section {
            number,
            row: *row,
            values: cells.chunks(CELLS).filter_map(value_in).collect(),
        });
    }
    Ok(sections)
}

pub fn show(
    work: &mut Work<'_, '_>,
    source: &Source,
    table: Option<&'static Table>,
) -> Result<Outcome, Trouble> {
    let file = source.read()?;
    let (rows, answer) = match all_rows(&file) {
        Ok(listing) => (listing.rows, listing.answer),
        Err(refusal) => (Vec::new(), refusal),
    };
    let sections = read_sections(&file, &rows, table)?;
    let advice = advice::of(&file);
    let is_missing = table.is_some() && sections.is_empty();
    if work.json {
        let mut members = refusals::members(source, answer);
        let tables = sections.iter().map(|section| section_json(&file, section));
        members.push(("tables", Json::list(tables)));
        members.push(advice::member(&advice, Fate::Stays));
        let object = Json::Object(members);
        work.outlets.print(&format_args!("{object}\n"))?;
    } else {
        print_sections(work, &file, &sections)?;
        if let (true, Some(table)) = (is_missing, table) {
            let name = table.name;
            work.outlets.note(&format_args!(
                "{source}: no section of {name} can be read\n"
            ));
        }
        tell_refusal(work, source, &file, answer)?;
        advice::tell(work.outlets, source, &advice, Fate::Stays)?;
    }
    Ok(work.outcome(answer.is_sound() && !is_missing, &advice))
}

fn print_sections(
    work: &mut Work<'_, '_>,
    file: &[u8],
    sections: &[Section],
) -> Result<(), Trouble> {
    for (index, section) in sections.iter().enumerate() {
        if index > 0 {
            work.outlets.print(&"\n")?;
        }
        print_section(work, file, section)?;
    }
    let ours = sections.iter().flat_map(|section| &section.values);
    if ours.into_iter().any(is_ours) {
        work.outlets
            .print(&"\n* a suggestion, not the operator's text\n")?;
    }
    Ok(())
}

pub fn is_ours(value: &Value) -> bool {
    matches!(
        value,
        Value::Text {
            owner: Owner::Suggestion,
            ..
        }
    )
}

/// `MENGE_TAGESART (290), section 2`.
pub fn title(section: &Section) -> String {
    let number = section.number;
    match section.table() {
        Some(table) => format!("{} ({}), section {number}", table.name, table.number),
        None => format!("section {number}"),
    }
}

fn print_section(work: &mut Work<'_, '_>, file: &[u8], section: &Section) -> Result<(), Trouble> {
    let title = work.outlets.paint_out.tone(Tone::Heading, title(section));
    let Some(table) = section.table().filter(|_| section.row.is_sound()) else {
        let words = verdict(section.row);
        return work
            .outlets
            .print(&format_args!("{title}: refused, {words}\n"));
    };
    work.outlets.print(&format_args!("{title}\n"))?;
    sheet(file, section, table).print_in_blocks(work.outlets)
}

fn sheet(file: &[u8], section: &Section, table: &Table) -> Sheet {
    let signs: Vec<&str> = (1..=table.columns.len()).map(|f| sign(table, f)).collect();
    let columns = table.columns.iter().zip(&signs);
    let titles: Vec<String> = columns
        .map(|(c, sign)| format!("{sign}{}", c.name))
        .collect();
    let sides = table.columns.iter().map(|column| match column.is_text() {
        true => Side::Left,
        false => Side::Right,
    });
    let mut heading = vec![("record", Side::Right)];
    heading.extend(titles.iter().map(String::as_str).zip(sides));
    let mut sheet = Sheet::new(&heading);
    for (index, record) in section.records().enumerate() {
        let mut row = vec![Cell::plain(index + 1)];
        let values = record.iter().zip(&signs);
        row.extend(values.map(|(value, sign)| cell(file, value, sign)));
        sheet.push(row);
    }
    sheet
}

/// Texts and title of a column that may be marked leave room for the sign.
fn sign(table: &Table, field: usize) -> &'static str {
    match table.markable == Some(field) {
        true => THEIRS,
        false => "",
    }
}

fn cell(file: &[u8], value: &Value, sign: &str) -> Cell {
    let text = |span: &Span| shown(&own_bytes(span.of(file)));
    match value {
        Value::Number(number) => Cell::plain(number),
        Value::Missing => Cell::plain(""),
        Value::Text { span, owner } => match owner {
            Owner::Operator => Cell::plain(format_args!("{sign}\"{}\"", text(span))),
            Owner::Suggestion => {
                Cell::toned(format_args!("{OURS}\"{}\"", text(span)), Tone::Suggestion)
            }
        },
    }
}

fn section_json(file: &[u8], section: &Section) -> Json {
    let table = section.table();
    let columns = table.map_or(&[][..], |table| table.columns);
    let columns = columns.iter().map(|column| Json::text(column.name));
    let records = section.records().map(|record| {
        let values = record.iter().map(|value| value_json(file, value));
        Json::list(values)
    });
    Json::Object(vec![
        ("section", Json::size(section.number)),
        ("table", Json::Number(section.row.table.into())),
        (
            "name",
            table.map_or(Json::Null, |table| Json::text(table.name)),
        ),
        ("verdict", Json::Number(section.row.verdict.into())),
        ("line", Json::size(section.row.line)),
        ("columns", Json::list(columns)),
        ("records", Json::list(records)),
    ])
}

fn value_json(file: &[u8], value: &Value) -> Json {
    match value {
        Value::Number(number) => Json::Number(*number),
        Value::Missing => Json::Null,
        Value::Text { span, owner } => Json::Object(vec![
            ("text", Json::Text(characters(&own_bytes(span.of(file))))),
            ("suggestion", Json::Bool(*owner == Owner::Suggestion)),
        ]),
    }
}
