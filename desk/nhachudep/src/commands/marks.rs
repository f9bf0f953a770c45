//! `marks`: "Show me which of these sentences are ours."

use vdv::tables::Table;
use vdv::{all_rows, number, own_bytes, Refusal, Span, Value};

use super::list::{tell_refusal, verdict};
use super::show::{is_ours, read_sections, title, Section};
use super::Work;
use crate::advice::{self, Fate};
use crate::columns::{wrapped, Cell, Sheet, Side};
use crate::input::Source;
use crate::json::Json;
use crate::latin::{characters, shown};
use crate::lines::LineCount;
use crate::refusals;
use crate::terminal::Tone;
use crate::trouble::{Outcome, Trouble};

/// One sentence of ours and where it stands.
struct Sentence {
    key: Vec<u64>,
    record: usize,
    /// The column's number in VDV 452's table.
    field: usize,
    /// The record's line in its section.
    line: usize,
    /// The same line counted over the whole file.
    file_line: usize,
    text: Vec<u8>,
}

/// Sections of a file with our sentences in each, and the file's answer.
struct Findings {
    sections: Vec<(Section, Vec<Sentence>)>,
    answer: Refusal,
    /// "After 1 or 2 no section is read."
    are_read: bool,
}

pub fn marks(work: &mut Work<'_, '_>, source: &Source) -> Result<Outcome, Trouble> {
    let file = source.read()?;
    let findings = Findings::of(&file)?;
    let advice = advice::of(&file);
    let answer = findings.answer;
    if work.json {
        let mut members = refusals::members(source, answer);
        members.extend(findings.members());
        members.push(advice::member(&advice, Fate::Stays));
        let object = Json::Object(members);
        work.outlets.print(&format_args!("{object}\n"))?;
    } else {
        print(work, &findings, advice.len())?;
        tell_refusal(work, source, &file, answer)?;
        advice::tell(work.outlets, source, &advice, Fate::Stays)?;
    }
    Ok(work.outcome(answer.is_sound(), &advice))
}

/// How many texts that may be marked there are, whose, and how many are empty.
#[derive(Clone, Copy, Debug, Default, PartialEq, Eq)]
struct Count {
    texts: usize,
    ours: usize,
    empty: usize,
}

impl Count {
    /// `5 of 11 texts are ours, 3 are empty`.
    fn sentence(self) -> String {
        let Count { texts, ours, empty } = self;
        let are = |count| if count == 1 { "is" } else { "are" };
        let (are_ours, are_empty) = (are(ours), are(empty));
        format!("{ours} of {texts} texts {are_ours} ours, {empty} {are_empty} empty")
    }
}

impl Findings {
    fn of(file: &[u8]) -> Result<Findings, Trouble> {
        let (rows, answer, are_read) = match all_rows(file) {
            Ok(listing) => (listing.rows, listing.answer, true),
            Err(refusal) => (Vec::new(), refusal, false),
        };
        let mut lines = LineCount::new(file);
        let sections = read_sections(file, &rows, None)?.into_iter();
        let sections = sections.map(|section| {
            let ours = sentences(file, &section, &mut lines);
            (section, ours)
        });
        Ok(Findings {
            sections: sections.collect(),
            answer,
            are_read,
        })
    }

    fn unread(&self) -> impl Iterator<Item = &Section> {
        let sections = self.sections.iter().map(|(section, _)| section);
        sections.filter(|section| !section.row.is_sound())
    }

    /// Whether of every text it can be said whose it is.
    fn are_complete(&self) -> bool {
        self.are_read && self.unread().next().is_none()
    }

    fn count(&self) -> Count {
        let mut count = Count::default();
        for (section, ours) in &self.sections {
            let texts = section
                .records()
                .filter_map(|record| markable(section, record));
            for span in texts {
                count.texts += 1;
                count.empty += usize::from(span.from == span.to);
            }
            count.ours += ours.len();
        }
        count
    }

    fn members(&self) -> Vec<(&'static str, Json)> {
        let sections = self.sections.iter();
        let marks = sections.flat_map(|(section, ours)| {
            let marks = ours.iter().filter_map(|one| as_json(section, one));
            marks.collect::<Vec<_>>()
        });
        let count = self.count();
        vec![
            ("marks", Json::list(marks)),
            ("texts", Json::size(count.texts)),
            ("ours", Json::size(count.ours)),
            ("empty", Json::size(count.empty)),
            ("complete", Json::Bool(self.are_complete())),
            ("refused", Json::list(self.unread().map(refused_json))),
        ]
    }
}

fn sentences(file: &[u8], section: &Section, lines: &mut LineCount<'_>) -> Vec<Sentence> {
    let Some(table) = section.table() else {
        return Vec::new();
    };
    let first = lines.at(section.row.place);
    let mut found = Vec::new();
    for (index, record) in section.records().enumerate() {
        let values = record.iter().enumerate();
        for (column, value) in values.filter(|(_, value)| is_ours(value)) {
            let span = span_of(value);
            let file_line = lines.at(span.from);
            found.push(Sentence {
                key: key(table, record),
                record: index + 1,
                field: column + 1,
                line: file_line - first + 1,
                file_line,
                text: own_bytes(span.of(file)),
            });
        }
    }
    found
}

fn span_of(value: &Value) -> Span {
    match value {
        Value::Text { span, .. } => *span,
        Value::Number(_) | Value::Missing => Span::default(),
    }
}

/// The text of a record that may be marked.
fn markable(section: &Section, record: &[Value]) -> Option<Span> {
    let field = section.table()?.markable?;
    record.get(field - 1).map(span_of)
}

/// A primary key holds numbers only, in each of the ten tables, and none of
/// them may be missing.
fn key(table: &Table, record: &[Value]) -> Vec<u64> {
    let number = |field: &usize| match record.get(field - 1) {
        Some(Value::Number(number)) => Some(*number),
        _ => None,
    };
    table.primary.iter().filter_map(number).collect()
}

/// Whatever leaves a doubt stands on standard output too, before the count.
fn print(work: &mut Work<'_, '_>, findings: &Findings, look_alikes: usize) -> Result<(), Trouble> {
    for (section, ours) in &findings.sections {
        if !ours.is_empty() {
            let title = work.outlets.paint_out.tone(Tone::Heading, title(section));
            work.outlets.print(&format_args!("{title}\n"))?;
            sheet(ours).print(work.outlets)?;
            work.outlets.print(&"\n")?;
        }
    }
    for section in findings.unread() {
        print_unread(work, section)?;
    }
    if !findings.are_read {
        let words = refusals::sentence(findings.answer);
        return work
            .outlets
            .print(&format_args!("cannot be said of any text:\n  {words}\n"));
    }
    if look_alikes > 0 {
        let words = advice::count_in_words(look_alikes, "");
        work.outlets.print(&format_args!("{words}\n\n"))?;
    }
    let sentence = findings.count().sentence();
    let scope = match findings.are_complete() {
        true => "",
        false => ", in the sound sections",
    };
    work.outlets.print(&format_args!("{sentence}{scope}\n"))
}

/// With texts of 40 bytes, and keys without spaces, no row of a file within the
/// limit has more than 80 columns.
fn sheet(ours: &[Sentence]) -> Sheet {
    let mut sheet = Sheet::new(&[
        ("our sentence", Side::Left),
        ("key", Side::Left),
        ("record", Side::Right),
        ("line", Side::Right),
    ]);
    for sentence in ours {
        let key: Vec<String> = sentence.key.iter().map(u64::to_string).collect();
        let text = format!("\"{}\"", shown(&sentence.text));
        sheet.push(vec![
            Cell::toned(text, Tone::Suggestion),
            Cell::plain(key.join(";")),
            Cell::plain(sentence.record),
            Cell::plain(sentence.file_line),
        ]);
    }
    sheet
}

/// "A refused section hands out no records": whose its texts are is not known,
/// and that must not look as if none were ours.
fn print_unread(work: &mut Work<'_, '_>, section: &Section) -> Result<(), Trouble> {
    let name = section.table().map_or("unknown table", |table| table.name);
    let number = section.number;
    let which = format!("cannot be said of section {number}, {name}, which is refused:");
    let which = work.outlets.paint_out.tone(Tone::Refused, which);
    let words = wrapped(2, &verdict(section.row));
    work.outlets.print(&format_args!("{which}\n{words}\n\n"))
}

fn as_json(section: &Section, sentence: &Sentence) -> Option<Json> {
    let table = section.table()?;
    let column = table.columns.get(sentence.field - 1)?;
    Some(Json::Object(vec![
        ("section", Json::size(section.number)),
        ("table", Json::Number(table.number.into())),
        ("name", Json::text(table.name)),
        (
            "key",
            Json::list(sentence.key.iter().map(|n| Json::Number(*n))),
        ),
        ("record", Json::size(sentence.record)),
        ("field", Json::size(sentence.field)),
        ("column", Json::text(column.name)),
        ("line", Json::size(sentence.line)),
        ("file_line", Json::size(sentence.file_line)),
        ("text", Json::Text(characters(&sentence.text))),
    ]))
}

fn refused_json(section: &Section) -> Json {
    let row = section.row;
    let name = section.table().map(|table| Json::text(table.name));
    Json::Object(vec![
        ("section", Json::size(section.number)),
        ("table", Json::Number(row.table.into())),
        ("name", name.unwrap_or(Json::Null)),
        ("number", Json::Number(row.verdict.into())),
        ("line", Json::size(row.line)),
        ("rule", Json::text(number::in_words(row.verdict))),
    ])
}

#[cfg(test)]
mod tests {
    use super::*;

    #[test]
    fn counts_in_words() {
        let words = |ours, texts, empty| Count { texts, ours, empty }.sentence();
        assert_eq!(words(5, 11, 3), "5 of 11 texts are ours, 3 are empty");
        assert_eq!(words(1, 2, 1), "1 of 2 texts is ours, 1 is empty");
        assert_eq!(words(1, 1, 0), "1 of 1 texts is ours, 0 are empty");
        assert_eq!(words(0, 0, 0), "0 of 0 texts are ours, 0 are empty");
    }
}
