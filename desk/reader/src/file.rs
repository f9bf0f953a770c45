//! The whole file: its parts, its answer, its rows and its records.

use std::ops::Range;

use crate::answer::{number, Answer, Verdict, LIMIT};
use crate::fields::{read_number, Fields};
use crate::header::{self, Header};
use crate::keys::{judge, Sound};
use crate::lines::{is_blank, is_plain, Command, Head, Lines, Part};
use crate::section::{Record, Records, Section, Value};
use crate::tables::Table;

/// One row a section, as a listing gives it.
#[derive(Clone, Copy, Debug, Default, PartialEq, Eq)]
pub struct Row {
    /// The table's number, 0 if the `tbl` line fails.
    pub table: u16,
    /// The section's first byte, from 0.
    pub place: usize,
    pub length: usize,
    pub records: usize,
    pub verdict: u8,
    /// The verdict's line, 0 if sound.
    pub line: usize,
}

/// What a listing gives besides its rows.
#[derive(Clone, Copy, Debug, PartialEq, Eq)]
pub struct Listed {
    pub sections: usize,
    pub answer: Answer,
}

/// A sound section's table and all its records.
#[derive(Clone, Debug)]
pub struct TableView<'a> {
    pub number: u16,
    pub name: &'static str,
    pub records: Vec<Record<'a>>,
}

/// Where header, sections and trailer stand.
struct Layout {
    header: Range<usize>,
    sections: Vec<Range<usize>>,
    trailer: Option<Range<usize>>,
}

impl Layout {
    fn of(file: &[u8]) -> Layout {
        let mut header_end = None;
        let mut sections: Vec<Range<usize>> = Vec::new();
        let mut open = false;
        let mut trailer = None;
        for line in Lines::of(file, 0..file.len()) {
            let command = match Head::of(line) {
                Head::Known(command @ (Command::Tbl | Command::Eof), _) => command,
                _ => continue,
            };
            header_end.get_or_insert(line.at);
            if let Some(last) = sections.last_mut().filter(|_| open) {
                last.end = line.at;
            }
            open = command == Command::Tbl;
            if open {
                sections.push(line.at..file.len());
            } else {
                trailer.get_or_insert(line.at..file.len());
            }
        }
        Layout {
            header: 0..header_end.unwrap_or(file.len()),
            sections,
            trailer,
        }
    }

    /// "`eof; n`, n the number of `tbl` lines, only blank lines after it";
    /// the first line that breaks this is the place, 0 without `eof`.
    fn trailer_verdict(&self, file: &[u8]) -> Verdict {
        let Some(region) = self.trailer.clone() else {
            return Verdict::new(number::TRAILER, 0);
        };
        let broken = Lines::of(file, region)
            .enumerate()
            .find(|(index, line)| match index {
                0 => !self.counts_sections(*line),
                _ => !is_blank(line.bytes),
            });
        match broken {
            Some((index, _)) => Verdict::new(number::TRAILER, index + 1),
            None => Verdict::SOUND,
        }
    }

    fn counts_sections(&self, line: Part<'_>) -> bool {
        let Head::Known(Command::Eof, rest) = Head::of(line) else {
            return false;
        };
        let count = Fields::only(rest).and_then(|field| read_number(field.bytes));
        is_plain(line.bytes) && count.map(usize::try_from) == Some(Ok(self.sections.len()))
    }
}

/// A file whose length and header are sound: its sections may be read.
pub(crate) struct Opened<'a> {
    pub file: &'a [u8],
    pub header: Header<'a>,
    layout: Layout,
}

impl<'a> Opened<'a> {
    /// "After 1 or 2 no section is read."
    pub fn open(file: &'a [u8]) -> Result<Opened<'a>, Answer> {
        if file.len() > LIMIT {
            return Err(Answer::placeless(number::FILE_TOO_LONG));
        }
        let layout = Layout::of(file);
        let header = header::read(file, layout.header.clone())
            .map_err(|line| Answer::new(number::HEADER, 0, line))?;
        Ok(Opened {
            file,
            header,
            layout,
        })
    }

    pub fn section_count(&self) -> usize {
        self.layout.sections.len()
    }

    /// The records of a section counted from 1.
    pub fn records(&self, section: usize) -> Option<Records<'a>> {
        let region = self.layout.sections.get(section.checked_sub(1)?)?;
        Some(Records::of(self.file, region.clone(), self.header.charset))
    }

    fn read_sections(&self) -> impl Iterator<Item = (Range<usize>, Section)> + '_ {
        self.layout.sections.iter().map(|region| {
            let section = Section::read(self.file, region.clone(), self.header.charset);
            (region.clone(), section)
        })
    }

    pub fn trailer_verdict(&self) -> Verdict {
        self.layout.trailer_verdict(self.file)
    }

    /// The file's answer after 1 and 2.
    pub fn answer(&self) -> Answer {
        self.answer_seeing(|_, _| {})
    }

    /// The file's answer, each section's row shown on the way. Without a
    /// fault in the trailer the first unsound section decides, but all rows
    /// are shown.
    pub fn answer_seeing(&self, mut see: impl FnMut(usize, Row)) -> Answer {
        let trailer = self.trailer_verdict();
        let mut answer = Answer::SOUND;
        if !trailer.is_sound() {
            answer = trailer.in_section(0);
        }
        let mut sound = Vec::with_capacity(self.section_count());
        for (index, (region, section)) in self.read_sections().enumerate() {
            if answer.is_sound() && !section.verdict.is_sound() {
                answer = section.verdict.in_section(index + 1);
            }
            see(index, row(&region, &section));
            sound.extend(section.table.map(|table| Sound {
                number: index + 1,
                region,
                table,
                records: section.records,
            }));
        }
        if answer.is_sound() {
            answer = judge(self.file, self.header.charset, &sound);
        }
        answer
    }
}

fn row(region: &Range<usize>, section: &Section) -> Row {
    Row {
        table: section.table.map_or(0, |table| table.number),
        place: region.start,
        length: region.len(),
        records: section.records,
        verdict: section.verdict.number,
        line: section.verdict.line,
    }
}

/// "The file gives the first of 1, 2, 3, the first unsound section in file
/// order, 17, 18, 19, 20".
pub fn check(file: &[u8]) -> Answer {
    match Opened::open(file) {
        Ok(opened) => opened.answer(),
        Err(answer) => answer,
    }
}

/// The header's values, or 1 or 2.
pub fn header(file: &[u8]) -> Result<Header<'_>, Answer> {
    Opened::open(file).map(|opened| opened.header)
}

/// The number of `tbl` lines, whatever else the file holds.
pub fn sections(file: &[u8]) -> usize {
    Layout::of(file).sections.len()
}

/// The trailer by itself, whatever else the file holds.
pub fn trailer(file: &[u8]) -> Verdict {
    Layout::of(file).trailer_verdict(file)
}

/// A row for every section, unless 1 or 2 refuses.
pub fn list(file: &[u8]) -> Result<Vec<Row>, Answer> {
    let opened = Opened::open(file)?;
    let mut rows = Vec::with_capacity(opened.section_count());
    opened.answer_seeing(|_, row| rows.push(row));
    Ok(rows)
}

/// One section's row, or the first of 1, 2 and 24.
pub fn section(file: &[u8], section: usize) -> Result<Row, Answer> {
    let opened = Opened::open(file)?;
    let region = section
        .checked_sub(1)
        .and_then(|index| opened.layout.sections.get(index))
        .ok_or(Answer::placeless(number::NO_SUCH))?;
    let read = Section::read(file, region.clone(), opened.header.charset);
    Ok(row(region, &read))
}

/// Listing into lent rows: "refused by 1, 2 and 21 only and then writes no
/// row"; spare rows keep their values.
pub fn list_into(file: &[u8], rows: &mut [Row]) -> Result<Listed, Answer> {
    let opened = Opened::open(file)?;
    let sections = opened.section_count();
    if sections > rows.len() {
        return Err(Answer::placeless(number::NO_ROOM));
    }
    let answer = opened.answer_seeing(|index, row| rows[index] = row);
    Ok(Listed { sections, answer })
}

/// "Reading one record gives the first of 1, 2, 24 for the section, the
/// section's verdict, 24 for the record or field."
pub fn value(
    file: &[u8],
    section: usize,
    record: usize,
    field: usize,
) -> Result<Value<'_>, Answer> {
    let missing = Answer::placeless(number::NO_SUCH);
    let opened = Opened::open(file)?;
    let mut records = opened.records(section).ok_or(missing)?;
    let mut wanted = None;
    let mut count = 0;
    while let Some(found) = records.next().map_err(|v| v.in_section(section))? {
        count += 1;
        if count == record {
            wanted = Some(*found);
        }
    }
    wanted.and_then(|record| record.value(field)).ok_or(missing)
}

/// All records of one section, with the refusals of [`value`].
pub fn table(file: &[u8], section: usize) -> Result<TableView<'_>, Answer> {
    let mut records = Vec::new();
    let table = see_records(file, section, |record| records.push(*record))?;
    Ok(TableView {
        number: table.map_or(0, |table| table.number),
        name: table.map_or("", |table| table.name),
        records,
    })
}

/// Each record of one section in turn, with the refusals of [`value`]: the
/// section is known to be sound only when all have been seen.
pub fn visit<'a>(
    file: &'a [u8],
    section: usize,
    see: impl FnMut(&Record<'a>),
) -> Result<(), Answer> {
    see_records(file, section, see).map(|_| ())
}

fn see_records<'a>(
    file: &'a [u8],
    section: usize,
    mut see: impl FnMut(&Record<'a>),
) -> Result<Option<&'static Table>, Answer> {
    let opened = Opened::open(file)?;
    let mut reader = opened
        .records(section)
        .ok_or(Answer::placeless(number::NO_SUCH))?;
    while let Some(record) = reader.next().map_err(|v| v.in_section(section))? {
        see(record);
    }
    Ok(reader.table())
}
