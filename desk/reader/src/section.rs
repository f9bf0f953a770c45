//! One section, read line by line: its records, or its first failing line.

use std::borrow::Cow;
use std::ops::Range;

use crate::answer::{number, Verdict};
use crate::arrangement::Arrangement;
use crate::calendar::Date;
use crate::fields::{read_number, Fields, Text};
use crate::header::Charset;
use crate::lines::{is_latin, is_plain, Command, Head, Lines, Part};
use crate::marks::{Comment, Marks};
use crate::tables::{self, Column, Feeder, Kind, Table, EIGHT_DIGITS, WIDEST};

/// Whose a text is.
#[derive(Clone, Copy, Debug, PartialEq, Eq)]
pub enum Owner {
    Operator,
    Suggestion,
}

/// A field of a record as handed out: "a number, a missing number or a text
/// with its owner".
#[derive(Clone, Debug, PartialEq, Eq)]
pub enum Value<'a> {
    Number(i64),
    Missing,
    Text {
        /// The text with its doubled quotes undone.
        bytes: Cow<'a, [u8]>,
        /// Where it stands in the file, between its quotes.
        span: Range<usize>,
        owner: Owner,
    },
}

#[derive(Clone, Copy, Debug, PartialEq, Eq)]
pub enum Field<'a> {
    Number(i64),
    Missing,
    Text(Text<'a>),
}

/// A `rec` line that passed, with the marks that stood before it. Its fields
/// stand in document 01's order, whatever the file's.
#[derive(Clone, Copy, Debug, PartialEq, Eq)]
pub struct Record<'a> {
    pub line: usize,
    width: usize,
    fields: [Field<'a>; WIDEST],
    marks: Marks,
}

impl<'a> Record<'a> {
    pub fn len(&self) -> usize {
        self.width
    }

    pub fn is_empty(&self) -> bool {
        self.width == 0
    }

    /// The value of a field, by its number in document 01's table.
    pub fn value(&self, field: usize) -> Option<Value<'a>> {
        let value = self.fields().get(field.checked_sub(1)?)?;
        Some(match value {
            Field::Number(value) => Value::Number(*value),
            Field::Missing => Value::Missing,
            Field::Text(text) => Value::Text {
                bytes: text.undone(),
                span: text.span(),
                owner: self.owner(field),
            },
        })
    }

    pub fn values(&self) -> impl Iterator<Item = Value<'a>> + '_ {
        (1..=self.width).filter_map(|field| self.value(field))
    }

    pub(crate) fn fields(&self) -> &[Field<'a>] {
        &self.fields[..self.width]
    }

    /// The number in a column, counted from 0; a missing one and texts have
    /// none.
    pub(crate) fn number(&self, column: usize) -> i64 {
        match self.fields[column] {
            Field::Number(value) => value,
            Field::Missing | Field::Text(_) => 0,
        }
    }

    fn has_text(&self, column: usize) -> bool {
        matches!(self.fields[column], Field::Text(text) if !text.is_empty())
    }

    pub(crate) fn is_marked(&self, field: usize) -> bool {
        self.marks.has(field)
    }

    fn owner(&self, field: usize) -> Owner {
        if self.is_marked(field) {
            Owner::Suggestion
        } else {
            Owner::Operator
        }
    }
}

/// What must or may come next, besides blank lines and comments.
#[derive(Clone, Copy, PartialEq, Eq)]
enum Stage {
    Tbl,
    Atr,
    Frm,
    Records,
    Ended,
}

/// The records of a section in turn. The reader stops at the first failing
/// line; only after the last line is the section known to be sound.
pub struct Records<'a> {
    lines: Lines<'a>,
    charset: Charset,
    stage: Stage,
    line: usize,
    table: Option<&'static Table>,
    arrangement: Arrangement,
    count: usize,
    waiting: Marks,
    /// The record last read, kept here so that none is copied on the way.
    record: Record<'a>,
}

impl<'a> Records<'a> {
    pub fn of(file: &'a [u8], region: Range<usize>, charset: Charset) -> Records<'a> {
        Records {
            lines: Lines::of(file, region),
            charset,
            stage: Stage::Tbl,
            line: 0,
            table: None,
            arrangement: Arrangement::NONE,
            count: 0,
            waiting: Marks::default(),
            record: Record {
                line: 0,
                width: 0,
                fields: [Field::Number(0); WIDEST],
                marks: Marks::default(),
            },
        }
    }

    /// The table, once its `tbl` line passed.
    pub fn table(&self) -> Option<&'static Table> {
        self.table
    }

    /// The table by the first line alone, for whoever needs it before the
    /// first record.
    pub fn heading(&mut self) -> Option<&'static Table> {
        if self.line == 0 {
            let line = self.lines.next()?;
            self.line = 1;
            self.take(line).ok()?;
        }
        self.table
    }

    /// The next record, none after a sound section's last line, or the
    /// section's refusal.
    pub fn next(&mut self) -> Result<Option<&Record<'a>>, Verdict> {
        while let Some(line) = self.lines.next() {
            self.line += 1;
            let before = self.count;
            self.take(line).map_err(|n| Verdict::new(n, self.line))?;
            if self.count > before {
                return Ok(Some(&self.record));
            }
        }
        if self.stage == Stage::Ended {
            Ok(None)
        } else {
            Err(Verdict::new(number::ORDER, self.line))
        }
    }

    /// In one line the first of 4, 5, 6, then the command's own.
    fn take(&mut self, line: Part<'a>) -> Result<(), u8> {
        let head = Head::of(line);
        let wide = self.charset == Charset::Latin1 && matches!(head, Head::Known(Command::Rec, _));
        let allowed = if wide {
            is_latin(line.bytes)
        } else {
            is_plain(line.bytes)
        };
        if !allowed {
            return Err(number::BYTE);
        }
        let (command, rest) = match head {
            Head::Blank => return Ok(()),
            Head::Bare | Head::Unknown => return Err(number::COMMAND),
            Head::Known(command, rest) => (command, rest),
        };
        match (command, self.stage, self.table) {
            (Command::Com, _, _) => self.comment(rest),
            (Command::Tbl, Stage::Tbl, _) => self.tbl(rest),
            (Command::Atr, Stage::Atr, Some(table)) => self.atr(rest, table),
            (Command::Frm, Stage::Frm, Some(table)) => self.frm(rest, table),
            (Command::Rec, Stage::Records, Some(table)) => self.rec(rest, table),
            (Command::End, Stage::Records, _) => self.end(rest),
            _ => Err(number::ORDER),
        }
    }

    fn comment(&mut self, rest: Part<'a>) -> Result<(), u8> {
        let place = match Comment::read(rest) {
            Comment::Ordinary => return Ok(()),
            Comment::Unreadable => return Err(number::MARK),
            Comment::Mark(place) => place,
        };
        let field = self.markable_at(place).ok_or(number::MARK)?;
        if self.stage == Stage::Records && self.waiting.add(place, field) {
            Ok(())
        } else {
            Err(number::MARK)
        }
    }

    /// The field that stands at this place, if it may be marked.
    fn markable_at(&self, place: usize) -> Option<usize> {
        let markable = self.table?.markable?;
        (self.arrangement.field_at(place)? == markable).then_some(markable)
    }

    fn tbl(&mut self, rest: Part<'a>) -> Result<(), u8> {
        let name = Fields::only(rest).ok_or(number::FIELD_COUNT)?;
        self.table = Some(tables::named(name.bytes).ok_or(number::UNKNOWN_TABLE)?);
        self.stage = Stage::Atr;
        Ok(())
    }

    fn atr(&mut self, rest: Part<'a>, table: &Table) -> Result<(), u8> {
        self.arrangement = Arrangement::read(rest, table).ok_or(number::ATR)?;
        self.stage = Stage::Frm;
        Ok(())
    }

    fn frm(&mut self, rest: Part<'a>, table: &Table) -> Result<(), u8> {
        let mut formats = Fields::of(rest);
        let fits = self.arrangement.columns().all(|column| {
            formats
                .next()
                .is_some_and(|format| table.columns[column].takes_format(format.bytes))
        });
        if !fits || formats.next().is_some() {
            return Err(number::FRM);
        }
        self.stage = Stage::Records;
        Ok(())
    }

    fn rec(&mut self, rest: Part<'a>, table: &Table) -> Result<(), u8> {
        let record = &mut self.record;
        record.line = self.line;
        record.width = table.columns.len();
        record.marks = self.waiting;
        read_fields(rest, table, &self.arrangement, &mut record.fields)?;
        if table.points.is_some_and(|points| meet(record, points)) {
            return Err(number::SAME_POINTS);
        }
        if table.feeder.as_ref().is_some_and(|f| !combines(record, f)) {
            return Err(number::COMBINATION);
        }
        if has_marked_empty_text(record) {
            return Err(number::MARK);
        }
        self.count += 1;
        self.waiting = Marks::default();
        Ok(())
    }

    fn end(&mut self, rest: Part<'a>) -> Result<(), u8> {
        if !self.waiting.is_empty() {
            return Err(number::MARK);
        }
        let field = Fields::only(rest).ok_or(number::FIELD_COUNT)?;
        let count = read_number(field.bytes).ok_or(number::NOT_A_NUMBER)?;
        if usize::try_from(count) != Ok(self.count) {
            return Err(number::END_COUNT);
        }
        self.stage = Stage::Ended;
        Ok(())
    }
}

/// "10, each field from the left (11 or 12, then 13)", and "26, no such day, at
/// its field directly after 13": a wrong count is known only at the line's end,
/// so a field's refusal waits for it. The left is that of the line; the value
/// goes to its column.
fn read_fields<'a>(
    rest: Part<'a>,
    table: &Table,
    arrangement: &Arrangement,
    fields: &mut [Field<'a>; WIDEST],
) -> Result<(), u8> {
    let mut refusal = None;
    let mut split = Fields::of(rest);
    for column in arrangement.columns() {
        let part = split.next().ok_or(number::FIELD_COUNT)?;
        if refusal.is_none() {
            match read_field(part, &table.columns[column]) {
                Ok(value) => fields[column] = value,
                Err(number) => refusal = Some(number),
            }
        }
    }
    if split.next().is_some() {
        return Err(number::FIELD_COUNT);
    }
    refusal.map_or(Ok(()), Err)
}

fn read_field<'a>(part: Part<'a>, column: &Column) -> Result<Field<'a>, u8> {
    match column.kind {
        Kind::Number { .. } if column.may_be_missing && part.bytes.is_empty() => Ok(Field::Missing),
        Kind::Number { low, high } => read_within(part, low, high).map(Field::Number),
        Kind::Day => {
            let value = read_within(part, 1, EIGHT_DIGITS)?;
            Date::numbered(value).ok_or(number::NO_SUCH_DAY)?;
            Ok(Field::Number(value))
        }
        Kind::Text { size } => {
            let text = Text::read(part).ok_or(number::NOT_A_TEXT)?.unpadded();
            if text.size() > size {
                return Err(number::RANGE);
            }
            Ok(Field::Text(text))
        }
    }
}

fn read_within(part: Part<'_>, low: i64, high: i64) -> Result<i64, u8> {
    let value = read_number(part.bytes).ok_or(number::NOT_A_NUMBER)?;
    if !(low..=high).contains(&value) {
        return Err(number::RANGE);
    }
    Ok(value)
}

/// "the two points, type and number together, differ".
fn meet(record: &Record<'_>, points: [(usize, usize); 2]) -> bool {
    let [from, to] = points;
    record.number(from.0) == record.number(to.0) && record.number(from.1) == record.number(to.1)
}

/// "With LEITSTELLENKENNUNG 0, LinienID, RichtungsID and ASBID are empty, and
/// ZUB_LI_NR and ZUB_ORT_REF_ORT lie above 0; with 1 to 255 the three texts are
/// filled, and ZUB_LI_NR, ZUB_LI_RI_NR and ZUB_ORT_REF_ORT are 0".
fn combines(record: &Record<'_>, feeder: &Feeder) -> bool {
    let [centre, line, direction, stop] =
        [feeder.centre, feeder.line, feeder.direction, feeder.stop].map(|c| record.number(c));
    let [line_id, direction_id, area_id] = feeder.texts.map(|column| record.has_text(column));
    if centre == 0 {
        !line_id && !direction_id && !area_id && line > 0 && stop > 0
    } else {
        line_id && direction_id && area_id && line == 0 && direction == 0 && stop == 0
    }
}

fn has_marked_empty_text(record: &Record<'_>) -> bool {
    !record.marks.is_empty()
        && record.fields().iter().enumerate().any(|(column, field)| {
            matches!(field, Field::Text(text) if text.is_empty()) && record.is_marked(column + 1)
        })
}

/// What a section gives by itself. "A refused section hands out no records,
/// and its record count is 0."
#[derive(Clone, Copy, Debug)]
pub struct Section {
    pub table: Option<&'static Table>,
    pub records: usize,
    pub verdict: Verdict,
}

impl Section {
    pub fn read(file: &[u8], region: Range<usize>, charset: Charset) -> Section {
        let mut records = Records::of(file, region, charset);
        let mut count = 0;
        let verdict = loop {
            match records.next() {
                Ok(Some(_)) => count += 1,
                Ok(None) => break Verdict::SOUND,
                Err(verdict) => break verdict,
            }
        };
        Section {
            table: records.table(),
            records: if verdict.is_sound() { count } else { 0 },
            verdict,
        }
    }
}
