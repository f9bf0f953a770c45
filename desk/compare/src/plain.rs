//! The independent reader behind the trait.

use vdv::{number, At, Copied, Date, Header, Owner, Refusal, Row, Span, Time, Value, CELLS};

use crate::Library;

pub struct Plain;

impl Library for Plain {
    fn name(&self) -> &'static str {
        "reader"
    }

    fn check(&self, file: &[u8]) -> Refusal {
        refusal(reader::check(file))
    }

    fn header(&self, file: &[u8]) -> Result<Header, Refusal> {
        reader::header(file).map(header).map_err(refusal)
    }

    fn section(&self, file: &[u8], section: usize) -> Result<Row, Refusal> {
        reader::section(file, section).map(row).map_err(refusal)
    }

    fn list(&self, file: &[u8], rows: &mut [Row]) -> Refusal {
        let mut lent = vec![reader::Row::default(); rows.len()];
        match reader::list_into(file, &mut lent) {
            Ok(listed) => {
                for (to, from) in rows.iter_mut().zip(&lent[..listed.sections]) {
                    *to = row(*from);
                }
                refusal(listed.answer)
            }
            Err(answer) => refusal(answer),
        }
    }

    fn value(&self, file: &[u8], at: At) -> Result<Value, Refusal> {
        let value = reader::value(file, at.section, at.record, at.field);
        value.as_ref().map(self::value).map_err(|e| refusal(*e))
    }

    fn text(&self, file: &[u8], at: At, out: &mut [u8]) -> Result<Copied, Refusal> {
        match reader::value(file, at.section, at.record, at.field) {
            Ok(reader::Value::Text { bytes, owner, .. }) => Ok(Copied {
                length: put(&bytes, out)?,
                owner: self::owner(owner),
            }),
            Ok(reader::Value::Number(_) | reader::Value::Missing) => {
                Err(Refusal::placeless(number::NOT_A_TEXT))
            }
            Err(answer) => Err(refusal(answer)),
        }
    }

    fn table(&self, file: &[u8], section: usize, cells: &mut [u64]) -> Result<usize, Refusal> {
        let mut found = Vec::with_capacity(cells.len());
        reader::visit(file, section, |record| {
            for value in record.values() {
                found.extend_from_slice(&self::value(&value).cells() as &[u64; CELLS]);
            }
        })
        .map_err(refusal)?;
        put(&found, cells)
    }

    fn write(&self, file: &[u8], out: &mut [u8]) -> Result<usize, Refusal> {
        reader::write(file, out).map_err(refusal)
    }

    fn fill(&self, file: &[u8], at: At, text: &[u8], out: &mut [u8]) -> Result<usize, Refusal> {
        reader::fill(file, at.section, at.record, at.field, text, out).map_err(refusal)
    }

    fn strip(&self, file: &[u8], out: &mut [u8]) -> Result<usize, Refusal> {
        reader::strip(file, out).map_err(refusal)
    }
}

/// Into lent room, all or nothing.
fn put<T: Copy>(what: &[T], room: &mut [T]) -> Result<usize, Refusal> {
    match room.get_mut(..what.len()) {
        Some(start) => {
            start.copy_from_slice(what);
            Ok(what.len())
        }
        None => Err(Refusal::placeless(number::NO_ROOM)),
    }
}

fn refusal(answer: reader::Answer) -> Refusal {
    Refusal::new(u32::from(answer.number), answer.section, answer.line)
}

fn row(row: reader::Row) -> Row {
    Row {
        table: u32::from(row.table),
        place: row.place,
        length: row.length,
        records: row.records,
        verdict: u32::from(row.verdict),
        line: row.line,
    }
}

fn header(header: reader::Header<'_>) -> Header {
    let span_of = |text: reader::Text<'_>| span(text.span());
    Header {
        source: span_of(header.source),
        date: Date {
            year: header.date.year.into(),
            month: header.date.month.into(),
            day: header.date.day.into(),
        },
        time: Time {
            hour: header.time.hour.into(),
            minute: header.time.minute.into(),
            second: header.time.second.into(),
        },
        latin: header.charset == reader::Charset::Latin1,
        ver: span_of(header.version),
        ifv: span_of(header.interface),
        dve: header.data.map(span_of),
        fft: header.format.map(span_of),
    }
}

fn span(range: std::ops::Range<usize>) -> Span {
    Span {
        from: range.start,
        to: range.end,
    }
}

fn value(value: &reader::Value<'_>) -> Value {
    match value {
        // No column's range lies below 0.
        reader::Value::Number(number) => Value::Number(number.unsigned_abs()),
        reader::Value::Missing => Value::Missing,
        reader::Value::Text {
            span: range, owner, ..
        } => Value::Text {
            span: span(range.clone()),
            owner: self::owner(*owner),
        },
    }
}

fn owner(owner: reader::Owner) -> Owner {
    match owner {
        reader::Owner::Operator => Owner::Operator,
        reader::Owner::Suggestion => Owner::Suggestion,
    }
}
