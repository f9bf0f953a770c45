//! The calls that are measured, each with room enough.

use compare::{all_rows, Library};
use samples::large::EMPTY;
use vdv::tables::{numbered, Column};
use vdv::{cells_of, number, width_of, At, Refusal, Row, CELLS, LIMIT};

#[derive(Clone, Copy, Debug, PartialEq, Eq)]
pub enum Call {
    Check,
    Section,
    List,
    Value,
    Table,
    Write,
    Fill,
    Strip,
}

pub const ALL: [Call; 8] = [
    Call::Check,
    Call::Section,
    Call::List,
    Call::Value,
    Call::Table,
    Call::Write,
    Call::Fill,
    Call::Strip,
];

impl Call {
    pub fn named(name: &str) -> Option<Call> {
        ALL.into_iter().find(|call| call.name() == name)
    }

    pub fn name(self) -> &'static str {
        match self {
            Call::Check => "check",
            Call::Section => "section",
            Call::List => "list",
            Call::Value => "value",
            Call::Table => "table",
            Call::Write => "write",
            Call::Fill => "fill",
            Call::Strip => "strip",
        }
    }

    /// Whether a form is put out, which a refused file has none of.
    pub fn puts_out(self) -> bool {
        matches!(self, Call::Write | Call::Fill | Call::Strip)
    }

    /// Whether one section is asked for, which a refused file may have too.
    fn reads_one_section(self) -> bool {
        matches!(self, Call::Section | Call::Value | Call::Table)
    }

    /// The number that the call is to answer with a file of this answer: one
    /// section is read whatever the file's answer is.
    pub fn meant(self, answer: u32) -> u32 {
        match self.reads_one_section() {
            true => number::SOUND,
            false => answer,
        }
    }

    /// What is lent is made once, so that only the call is measured.
    pub fn prepare<'a>(self, library: &'a dyn Library, file: &'a [u8]) -> Prepared<'a> {
        let found = match self == Call::List || self.reads_one_section() {
            true => all_rows(library, file).map_or(Vec::new(), |l| l.rows),
            false => Vec::new(),
        };
        let (section, row) = largest(&found);
        let rows = match self {
            Call::Section => 1,
            Call::List => found.len(),
            _ => 0,
        };
        let cells = match self {
            Call::Value => CELLS,
            Call::Table => cells_of(row),
            _ => 0,
        };
        let bytes = match self.puts_out() {
            true => LIMIT.min(2 * file.len()),
            false => 0,
        };
        Prepared {
            call: self,
            library,
            file,
            at: At::new(section, row.records, last_text(row)),
            cells: vec![0; cells],
            rows: vec![Row::default(); rows],
            out: vec![0; bytes],
        }
    }
}

/// The section with the most records, and its row.
fn largest(rows: &[Row]) -> (usize, Row) {
    let sections = (1..).zip(rows.iter().copied());
    let largest = sections.max_by_key(|(_, row)| row.records);
    largest.unwrap_or_default()
}

/// The last column with a text, or the last one of a table that has no texts.
fn last_text(row: Row) -> usize {
    let table = numbered(row.table);
    let text = table.and_then(|table| table.columns.iter().rposition(Column::is_text));
    text.map_or(width_of(row), |index| index + 1)
}

pub struct Prepared<'a> {
    call: Call,
    library: &'a dyn Library,
    file: &'a [u8],
    /// In the last record of the largest section, so that all others are
    /// passed.
    at: At,
    cells: Vec<u64>,
    rows: Vec<Row>,
    out: Vec<u8>,
}

impl Prepared<'_> {
    /// The call itself, and its answer.
    pub fn run(&mut self) -> Refusal {
        let (library, file) = (self.library, self.file);
        let put = match self.call {
            Call::Check => return library.check(file),
            Call::Section => return self.section().unwrap_or_else(|refusal| refusal),
            Call::List => return library.list(file, &mut self.rows),
            Call::Value => self.value(),
            Call::Table => library.table(file, self.at.section, &mut self.cells),
            Call::Write => library.write(file, &mut self.out),
            Call::Fill => library.fill(file, EMPTY, b"Vorschlag", &mut self.out),
            Call::Strip => library.strip(file, &mut self.out),
        };
        put.err().unwrap_or(Refusal::SOUND)
    }

    /// The row's verdict: a refused section has a row as well.
    fn section(&mut self) -> Result<Refusal, Refusal> {
        let section = self.at.section;
        let row = self.library.section(self.file, section)?;
        self.rows.fill(row);
        Ok(Refusal::new(row.verdict, section, row.line))
    }

    /// The value goes where a table's would, to be compared like them.
    fn value(&mut self) -> Result<usize, Refusal> {
        let value = self.library.value(self.file, self.at)?;
        self.cells.copy_from_slice(&value.cells());
        Ok(CELLS)
    }

    /// Whether another implementation put out the same.
    pub fn agrees(&self, other: &Prepared<'_>) -> bool {
        self.cells == other.cells && self.rows == other.rows && self.out == other.out
    }
}

#[cfg(test)]
mod tests {
    use super::*;
    use compare::baseline;
    use samples::large::{file, Order, Shape, SOUND};
    use vdv::tables::{CALENDAR, CONNECTIONS, TIMES};

    use crate::load::Size;

    /// The reader beside itself. Only a longer file has a table a second time.
    #[test]
    fn every_call_runs_over_a_small_file() {
        let small = SOUND.map(|shape| (shape, Size::SMALL.bytes));
        for (shape, bytes) in small.into_iter().chain([(Shape::Small, 1 << 16)]) {
            let file = file(shape, bytes, 1);
            for call in ALL {
                let mut both = [baseline(); 2].map(|library| call.prepare(library, &file));
                let answers = both.each_mut().map(|prepared| prepared.run().number);
                let words = format!("{} of {}", call.name(), shape.name());
                assert_eq!(answers, [call.meant(shape.answer()); 2], "{words}");
                assert!(both[0].agrees(&both[1]), "{words}");
            }
        }
    }

    #[test]
    fn a_text_is_asked_for_where_there_is_one() {
        let row = |table| Row {
            table,
            ..Row::default()
        };
        let tables = [CALENDAR.number, CONNECTIONS.number, TIMES.number, 0];
        assert_eq!(tables.map(|table| last_text(row(table))), [3, 14, 8, 0]);
    }

    #[test]
    fn one_row_and_one_value_are_compared() {
        let shape = Shape::Calendar(Order::Rising);
        let [file, other] = [4096, 8192].map(|bytes| file(shape, bytes, 1));
        for call in [Call::Section, Call::Value] {
            let [one, same, other] = [&file, &file, &other].map(|file| {
                let mut prepared = call.prepare(baseline(), file);
                assert!(prepared.run().is_sound(), "{}", call.name());
                prepared
            });
            assert!(one.agrees(&same) && !one.agrees(&other), "{}", call.name());
        }
    }

    #[test]
    fn a_refused_section_is_not_taken_for_sound() {
        let file = b"mod; DD.MM.YYYY; HH:MM:SS; free\n\
            src; \"\"; \"01.02.2024\"; \"06:00:00\"\n\
            chs; \"ASCII\"\nver; \"1\"\nifv; \"1.0\"\n\
            tbl; MENGE_TAGESART\n";
        for call in [Call::Section, Call::Value, Call::Table] {
            let answer = call.prepare(baseline(), file).run();
            assert_eq!(answer.number, number::ORDER, "{}", call.name());
        }
    }
}
