//! Every call on one file: answer, header, rows, values, texts, tables.

use std::fmt::{self, Debug, Display, Formatter};

use samples::arrangement::is_arranged;
use samples::Random;
use vdv::{cells_of, own_bytes, value_in, width_of, At, Listing, Refusal, Row, Value, CELLS};

use crate::difference::{law, same, Difference};
use crate::forms;
use crate::lent::{lend, lend_all_ways, room};
use crate::library::{all_rows, Library};
use crate::tally::Tally;
use crate::Pair;

/// Values of one table read one by one; the table as a whole has them all.
const TRIED: usize = 4;

/// Everything about one file. What is drawn says which of many places are
/// tried.
pub fn compare_file(
    pair: Pair<'_>,
    tally: &mut Tally,
    random: &mut Random,
    file: &[u8],
) -> Result<(), Difference> {
    let mut comparison = Comparison {
        pair,
        tally,
        random,
        file,
    };
    let answer = comparison.check()?;
    comparison.header()?;
    match all_rows(pair.baseline, file) {
        Err(_) => comparison.refused_listing()?,
        Ok(listing) => comparison.listed(&listing)?,
    }
    comparison.no_such_section()?;
    let Comparison { tally, random, .. } = comparison;
    forms::compare_forms(pair, tally, random, file, answer)
}

struct Comparison<'a> {
    pair: Pair<'a>,
    tally: &'a mut Tally,
    random: &'a mut Random,
    file: &'a [u8],
}

impl Comparison<'_> {
    fn both<T: PartialEq + Debug>(
        &mut self,
        call: &dyn Display,
        run: impl Fn(&dyn Library) -> Result<T, Refusal>,
    ) -> Result<Result<T, Refusal>, Difference> {
        let answer = same(call, run(self.pair.subject), run(self.pair.baseline))?;
        let refusal = answer.as_ref().err().copied();
        self.tally.add_call(refusal.unwrap_or(Refusal::SOUND));
        Ok(answer)
    }

    fn check(&mut self) -> Result<Refusal, Difference> {
        let Pair { subject, baseline } = self.pair;
        let answer = same(
            &"check",
            subject.check(self.file),
            baseline.check(self.file),
        )?;
        self.tally.add_check(answer);
        if is_arranged(self.file) {
            self.tally.add_arranged(answer);
        }
        Ok(answer)
    }

    fn header(&mut self) -> Result<(), Difference> {
        let file = self.file;
        let call = "header";
        self.both(&call, |library| library.header(file)).map(|_| ())
    }

    /// "Listing is refused by 1, 2 and 21 only and then writes no row".
    fn refused_listing(&mut self) -> Result<(), Difference> {
        for lent in [0, 3] {
            self.list(lent)?;
        }
        Ok(())
    }

    /// Listing's answer, with all lent rows compared.
    fn list(&mut self, lent: usize) -> Result<(Refusal, Vec<Row>), Difference> {
        let call = format!("list lent {lent}");
        let mut rows = room::<Row>(lent);
        let mut others = rows.clone();
        let answer = self.pair.subject.list(self.file, &mut rows);
        let other = self.pair.baseline.list(self.file, &mut others);
        let answer = same(&call, answer, other)?;
        let rows = same(&call, rows, others)?;
        self.tally.add_call(answer);
        Ok((answer, rows))
    }

    fn listed(&mut self, listing: &Listing) -> Result<(), Difference> {
        let count = listing.rows.len();
        for spare in [0, 2] {
            let (answer, rows) = self.list(count + spare)?;
            let kept = &room::<Row>(count + spare)[count..];
            law(
                answer == listing.answer && rows[count..] == *kept,
                &"list: spare rows keep their values",
            )?;
        }
        if count > 0 {
            let (_, rows) = self.list(count - 1)?;
            law(rows == room(count - 1), &"list: 21 writes no row")?;
            self.list(0)?;
        }
        for (index, row) in listing.rows.iter().enumerate() {
            self.section(index + 1, *row)?;
        }
        match count {
            0 => Ok(()),
            _ => self.no_such_place(&listing.rows),
        }
    }

    /// Records and fields beside those of one section.
    fn no_such_place(&mut self, rows: &[Row]) -> Result<(), Difference> {
        let index = self.random.below(rows.len());
        let (section, records) = (index + 1, rows[index].records);
        let width = width_of(rows[index]);
        for (record, field) in [(0, 1), (1, 0), (records + 1, 1), (records, width + 1)] {
            self.value(At::new(section, record, field))?.ok();
        }
        Ok(())
    }

    fn section(&mut self, section: usize, row: Row) -> Result<(), Difference> {
        let file = self.file;
        let call = format!("section {section}");
        let answer = self.both(&call, |library| library.section(file, section))?;
        law(
            answer == Ok(row),
            &format_args!("{call}: one row of the listing"),
        )?;
        let width = width_of(row);
        let cells = self.table(section, row)?;
        for at in self.places(section, row, width) {
            let value = self.value(at)?;
            let cell = cell_of(&cells, at, width);
            if let (Ok(value), Some(cell)) = (value, cell) {
                law(
                    cell == value,
                    &format_args!("{}: the same in the table", Call("value", at)),
                )?;
            }
        }
        Ok(())
    }

    /// All values of a table; nothing of a refused one.
    fn table(&mut self, section: usize, row: Row) -> Result<Vec<u64>, Difference> {
        let file = self.file;
        let ample = cells_of(row) + 2;
        let run =
            move |library: &dyn Library, cells: &mut [u64]| library.table(file, section, cells);
        let call = format!("table {section}");
        let cells = lend_all_ways(self.pair, self.tally, &call, ample, &run)?;
        law(
            cells.is_ok() == row.is_sound(),
            &format_args!("{call}: a refused section hands out no records"),
        )?;
        let cells = cells.unwrap_or_default();
        law(
            cells.len() == cells_of(row),
            &format_args!("{call}: as many records as the row counts"),
        )?;
        Ok(cells)
    }

    /// Every place of a tiny table, a draw of a larger one's; of a refused one
    /// the first.
    fn places(&mut self, section: usize, row: Row, width: usize) -> Vec<At> {
        let count = row.records * width;
        let mut places = Vec::new();
        for index in 0..count.min(TRIED) {
            let index = match count {
                0..=TRIED => index,
                _ => self.random.below(count),
            };
            places.push(At::new(section, index / width + 1, index % width + 1));
        }
        if places.is_empty() {
            places.push(At::new(section, 1, 1));
        }
        places
    }

    fn value(&mut self, at: At) -> Result<Result<Value, Refusal>, Difference> {
        let file = self.file;
        let value = self.both(&Call("value", at), |library| library.value(file, at))?;
        let call = Call("text", at);
        let run = move |library: &dyn Library, out: &mut [u8]| library.text(file, at, out);
        match value {
            Ok(Value::Text { span, owner }) => {
                let ample = span.to.saturating_sub(span.from) + 2;
                let text = lend_all_ways(self.pair, self.tally, &call, ample, &run)?;
                law(
                    text == Ok(own_bytes(span.of(file))),
                    &format_args!("{call}: the span's bytes, doubled quotes undone"),
                )?;
                let told = run(self.pair.subject, &mut room(ample));
                law(
                    told.map(|text| text.owner) == Ok(owner),
                    &format_args!("{call}: whose it is, as its value says"),
                )?;
            }
            _ => {
                lend(self.pair, self.tally, &call, 9, &run)?.ok();
            }
        }
        Ok(value)
    }

    fn no_such_section(&mut self) -> Result<(), Difference> {
        let file = self.file;
        let count = all_rows(self.pair.baseline, file).map_or(0, |listing| listing.rows.len());
        for section in [0, count + 1, usize::MAX] {
            let call = format!("section {section}");
            self.both(&call, |library| library.section(file, section))?
                .ok();
            self.value(At::new(section, section, section))?.ok();
            let run =
                move |library: &dyn Library, cells: &mut [u64]| library.table(file, section, cells);
            lend(self.pair, self.tally, &format!("table {section}"), 6, &run)?.ok();
        }
        Ok(())
    }
}

/// The value at a place by a table's cells.
fn cell_of(cells: &[u64], at: At, width: usize) -> Option<Value> {
    let index = at.record.checked_sub(1)?.checked_mul(width)? + at.field.checked_sub(1)?;
    let from = index.checked_mul(CELLS)?;
    value_in(cells.get(from..from + CELLS)?)
}

/// A call that names a place, as reports show it.
pub struct Call(pub &'static str, pub At);

impl Display for Call {
    fn fmt(&self, out: &mut Formatter<'_>) -> fmt::Result {
        let Call(name, at) = self;
        write!(
            out,
            "{name} of section {}, record {}, field {}",
            at.section, at.record, at.field
        )
    }
}
