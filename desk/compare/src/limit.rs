//! What only large files reach: every call on a file of just the limit and on
//! large ones with arranged columns and with connections, 1 one byte beyond the
//! limit, and 21 for a form longer than any file may be.

use samples::large::{file, with_longer_source, without_spaces, Order, Shape, EMPTY};
use vdv::{cells_of, number, At, Refusal, LIMIT};

use crate::difference::{law, same, Difference};
use crate::lent::{lend, room, Call};
use crate::library::{all_rows, Library};
use crate::tally::Tally;
use crate::Pair;

/// Bytes of the files with arranged columns and with connections.
const LARGE: usize = LIMIT / 8;

/// Text and mark of the place that is filled.
const TEXT: &[u8] = b"Vorschlag";

pub fn compare_large(pair: Pair<'_>, tally: &mut Tally) -> Result<(), Difference> {
    let mut limit = Limit { pair, tally };
    limit.sound_file(&file(Shape::Calendar(Order::Rising), LIMIT, 1))?;
    limit.sound_file(&file(Shape::Arranged, LARGE, 1))?;
    limit.sound_file(&file(Shape::Connections(Order::Shuffled), LARGE, 1))?;
    limit.one_byte_more()?;
    limit.form_of_the_limit()?;
    limit.many_sections()
}

struct Limit<'a> {
    pair: Pair<'a>,
    tally: &'a mut Tally,
}

impl Limit<'_> {
    fn check(&mut self, file: &[u8], meant: u32) -> Result<(), Difference> {
        let call = format!("check of {} bytes", file.len());
        let Pair { subject, baseline } = self.pair;
        let answer = same(&call, subject.check(file), baseline.check(file))?;
        self.tally.add_check(answer);
        law(
            answer.number == meant,
            &format_args!("{call}: {meant} is meant, not {}", answer.number),
        )
    }

    /// The three calls that put out a form, with so much room.
    fn forms(&mut self, file: &[u8], lent: usize, meant: u32) -> Result<(), Difference> {
        let write = |library: &dyn Library, out: &mut [u8]| library.write(file, out);
        let strip = |library: &dyn Library, out: &mut [u8]| library.strip(file, out);
        let fill = |library: &dyn Library, out: &mut [u8]| library.fill(file, EMPTY, TEXT, out);
        let calls: [(&str, &Call<'_, u8>); 3] =
            [("write", &write), ("strip", &strip), ("fill", &fill)];
        for (name, run) in calls {
            let call = format!("{name} of {} bytes", file.len());
            self.form(&call, lent, meant, run)?;
        }
        Ok(())
    }

    /// A call that puts out a form: refused by this number, or by none.
    fn form(
        &mut self,
        call: &str,
        lent: usize,
        meant: u32,
        run: &Call<'_, u8>,
    ) -> Result<(), Difference> {
        let answer = lend(self.pair, self.tally, &call, lent, run)?;
        let refusal = answer.err().unwrap_or(Refusal::SOUND);
        law(
            refusal == Refusal::placeless(meant),
            &format_args!("{call}: {meant} is meant, not {}", refusal.number),
        )
    }

    fn sound_file(&mut self, file: &[u8]) -> Result<(), Difference> {
        self.check(file, number::SOUND)?;
        self.forms(file, LIMIT, number::SOUND)?;
        let Pair { subject, baseline } = self.pair;
        let listing = same(
            &format_args!("list of {} bytes", file.len()),
            all_rows(subject, file),
            all_rows(baseline, file),
        )?;
        let rows = listing.map_or(Vec::new(), |listing| listing.rows);
        for (index, row) in rows.into_iter().enumerate() {
            let section = index + 1;
            let run =
                |library: &dyn Library, cells: &mut [u64]| library.table(file, section, cells);
            let call = format!("table {section} of {} bytes", file.len());
            let cells = lend(self.pair, self.tally, &call, cells_of(row), &run)?;
            law(cells.is_ok(), &format_args!("{call}: handed out"))?;
        }
        Ok(())
    }

    /// "file over 16,777,216 bytes": so says every call, and nothing else.
    fn one_byte_more(&mut self) -> Result<(), Difference> {
        let over = file(Shape::Network(Order::Rising), LIMIT + 1, 1);
        self.check(&over, number::FILE_TOO_LONG)?;
        self.forms(&over, 9, number::FILE_TOO_LONG)?;
        for library in [self.pair.subject, self.pair.baseline] {
            let at = At::new(1, 1, 1);
            let mut rows = room(9);
            let refusals = [
                library.header(&over).err(),
                library.section(&over, 1).err(),
                library.value(&over, at).err(),
                library.text(&over, at, &mut []).err(),
                library.table(&over, 1, &mut []).err(),
                Some(library.list(&over, &mut rows)),
            ];
            law(
                refusals == [Some(Refusal::placeless(number::FILE_TOO_LONG)); 6],
                &"header, section, value, text, table, list: a file over the limit is 1",
            )?;
            law(rows == room(9), &"list: 1 writes no row")?;
        }
        Ok(())
    }

    /// "21 exactly if the form is longer than the lent output or than
    /// 16,777,216 bytes": a dense file's form is longer than the file, and just
    /// as long as is wished by the header's first text.
    fn form_of_the_limit(&mut self) -> Result<(), Difference> {
        let dense = without_spaces(&file(Shape::Network(Order::Rising), LIMIT - 300_000, 1));
        let mut out = vec![0; LIMIT];
        let length = self.pair.baseline.write(&dense, &mut out).unwrap_or(0);
        for (more, meant) in [(0, number::SOUND), (1, number::NO_ROOM)] {
            let longer = with_longer_source(&dense, LIMIT - length + more);
            self.check(&longer, number::SOUND)?;
            let run = |library: &dyn Library, out: &mut [u8]| library.write(&longer, out);
            let call = format!("write of a form of {} bytes", LIMIT + more);
            self.form(&call, LIMIT + 9, meant, &run)?;
        }
        Ok(())
    }

    fn many_sections(&mut self) -> Result<(), Difference> {
        let many = file(Shape::Small, 400_000, 1);
        self.check(&many, number::TABLE_TWICE)?;
        let Pair { subject, baseline } = self.pair;
        let listing = same(
            &"list of many sections",
            all_rows(subject, &many),
            all_rows(baseline, &many),
        )?;
        law(listing.is_ok(), &"list of many sections: not refused")
    }
}
