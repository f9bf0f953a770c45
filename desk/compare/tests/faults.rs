//! The comparison finds what it is there to find: for each fault put into an
//! otherwise right implementation a difference is reported soon.

mod arranged;
mod connections;
mod days;
mod padded;

use std::borrow::Cow;
use std::path::Path;

use compare::{all_rows, run, Library, Options, Pair, Plain};
use samples::arrangement::is_arranged;
use vdv::{number, At, Copied, Header, Owner, Refusal, Row, Value, CELLS};

/// A right implementation but for one fault.
struct Bent(Fault);

/// The faults and the list of them all.
macro_rules! faults {
    ($($name:ident,)*) => {
        #[derive(Clone, Copy, Debug, PartialEq, Eq)]
        enum Fault {
            $($name,)*
        }

        use Fault::*;

        const ALL: &[Fault] = &[$($name,)*];
    };
}

faults! {
    RefusesAll,
    AcceptsAll,
    NoSecondKeys,
    NoReferences,
    LineOff,
    SectionOff,
    LaterLine,
    SpareRow,
    RowsWithoutRoom,
    LengthOff,
    RecordsOfRefused,
    FirstRowAgain,
    RowVerdictInstead,
    NeverNoRoom,
    SectionZero,
    DateTurned,
    AbsentLineThere,
    AllOperator,
    QuotesInSpan,
    QuotesStay,
    PartOfText,
    TextOfNumber,
    OperatorsText,
    LastCellLost,
    SpareCell,
    WritesNothing,
    ZeroesAfterForm,
    WritesWhenRefused,
    RoomOffByOne,
    LineEndLost,
    FortyTooLong,
    FillOrder,
    FillWithoutMark,
    FillOverwrites,
    StripKeeps,
    StripEmpties,
    ReadsTrailer,
    NamesUnread,
    ArrangedRefused,
    FormatsByColumn,
    FieldsByColumn,
    ValueByPlace,
    MarkByColumn,
    PointsByPlace,
    KeysByPlace,
    FormInFileOrder,
    MarksKeepNumbers,
    FillByPlace,
    PaddingMeasured,
    PaddingInKeys,
    SpacesMarked,
    PaddingInSpan,
    PaddingWritten,
    SpacesNotEmpty,
    FillUntrimmed,
    MissingIsZero,
    ZeroInCells,
    TextOfMissing,
    MissingRefused,
    ZeroIsMissing,
    NumberLeftOut,
    CombinationPasses,
    CombinationEarly,
    CombinationLate,
    CombinationByPlace,
    SpacesCombined,
    DirectionAboveZero,
    NoConnections,
    ZeroWritten,
    LastSpaceLost,
    NameNotFilled,
    MissingNotEmpty,
    MarksOfOneDigit,
    LeapDayIn1900,
    NoLeapDayIn2000,
    LeapDayEveryFourthYear,
    AprilOf31,
    MonthsOf31,
    MonthThirteen,
    MonthZero,
    DayZero,
    YearZero,
    DayAfterTheLast,
    DaysOfEightDigits,
    OperatingDaysUnread,
    ValidityUnread,
    NoSuchDayIsRange,
    NoSuchDayLate,
    NoSuchDayEarly,
    NoSuchDayPlaceless,
    DaysByPlace,
}

/// Faults that show only in files whose columns are arranged.
const OF_ARRANGED: [Fault; 13] = [
    ArrangedRefused,
    FormatsByColumn,
    FieldsByColumn,
    ValueByPlace,
    MarkByColumn,
    PointsByPlace,
    KeysByPlace,
    FormInFileOrder,
    MarksKeepNumbers,
    FillByPlace,
    CombinationByPlace,
    MarksOfOneDigit,
    DaysByPlace,
];

impl Bent {
    fn is(&self, fault: Fault) -> bool {
        self.0 == fault
    }

    /// The file that is read in the place of another.
    fn taken<'f>(&self, file: &'f [u8]) -> Cow<'f, [u8]> {
        match self.0 {
            MarkByColumn => arranged::with_marks_by_column(file).into(),
            FormatsByColumn => arranged::with_formats_by_column(file).into(),
            _ => file.into(),
        }
    }

    /// The right answer with a rule judged as if no column were arranged.
    fn unarranged(&self, file: &[u8], right: Refusal) -> Refusal {
        match self.0 {
            ArrangedRefused => arranged::refuse_arranged(file, right),
            FieldsByColumn => Plain.check(&arranged::straightened(file)),
            PointsByPlace => arranged::judge_points_by_place(file, right),
            KeysByPlace => arranged::judge_keys_by_place(file, right),
            _ => right,
        }
    }

    /// The right answer with a rule judged as if padding belonged to a text.
    fn padded(&self, file: &[u8], right: Refusal) -> Refusal {
        let kept = || Plain.check(&padded::with_padding_kept(file));
        match (self.0, right.number) {
            (PaddingMeasured, _) if kept().number == number::RANGE => kept(),
            (PaddingInKeys, number::SECOND_KEY) | (SpacesMarked, number::MARK) => kept(),
            (SpacesCombined, number::SOUND) if kept().number == number::COMBINATION => kept(),
            (SpacesCombined, number::COMBINATION) if kept().is_sound() => kept(),
            _ => right,
        }
    }

    /// The right answer with a rule judged otherwise that speaks of connections
    /// or of missing numbers.
    fn connected(&self, file: &[u8], right: Refusal) -> Refusal {
        match (self.0, right.number) {
            (MissingRefused, _) => Plain.check(&connections::with_missing_refused(file)),
            (ZeroIsMissing, number::RANGE) => Plain.check(&connections::with_zeros_missing(file)),
            (NumberLeftOut, number::NOT_A_NUMBER) => {
                Plain.check(&connections::with_numbers_put_in(file))
            }
            (CombinationEarly, number::RANGE) => connections::judge_combination_first(file, right),
            (CombinationLate, number::COMBINATION) => connections::judge_mark_first(file, right),
            (CombinationByPlace, _) => connections::judge_combination_by_place(file, right),
            (DirectionAboveZero, number::SOUND) => connections::refuse_no_direction(file, right),
            (MarksOfOneDigit, number::SOUND) => connections::refuse_two_digits(file, right),
            (NoConnections, number::REFERENCE)
                if connections::lacks_connection_alone(file, right) =>
            {
                Refusal::SOUND
            }
            _ => right,
        }
    }

    /// The calendar by which days are judged, if it is a wrong one.
    fn calendar(&self) -> Option<days::Calendar> {
        Some(match self.0 {
            LeapDayIn1900 => days::with_leap_day_in_1900,
            NoLeapDayIn2000 => days::without_leap_day_in_2000,
            LeapDayEveryFourthYear => days::with_leap_day_every_fourth_year,
            AprilOf31 => days::with_31_days_in_april,
            MonthsOf31 => days::with_31_days_in_all_months,
            MonthThirteen => days::with_month_13,
            MonthZero => days::with_month_0,
            DayZero => days::with_day_0,
            YearZero => days::with_year_0,
            DayAfterTheLast => days::with_a_day_after_the_last,
            DaysOfEightDigits => days::with_eight_digits,
            OperatingDaysUnread => days::of_validity_alone,
            ValidityUnread => days::of_operation_alone,
            _ => return None,
        })
    }

    /// The right answer with days judged otherwise.
    fn dated(&self, file: &[u8], right: Refusal) -> Refusal {
        if let Some(calendar) = self.calendar() {
            return days::judge_by(file, calendar);
        }
        match (self.0, right.number) {
            (NoSuchDayLate, number::NO_SUCH_DAY) => days::judge_fields_first(file, right),
            (NoSuchDayEarly, number::RANGE) => days::judge_day_first(file, right),
            (DaysByPlace, _) => days::judge_days_by_place(file, right),
            _ => right,
        }
    }

    fn answer(&self, right: Refusal) -> Refusal {
        match (self.0, right.number) {
            (RefusesAll, number::SOUND) => Refusal::new(number::HEADER, 0, 1),
            (AcceptsAll, _) => Refusal::SOUND,
            (NoSecondKeys, number::SECOND_KEY) => Refusal::SOUND,
            (NoReferences, number::REFERENCE) => Refusal::SOUND,
            (NamesUnread, number::ATR) => Refusal::SOUND,
            (CombinationPasses, number::COMBINATION) => Refusal::SOUND,
            (NoSuchDayIsRange, number::NO_SUCH_DAY) => {
                Refusal::new(number::RANGE, right.section, right.line)
            }
            (NoSuchDayPlaceless, number::NO_SUCH_DAY) => Refusal::placeless(number::NO_SUCH_DAY),
            (LineOff, number::ORDER) => Refusal::new(right.number, right.section, right.line + 1),
            (SectionOff, number::PRIMARY_KEY) => Refusal::new(right.number, 1, right.line),
            (LaterLine, number::TRAILER) if right.line == 2 => Refusal::new(3, 0, 3),
            _ => right,
        }
    }

    fn row(&self, mut row: Row) -> Row {
        match self.0 {
            LengthOff => row.length -= 1,
            RecordsOfRefused if row.verdict != 0 => row.records = 1,
            _ => {}
        }
        row
    }

    fn put(&self, answer: Result<usize, Refusal>, out: &mut [u8]) -> Result<usize, Refusal> {
        match (self.0, answer) {
            (WritesNothing, Ok(_)) => Ok(0),
            (ZeroesAfterForm, Ok(length)) => {
                out[length..].fill(0);
                answer
            }
            (WritesWhenRefused, Err(_)) if !out.is_empty() => {
                out[0] = b'm';
                answer
            }
            (RoomOffByOne, Ok(length)) if length == out.len() => {
                Err(Refusal::placeless(number::NO_ROOM))
            }
            (LineEndLost, Ok(length)) => Ok(length - 1),
            _ => answer,
        }
    }
}

impl Library for Bent {
    fn name(&self) -> &'static str {
        "bent"
    }

    fn check(&self, file: &[u8]) -> Refusal {
        let right = Plain.check(&self.taken(file));
        let right = self.padded(file, self.unarranged(file, right));
        let right = self.connected(file, right);
        self.answer(self.dated(file, right))
    }

    fn header(&self, file: &[u8]) -> Result<Header, Refusal> {
        let mut header = Plain.header(file)?;
        match self.0 {
            DateTurned => std::mem::swap(&mut header.date.day, &mut header.date.month),
            AbsentLineThere => header.dve = header.dve.or(Some(header.ver)),
            _ => {}
        }
        Ok(header)
    }

    fn section(&self, file: &[u8], section: usize) -> Result<Row, Refusal> {
        let section = match self.0 {
            SectionZero => section.max(1),
            _ => section,
        };
        let row = Plain.section(&self.taken(file), section)?;
        Ok(self.row(row))
    }

    fn list(&self, file: &[u8], rows: &mut [Row]) -> Refusal {
        let file = &*self.taken(file);
        if self.is(RowsWithoutRoom) {
            if let (Some(row), Ok(first)) = (rows.first_mut(), Plain.section(file, 1)) {
                *row = first;
            }
        }
        let mut answer = self.answer(Plain.list(file, rows));
        if [1, 2, 21].contains(&answer.number) {
            if self.is(NeverNoRoom) && answer.number == number::NO_ROOM {
                answer = Refusal::SOUND;
            }
            return answer;
        }
        let count = Plain.sections(file).min(rows.len());
        for row in &mut rows[..count] {
            *row = self.row(*row);
        }
        if self.is(FirstRowAgain) && count > 1 {
            rows[1] = rows[0];
        }
        if self.is(SpareRow) && count < rows.len() {
            rows[count] = Row::default();
        }
        if self.is(RowVerdictInstead) && answer.number == number::TRAILER {
            answer = Refusal::SOUND;
        }
        answer
    }

    fn value(&self, file: &[u8], at: At) -> Result<Value, Refusal> {
        if self.is(ReadsTrailer) && Plain.check(file).number == number::TRAILER {
            return Err(Plain.check(file));
        }
        let at = match self.0 {
            ValueByPlace => arranged::by_place(file, at),
            _ => at,
        };
        let kept = padded::with_padding_kept(file);
        let file = match self.0 {
            PaddingInSpan => &kept[..],
            _ => file,
        };
        Ok(match Plain.value(&self.taken(file), at)? {
            Value::Text { span, .. } if self.is(AllOperator) => Value::Text {
                span,
                owner: Owner::Operator,
            },
            Value::Text { mut span, owner } if self.is(QuotesInSpan) => {
                span.from -= 1;
                span.to += 1;
                Value::Text { span, owner }
            }
            Value::Missing if self.is(MissingIsZero) => Value::Number(0),
            value => value,
        })
    }

    fn text(&self, file: &[u8], at: At, out: &mut [u8]) -> Result<Copied, Refusal> {
        let file = &*self.taken(file);
        let answer = Plain.text(file, at, out);
        let told = |length, owner| Ok(Copied { length, owner });
        match (self.0, answer, Plain.value(file, at)) {
            (QuotesStay, Ok(Copied { length, owner }), Ok(Value::Text { span, .. })) => {
                let stored = span.of(file);
                if stored.len() <= out.len() && stored.len() > length {
                    out[..stored.len()].copy_from_slice(stored);
                    return told(stored.len(), owner);
                }
                answer
            }
            (PartOfText, Err(refusal), Ok(Value::Text { span, .. })) => {
                if refusal.number == number::NO_ROOM && !out.is_empty() {
                    out[0] = span.of(file)[0];
                }
                answer
            }
            (TextOfNumber, Err(refusal), _) if refusal.number == number::NOT_A_TEXT => {
                told(0, Owner::Operator)
            }
            (TextOfMissing, _, Ok(Value::Missing)) => told(0, Owner::Operator),
            (OperatorsText, Ok(text), _) => told(text.length, Owner::Operator),
            _ => answer,
        }
    }

    fn table(&self, file: &[u8], section: usize, cells: &mut [u64]) -> Result<usize, Refusal> {
        let length = Plain.table(&self.taken(file), section, cells)?;
        if self.is(LastCellLost) && length > 0 {
            return Ok(length - 3);
        }
        if self.is(SpareCell) && length < cells.len() {
            cells[length] = 0;
        }
        if self.is(ZeroInCells) {
            let values = cells[..length].chunks_mut(CELLS);
            values.filter(|cells| cells[0] == 3).for_each(|c| c.fill(0));
        }
        Ok(length)
    }

    fn write(&self, file: &[u8], out: &mut [u8]) -> Result<usize, Refusal> {
        let kept = padded::with_padding_kept(file);
        let answer = match self.0 {
            PaddingWritten if Plain.check(file).is_sound() => Plain.write(&kept, out),
            ZeroWritten => connections::write_changed(file, out, connections::put_zeros),
            LastSpaceLost => connections::write_changed(file, out, connections::lose_last_space),
            _ => Plain.write(&self.taken(file), out),
        };
        match (self.0, answer) {
            (FormInFileOrder, Ok(length)) => arranged::rearrange(&mut out[..length], file),
            (MarksKeepNumbers, Ok(length)) => arranged::number_as_before(&mut out[..length], file),
            _ => {}
        }
        self.put(answer, out)
    }

    fn fill(&self, file: &[u8], at: At, text: &[u8], out: &mut [u8]) -> Result<usize, Refusal> {
        let at = match self.0 {
            FillByPlace => arranged::by_place(file, at),
            _ => at,
        };
        let mut untrimmed = text.to_vec();
        padded::fill_end(&mut untrimmed);
        let text = match self.0 {
            FillUntrimmed => &untrimmed[..],
            _ => text,
        };
        let file = &*self.taken(file);
        if self.is(FortyTooLong) && text.len() == 40 && Plain.fill(file, at, text, out).is_ok() {
            return Err(Refusal::placeless(number::RANGE));
        }
        let answer = Plain.fill(file, at, text, out);
        match (self.0, answer.map_err(|refusal| refusal.number)) {
            (FillOrder, Err(number::BYTE)) if text.len() > 40 => {
                Err(Refusal::placeless(number::RANGE))
            }
            (FillOverwrites, Err(number::NOT_EMPTY)) => Plain.write(file, out),
            (NameNotFilled, Ok(_)) if Plain.section(file, at.section)?.table == 432 => {
                Err(Refusal::placeless(number::MAY_NOT_FILL))
            }
            (MissingNotEmpty, Err(number::MAY_NOT_FILL))
                if Plain.value(file, at) == Ok(Value::Missing) =>
            {
                Err(Refusal::placeless(number::NOT_EMPTY))
            }
            (SpacesNotEmpty, Ok(_)) => {
                let kept = padded::with_padding_kept(file);
                let refused = Plain.fill(&kept, at, text, &mut [0; 1]);
                match refused.map_err(|refusal| refusal.number) {
                    Err(number::NOT_EMPTY) => Err(Refusal::placeless(number::NOT_EMPTY)),
                    _ => answer,
                }
            }
            (FillWithoutMark, Ok(length)) => {
                let form = out[..length].to_vec();
                Plain.strip(&form, out)
            }
            _ => answer,
        }
    }

    fn strip(&self, file: &[u8], out: &mut [u8]) -> Result<usize, Refusal> {
        let file = &*self.taken(file);
        match self.0 {
            StripKeeps => Plain.write(file, out),
            StripEmpties => Plain.strip(file, out).map(|_| 0),
            _ => Plain.strip(file, out),
        }
    }
}

trait Sections {
    fn sections(&self, file: &[u8]) -> usize;
}

impl Sections for Plain {
    fn sections(&self, file: &[u8]) -> usize {
        all_rows(self, file).map_or(0, |listing| listing.rows.len())
    }
}

#[test]
fn each_fault_is_found() {
    let options = Options {
        count: 1_200,
        large: false,
        enough: 1,
        ..Options::default()
    };
    let found = |fault: Fault| {
        let pair = Pair {
            subject: &Bent(fault),
            baseline: &Plain,
        };
        let failures = run(pair, &options, |_| {}).failures;
        let shows = |file: &[u8]| is_arranged(file) || !OF_ARRANGED.contains(&fault);
        assert!(failures.iter().all(|f| shows(&f.file)), "{fault:?}");
        !failures.is_empty()
    };
    let missed: Vec<_> = ALL.iter().filter(|fault| !found(**fault)).collect();
    assert!(missed.is_empty(), "{missed:?}");
}

/// A small file is shown, together with the call that parts the two.
#[test]
fn a_difference_is_shown_with_few_lines() {
    let options = Options {
        count: 400,
        large: false,
        enough: 1,
        ..Options::default()
    };
    let pair = Pair {
        subject: &Bent(NoReferences),
        baseline: &Plain,
    };
    let summary = run(pair, &options, |_| {});
    let failure = &summary.failures[0];
    assert_eq!(failure.difference.call, "check");
    let lines = failure.file.iter().filter(|byte| **byte == b'\n').count();
    assert!(lines < 25, "{summary}");
    let folder = Path::new(env!("CARGO_TARGET_TMPDIR")).join("differences");
    summary.save(&folder, options.seed).unwrap();
    let name = format!("seed-1-file-{}.x10", failure.index.unwrap());
    assert_eq!(std::fs::read(folder.join(name)).unwrap(), failure.file);
    let shown = summary.to_string();
    assert!(shown.contains("subject:  Refusal { number: 0") && shown.contains("tbl"));
}
