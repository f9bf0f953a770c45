//! What the draws reach: every dress of a sound file, every number of a
//! damaged one.

use std::collections::BTreeMap;

use samples::arrangement::is_arranged;
use samples::damage::{self, ALL};
use samples::Random;
use vdv::number;
use vdv::tables::Table;

/// How many of the drawn sound files show something.
fn share(shows: impl Fn(&samples::Sample, &[u8]) -> bool) -> usize {
    let files = (0..600).map(|index| samples::sound(&mut Random::of_file(3, index)));
    files.filter(|s| shows(s, &s.bytes())).count()
}

fn holds(file: &[u8], part: &[u8]) -> bool {
    file.windows(part.len()).any(|window| window == part)
}

#[test]
fn every_dress_is_drawn() {
    let parts: [&[u8]; 16] = [
        b"\r\n",
        b"ISO8859-1",
        b"ISO-8859-1",
        b"ASCII",
        b"YYYY/MM/DD",
        b"DD.MM.YYYY",
        b"aligned",
        b"-0",
        b"\"\"\"",
        b"\xfc",
        b"com;",
        b"\n\n",
        b"char[255]",
        b"num[1.0]",
        b"; 00",
        b"\nend; 0\n",
    ];
    for part in parts {
        let found = share(|_, file| holds(file, part));
        assert!(found >= 10, "{}: {found}", part.escape_ascii());
    }
    assert!(share(|_, file| file.last() != Some(&b'\n')) >= 50);
    assert!(share(|_, file| holds(file, b"\r\n") && file.windows(2).any(lone_feed)) >= 50);
    assert!(share(|sample, _| sample.model.tables.is_empty()) >= 5);
    assert!(share(|sample, _| sample.model.tables.len() == 10) >= 200);
    assert!(share(|sample, _| !sample.model.fillable().is_empty()) >= 200);
}

/// Behind a text, alone, and behind a doubled quote.
#[test]
fn texts_are_padded() {
    let parts: [&[u8]; 3] = [b"n      \"", b"; \"      \"", b"\"\"      \""];
    for part in parts {
        let found = share(|_, file| holds(file, part));
        assert!(found >= 5, "{}: {found}", part.escape_ascii());
    }
}

fn lone_feed(pair: &[u8]) -> bool {
    pair[1] == b'\n' && pair[0] != b'\r'
}

#[test]
fn every_table_has_records_and_suggestions() {
    for table in vdv::tables::ALL {
        let of_table = |sample: &samples::Sample| {
            let tables = sample.model.tables.iter();
            let mut found = tables.filter(|content| content.table == table);
            found.next().cloned()
        };
        let filled = share(|s, _| of_table(s).is_some_and(|c| !c.records.is_empty()));
        assert!(filled >= 40, "{}: {filled}", table.name);
        if table.markable.is_some() {
            let marked = share(|s, _| {
                of_table(s).is_some_and(|c| c.records.iter().flatten().any(|d| d.is_suggestion()))
            });
            assert!(marked >= 40, "{}: {marked}", table.name);
        }
    }
}

/// How many of the drawn sound files have this table with its columns arranged,
/// and show something of it.
fn arranged_share(table: &Table, shows: impl Fn(&samples::Content) -> bool) -> usize {
    let names: Vec<_> = table.columns.iter().map(|c| c.name).collect();
    let plain = format!("tbl; {}\natr; {}\n", table.name, names.join("; "));
    let stands = format!("tbl; {}\natr; ", table.name);
    share(|sample, file| {
        let mut tables = sample.model.tables.iter();
        let content = tables.find(|content| content.table == table);
        holds(file, stands.as_bytes())
            && !holds(file, plain.as_bytes())
            && content.is_some_and(&shows)
    })
}

/// With records, with suggestions, and with texts to fill.
#[test]
fn every_table_is_arranged() {
    assert!((240..360).contains(&share(|_, file| is_arranged(file))));
    for table in vdv::tables::ALL {
        let found = arranged_share(table, |content| !content.records.is_empty());
        assert!(found >= 20, "{}: {found}", table.name);
        let Some(field) = table.markable else {
            continue;
        };
        let text = |record: &samples::Record| record[field - 1].clone();
        let marked = arranged_share(table, |content| {
            content.records.iter().map(text).any(|t| t.is_suggestion())
        });
        let empty = samples::Datum::Text(Vec::new(), vdv::Owner::Operator);
        let fillable = arranged_share(table, |content| {
            content.records.iter().map(text).any(|t| t == empty)
        });
        assert!(marked >= 5, "{}: {marked} marked", table.name);
        assert!(fillable >= 5, "{}: {fillable} fillable", table.name);
    }
}

#[test]
fn every_number_of_a_file_is_reached() {
    let mut met = BTreeMap::new();
    for index in 0..4_000 {
        let file = samples::damaged(&mut Random::of_file(5, index));
        *met.entry(u32::from(reader::check(&file).number))
            .or_insert(0) += 1;
    }
    let of_files = (number::SOUND..=number::REFERENCE).chain(number::COMBINATION..=number::LAST);
    for number in of_files.filter(|n| *n != number::FILE_TOO_LONG) {
        let count = met.get(&number).copied().unwrap_or(0);
        assert!(count >= 5, "{number}: {count} of {met:?}");
    }
}

/// Each piece of damage does harm, and the number named is among those given.
#[test]
fn damage_does_what_its_name_says() {
    let expected = BTreeMap::from([
        ("primary key repeated", number::PRIMARY_KEY),
        ("second key repeated", number::SECOND_KEY),
        ("parent lost", number::REFERENCE),
        ("reference astray", number::REFERENCE),
        ("points made the same", number::SAME_POINTS),
        ("value out of range", number::RANGE),
        ("text too long", number::RANGE),
        ("table twice", number::TABLE_TWICE),
        ("number left out", number::NOT_A_NUMBER),
        ("0 for a missing number", number::RANGE),
        ("combination wrong", number::COMBINATION),
        ("combination and more wrong", number::COMBINATION),
        ("transfer astray", number::REFERENCE),
        ("day nearly missed", number::NO_SUCH_DAY),
        ("leap day in a common year", number::NO_SUCH_DAY),
        ("no such day", number::NO_SUCH_DAY),
        ("no such day and more wrong", number::NO_SUCH_DAY),
        ("record of too few fields", number::FIELD_COUNT),
        ("record of too many fields", number::FIELD_COUNT),
        ("end count wrong", number::END_COUNT),
        ("end dropped", number::ORDER),
        ("record after end", number::ORDER),
        ("unknown table", number::UNKNOWN_TABLE),
        ("column missing", number::ATR),
        ("column twice", number::ATR),
        ("column unknown", number::ATR),
        ("column too many", number::ATR),
        ("columns exchanged", number::FRM),
        ("formats of another order", number::FRM),
        ("record of another order", number::NOT_A_NUMBER),
        ("mark numbered by column", number::MARK),
        ("mark of another place", number::MARK),
        ("several odd fields", number::NOT_A_TEXT),
        ("format changed", number::FRM),
        ("formats exchanged", number::FRM),
        ("mark misplaced", number::MARK),
        ("mark before a record", number::MARK),
        ("mark malformed", number::MARK),
        ("mark doubled", number::MARK),
        ("second eof", number::TRAILER),
        ("table after eof", number::TRAILER),
        ("eof count wrong", number::TRAILER),
        ("line after eof", number::TRAILER),
        ("header line changed", number::HEADER),
        ("header line dropped", number::HEADER),
        ("header line doubled", number::HEADER),
        ("odd field", number::NOT_A_NUMBER),
        ("bytes replaced", number::BYTE),
        ("file cut", number::TRAILER),
        ("foreign line", number::COMMAND),
    ]);
    for damage in ALL {
        let files = (0..120).map(|i| damage::with(&mut Random::of_file(9, i), &[damage]));
        let numbers: Vec<u32> = files.map(|f| reader::check(&f).number.into()).collect();
        let harmed = numbers.iter().filter(|n| **n != number::SOUND).count();
        assert!(harmed >= 8, "{}: {harmed}", damage.name);
        if let Some(number) = expected.get(damage.name) {
            let met = numbers.iter().filter(|n| *n == number).count();
            assert!(met >= 3, "{}: {number} {met} times", damage.name);
        }
    }
    assert!(expected
        .keys()
        .all(|name| ALL.iter().any(|damage| damage.name == *name)));
}
