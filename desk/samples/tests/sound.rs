//! Every drawn file is sound, and the reader finds in it what was meant.

use reader::{Charset, Value};
use samples::form::form;
use samples::{Content, Datum, Heading, Model, Random, Record, Sample};
use vdv::{At, Owner};

const FILES: u64 = 2_500;

fn files() -> impl Iterator<Item = (u64, Sample, Vec<u8>)> {
    (0..FILES).map(|index| {
        let sample = samples::sound(&mut Random::of_file(11, index));
        let bytes = sample.bytes();
        (index, sample, bytes)
    })
}

fn shown(file: &[u8]) -> String {
    file.escape_ascii().to_string().replace("\\n", "\n")
}

fn written(file: &[u8]) -> Vec<u8> {
    out_of(|out| reader::write(file, out))
}

fn out_of(write: impl Fn(&mut [u8]) -> Result<usize, reader::Answer>) -> Vec<u8> {
    let mut out = vec![0; 1 << 16];
    let length = write(&mut out).unwrap();
    out.truncate(length);
    out
}

#[test]
fn every_drawn_file_is_sound() {
    for (index, _, file) in files() {
        let answer = reader::check(&file);
        assert!(answer.is_sound(), "{index}: {answer:?}\n{}", shown(&file));
    }
}

#[test]
fn header_values_are_the_meant_ones() {
    for (index, sample, file) in files() {
        let header = reader::header(&file).unwrap();
        let text = |text: reader::Text<'_>| text.undone().into_owned();
        let found = Heading {
            source: text(header.source),
            date: vdv::Date {
                year: header.date.year.into(),
                month: header.date.month.into(),
                day: header.date.day.into(),
            },
            time: vdv::Time {
                hour: header.time.hour.into(),
                minute: header.time.minute.into(),
                second: header.time.second.into(),
            },
            latin: header.charset == Charset::Latin1,
            ver: text(header.version),
            ifv: text(header.interface),
            dve: header.data.map(text),
            fft: header.format.map(text),
        };
        assert_eq!(found, sample.model.header, "{index}");
    }
}

fn datum(value: Value<'_>) -> Datum {
    match value {
        Value::Number(number) => Datum::Number(number.try_into().unwrap()),
        Value::Missing => Datum::Missing,
        Value::Text { bytes, owner, .. } => Datum::Text(
            bytes.into_owned(),
            match owner {
                reader::Owner::Operator => Owner::Operator,
                reader::Owner::Suggestion => Owner::Suggestion,
            },
        ),
    }
}

fn contents(file: &[u8]) -> Vec<Content> {
    let read = |section| {
        let view = reader::table(file, section).unwrap();
        let table = vdv::tables::named(view.name.as_bytes()).unwrap();
        assert_eq!(table.number, u32::from(view.number));
        let records = view.records.iter();
        let records = records.map(|r| r.values().map(datum).collect::<Record>());
        Content {
            table,
            records: records.collect(),
        }
    };
    (1..=reader::sections(file)).map(read).collect()
}

#[test]
fn tables_values_and_owners_are_the_meant_ones() {
    for (index, sample, file) in files() {
        assert!(contents(&file) == sample.model.tables, "{index}");
    }
}

#[test]
fn rows_count_the_meant_records() {
    for (index, sample, file) in files() {
        let rows = reader::list(&file).unwrap();
        let found: Vec<_> = rows.iter().map(|r| (r.table.into(), r.records)).collect();
        let meant: Vec<_> = sample
            .model
            .tables
            .iter()
            .map(|content| (content.table.number, content.records.len()))
            .collect();
        assert_eq!(found, meant, "{index}");
    }
}

#[test]
fn the_written_form_is_the_printed_one() {
    for (index, sample, file) in files() {
        let printed = form(&sample.model);
        let found = written(&file);
        assert!(found == printed, "{index}\n{}", shown(&found));
        assert!(written(&printed) == printed, "{index}");
        assert!(contents(&printed) == sample.model.tables, "{index}");
    }
}

#[test]
fn stripped_forms_are_the_printed_ones() {
    for (index, sample, file) in files() {
        let found = out_of(|out| reader::strip(&file, out));
        assert!(found == form(&sample.model.stripped()), "{index}");
    }
}

fn fill(file: &[u8], model: &Model, at: At, text: &[u8]) {
    let At {
        section,
        record,
        field,
    } = at;
    let found = out_of(|out| reader::fill(file, section, record, field, text, out));
    assert!(found == form(&model.filled(at, text)), "{at:?}");
}

#[test]
fn filled_forms_are_the_printed_ones() {
    let mut filled = 0;
    for (_, sample, file) in files() {
        for at in sample.model.fillable() {
            fill(&file, &sample.model, at, b"Vorschlag; \"neu\"");
            filled += 1;
        }
    }
    assert!(filled > 500, "{filled}");
}
