//! Each example file's answer.

mod common;

use common::{answer, DAMAGED};
use reader::{list, listing, table, write, Owner, Value};

fn example(name: &str) -> Vec<u8> {
    let path = format!("{}/../../examples/{name}", env!("CARGO_MANIFEST_DIR"));
    std::fs::read(&path).unwrap_or_else(|e| panic!("{path}: {e}"))
}

#[test]
fn damaged_is_the_listing_example() {
    let file = example("damaged.x10");
    assert_eq!(file, DAMAGED);
    assert_eq!(answer(&file), (11, 1, 4));
    let expected = b"header;0;0\ntable;1;290;11;0;4\ntable;2;485;0;1;0\ntrailer;0\nfile;11;1;4\n";
    assert_eq!(listing(&file), expected);
}

#[test]
fn the_depot_s_week_is_sound() {
    let file = example("depot-week.x10");
    assert_eq!(answer(&file), (0, 0, 0));
    let rows = list(&file).unwrap();
    let tables: Vec<u16> = rows.iter().map(|row| row.table).collect();
    assert_eq!(tables, [485, 993, 348, 290, 998, 332, 225, 247]);
    assert!(rows[2].records >= 14);
    let text = table(&file, 4).unwrap().records[4].value(3).unwrap();
    let Value::Text { bytes, owner, .. } = text else {
        panic!("not a text");
    };
    assert_eq!(&*bytes, b"Ferientag (Sch\xfcler frei)");
    assert_eq!(owner, Owner::Operator);
}

#[test]
fn the_five_of_451_are_sound_with_their_version() {
    for number in 1..=5 {
        let file = example(&format!("451-{number}.x10"));
        assert_eq!(answer(&file), (0, 0, 0), "{number}");
        let rows = list(&file).unwrap();
        assert_eq!((rows[0].table, rows[0].records), (998, 4));
        assert_eq!((rows[1].table, rows[1].records), (485, 1));
    }
}

#[test]
fn the_five_of_451_as_printed_lack_their_version() {
    for number in 1..=5 {
        let file = example(&format!("451-{number}.x10"));
        let rows = list(&file).unwrap();
        let printed = [&file[..rows[1].place], b"eof; 1\n"].concat();
        assert_eq!(answer(&printed), (20, 1, 4), "{number}");
    }
}

#[test]
fn suggestions_are_told_from_the_operator_s_texts() {
    let file = example("suggestions.x10");
    assert_eq!(answer(&file), (0, 0, 0));
    let owners: Vec<Owner> = table(&file, 2)
        .unwrap()
        .records
        .iter()
        .filter_map(|record| match record.value(3)? {
            Value::Text { owner, .. } => Some(owner),
            Value::Number(_) | Value::Missing => None,
        })
        .collect();
    use Owner::{Operator, Suggestion};
    assert_eq!(owners, [Operator, Suggestion, Operator, Suggestion]);
}

#[test]
fn connections_have_missing_numbers_and_a_suggestion() {
    let file = example("connections.x10");
    assert_eq!(answer(&file), (0, 0, 0));
    let rows = list(&file).unwrap();
    let tables: Vec<(u16, usize)> = rows.iter().map(|row| (row.table, row.records)).collect();
    assert_eq!(tables, [(485, 1), (290, 3), (432, 5), (232, 6)]);
    let connections = table(&file, 3).unwrap();
    let Value::Text { bytes, owner, .. } = connections.records[1].value(3).unwrap() else {
        panic!("not a text");
    };
    assert_eq!(
        (&*bytes, owner),
        (&b"S\xfcdring, 7 an Nachtbus"[..], Owner::Suggestion)
    );
    for field in [9, 10, 11, 18, 19, 20] {
        let value = connections.records[1].value(field).unwrap();
        assert!(matches!(value, Value::Missing), "{field}");
    }
}

/// "A sender delivered 20230231 as an operating day."
#[test]
fn a_calendar_with_a_day_that_is_none() {
    let file = example("no-such-day.x10");
    assert_eq!(answer(&file), (26, 4, 6));
    let verdicts: Vec<_> = list(&file).unwrap().iter().map(|row| row.verdict).collect();
    assert_eq!(verdicts, [0, 0, 0, 26]);
    let text = String::from_utf8(file).unwrap();
    let real = text.replace("20230231", "20230226");
    assert_eq!(answer(real.as_bytes()), (0, 0, 0));
}

#[test]
fn sound_examples_are_written_and_stay_so() {
    for name in [
        "depot-week",
        "suggestions",
        "arranged",
        "padded",
        "connections",
        "451-1",
        "451-2",
        "451-3",
        "451-4",
        "451-5",
    ] {
        let file = example(&format!("{name}.x10"));
        let mut out = vec![0; 65_536];
        let length = write(&file, &mut out).unwrap();
        out.truncate(length);
        assert_eq!(answer(&out), (0, 0, 0), "{name}");
        let mut again = vec![0; length];
        assert_eq!(write(&out, &mut again), Ok(length));
        assert_eq!(again, out, "{name}");
    }
}
