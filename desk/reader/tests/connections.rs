//! "Connections": EINZELANSCHLUSS and REC_UMS, columns and ranges as 452 prints
//! them, and numbers that may be missing.

mod common;

use common::*;
use reader::{fill, list, strip, table, value, write, Answer, Owner, Value};

/// The columns that 452 lets be NULL, by their number.
const OPTIONAL: [usize; 6] = [9, 10, 11, 18, 19, 20];

const TEXTS: [usize; 5] = [3, 4, 12, 13, 14];

const TRANSFER: [&str; 9] = ["7", "1", "3", "0", "3600", "60", "600", "120", "90"];

/// Day types 3 and 4 of version 7.
fn days() -> Vec<u8> {
    day_types(&[b"rec; 7; 3; \"\"", b"rec; 7; 4; \"\"", b"end; 2"])
}

/// The verdict on a connection of these fields.
fn judged(fields: [&str; 20]) -> (u8, usize) {
    verdict(&connections(&[&rec(&fields), b"end; 1"]))
}

/// The verdict on a transfer with another field, by its number from 1.
fn judged_transfer(field: usize, value: &str) -> (u8, usize) {
    let mut fields = TRANSFER;
    fields[field - 1] = value;
    verdict(&transfers(&[&rec(&fields), b"end; 1"]))
}

fn put_out(put: impl FnOnce(&mut [u8]) -> Result<usize, Answer>) -> Result<String, Answer> {
    let mut out = vec![0; 8192];
    let length = put(&mut out)?;
    Ok(String::from_utf8_lossy(&out[..length]).into_owned())
}

fn shown(record: [&str; 20]) -> String {
    String::from_utf8(rec(&record)).unwrap()
}

/// The `com` and `rec` lines of a form's connections.
fn records_of(form: &str) -> Vec<&str> {
    let from = form.find("tbl; EINZELANSCHLUSS").unwrap();
    let lines = form[from..].split('\n').skip(3);
    lines.take_while(|line| !line.starts_with("end")).collect()
}

#[test]
fn both_are_read() {
    assert_eq!(judged(OWN), (0, 0));
    assert_eq!(judged(FOREIGN), (0, 0));
    assert_eq!(judged_transfer(1, "7"), (0, 0));
    let file = file(&[
        VERSIONS,
        &days(),
        &connections(&[&rec(&OWN), &rec(&FOREIGN), b"end; 2"]),
        &transfers(&[&rec(&TRANSFER), b"end; 1"]),
    ]);
    assert_eq!(answer(&file), (0, 0, 0));
    let tables: Vec<_> = list(&file).unwrap().iter().map(|r| r.table).collect();
    assert_eq!(tables, [485, 290, 432, 232]);
    assert_eq!(table(&file, 3).unwrap().name, "EINZELANSCHLUSS");
    assert_eq!(table(&file, 4).unwrap().name, "REC_UMS");
}

/// "columns and ranges as source document 001 sections 9.9.1 and 9.9.2 print
/// them, bracketed 0 included, >0 up to the decimal size". A value that is in
/// range for one kind of feeder may be a wrong combination for the other.
#[test]
fn ranges_of_connections() {
    for (field, low, high) in [
        (1, 1, 999_999_999),
        (2, 1, 32_764),
        (5, 0, 255),
        (6, 0, 999),
        (7, 0, 2),
        (8, 0, 999_999),
        (9, 1, 99),
        (10, 1, 999_999),
        (11, 1, 999_999),
        (15, 1, 999),
        (16, 0, 2),
        (17, 1, 999_999),
        (18, 1, 99),
        (19, 1, 999_999),
        (20, 1, 999_999),
    ] {
        let numbers = |value: i64| {
            let value = value.to_string();
            [OWN, FOREIGN].map(|record| judged(with(record, &[(field, &value)])).0)
        };
        for value in [low, high] {
            let found = numbers(value);
            assert!(found.contains(&0), "{field}: {value} gives {found:?}");
            assert!(
                found.iter().all(|n| [0, 25].contains(n)),
                "{field}: {value}"
            );
        }
        for value in [low - 1, high + 1] {
            assert_eq!(numbers(value), [13, 13], "{field}: {value}");
        }
    }
}

#[test]
fn ranges_of_transfers() {
    for (field, low, high) in [
        (1, 1, 999_999_999),
        (2, 1, 32_764),
        (3, 1, 999),
        (4, 0, 129_599),
        (5, 0, 129_599),
        (6, 0, 65_532),
        (7, 0, 65_532),
        (8, 0, 65_532),
        (9, 0, 65_532),
    ] {
        let judge = |value: i64| judged_transfer(field, &value.to_string());
        assert_eq!([low, high].map(judge), [(0, 0); 2], "{field}");
        let beyond = [low - 1, high + 1].map(judge);
        assert_eq!(beyond, [(13, 4); 2], "{field}");
    }
}

#[test]
fn no_order_among_times() {
    let turned = ["7", "1", "3", "129599", "0", "65532", "0", "0", "65532"];
    let section = transfers(&[&rec(&turned), b"end; 1"]);
    assert_eq!(verdict(&section), (0, 0));
}

/// Bracketed or not: "0, which is therefore within all three ranges".
#[test]
fn zero_where_the_print_has_it_or_not() {
    for field in [5, 6, 7, 8] {
        assert_ne!(judged(with(OWN, &[(field, "0")])).0, 13, "{field}");
        assert_ne!(judged(with(FOREIGN, &[(field, "-0")])).0, 13, "{field}");
    }
    assert_eq!(judged(with(OWN, &[(16, "0")])), (0, 0));
    for field in [15, 17] {
        assert_eq!(judged(with(OWN, &[(field, "0")])), (13, 4), "{field}");
        assert_eq!(judged(with(FOREIGN, &[(field, "-0")])), (13, 4), "{field}");
    }
}

#[test]
fn sizes_of_texts() {
    for (field, size) in [(3, 40), (4, 6), (12, 6), (13, 6), (14, 10)] {
        let judge = |length: usize| {
            let text = format!("\"{}  \"", "x".repeat(length));
            judged(with(FOREIGN, &[(field, &text)]))
        };
        assert_eq!(judge(size), (0, 0), "{field}");
        assert_eq!(judge(size + 1), (13, 4), "{field}");
    }
}

/// "an empty field is a missing number": nothing, or spaces.
#[test]
fn numbers_that_may_be_missing() {
    for field in OPTIONAL {
        for empty in ["", " ", "      "] {
            let record = rec(&with(FOREIGN, &[(field, empty)]));
            let file = file(&[VERSIONS, &connections(&[&record, b"end; 1"])]);
            assert_eq!(answer(&file), (0, 0, 0), "{field}");
            assert_eq!(value(&file, 2, 1, field), Ok(Value::Missing), "{field}");
        }
        for zero in ["0", "-0", "000"] {
            assert_eq!(judged(with(OWN, &[(field, zero)])), (13, 4), "{field}");
        }
        for odd in ["\"\"", "NULL", "-", "x"] {
            assert_eq!(judged(with(OWN, &[(field, odd)])), (12, 4), "{field}");
        }
        let there = rec(&with(OWN, &[(field, "042")]));
        let file = file(&[&connections(&[&there, b"end; 1"])]);
        assert_eq!(value(&file, 1, 1, field), Ok(Value::Number(42)), "{field}");
    }
}

#[test]
fn numbers_that_may_not_be_missing() {
    for empty in ["", "   "] {
        for field in (1..=20).filter(|field| !OPTIONAL.contains(field)) {
            let number = if TEXTS.contains(&field) { 11 } else { 12 };
            for record in [OWN, FOREIGN] {
                let found = judged(with(record, &[(field, empty)]));
                assert_eq!(found, (number, 4), "{field}");
            }
        }
        for field in 1..=9 {
            assert_eq!(judged_transfer(field, empty), (12, 4), "{field}");
        }
        let link = |field: usize| {
            let mut fields = ["7", "0", "1", "5", "2", "5", "100"];
            fields[field] = empty;
            verdict(&links(&[&rec(&fields), b"end; 1"]))
        };
        assert_eq!([0, 1, 2, 3, 4, 5, 6].map(link), [(12, 4); 7]);
    }
}

#[test]
fn values_and_owners() {
    let record = with(OWN, &[(10, "77")]);
    let lines: [&[u8]; 3] = [b"com; \"SUGGESTED 3\"", &rec(&record), b"end; 1"];
    let file = file(&[VERSIONS, &connections(&lines)]);
    assert_eq!(answer(&file), (0, 0, 0));
    let view = table(&file, 2).unwrap();
    let values: Vec<_> = view.records[0].values().collect();
    assert_eq!(values.len(), 20);
    for (field, found) in (1..=20).zip(values) {
        assert_eq!(value(&file, 2, 1, field), Ok(found.clone()));
        match found {
            Value::Number(number) => assert_eq!(number.to_string(), record[field - 1]),
            Value::Missing => assert!(OPTIONAL.contains(&field) && field != 10),
            Value::Text { owner, .. } => {
                assert!(TEXTS.contains(&field));
                assert_eq!(owner == Owner::Suggestion, field == 3);
            }
        }
    }
    assert_eq!(value(&file, 2, 1, 21), Err(Answer::placeless(24)));
}

#[test]
fn only_the_name_may_be_marked() {
    for field in 0..=21 {
        let mark = format!("com; \"SUGGESTED {field}\"");
        let lines: [&[u8]; 3] = [mark.as_bytes(), &rec(&OWN), b"end; 1"];
        let meant = if field == 3 { (0, 0) } else { (15, 4) };
        assert_eq!(verdict(&connections(&lines)), meant, "{field}");
        let lines: [&[u8]; 3] = [mark.as_bytes(), &rec(&TRANSFER), b"end; 1"];
        assert_eq!(verdict(&transfers(&lines)), (15, 4), "{field}");
    }
}

#[test]
fn names_are_taken_byte_for_byte() {
    let section = String::from_utf8(connections(&[b"end; 0"])).unwrap();
    assert_eq!(verdict(section.as_bytes()), (0, 0));
    for (name, other) in [
        ("LinienID", "LINIENID"),
        ("LinienID", "LinienId"),
        ("RichtungsID", "RICHTUNGSID"),
        ("ASBID", "AsbID"),
        ("ANSCHLUSS_NAME", "Anschluss_Name"),
    ] {
        let changed = section.replace(name, other);
        assert_eq!(verdict(changed.as_bytes()), (8, 2), "{other}");
    }
}

#[test]
fn keys() {
    let two = |second: [&str; 20]| {
        let section = connections(&[&rec(&OWN), &rec(&second), b"end; 2"]);
        answer(&file(&[VERSIONS, &section]))
    };
    assert_eq!(two(with(OWN, &[(2, "2")])), (0, 0, 0));
    assert_eq!(two(with(FOREIGN, &[(2, "01")])), (18, 2, 5));
    let versions = b"tbl; MENGE_BASIS_VERSIONEN\natr; BASIS_VERSION; BASIS_VERSION_TEXT\n\
        frm; num[9.0]; char[40]\nrec; 7; \"\"\nrec; 8; \"\"\nend; 2\n";
    let section = connections(&[&rec(&OWN), &rec(&with(OWN, &[(1, "8")])), b"end; 2"]);
    assert_eq!(answer(&file(&[versions, &section])), (0, 0, 0));

    let lines: [&[u8]; 3] = [&rec(&OWN), &rec(&with(OWN, &[(2, "2")])), b"end; 2"];
    for field in 1..=9 {
        let mut second = TRANSFER;
        second[field - 1] = ["7", "2", "4", "1", "1", "1", "1", "1", "1"][field - 1];
        let twice = transfers(&[&rec(&TRANSFER), &rec(&second), b"end; 2"]);
        let found = answer(&file(&[VERSIONS, &days(), &connections(&lines), &twice]));
        let differs = (2..=5).contains(&field);
        let meant = if differs { (0, 0, 0) } else { (18, 4, 5) };
        assert_eq!(found, meant, "{field}");
    }
}

/// "REC_UMS refers to 432, 290 and 485."
#[test]
fn references() {
    let section = connections(&[&rec(&OWN), b"end; 1"]);
    let lost = connections(&[&rec(&with(OWN, &[(1, "8")])), b"end; 1"]);
    assert_eq!(answer(&file(&[VERSIONS, &section])), (0, 0, 0));
    assert_eq!(answer(&file(&[VERSIONS, &lost])), (20, 2, 4));
    assert_eq!(answer(&file(&[&section])), (20, 1, 4));

    let with_transfer = |fields: [&str; 9], sections: &[&[u8]]| {
        let transfers = transfers(&[&rec(&fields), b"end; 1"]);
        let mut parts = vec![&transfers[..]];
        parts.extend(sections);
        answer(&file(&parts))
    };
    let days = days();
    let all = [VERSIONS, &days, &section];
    let refused = (20, 1, 4);
    assert_eq!(with_transfer(TRANSFER, &all), (0, 0, 0));
    for (field, value) in [(1, "8"), (2, "2"), (3, "1")] {
        let mut astray = TRANSFER;
        astray[field - 1] = value;
        assert_eq!(with_transfer(astray, &all), refused, "{field}");
    }
    for left_out in 0..3 {
        let mut some = all.to_vec();
        some.remove(left_out);
        assert_eq!(with_transfer(TRANSFER, &some), refused, "{left_out}");
    }
}

/// Each of the three by the whole key: a version's own connections and day
/// types, and the version itself.
#[test]
fn references_go_by_the_version() {
    let versions = |numbers: &[u32]| {
        let records: String = numbers
            .iter()
            .map(|v| format!("rec; {v}; \"\"\n"))
            .collect();
        format!(
            "tbl; MENGE_BASIS_VERSIONEN\natr; BASIS_VERSION; BASIS_VERSION_TEXT\n\
             frm; num[9.0]; char[40]\n{records}end; {}\n",
            numbers.len()
        )
        .into_bytes()
    };
    let with_versions = |connection: &str, day: &str| {
        let record = rec(&with(OWN, &[(1, connection)]));
        let day = format!("rec; {day}; 3; \"\"");
        answer(&file(&[
            &versions(&[7, 8]),
            &connections(&[&record, b"end; 1"]),
            &day_types(&[day.as_bytes(), b"end; 1"]),
            &transfers(&[&rec(&TRANSFER), b"end; 1"]),
        ]))
    };
    assert_eq!(with_versions("7", "7"), (0, 0, 0));
    assert_eq!(with_versions("8", "7"), (20, 4, 4));
    assert_eq!(with_versions("7", "8"), (20, 4, 4));
}

/// The types of its points refer to nothing.
#[test]
fn point_types_of_connections_are_no_references() {
    let record = rec(&with(OWN, &[(9, "99"), (18, "98")]));
    let section = connections(&[&record, b"end; 1"]);
    assert_eq!(answer(&file(&[VERSIONS, &section])), (0, 0, 0));
}

#[test]
fn a_missing_number_is_written_as_an_empty_field() {
    let loose = b"rec;7;01;\"Markt  \";\"\";0;012;1;500;;   ; ;\"\";\" \";\"\";4;2;600; ;;";
    let last = b"rec;7;2;\"\";\"\";0;1;0;1;1;2;3;\"\";\"\";\"\";4;2;600;;5;0006";
    let file = file(&[VERSIONS, &connections(&[loose, last, b"end; 2"])]);
    assert_eq!(answer(&file), (0, 0, 0));
    let form = put_out(|out| write(&file, out)).unwrap();
    let own = shown(OWN);
    assert!(own.ends_with("; 4; 2; 600; ; ; "));
    let full = "rec; 7; 2; \"\"; \"\"; 0; 1; 0; 1; 1; 2; 3; \"\"; \"\"; \"\"; 4; 2; 600; ; 5; 6";
    assert_eq!(records_of(&form), [own.as_str(), full]);
    assert_eq!(answer(form.as_bytes()), (0, 0, 0));
    assert_eq!(value(form.as_bytes(), 2, 1, 20), Ok(Value::Missing));
    assert_eq!(put_out(|out| write(form.as_bytes(), out)), Ok(form.clone()));
    assert_eq!(put_out(|out| strip(&file, out)), Ok(form));
}

#[test]
fn the_name_is_filled_and_stripped() {
    let lines: [&[u8]; 4] = [
        b"com; \"SUGGESTED 3\"",
        &rec(&OWN),
        &rec(&FOREIGN),
        b"end; 2",
    ];
    let file = file(&[VERSIONS, &connections(&lines)]);
    let filled = |record, field| put_out(|out| fill(&file, 2, record, field, b"neu  ", out));
    let form = filled(2, 3).unwrap();
    let mark = "com; \"SUGGESTED 3\"";
    let neu = shown(with(FOREIGN, &[(3, "\"neu\"")]));
    assert_eq!(records_of(&form), [mark, &shown(OWN), mark, &neu]);
    let refused = |number| Err(Answer::placeless(number));
    assert_eq!(filled(1, 3), refused(22));
    assert_eq!(filled(2, 21), refused(24));
    for field in (1..=20).filter(|field| *field != 3) {
        assert_eq!(filled(1, field), refused(23), "{field}");
    }
    let stripped = put_out(|out| strip(&file, out)).unwrap();
    let unnamed = shown(with(OWN, &[(3, "\"\"")]));
    assert_eq!(records_of(&stripped), [&unnamed, &shown(FOREIGN)]);
    assert_eq!(put_out(|out| strip(form.as_bytes(), out)), Ok(stripped));
}

/// Twenty columns the other way round: the name stands at place 18.
fn reversed(lines: &[&[u8]]) -> Vec<u8> {
    let turned = |mut all: [&'static str; 20]| {
        all.reverse();
        all.join("; ")
    };
    let head = format!(
        "tbl; EINZELANSCHLUSS\natr; {}\nfrm; {}\n",
        turned(CONNECTION_COLUMNS),
        turned(CONNECTION_FORMATS)
    );
    [head.as_bytes(), &lines.join(&b'\n'), b"\n"].concat()
}

fn turned(mut record: [&str; 20]) -> Vec<u8> {
    record.reverse();
    rec(&record)
}

#[test]
fn twenty_columns_in_the_sender_s_order() {
    let mark = |place: usize| format!("com; \"SUGGESTED {place}\"").into_bytes();
    let marked = |place: usize| verdict(&reversed(&[&mark(place), &turned(OWN), b"end; 1"]));
    for place in 0..=21 {
        let meant = if place == 18 { (0, 0) } else { (15, 4) };
        assert_eq!(marked(place), meant, "{place}");
    }
    let empty = turned(with(OWN, &[(3, "\"\"")]));
    assert_eq!(verdict(&reversed(&[&mark(18), &empty, b"end; 1"])), (15, 5));

    let lines: [&[u8]; 4] = [&turned(FOREIGN), &mark(18), &turned(OWN), b"end; 2"];
    let file = file(&[VERSIONS, &reversed(&lines)]);
    assert_eq!(answer(&file), (0, 0, 0));
    assert_eq!(value(&file, 2, 1, 20), Ok(Value::Missing));
    assert_eq!(value(&file, 2, 1, 5), Ok(Value::Number(31)));
    let form = put_out(|out| write(&file, out)).unwrap();
    let lines = [shown(FOREIGN), "com; \"SUGGESTED 3\"".into(), shown(OWN)];
    assert_eq!(records_of(&form), lines);
}

/// "Fields are still checked from the left as written."
#[test]
fn arranged_fields_are_judged_as_they_stand() {
    let judged = |record| verdict(&reversed(&[&turned(record), b"end; 1"]));
    for (field, value, number) in [(20, "0", 13), (17, "", 12), (14, "", 11), (1, "", 12)] {
        let record = with(OWN, &[(field, value)]);
        assert_eq!(judged(record), (number, 4), "{field}");
    }
    assert_eq!(judged(with(OWN, &[(17, ""), (20, "0")])), (13, 4));
    assert_eq!(judged(with(OWN, &[(17, "0"), (14, "")])), (13, 4));
    assert_eq!(judged(with(OWN, &[(1, "0"), (14, "")])), (11, 4));
}

#[test]
fn arranged_keys_and_references_go_by_column() {
    let turned_transfers = |lines: &[&[u8]]| {
        let head = b"tbl; REC_UMS\natr; TAGESART_NR; MAX_VERZ_AUTO; EINAN_NR; UMS_ENDE; \
            UMS_BEGINN; MAX_VERZ_MAN; UMS_MAX; UMS_MIN; BASIS_VERSION\n\
            frm; num[3.0]; num[5.0]; num[5.0]; num[6.0]; num[6.0]; num[5.0]; num[5.0]; num[5.0]; num[9.0]\n";
        [&head[..], &lines.join(&b'\n'), b"\n"].concat()
    };
    let judged = |lines: &[&[u8]]| {
        let section = reversed(&[&turned(OWN), b"end; 1"]);
        answer(&file(&[
            VERSIONS,
            &days(),
            &section,
            &turned_transfers(lines),
        ]))
    };
    let first = b"rec; 3; 90; 1; 3600; 0; 120; 600; 60; 7";
    assert_eq!(judged(&[first, b"end; 1"]), (0, 0, 0));
    let again = b"rec; 3; 1; 1; 3600; 0; 2; 3; 4; 7";
    assert_eq!(judged(&[first, again, b"end; 2"]), (18, 4, 5));
    let other = b"rec; 3; 90; 1; 0; 3600; 120; 600; 60; 7";
    assert_eq!(judged(&[first, other, b"end; 2"]), (0, 0, 0));
    let lost = b"rec; 3; 90; 7; 3600; 0; 120; 600; 60; 1";
    assert_eq!(judged(&[lost, b"end; 1"]), (20, 4, 4));
}
