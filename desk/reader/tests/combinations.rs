//! "Refusals: 25, wrong combination, after 14 and before 15."

mod common;

use common::*;
use reader::{check, fill, list, strip, table, value, write, Answer};

/// The verdict on a connection of these fields.
fn judged(fields: [&str; 20]) -> (u8, usize) {
    verdict(&connections(&[&rec(&fields), b"end; 1"]))
}

#[test]
fn one_s_own_feeder_has_no_text() {
    for field in [12, 13, 14] {
        assert_eq!(judged(with(OWN, &[(field, "\"x\"")])), (25, 4), "{field}");
        assert_eq!(judged(with(OWN, &[(field, "\"  \"")])), (0, 0), "{field}");
        assert_eq!(judged(with(OWN, &[(field, "\" x\"")])), (25, 4), "{field}");
    }
}

#[test]
fn one_s_own_feeder_has_a_line_and_a_stop() {
    for field in [6, 8] {
        assert_eq!(judged(with(OWN, &[(field, "0")])), (25, 4), "{field}");
        assert_eq!(judged(with(OWN, &[(field, "1")])), (0, 0), "{field}");
        assert_eq!(judged(with(OWN, &[(field, "999")])), (0, 0), "{field}");
    }
    for direction in ["0", "1", "2"] {
        assert_eq!(judged(with(OWN, &[(7, direction)])), (0, 0));
    }
}

#[test]
fn another_centre_s_feeder_has_every_text() {
    for field in [12, 13, 14] {
        for empty in ["\"\"", "\"   \""] {
            assert_eq!(judged(with(FOREIGN, &[(field, empty)])), (25, 4), "{field}");
        }
    }
}

#[test]
fn another_centre_s_feeder_has_no_number() {
    for field in [6, 7, 8] {
        for value in ["1", "2"] {
            assert_eq!(judged(with(FOREIGN, &[(field, value)])), (25, 4), "{field}");
        }
        assert_eq!(judged(with(FOREIGN, &[(field, "-0")])), (0, 0), "{field}");
    }
}

#[test]
fn the_centre_decides() {
    for centre in ["1", "31", "255"] {
        assert_eq!(judged(with(OWN, &[(5, centre)])), (25, 4), "{centre}");
        assert_eq!(judged(with(FOREIGN, &[(5, centre)])), (0, 0), "{centre}");
    }
    for centre in ["0", "-0", "000"] {
        assert_eq!(judged(with(OWN, &[(5, centre)])), (0, 0), "{centre}");
        assert_eq!(judged(with(FOREIGN, &[(5, centre)])), (25, 4), "{centre}");
    }
}

/// Every text empty or filled, and every number 0 or above, at both borders.
#[test]
fn every_combination() {
    let texts = ["\"\"", "\"  \"", "\"x\""];
    let is_filled = |text: &&str| text.contains('x');
    let mut sound = 0;
    for centre in ["0", "1", "255"] {
        for at in 0..3usize.pow(6) {
            let digit = |place: u32| at / 3usize.pow(place) % 3;
            let named = [0, 1, 2].map(|place| texts[digit(place)]);
            let line = ["0", "1", "999"][digit(3)];
            let direction = ["0", "1", "2"][digit(4)];
            let stop = ["0", "1", "999999"][digit(5)];
            let fits = if centre == "0" {
                !named.iter().any(is_filled) && line != "0" && stop != "0"
            } else {
                named.iter().all(is_filled) && [line, direction, stop] == ["0"; 3]
            };
            let changes = [
                (5, centre),
                (6, line),
                (7, direction),
                (8, stop),
                (12, named[0]),
                (13, named[1]),
                (14, named[2]),
            ];
            let meant = if fits { (0, 0) } else { (25, 4) };
            assert_eq!(judged(with(OWN, &changes)), meant, "{changes:?}");
            sound += usize::from(fits);
        }
    }
    assert_eq!(sound, 8 * 4 * 3 + 2);
}

/// What may be missing, and what the other line does, decides nothing.
#[test]
fn nothing_else_decides() {
    for field in [9, 10, 11, 18, 19, 20] {
        for record in [OWN, FOREIGN] {
            assert_eq!(judged(with(record, &[(field, "7")])), (0, 0), "{field}");
        }
    }
    for record in [OWN, FOREIGN] {
        assert_eq!(judged(with(record, &[(4, "\"\"")])), (0, 0));
        assert_eq!(judged(with(record, &[(16, "0")])), (0, 0));
    }
}

/// A record that breaks 25, and a field behind it.
#[test]
fn after_all_fields() {
    let broken = with(OWN, &[(6, "0"), (12, "\"x\"")]);
    assert_eq!(judged(broken), (25, 4));
    for (field, value, number) in [
        (1, "x", 12),
        (4, "", 11),
        (14, "\"12345678901\"", 13),
        (15, "0", 13),
        (17, "", 12),
        (18, "0", 13),
        (20, "1000000", 13),
    ] {
        let found = judged(with(broken, &[(field, value)]));
        assert_eq!(found, (number, 4), "{field}");
    }
    let long = [&rec(&broken)[..], b"; 1"].concat();
    assert_eq!(verdict(&connections(&[&long, b"end; 1"])), (10, 4));
    let foreign_byte = with(broken, &[(3, "\"\u{7f}\"")]);
    assert_eq!(judged(foreign_byte), (4, 4));
}

#[test]
fn before_a_mark_on_an_empty_text() {
    let marked = |record: [&str; 20]| {
        let lines: [&[u8]; 3] = [b"com; \"SUGGESTED 3\"", &rec(&record), b"end; 1"];
        verdict(&connections(&lines))
    };
    let unnamed = with(OWN, &[(3, "\"\"")]);
    assert_eq!(marked(unnamed), (15, 5));
    assert_eq!(marked(with(unnamed, &[(8, "0")])), (25, 5));
    assert_eq!(marked(with(FOREIGN, &[(8, "1")])), (25, 5));
    let misplaced: [&[u8]; 3] = [
        b"com; \"SUGGESTED 4\"",
        &rec(&with(OWN, &[(8, "0")])),
        b"end; 1",
    ];
    assert_eq!(verdict(&connections(&misplaced)), (15, 4));
}

#[test]
fn before_the_end_s_count() {
    let broken = rec(&with(OWN, &[(8, "0")]));
    let lines: [&[u8]; 4] = [&rec(&FOREIGN), b"com; x", &broken, b"end; 9"];
    assert_eq!(verdict(&connections(&lines)), (25, 6));
}

/// By column, wherever it stands.
#[test]
fn in_the_sender_s_order() {
    let turned = |record: [&str; 20]| {
        let order: [usize; 20] = std::array::from_fn(|place| (place * 7 + 3) % 20);
        let arranged = |all: [&str; 20]| order.map(|column| all[column]).join("; ");
        let section = format!(
            "tbl; EINZELANSCHLUSS\natr; {}\nfrm; {}\nrec; {}\nend; 1\n",
            arranged(CONNECTION_COLUMNS),
            arranged(CONNECTION_FORMATS),
            arranged(record)
        );
        verdict(section.as_bytes())
    };
    for record in [OWN, FOREIGN] {
        assert_eq!(turned(record), (0, 0));
        let centre = if record == OWN { "9" } else { "0" };
        assert_eq!(turned(with(record, &[(5, centre)])), (25, 4));
    }
    for (record, field, value) in [
        (OWN, 6, "0"),
        (OWN, 8, "0"),
        (OWN, 12, "\"x\""),
        (OWN, 13, "\"x\""),
        (OWN, 14, "\"x\""),
        (FOREIGN, 6, "1"),
        (FOREIGN, 7, "1"),
        (FOREIGN, 8, "1"),
        (FOREIGN, 12, "\"\""),
        (FOREIGN, 13, "\"\""),
        (FOREIGN, 14, "\"\""),
    ] {
        let broken = with(record, &[(field, value)]);
        assert_eq!(turned(broken), (25, 4), "{field}");
        assert_eq!(turned(with(broken, &[(15, "0")])), (13, 4), "{field}");
    }
}

/// Like 14 it is a section's number, and so the file's.
#[test]
fn a_section_s_verdict_and_the_file_s() {
    let broken = connections(&[&rec(&OWN), &rec(&with(FOREIGN, &[(7, "1")])), b"end; 2"]);
    let file = file(&[VERSIONS, &broken, POINT_TYPES]);
    let refusal = Answer::new(25, 2, 5);
    assert_eq!(check(&file), refusal);
    let row = list(&file).unwrap()[1];
    assert_eq!((row.table, row.records), (432, 0));
    assert_eq!((row.verdict, row.line), (25, 5));
    assert_eq!(value(&file, 2, 1, 1), Err(refusal));
    assert!(table(&file, 2).is_err_and(|answer| answer == refusal));
    let mut out = [0; 16];
    assert_eq!(write(&file, &mut out), Err(refusal));
    assert_eq!(strip(&file, &mut out), Err(refusal));
    assert_eq!(fill(&file, 2, 1, 3, b"x", &mut out), Err(refusal));
    assert_eq!(value(&file, 3, 1, 1), Ok(reader::Value::Number(7)));
}

/// 17 to 20 are judged only once every section is sound.
#[test]
fn before_what_only_the_whole_file_breaks() {
    let lost = with(OWN, &[(1, "8"), (6, "0")]);
    let twice = connections(&[&rec(&OWN), &rec(&OWN), &rec(&lost), b"end; 3"]);
    assert_eq!(answer(&file(&[VERSIONS, &twice, VERSIONS])), (25, 2, 6));
}
