//! The file's answer, its trailer, its keys and references, its rows.

mod common;

use common::*;
use reader::{check, list, list_into, number, sections, table, trailer, value};
use reader::{Answer, Listed, Row, Value, Verdict, LIMIT};

fn ended(trailer: &str) -> Vec<u8> {
    [HEADER, VERSIONS, trailer.as_bytes()].concat()
}

#[test]
fn trailers() {
    for sound in ["eof; 1", "eof; 0001\n", " eof ;1\n\n  \n", "eof;1\r\n\r\n"] {
        assert_eq!(answer(&ended(sound)), (0, 0, 0), "{sound:?}");
    }
    for (broken, line) in [
        ("", 0),
        ("eof; 2\n", 1),
        ("eof; -1\n", 1),
        ("eof;\n", 1),
        ("eof; 1;\n", 1),
        ("eof; x\n", 1),
        ("eof; \"1\"\n", 1),
        ("eof; 0000000000000000001\n", 1),
        ("eof; 1\r", 1),
        ("eof; 1\r\r\n", 1),
        ("eof; 1\t\n", 1),
        ("eof; 1\n\ncom; x\n", 3),
        ("eof; 1\neof; 1\n", 2),
        ("eof; 1\n\nx", 3),
        ("eof; 1\n\r", 2),
    ] {
        assert_eq!(answer(&ended(broken)), (3, 0, line), "{broken:?}");
        assert_eq!(trailer(&ended(broken)), Verdict::new(3, line));
    }
}

#[test]
fn no_table_at_all() {
    assert_eq!(answer(&[HEADER, b"eof; 0"].concat()), (0, 0, 0));
    assert_eq!(answer(&[HEADER, b"eof; -0\n"].concat()), (0, 0, 0));
}

#[test]
fn a_bare_eof_ends_nothing() {
    let file = ended("eof\n");
    assert_eq!(answer(&file), (3, 0, 0));
    assert_eq!(list(&file).unwrap()[0].verdict, number::COMMAND);
}

#[test]
fn tables_after_the_trailer_are_sections() {
    let file = [HEADER, VERSIONS, b"eof; 2\n\n", POINT_TYPES, b"eof; 2\n"].concat();
    assert_eq!(answer(&file), (3, 0, 3));
    let rows = list(&file).unwrap();
    assert_eq!(rows.len(), 2);
    assert_eq!(
        (rows[1].table, rows[1].verdict, rows[1].records),
        (998, 0, 2)
    );
    assert_eq!(rows[0].length, VERSIONS.len());
    assert_eq!(rows[1].length, POINT_TYPES.len());
    assert_eq!(rows[1].place, HEADER.len() + VERSIONS.len() + 8);
    assert!(value(&file, 2, 2, 4).is_ok());
}

#[test]
fn lines_after_the_trailer_belong_to_no_section() {
    let file = [HEADER, VERSIONS, b"eof; 2\nrec; x\n", POINT_TYPES].concat();
    assert_eq!(answer(&file), (3, 0, 2));
    assert!(list(&file).unwrap().iter().all(|row| row.verdict == 0));
}

#[test]
fn the_trailer_hides_the_sections_faults() {
    let file = [HEADER, VERSIONS, b"tbl; X\n", b"eof; 1\n"].concat();
    assert_eq!(answer(&file), (3, 0, 1));
    assert_eq!(list(&file).unwrap()[1].verdict, 7);
}

#[test]
fn the_first_unsound_section_in_file_order() {
    let late = day_types(&[b"rec; 7; 1; x", b"end; 1"]);
    let early = day_types(&[b"rec; 7; 1; \"x\"", b"rec", b"end; 1"]);
    assert_eq!(answer(&file(&[VERSIONS, &late, &early])), (11, 2, 4));
    assert_eq!(answer(&file(&[&early, VERSIONS, &late])), (5, 1, 5));
}

#[test]
fn a_table_a_second_time() {
    let twice = file(&[VERSIONS, POINT_TYPES, VERSIONS]);
    assert_eq!(answer(&twice), (17, 3, 1));
    let lost = day_types(&[b"rec; 8; 1; \"\"", b"rec; 8; 1; \"\"", b"end; 2"]);
    assert_eq!(answer(&file(&[&lost, VERSIONS, VERSIONS])), (17, 3, 1));
}

#[test]
fn keys_compare_by_value() {
    let types = day_types(&[b"rec; 7; 1; \"\"", b"rec; 007; 01; \"x\"", b"end; 2"]);
    assert_eq!(answer(&file(&[VERSIONS, &types])), (18, 2, 5));
    let others = day_types(&[b"rec; 7; 1; \"\"", b"rec; 7; 2; \"\"", b"end; 2"]);
    assert_eq!(answer(&file(&[VERSIONS, &others])), (0, 0, 0));
}

#[test]
fn second_keys_compare_by_bytes_with_quotes_undone() {
    let types = point_types(&[
        b"rec; 7; 1; \"a\"\"\"; \"\"",
        b"rec; 7; 2; \"b\"; \"\"",
        b"rec; 7; 3;  \"a\"\"\"; \"\"",
        b"end; 3",
    ]);
    assert_eq!(answer(&file(&[VERSIONS, &types])), (19, 2, 6));
    let empty = point_types(&[
        b"rec; 7; 1; \"\"; \"\"",
        b"rec; 7; 2; \"\"; \"\"",
        b"end; 2",
    ]);
    assert_eq!(answer(&file(&[VERSIONS, &empty])), (19, 2, 5));
}

#[test]
fn the_smallest_number_anywhere_comes_first() {
    let second_key = point_types(&[
        b"rec; 7; 1; \"a\"; \"\"",
        b"rec; 7; 2; \"a\"; \"\"",
        b"end; 2",
    ]);
    let primary_key = day_types(&[b"rec; 7; 1; \"\"", b"rec; 7; 1; \"\"", b"end; 2"]);
    let lost = calendar(&[b"rec; 7; 20240101; \"\"; 99", b"end; 1"]);
    let all = file(&[&lost, &second_key, &primary_key, VERSIONS]);
    assert_eq!(answer(&all), (18, 3, 5));
    assert_eq!(answer(&file(&[&lost, &second_key, VERSIONS])), (19, 2, 5));
    assert_eq!(answer(&file(&[&lost, VERSIONS])), (20, 1, 4));
}

#[test]
fn references_look_anywhere_in_the_file() {
    let days = day_types(&[b"rec; 7; 1; \"\"", b"end; 1"]);
    let calendar = calendar(&[b"rec; 7; 20240101; \"\"; 1", b"end; 1"]);
    assert_eq!(answer(&file(&[&calendar, &days, VERSIONS])), (0, 0, 0));
    assert_eq!(answer(&file(&[&calendar, &days])), (20, 1, 4));
    assert_eq!(answer(&file(&[&calendar, VERSIONS])), (20, 1, 4));
}

#[test]
fn links_and_running_times() {
    let link = links(&[b"rec; 7; 3; 1; 5; 2; 9; 800", b"end; 1"]);
    let time = |record: &[u8]| times(&[record, b"end; 1"]);
    let with = |record: &[u8]| answer(&file(&[VERSIONS, POINT_TYPES, &link, &time(record)]));
    assert_eq!(with(b"rec; 7; 3; 11; 1; 5; 2; 9; 90"), (0, 0, 0));
    assert_eq!(with(b"rec; 7; 4; 11; 1; 5; 2; 9; 90"), (20, 4, 4));
    assert_eq!(with(b"rec; 7; 3; 11; 2; 9; 1; 5; 90"), (20, 4, 4));
    let one_type = point_types(&[b"rec; 7; 1; \"HP\"; \"\"", b"end; 1"]);
    assert_eq!(answer(&file(&[VERSIONS, &one_type, &link])), (20, 3, 4));
}

#[test]
fn validity_refers_by_its_second_column() {
    let versions = b"tbl; MENGE_BASIS_VERSIONEN\natr; BASIS_VERSION; BASIS_VERSION_TEXT\n\
        frm; num[9.0]; char[40]\nrec; 20240101; \"\"\nend; 1\n";
    let with = |record: &[u8]| answer(&file(&[versions, &validity(&[record, b"end; 1"])]));
    assert_eq!(with(b"rec; 20240102; 20240101"), (0, 0, 0));
    assert_eq!(with(b"rec; 20240101; 20240102"), (20, 2, 4));
}

#[test]
fn a_file_over_the_limit() {
    let mut long = file(&[VERSIONS]);
    long.resize(LIMIT, b'\n');
    assert_eq!(check(&long), Answer::SOUND);
    long.push(b'\n');
    assert_eq!(check(&long), Answer::placeless(1));
    assert_eq!(list(&long), Err(Answer::placeless(1)));
    assert_eq!(value(&long, 9, 1, 1), Err(Answer::placeless(1)));
}

const MINE: Row = Row {
    table: 1,
    place: 2,
    length: 3,
    records: 4,
    verdict: 5,
    line: 6,
};

#[test]
fn lent_rows() {
    let file = file(&[VERSIONS, POINT_TYPES]);
    let mut rows = [MINE; 3];
    let listed = list_into(&file, &mut rows).unwrap();
    let expected = Listed {
        sections: 2,
        answer: Answer::SOUND,
    };
    assert_eq!(listed, expected);
    assert_eq!(rows[..2], list(&file).unwrap());
    assert_eq!(rows[2], MINE);
    assert_eq!(rows[0].place, HEADER.len());
    assert_eq!(rows[0].length, VERSIONS.len());
    assert_eq!(sections(&file), 2);
}

#[test]
fn too_few_rows_come_before_the_trailer() {
    let file = [HEADER, VERSIONS, POINT_TYPES].concat();
    let mut rows = [MINE; 1];
    assert_eq!(list_into(&file, &mut rows), Err(Answer::placeless(21)));
    assert_eq!(rows, [MINE]);
    assert_eq!(list_into(&file, &mut []), Err(Answer::placeless(21)));
    assert_eq!(list_into(b"", &mut []), Err(Answer::new(2, 0, 0)));
}

#[test]
fn other_verdicts_go_into_the_rows() {
    let mut rows = [MINE; 2];
    let listed = list_into(DAMAGED, &mut rows).unwrap();
    assert_eq!(listed.answer, Answer::new(11, 1, 4));
    assert_eq!((rows[0].table, rows[0].verdict, rows[0].line), (290, 11, 4));
    assert_eq!((rows[1].table, rows[1].records), (485, 1));
}

#[test]
fn the_table_number_is_0_if_its_line_fails() {
    for line in ["tbl; X\n", "tbl; REC_UEB; X\n", "tbl; REC_UEB\t\n"] {
        assert_eq!(list(&file(&[line.as_bytes()])).unwrap()[0].table, 0);
    }
    let later = list(&file(&[b"tbl; REC_UEB\nx\n"])).unwrap();
    assert_eq!((later[0].table, later[0].verdict), (225, 5));
}

#[test]
fn reading_one_value() {
    let sound = file(&[VERSIONS, POINT_TYPES]);
    assert_eq!(value(&sound, 1, 1, 1), Ok(Value::Number(7)));
    for (section, record, field) in [
        (0, 1, 1),
        (3, 1, 1),
        (1, 0, 1),
        (1, 2, 1),
        (1, 1, 0),
        (1, 1, 3),
    ] {
        let missing = value(&sound, section, record, field);
        assert_eq!(missing, Err(Answer::placeless(24)));
    }
    assert_eq!(value(DAMAGED, 1, 99, 1), Err(Answer::new(11, 1, 4)));
    assert_eq!(value(DAMAGED, 3, 1, 1), Err(Answer::placeless(24)));
    assert_eq!(value(b"x", 1, 1, 1), Err(Answer::new(2, 0, 1)));
}

#[test]
fn reading_looks_at_neither_trailer_nor_keys() {
    let file = [HEADER, VERSIONS, VERSIONS].concat();
    assert_eq!(value(&file, 2, 1, 1), Ok(Value::Number(7)));
}

#[test]
fn all_records_of_a_table() {
    let sound = file(&[VERSIONS, POINT_TYPES]);
    let types = table(&sound, 2).unwrap();
    assert_eq!((types.number, types.name), (998, "MENGE_ONR_TYP"));
    assert_eq!(types.records.len(), 2);
    assert_eq!(types.records[1].value(2), Some(Value::Number(2)));
    assert_eq!(types.records[1].values().count(), 4);
    assert_eq!(types.records[1].line, 5);
    assert!(table(DAMAGED, 1).is_err());
}
