//! Marks and whose a text is.

mod common;

use common::*;
use reader::{value, Owner, Value};

const MARK: &str = "com; \"SUGGESTED 3\"";
const REC: &str = "rec; 7; 1; \"x\"";

fn days(lines: &[&str]) -> (u8, usize) {
    let lines: Vec<&[u8]> = lines.iter().map(|l| l.as_bytes()).collect();
    verdict(&day_types(&lines))
}

fn owner(lines: &[&str]) -> Owner {
    let lines: Vec<&[u8]> = lines.iter().map(|l| l.as_bytes()).collect();
    let file = file(&[&day_types(&lines)]);
    match value(&file, 1, 1, 3) {
        Ok(Value::Text { owner, .. }) => owner,
        other => panic!("{other:?}"),
    }
}

#[test]
fn whose_a_text_is() {
    assert_eq!(owner(&[REC, "end; 1"]), Owner::Operator);
    assert_eq!(owner(&[MARK, REC, "end; 1"]), Owner::Suggestion);
    assert_eq!(
        owner(&[MARK, "", "com; x", REC, "end; 1"]),
        Owner::Suggestion
    );
    assert_eq!(
        owner(&["  com  ;\"SUGGESTED 3\"  ", REC, "end; 1"]),
        Owner::Suggestion
    );
}

#[test]
fn damaged_marks_are_ordinary_comments() {
    for comment in [
        "com; \"SUGGESTED 3",
        "com; SUGGESTED 3",
        "com; \"SUGGESTED 3\" ;",
        "com; \"SUGGESTED 3\"; \"y\"",
        "com; \"SUGGESTED\"",
        "com; \"suggested 3\"",
        "com; \"SUGGESTED3\"",
        "com; \" SUGGESTED 3\"",
    ] {
        assert_eq!(
            owner(&[comment, REC, "end; 1"]),
            Owner::Operator,
            "{comment}"
        );
    }
}

#[test]
fn unreadable_or_not_allowed() {
    for number in [
        "",
        "0",
        "03",
        "3 ",
        " 3",
        "x",
        "-3",
        "+3",
        "3.0",
        "1",
        "2",
        "4",
        "9",
        "19",
        "259",
        "4294967299",
        "18446744073709551619",
        "3;",
        "\"\"3",
    ] {
        let mark = format!("com; \"SUGGESTED {number}\"");
        assert_eq!(days(&[&mark, REC, "end; 1"]), (15, 4), "{mark}");
    }
}

#[test]
fn misplaced() {
    let early = "tbl; MENGE_TAGESART\ncom; \"SUGGESTED 3\"\n\
        atr; BASIS_VERSION; TAGESART_NR; TAGESART_TEXT\n";
    assert_eq!(verdict(early.as_bytes()), (15, 2));
    let between = "tbl; MENGE_TAGESART\natr; BASIS_VERSION; TAGESART_NR; TAGESART_TEXT\n\
        com; \"SUGGESTED 3\"\nfrm; num[9.0]; num[3.0]; char[40]\nend; 0\n";
    assert_eq!(verdict(between.as_bytes()), (15, 3));
    assert_eq!(days(&["end; 0", MARK]), (15, 5));
}

#[test]
fn with_no_record() {
    assert_eq!(days(&[REC, MARK, "end; 1"]), (15, 6));
    assert_eq!(days(&[MARK, "end; 0; 0"]), (15, 5));
    assert_eq!(days(&[MARK, "end; x"]), (15, 5));
    assert_eq!(days(&[MARK]), (6, 4));
}

#[test]
fn the_same_mark_twice() {
    assert_eq!(days(&[MARK, MARK, REC, "end; 1"]), (15, 5));
    assert_eq!(days(&[MARK, "com; x", MARK, REC, "end; 1"]), (15, 6));
    assert_eq!(
        days(&[MARK, REC, MARK, "rec; 7; 2; \"y\"", "end; 2"]),
        (0, 0)
    );
}

#[test]
fn on_an_empty_text_after_all_else() {
    assert_eq!(days(&[MARK, "rec; 7; 1; \"\"", "end; 1"]), (15, 5));
    assert_eq!(days(&[MARK, "rec; 7; 0; \"\"", "end; 1"]), (13, 5));
    assert_eq!(days(&[MARK, "rec; 7; 1; \" \"", "end; 1"]), (15, 5));
}

#[test]
fn which_fields() {
    let point = |field: usize| {
        let mark = format!("com; \"SUGGESTED {field}\"");
        let record = b"rec; 7; 1; \"HP\"; \"stop\"";
        verdict(&point_types(&[mark.as_bytes(), record, b"end; 1"]))
    };
    assert_eq!(point(4), (0, 0));
    assert_eq!(point(3), (15, 4));
    let day = |field: usize| {
        let mark = format!("com; \"SUGGESTED {field}\"");
        let record = b"rec; 7; 20240101; \"x\"; 1";
        verdict(&calendar(&[mark.as_bytes(), record, b"end; 1"]))
    };
    assert_eq!(day(3), (0, 0));
    assert_eq!(day(4), (15, 4));
    let link = links(&[b"com; \"SUGGESTED 1\"", b"end; 0"]);
    assert_eq!(verdict(&link), (15, 4));
    let versions = b"tbl; MENGE_BASIS_VERSIONEN\natr; BASIS_VERSION; BASIS_VERSION_TEXT\n\
        frm; num[9.0]; char[40]\ncom; \"SUGGESTED 2\"\nrec; 7; \"W\"\nend; 1\n";
    assert_eq!(verdict(versions), (0, 0));
}
