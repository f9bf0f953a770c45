//! "Columns in the sender's order": any arrangement of a table's columns in
//! `atr` is read, and `frm`, records and marks follow it.

mod common;

use common::*;
use reader::{check, fill, strip, table, value, write, Answer, Owner, Value};

/// Day types with the text first and the version last.
fn days(lines: &[&str]) -> Vec<u8> {
    let head = "tbl; MENGE_TAGESART\natr; TAGESART_TEXT; TAGESART_NR; BASIS_VERSION\n\
        frm; char[40]; num[3.0]; num[9.0]\n";
    [head, &lines.join("\n"), "\n"].concat().into_bytes()
}

/// Links with the length first and the two points mixed.
fn arranged_links(lines: &[&str]) -> Vec<u8> {
    let head = "tbl; REC_UEB\n\
        atr; UEB_LAENGE; UEB_ZIEL; ORT_NR; BASIS_VERSION; ONR_TYP_NR; UEB_ZIEL_TYP; BEREICH_NR\n\
        frm; num[6.0]; num[6.0]; num[6.0]; num[9.0]; num[2.0]; num[2.0]; num[3.0]\n";
    [head, &lines.join("\n"), "\n"].concat().into_bytes()
}

/// Point types with both texts before the numbers.
fn arranged_types(lines: &[&str]) -> Vec<u8> {
    let head = "tbl; MENGE_ONR_TYP\n\
        atr; ONR_TYP_TEXT; STR_ONR_TYP; ONR_TYP_NR; BASIS_VERSION\n\
        frm; char[40]; char[6]; num[2.0]; num[9.0]\n";
    [head, &lines.join("\n"), "\n"].concat().into_bytes()
}

fn put_out(put: impl FnOnce(&mut [u8]) -> Result<usize, Answer>) -> Result<String, Answer> {
    let mut out = vec![0; 4096];
    let length = put(&mut out)?;
    Ok(String::from_utf8_lossy(&out[..length]).into_owned())
}

/// What stands between header and trailer of a form.
fn sections_of(form: &str) -> &str {
    let from = form.find("tbl;").unwrap();
    &form[from..form.find("eof;").unwrap()]
}

const VERSIONS_TURNED: &[u8] = b"tbl; MENGE_BASIS_VERSIONEN\n\
atr; BASIS_VERSION_TEXT; BASIS_VERSION\n\
frm; char[40]; num[9.0]\n\
rec; \"Winter\"; 7\n\
end; 1\n";

#[test]
fn formats_follow_the_names() {
    let with = |frm: &str| {
        let head = "tbl; MENGE_TAGESART\natr; TAGESART_TEXT; TAGESART_NR; BASIS_VERSION\n";
        verdict(format!("{head}{frm}\nend; 0\n").as_bytes())
    };
    assert_eq!(with("frm; char[40]; num[3.0]; num[9.0]"), (0, 0));
    assert_eq!(with("frm; num[9.0]; num[3.0]; char[40]"), (9, 3));
    assert_eq!(with("frm; char[40]; num[3.0]"), (9, 3));
    assert_eq!(with("frm; char[40]; num[3.0]; num[9.0];"), (9, 3));
}

#[test]
fn values_are_named_by_document_01() {
    let file = file(&[
        VERSIONS,
        &days(&["rec; \"Bake \"\"1\"\"\"; 12; 7", "end; 1"]),
    ]);
    assert_eq!(check(&file), Answer::SOUND);
    assert_eq!(value(&file, 2, 1, 1), Ok(Value::Number(7)));
    assert_eq!(value(&file, 2, 1, 2), Ok(Value::Number(12)));
    let Ok(Value::Text { bytes, span, owner }) = value(&file, 2, 1, 3) else {
        panic!("not a text");
    };
    assert_eq!((&*bytes, owner), (&b"Bake \"1\""[..], Owner::Operator));
    assert_eq!(&file[span], b"Bake \"\"1\"\"");
    assert_eq!(value(&file, 2, 1, 4), Err(Answer::placeless(24)));
    let view = table(&file, 2).unwrap();
    let kinds: Vec<_> = view.records[0]
        .values()
        .map(|value| matches!(value, Value::Text { .. }))
        .collect();
    assert_eq!(kinds, [false, false, true]);
}

/// 10 first, then each field from the left of the line.
#[test]
fn fields_are_judged_as_they_stand() {
    let day = |record: &str| verdict(&days(&[record, "end; 1"]));
    assert_eq!(day("rec; x; x; x"), (11, 4));
    assert_eq!(day("rec; \"\"; x; 0"), (12, 4));
    assert_eq!(day("rec; \"\"; 0; x"), (13, 4));
    assert_eq!(day("rec; \"\"; 1; 0"), (13, 4));
    assert_eq!(day("rec; x; x"), (10, 4));
    assert_eq!(day("rec; x; x; x; x"), (10, 4));
    assert_eq!(day("rec; 7; 1; \"x\""), (11, 4));
    let long = "x".repeat(41);
    assert_eq!(day(&format!("rec; \"{long}\"; x; 7")), (13, 4));
    assert_eq!(day("rec; \"\"; 1000; 7"), (13, 4));
    assert_eq!(day("rec; \"\"; 999; 999999999"), (0, 0));
}

#[test]
fn points_are_compared_by_column_after_all_fields() {
    let link = |record| verdict(&arranged_links(&[record, "end; 1"]));
    assert_eq!(link("rec; 100; 5; 5; 7; 1; 1; 0"), (14, 4));
    assert_eq!(link("rec; 100; 5; 5; 7; 1; 2; 0"), (0, 0));
    assert_eq!(link("rec; 100; 5; 5; 7; 1; 1; 253"), (13, 4));
    assert_eq!(link("rec; 1; 2; 3; 1; 1; 2; 3"), (0, 0));
}

#[test]
fn a_mark_counts_in_the_file_s_own_order() {
    let day = |mark: usize, text: &str| {
        let mark = format!("com; \"SUGGESTED {mark}\"");
        verdict(&days(&[&mark, &format!("rec; \"{text}\"; 1; 7"), "end; 1"]))
    };
    assert_eq!(day(1, "x"), (0, 0));
    assert_eq!(day(3, "x"), (15, 4));
    assert_eq!(day(2, "x"), (15, 4));
    assert_eq!(day(4, "x"), (15, 4));
    assert_eq!(day(1, ""), (15, 5));
    let twice = ["com; \"SUGGESTED 1\""; 2];
    let lines = [twice[0], twice[1], "rec; \"x\"; 1; 7", "end; 1"];
    assert_eq!(verdict(&days(&lines)), (15, 5));
    let early = "tbl; MENGE_TAGESART\natr; TAGESART_TEXT; TAGESART_NR; BASIS_VERSION\n\
        com; \"SUGGESTED 1\"\nfrm; char[40]; num[3.0]; num[9.0]\nend; 0\n";
    assert_eq!(verdict(early.as_bytes()), (15, 3));
}

#[test]
fn only_the_markable_text_of_two_may_be_marked() {
    let with = |mark: usize| {
        let mark = format!("com; \"SUGGESTED {mark}\"");
        verdict(&arranged_types(&[
            &mark,
            "rec; \"x\"; \"HP\"; 1; 7",
            "end; 1",
        ]))
    };
    let found = [1, 2, 3, 4].map(with);
    assert_eq!(found, [(0, 0), (15, 4), (15, 4), (15, 4)]);
}

#[test]
fn whose_a_text_is() {
    let lines = [
        "com; \"SUGGESTED 1\"",
        "rec; \"ours\"; 1; 7",
        "rec; \"theirs\"; 2; 7",
        "end; 2",
    ];
    let file = file(&[VERSIONS, &days(&lines)]);
    let owner = |record| match value(&file, 2, record, 3) {
        Ok(Value::Text { owner, .. }) => owner,
        other => panic!("{other:?}"),
    };
    assert_eq!([1, 2].map(owner), [Owner::Suggestion, Owner::Operator]);
}

#[test]
fn keys_and_references_go_by_column() {
    let types = |lines: &[&str]| answer(&file(&[VERSIONS_TURNED, &arranged_types(lines)]));
    let sound = [
        "rec; \"\"; \"HP\"; 1; 7",
        "rec; \"\"; \"BHOF\"; 2; 7",
        "end; 2",
    ];
    assert_eq!(types(&sound), (0, 0, 0));
    let primary = [
        "rec; \"a\"; \"HP\"; 1; 7",
        "rec; \"b\"; \"BHOF\"; 01; 7",
        "end; 2",
    ];
    assert_eq!(types(&primary), (18, 2, 5));
    let second = [
        "rec; \"\"; \"HP\"; 1; 7",
        "rec; \"\"; \"HP\"; 2; 7",
        "end; 2",
    ];
    assert_eq!(types(&second), (19, 2, 5));
    let lost = ["rec; \"\"; \"HP\"; 7; 1", "end; 1"];
    assert_eq!(types(&lost), (20, 2, 4));

    let network = |links: &[u8], times: &[u8]| {
        answer(&file(&[VERSIONS, &arranged_types(&sound), links, times]))
    };
    let link = arranged_links(&["rec; 100; 6; 5; 7; 1; 2; 0", "end; 1"]);
    let time = times(&[b"rec; 7; 0; 1; 1; 5; 2; 6; 60", b"end; 1"]);
    assert_eq!(network(&link, &time), (0, 0, 0));
    let turned = times(&[b"rec; 7; 0; 1; 1; 6; 2; 5; 60", b"end; 1"]);
    assert_eq!(network(&link, &turned), (20, 4, 4));
}

#[test]
fn one_table_arranged_and_the_next_not() {
    let day = day_types(&[b"rec; 7; 1; \"x\"", b"end; 1"]);
    assert_eq!(answer(&file(&[VERSIONS_TURNED, &day])), (0, 0, 0));
    let day = days(&["rec; \"x\"; 1; 7", "end; 1"]);
    assert_eq!(answer(&file(&[&day, VERSIONS])), (0, 0, 0));
}

#[test]
fn the_written_file_has_document_01_s_order_and_renumbered_marks() {
    let lines = [
        "com; \"SUGGESTED 1\"",
        "rec; \"ours\"; 001; 7",
        "rec; \"\"; 2; 7",
        "end; 2",
    ];
    let arranged = file(&[VERSIONS_TURNED, &days(&lines)]);
    let straight = |days: &[&[u8]]| [VERSIONS, &day_types(days)].concat();
    let shown = |bytes: Vec<u8>| String::from_utf8(bytes).unwrap();

    let written = put_out(|out| write(&arranged, out)).unwrap();
    let expected = straight(&[
        b"com; \"SUGGESTED 3\"",
        b"rec; 7; 1; \"ours\"",
        b"rec; 7; 2; \"\"",
        b"end; 2",
    ]);
    assert_eq!(sections_of(&written), shown(expected));
    assert_eq!(put_out(|out| write(written.as_bytes(), out)), Ok(written));

    let stripped = put_out(|out| strip(&arranged, out)).unwrap();
    let expected = straight(&[b"rec; 7; 1; \"\"", b"rec; 7; 2; \"\"", b"end; 2"]);
    assert_eq!(sections_of(&stripped), shown(expected));
}

#[test]
fn a_fill_names_the_column_by_document_01_s_number() {
    let lines = ["rec; \"x\"; 1; 7", "rec; \"\"; 2; 7", "end; 2"];
    let arranged = file(&[VERSIONS, &days(&lines)]);
    let filled = |record, field| put_out(|out| fill(&arranged, 2, record, field, b"neu", out));
    let refused = |number| Err(Answer::placeless(number));
    assert_eq!(filled(2, 1), refused(23));
    assert_eq!(filled(2, 2), refused(23));
    assert_eq!(filled(2, 4), refused(24));
    assert_eq!(filled(1, 3), refused(22));
    let form = filled(2, 3).unwrap();
    let expected = day_types(&[
        b"rec; 7; 1; \"x\"",
        b"com; \"SUGGESTED 3\"",
        b"rec; 7; 2; \"neu\"",
        b"end; 2",
    ]);
    let expected = String::from_utf8([VERSIONS, &expected].concat()).unwrap();
    assert_eq!(sections_of(&form), expected);
}
