//! The fourteen rows and the listing of document 01.

mod common;

use common::*;
use reader::{listing, value, Value};

#[test]
fn row_1_no_bytes() {
    assert_eq!(answer(b""), (2, 0, 0));
    assert_eq!(listing(b""), b"header;2;0\nfile;2;0;0\n");
}

#[test]
fn row_2_space_after_the_command() {
    let section = day_types(&[b"rec ;7;1;\"x\"", b"end;1"]);
    assert_eq!(verdict(&section), (0, 0));
}

#[test]
fn row_3_doubled_quotes() {
    let file = file(&[&day_types(&[b"rec; 7; 1; \"Bake \"\"1\"\"\"", b"end; 1"])]);
    let Ok(Value::Text { bytes, span, .. }) = value(&file, 1, 1, 3) else {
        panic!("not a text");
    };
    assert_eq!(&*bytes, b"Bake \"1\"");
    assert_eq!(bytes.len(), 8);
    assert_eq!(&file[span], b"Bake \"\"1\"\"");
}

#[test]
fn row_4_leading_zeros_in_end() {
    let records: [&[u8]; 5] = [
        b"rec; 7; 1; \"\"",
        b"rec; 7; 2; \"\"",
        b"rec; 7; 3; \"\"",
        b"rec; 7; 4; \"\"",
        b"end; 0004",
    ];
    assert_eq!(verdict(&day_types(&records)), (0, 0));
}

fn link(text: &str) -> (u8, usize) {
    verdict(&links(&[text.as_bytes(), b"end; 1"]))
}

#[test]
fn row_5_metres() {
    assert_eq!(link("rec; 7; 0; 1; 5; 2; 5; 81890"), (0, 0));
    assert_eq!(link("rec; 7; 0; 1; 5; 2; 5; 81891"), (13, 4));
}

#[test]
fn row_6_areas() {
    assert_eq!(link("rec; 7; 252; 1; 5; 2; 5; 1"), (0, 0));
    assert_eq!(link("rec; 7; -0; 1; 5; 2; 5; 1"), (0, 0));
    assert_eq!(link("rec; 7; 253; 1; 5; 2; 5; 1"), (13, 4));
    assert_eq!(link("rec; 7; -1; 1; 5; 2; 5; 1"), (13, 4));
}

#[test]
fn row_7_formats() {
    let with = |format: &str| {
        let section = format!(
            "tbl; MENGE_BASIS_VERSIONEN\natr; BASIS_VERSION; BASIS_VERSION_TEXT\n\
             frm; {format}; char[40]\nend; 0\n"
        );
        verdict(section.as_bytes())
    };
    assert_eq!(with("num[9.0]"), (0, 0));
    assert_eq!(with("num[9]"), (9, 3));
}

#[test]
fn row_8_short_names() {
    let with = |name: &str| {
        let record = format!("rec; 7; 1; \"{name}\"; \"\"");
        verdict(&point_types(&[record.as_bytes(), b"end; 1"]))
    };
    assert_eq!(with("ABCDEF"), (0, 0));
    assert_eq!(with("ABCDEFG"), (13, 4));
    assert_eq!(with("ABCDE\"\""), (0, 0));
}

#[test]
fn row_9_empty_text_and_nothing_at_all() {
    assert_eq!(
        verdict(&day_types(&[b"rec; 7; 1; \"\"", b"end; 1"])),
        (0, 0)
    );
    assert_eq!(verdict(&day_types(&[b"rec; 7; 1; ", b"end; 1"])), (11, 4));
    assert_eq!(verdict(&day_types(&[b"rec; 7; 1;", b"end; 1"])), (11, 4));
}

#[test]
fn row_10_bytes_161_and_160() {
    let with = |byte: u8| {
        let record = [b"rec; 7; 1; \"x", &[byte][..], b"\""].concat();
        day_types(&[&record, b"end; 1"])
    };
    assert_eq!(verdict_under(HEADER, &with(161)), (0, 0));
    assert_eq!(verdict_under(ASCII_HEADER, &with(161)), (4, 4));
    assert_eq!(verdict_under(HEADER, &with(160)), (4, 4));
    assert_eq!(verdict_under(ASCII_HEADER, &with(160)), (4, 4));
}

#[test]
fn row_11_two_points() {
    assert_eq!(link("rec; 7; 0; 1; 5; 2; 5; 100"), (0, 0));
    assert_eq!(link("rec; 7; 0; 1; 5; 1; 5; 100"), (14, 4));
}

#[test]
fn row_12_marks() {
    let with = |mark: &str, text: &str| {
        let record = format!("rec; 7; 1; \"{text}\"");
        verdict(&day_types(&[mark.as_bytes(), record.as_bytes(), b"end; 1"]))
    };
    assert_eq!(with("com; \"SUGGESTED 3\"", "x"), (0, 0));
    assert_eq!(with("com; \"SUGGESTED 2\"", "x"), (15, 4));
    assert_eq!(with("com; \"SUGGESTED 3\"", ""), (15, 5));
}

#[test]
fn row_13_counted_tables() {
    let empty = day_types(&[b"end; 0"]);
    let three: [&[u8]; 3] = [VERSIONS, &empty, POINT_TYPES];
    let body = [HEADER, &three.concat()].concat();
    assert_eq!(answer(&[&body[..], b"eof; 3\n"].concat()), (0, 0, 0));
    assert_eq!(answer(&[&body[..], b"eof; 2\n"].concat()), (3, 0, 1));
}

/// As document 02 has it: "the two are one second key, and 19 follows".
#[test]
fn row_14_padding_makes_no_other_second_key() {
    let with = |text: &str| {
        let second = format!("rec; 7; 2; \"{text}\"; \"\"");
        let types = point_types(&[b"rec; 7; 1; \"HP\"; \"\"", second.as_bytes(), b"end; 2"]);
        answer(&file(&[VERSIONS, &types]))
    };
    assert_eq!(with("HP "), (19, 2, 5));
    assert_eq!(with(" HP"), (0, 0, 0));
}

#[test]
fn the_listing() {
    let expected = b"header;0;0\ntable;1;290;11;0;4\ntable;2;485;0;1;0\ntrailer;0\nfile;11;1;4\n";
    assert_eq!(listing(DAMAGED), expected);
}

#[test]
fn a_sound_file_is_listed_to_its_end() {
    let file = file(&[VERSIONS, POINT_TYPES]);
    let expected = b"header;0;0\ntable;1;485;0;1;0\ntable;2;998;0;2;0\ntrailer;0\nfile;0;0;0\n";
    assert_eq!(listing(&file), expected);
}

#[test]
fn sixty_four_kibibytes_are_listed() {
    let mut file = file(&[VERSIONS]);
    let room = 65_536 - file.len();
    file.extend(std::iter::repeat_n(b' ', room));
    assert_eq!(file.len(), 65_536);
    assert!(listing(&file).ends_with(b"file;0;0;0\n"));
    file.push(b' ');
    assert_eq!(listing(&file), b"too long\n");
}

#[test]
fn a_refused_header_ends_the_listing() {
    let file = [
        &b"mod; DD.MM.YY; HH:MM:SS; free\n"[..],
        VERSIONS,
        b"eof; 1\n",
    ]
    .concat();
    assert_eq!(listing(&file), b"header;2;1\nfile;2;0;1\n");
}
