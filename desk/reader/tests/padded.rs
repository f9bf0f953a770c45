//! "Spaces at the end of a text in a record no longer belong to it."

mod common;

use common::*;
use reader::{fill, header, strip, value, write, Answer, Owner, Value};

const PADDED_VERSIONS: &[u8] = b"tbl; MENGE_BASIS_VERSIONEN\n\
atr; BASIS_VERSION; BASIS_VERSION_TEXT\n\
frm; num[9.0]; char[40]\n\
rec; 7; \"Winter  \"\n\
rec; 8; \"   \"\n\
end; 2\n";

fn padded() -> Vec<u8> {
    let types = point_types(&[b"rec; 7; 1; \"HP    \"; \"a\"\"  \"", b"end; 1"]);
    file(&[PADDED_VERSIONS, &types])
}

fn put_out(put: impl FnOnce(&mut [u8]) -> Result<usize, Answer>) -> Result<String, Answer> {
    let mut out = vec![0; 4096];
    let length = put(&mut out)?;
    Ok(String::from_utf8_lossy(&out[..length]).into_owned())
}

fn own(section: usize, record: usize, field: usize) -> (Vec<u8>, Vec<u8>) {
    let file = padded();
    let Ok(Value::Text { bytes, span, owner }) = value(&file, section, record, field) else {
        panic!("not a text");
    };
    assert_eq!(owner, Owner::Operator);
    (bytes.into_owned(), file[span].to_vec())
}

#[test]
fn a_span_ends_before_the_padding() {
    assert_eq!(answer(&padded()), (0, 0, 0));
    assert_eq!(own(1, 1, 2), (b"Winter".to_vec(), b"Winter".to_vec()));
    assert_eq!(own(1, 2, 2), (Vec::new(), Vec::new()));
    assert_eq!(own(2, 1, 3), (b"HP".to_vec(), b"HP".to_vec()));
    assert_eq!(own(2, 1, 4), (b"a\"".to_vec(), b"a\"\"".to_vec()));
}

#[test]
fn the_trimmed_text_is_measured() {
    let with = |text: &str| {
        let record = format!("rec; 7; 1; \"{text}\"; \"\"");
        verdict(&point_types(&[record.as_bytes(), b"end; 1"]))
    };
    assert_eq!(with("123456      "), (0, 0));
    assert_eq!(with(" 123456"), (13, 4));
    assert_eq!(with("1234567 "), (13, 4));
}

#[test]
fn a_text_of_spaces_is_empty() {
    let marked = |text: &str| {
        let record = format!("rec; 7; 1; \"{text}\"");
        let lines: [&[u8]; 3] = [b"com; \"SUGGESTED 3\"", record.as_bytes(), b"end; 1"];
        verdict(&day_types(&lines))
    };
    assert_eq!(marked("  "), (15, 5));
    assert_eq!(marked("x "), (0, 0));
    let keys = |second: &[u8]| {
        let types = point_types(&[b"rec; 7; 1; \"\"; \"\"", second, b"end; 2"]);
        answer(&file(&[VERSIONS, &types]))
    };
    assert_eq!(keys(b"rec; 7; 2; \"  \"; \"\""), (19, 2, 5));
}

#[test]
fn end_spaces_are_not_written() {
    let file = padded();
    let form = put_out(|out| write(&file, out)).unwrap();
    assert!(
        form.contains("rec; 7; \"Winter\"\nrec; 8; \"\"\n"),
        "{form}"
    );
    assert!(form.contains("rec; 7; 1; \"HP\"; \"a\"\"\"\n"), "{form}");
    assert_eq!(put_out(|out| write(form.as_bytes(), out)), Ok(form.clone()));
    assert_eq!(put_out(|out| strip(&file, out)), Ok(form));
}

#[test]
fn a_fills_text_is_trimmed_first() {
    let file = padded();
    let filled = |text: &[u8]| put_out(|out| fill(&file, 1, 2, 2, text, out));
    assert_eq!(filled(b"Summer  "), filled(b"Summer"));
    let number = |text: &[u8]| filled(text).unwrap_err().number;
    assert_eq!(number(b"  "), 11);
    assert_eq!(number(b"\x7f  "), 4);
    assert_eq!(number(&[b'x'; 41]), 13);
    assert!(filled(&[&[b'x'; 40][..], b"     "].concat()).is_ok());
    let taken = put_out(|out| fill(&file, 1, 1, 2, b"Summer", out));
    assert_eq!(taken.unwrap_err().number, 22);
}

#[test]
fn header_texts_and_marks_stay_as_written() {
    let text = String::from_utf8(file(&[VERSIONS])).unwrap();
    let text = text.replacen("ver; \"1\"", "ver; \"1 \"", 1);
    assert_eq!(header(text.as_bytes()).unwrap().version.stored(), b"1 ");
    let section = day_types(&[b"com; \"SUGGESTED 3 \"", b"rec; 7; 1; \"x\"", b"end; 1"]);
    assert_eq!(verdict(&section), (15, 4));
}
