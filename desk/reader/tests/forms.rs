//! Writing, filling and stripping.

mod common;

use common::*;
use reader::{check, fill, header, strip, table, write, Answer, LIMIT};

const ROOM: usize = 4096;

fn written(file: &[u8]) -> Vec<u8> {
    let mut out = vec![0; ROOM];
    let length = write(file, &mut out).unwrap();
    out.truncate(length);
    out
}

fn stripped(file: &[u8]) -> Vec<u8> {
    let mut out = vec![0; ROOM];
    let length = strip(file, &mut out).unwrap();
    out.truncate(length);
    out
}

fn filled(file: &[u8], place: (usize, usize, usize), text: &[u8]) -> Result<Vec<u8>, u8> {
    let mut out = vec![7; ROOM];
    match fill(file, place.0, place.1, place.2, text, &mut out) {
        Ok(length) => {
            assert!(out[length..].iter().all(|&b| b == 7));
            out.truncate(length);
            Ok(out)
        }
        Err(answer) => {
            assert_eq!(out, vec![7; ROOM]);
            assert_eq!((answer.section, answer.line), (0, 0));
            Err(answer.number)
        }
    }
}

const LOOSE: &[u8] = b"com; loose\r\n mod ;YYYY/MM/DD;HH:MM:SS;aligned\r\n\
fft;\"LIO\"\r\nifv; \"1.0\"\n\nver;\"V \"\"1\"\"\"\nchs; \"ISO-8859-1\"\n\
src;\"Desk\";\"1998/06/08\";\"04:05:06\"\n\
tbl;MENGE_TAGESART\natr;BASIS_VERSION;TAGESART_NR;TAGESART_TEXT\n\
frm;num[11.0];num[11.0];char[99]\n\
com; \"SUGGESTED 3\"\n\ncom; x\nrec;007; 0001;\"Schultag \xfc\"\n\
rec;7;2; \"say \"\"hi\"\"\" \nrec;7;3;\"\"\nend;0003\ncom; bye\n\
tbl;MENGE_BASIS_VERSIONEN\natr;BASIS_VERSION;BASIS_VERSION_TEXT\n\
frm;num[1.0];char[1]\nrec;7;\"\"\nend;1\neof;02";

const TIDY: &[u8] = b"mod; DD.MM.YYYY; HH:MM:SS; free\n\
src; \"Desk\"; \"08.06.1998\"; \"04:05:06\"\n\
chs; \"ISO8859-1\"\nver; \"V \"\"1\"\"\"\nifv; \"1.0\"\nfft; \"LIO\"\n\
tbl; MENGE_TAGESART\natr; BASIS_VERSION; TAGESART_NR; TAGESART_TEXT\n\
frm; num[9.0]; num[3.0]; char[40]\n\
com; \"SUGGESTED 3\"\nrec; 7; 1; \"Schultag \xfc\"\n\
rec; 7; 2; \"say \"\"hi\"\"\"\nrec; 7; 3; \"\"\nend; 3\n\
tbl; MENGE_BASIS_VERSIONEN\natr; BASIS_VERSION; BASIS_VERSION_TEXT\n\
frm; num[9.0]; char[40]\nrec; 7; \"\"\nend; 1\neof; 2\n";

#[test]
fn the_written_form() {
    assert_eq!(check(LOOSE), Answer::SOUND);
    let form = written(LOOSE);
    assert_eq!(
        form.escape_ascii().to_string(),
        TIDY.escape_ascii().to_string()
    );
    assert_eq!(check(&form), Answer::SOUND);
    assert_eq!(written(&form), form);
}

#[test]
fn all_written_sizes() {
    let everything = [
        b"tbl;BASIS_VER_GUELTIGKEIT\natr;VER_GUELTIGKEIT;BASIS_VERSION\n\
        frm;num[1.0];num[1.0]\nend;0\n"
            .to_vec(),
        calendar(&[b"end;0"]),
        point_types(&[b"end;0"]),
        b"tbl;MENGE_FAHRTART\natr;BASIS_VERSION;FAHRTART_NR;STR_FAHRTART\n\
        frm;num[1.0];num[1.0];char[1]\nend;0\n"
            .to_vec(),
        links(&[b"end;0"]),
        times(&[b"end;0"]),
        connections(&[b"end;0"]),
        transfers(&[b"end;0"]),
    ];
    let parts: Vec<&[u8]> = everything.iter().map(Vec::as_slice).collect();
    let form = written(&file(&parts));
    let formats: Vec<&[u8]> = form
        .split(|&b| b == b'\n')
        .filter(|line| line.starts_with(b"frm"))
        .collect();
    let expected: [&[u8]; 8] = [
        b"frm; num[8.0]; num[9.0]",
        b"frm; num[9.0]; num[8.0]; char[40]; num[3.0]",
        b"frm; num[9.0]; num[2.0]; char[6]; char[40]",
        b"frm; num[9.0]; num[2.0]; char[6]",
        b"frm; num[9.0]; num[3.0]; num[2.0]; num[6.0]; num[2.0]; num[6.0]; num[6.0]",
        b"frm; num[9.0]; num[3.0]; num[9.0]; num[2.0]; num[6.0]; num[2.0]; num[6.0]; num[6.0]",
        b"frm; num[9.0]; num[5.0]; char[40]; char[6]; num[3.0]; num[6.0]; num[3.0]; num[6.0]; \
          num[2.0]; num[6.0]; num[6.0]; char[6]; char[6]; char[10]; num[6.0]; num[3.0]; num[6.0]; \
          num[2.0]; num[6.0]; num[6.0]",
        b"frm; num[9.0]; num[5.0]; num[3.0]; num[6.0]; num[6.0]; num[5.0]; num[5.0]; num[5.0]; num[5.0]",
    ];
    assert_eq!(formats, expected);
}

#[test]
fn an_early_year_keeps_four_digits() {
    let file = [
        &b"mod; YYYY/MM/DD; HH:MM:SS; free\nsrc; \"\"; \"0001/01/01\"; \"00:00:00\"\n"[..],
        b"chs; \"ASCII\"\nver; \"\"\nifv; \"\"\ndve; \"\"\neof; 0",
    ]
    .concat();
    let form = written(&file);
    assert!(form.starts_with(b"mod; DD.MM.YYYY; HH:MM:SS; free\nsrc; \"\"; \"01.01.0001\"; "));
    assert!(form.ends_with(b"chs; \"ASCII\"\nver; \"\"\nifv; \"\"\ndve; \"\"\neof; 0\n"));
    assert_eq!(header(&form).unwrap().date, header(&file).unwrap().date);
}

#[test]
fn the_form_reads_as_the_file_does() {
    let form = written(LOOSE);
    for section in 1..=2 {
        let (ours, theirs) = (
            table(LOOSE, section).unwrap(),
            table(&form, section).unwrap(),
        );
        assert_eq!(ours.number, theirs.number);
        for (a, b) in ours.records.iter().zip(&theirs.records) {
            assert_eq!(a.values().count(), b.values().count());
            for (a, b) in a.values().zip(b.values()) {
                assert_eq!(without_span(a), without_span(b));
            }
        }
    }
}

fn without_span(value: reader::Value<'_>) -> (Option<i64>, Vec<u8>, Option<reader::Owner>) {
    match value {
        reader::Value::Number(n) => (Some(n), Vec::new(), None),
        reader::Value::Missing => (None, Vec::new(), None),
        reader::Value::Text { bytes, owner, .. } => (None, bytes.into_owned(), Some(owner)),
    }
}

#[test]
fn room() {
    let mut exact = vec![7; TIDY.len() + 3];
    assert_eq!(write(LOOSE, &mut exact), Ok(TIDY.len()));
    assert_eq!(exact[TIDY.len()..], [7; 3]);
    let mut short = vec![7; TIDY.len() - 1];
    assert_eq!(write(LOOSE, &mut short), Err(Answer::placeless(21)));
    assert_eq!(short, vec![7; TIDY.len() - 1]);
    assert_eq!(strip(LOOSE, &mut []), Err(Answer::placeless(21)));
}

#[test]
fn a_form_over_the_limit_has_no_room() {
    let head = "tbl;MENGE_TAGESART\natr;BASIS_VERSION;TAGESART_NR;TAGESART_TEXT\n\
        frm;num[9.0];num[3.0];char[40]\n";
    let mut versions = String::from(
        "tbl;MENGE_BASIS_VERSIONEN\natr;BASIS_VERSION;BASIS_VERSION_TEXT\n\
         frm;num[9.0];char[40]\n",
    );
    let mut days = String::from(head);
    let (mut version, mut count) = (0, 0);
    while versions.len() + days.len() < LIMIT - 40_000 {
        version += 1;
        versions += &format!("rec;{version};\"\"\n");
        for day in 1..=999 {
            days += &format!("rec;{version};{day};\"\"\n");
            count += 1;
        }
    }
    versions += &format!("end;{version}\n");
    days += &format!("end;{count}\n");
    let file = file(&[versions.as_bytes(), days.as_bytes()]);
    assert_eq!(check(&file), Answer::SOUND);
    let mut out = vec![7; 2 * LIMIT];
    assert_eq!(write(&file, &mut out), Err(Answer::placeless(21)));
    assert!(out.iter().all(|&b| b == 7));
}

#[test]
fn a_refused_file_gives_its_own_answer() {
    let mut out = [7; 10];
    let refused = Err(Answer::new(11, 1, 4));
    assert_eq!(write(DAMAGED, &mut out), refused);
    assert_eq!(strip(DAMAGED, &mut out), refused);
    assert_eq!(fill(DAMAGED, 9, 9, 9, b"", &mut out), refused);
    assert_eq!(out, [7; 10]);
}

#[test]
fn stripping() {
    let form = stripped(LOOSE);
    let expected = TIDY.escape_ascii().to_string();
    let mark = "com; \"SUGGESTED 3\"\n".escape_default().to_string();
    let mark = mark.replace("\\'", "'");
    let expected = expected.replace(&mark, "");
    let text = b"\"Schultag \xfc\"".escape_ascii().to_string();
    let expected = expected.replace(&text, "\\\"\\\"");
    assert_eq!(form.escape_ascii().to_string(), expected);
    assert_eq!(stripped(&form), form);
}

#[test]
fn filling() {
    let form = filled(LOOSE, (1, 3, 3), b"say \"so\" \xe4").unwrap();
    let lines: Vec<&[u8]> = form.split(|&b| b == b'\n').collect();
    let at = lines
        .iter()
        .position(|l| l.starts_with(b"rec; 7; 3"))
        .unwrap();
    assert_eq!(lines[at - 1], b"com; \"SUGGESTED 3\"");
    assert_eq!(lines[at], b"rec; 7; 3; \"say \"\"so\"\" \xe4\"");
    assert_eq!(check(&form), Answer::SOUND);
    assert_eq!(stripped(&form), stripped(LOOSE));
    assert_eq!(filled(&form, (1, 3, 3), b"again"), Err(22));
    assert!(filled(LOOSE, (2, 1, 2), b"Winter").is_ok());
}

#[test]
fn refused_fillings_in_order() {
    for missing in [
        (0, 1, 3),
        (3, 1, 3),
        (1, 0, 3),
        (1, 4, 3),
        (1, 3, 0),
        (1, 3, 4),
    ] {
        assert_eq!(filled(LOOSE, missing, b""), Err(24), "{missing:?}");
    }
    assert_eq!(filled(LOOSE, (1, 3, 1), b""), Err(23));
    assert_eq!(filled(LOOSE, (1, 1, 3), b""), Err(22));
    assert_eq!(filled(LOOSE, (1, 2, 3), b""), Err(22));
    assert_eq!(filled(LOOSE, (1, 3, 3), b""), Err(11));
    assert_eq!(filled(LOOSE, (1, 3, 3), &[b'\n'; 41]), Err(4));
    assert_eq!(filled(LOOSE, (1, 3, 3), &[160]), Err(4));
    assert_eq!(filled(LOOSE, (1, 3, 3), &[b'x'; 41]), Err(13));
    assert!(filled(LOOSE, (1, 3, 3), &[b'"'; 40]).is_ok());
    let types = file(&[
        VERSIONS,
        &point_types(&[b"rec; 7; 1; \"\"; \"\"", b"end; 1"]),
    ]);
    assert_eq!(filled(&types, (2, 1, 3), b"HP"), Err(23));
    assert!(filled(&types, (2, 1, 4), b"HP").is_ok());
}

#[test]
fn a_filling_s_room_is_judged_last() {
    let mut out = [7; 5];
    assert_eq!(
        fill(LOOSE, 1, 3, 3, &[b'x'; 41], &mut out),
        Err(Answer::placeless(13))
    );
    assert_eq!(
        fill(LOOSE, 1, 3, 3, b"x", &mut out),
        Err(Answer::placeless(21))
    );
    assert_eq!(out, [7; 5]);
}

#[test]
fn ascii_takes_no_latin_text() {
    let empty = day_types(&[b"rec; 7; 1; \"\"", b"end; 1"]);
    let file = file_under(ASCII_HEADER, &[VERSIONS, &empty]);
    assert_eq!(filled(&file, (2, 1, 3), b"\xfc"), Err(4));
    assert!(filled(&file, (2, 1, 3), b"ue").is_ok());
}
