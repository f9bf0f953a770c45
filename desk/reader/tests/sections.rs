//! One section's rules: lines, order, fields and counts.

mod common;

use common::*;

fn days(lines: &[&str]) -> (u8, usize) {
    let lines: Vec<&[u8]> = lines.iter().map(|l| l.as_bytes()).collect();
    verdict(&day_types(&lines))
}

fn table(text: &str) -> (u8, usize) {
    verdict(text.as_bytes())
}

#[test]
fn bytes_come_before_all_else() {
    assert_eq!(days(&["rec; 7; 1; \"\t\"", "end; 1"]), (4, 4));
    assert_eq!(verdict(&day_types(&[b"com; f\xfcr", b"end; 0"])), (4, 4));
    assert_eq!(verdict(&day_types(&[b"REC; \xe4", b"end; 0"])), (4, 4));
    assert_eq!(verdict(&day_types(&[b"end; 0\x7f"])), (4, 4));
    assert_eq!(verdict(b"tbl; MENGE_TAGESART\xe4\nend; 0\n"), (4, 1));
}

#[test]
fn a_record_out_of_order_may_still_hold_latin_letters() {
    let late = day_types(&[b"end; 0", b"rec; \xe4"]);
    assert_eq!(verdict(&late), (6, 5));
    assert_eq!(verdict_under(ASCII_HEADER, &late), (4, 5));
}

#[test]
fn latin_letters_outside_a_text() {
    assert_eq!(
        verdict(&day_types(&[b"rec; 7\xe4; 1; \"\"", b"end; 1"])),
        (12, 4)
    );
    assert_eq!(
        verdict(&day_types(&[b"rec; 7; 1; \"\"\xe4", b"end; 1"])),
        (11, 4)
    );
    assert_eq!(verdict(&day_types(&[b"rec; 7; 1\xe4", b"end; 1"])), (10, 4));
}

#[test]
fn carriage_returns() {
    let crlf = day_types(&[b"rec; 7; 1; \"x\"\r", b"\r", b"end; 1\r"]);
    assert_eq!(verdict(&crlf), (0, 0));
    assert_eq!(verdict(&day_types(&[b"end; 0\r\r"])), (4, 4));
    assert_eq!(verdict(&day_types(&[b"end;\r 0"])), (4, 4));
}

#[test]
fn no_command_or_an_unknown_one() {
    for line in [
        "rec",
        "tbl",
        "eof",
        "REC; 7; 1; \"\"",
        ";",
        "r ec; 1",
        "\"rec; 1\"",
    ] {
        assert_eq!(days(&[line, "end; 0"]), (5, 4), "{line}");
    }
}

#[test]
fn order() {
    for line in [
        "mod; 1", "src; 1", "chs; 1", "ver; 1", "ifv; 1", "dve; 1", "fft; 1",
    ] {
        assert_eq!(days(&[line, "end; 0"]), (6, 4), "{line}");
    }
    assert_eq!(days(&["atr; X", "end; 0"]), (6, 4));
    assert_eq!(days(&["frm; X", "end; 0"]), (6, 4));
    assert_eq!(days(&["end; 0", "end; 0"]), (6, 5));
    assert_eq!(days(&["end; 1", "rec; 7; 1; \"\""]), (16, 4));
    assert_eq!(days(&["end; 0", "", "com; x", "rec; 7; 1; \"\""]), (6, 7));
    assert_eq!(
        table("tbl; MENGE_TAGESART\nfrm; num[9.0]\nend; 0\n"),
        (6, 2)
    );
    assert_eq!(table("tbl; MENGE_TAGESART\nend; 0\n"), (6, 2));
    assert_eq!(table("tbl; MENGE_TAGESART\nrec; 0\n"), (6, 2));
}

#[test]
fn a_missing_end_is_the_last_line() {
    assert_eq!(days(&["rec; 7; 1; \"\""]), (6, 4));
    assert_eq!(days(&["rec; 7; 1; \"\"", "com; x", "", "  "]), (6, 7));
    assert_eq!(days(&["com; \"SUGGESTED 3\""]), (6, 4));
    assert_eq!(table("tbl; MENGE_TAGESART\n"), (6, 1));
    assert_eq!(days(&["rec; 7; 1; x"]), (11, 4));
}

#[test]
fn blank_lines_and_comments_after_end() {
    assert_eq!(days(&["end; 0", "", "com; x", "com; \"y\"", "   "]), (0, 0));
}

#[test]
fn table_lines() {
    assert_eq!(table("tbl;\n"), (7, 1));
    assert_eq!(table("tbl; REC_HP\n"), (7, 1));
    assert_eq!(table("tbl; rec_ueb\n"), (7, 1));
    assert_eq!(table("tbl; \"REC_UEB\"\n"), (7, 1));
    assert_eq!(table("tbl; \"A;B\"\n"), (7, 1));
    assert_eq!(table("tbl; REC_UEB;\n"), (10, 1));
    assert_eq!(table("tbl; X; Y\n"), (10, 1));
}

#[test]
fn columns() {
    let with = |atr: &str| {
        table(&format!(
            "tbl; MENGE_TAGESART\n{atr}\nfrm; num[9.0]; num[3.0]; char[40]\nend; 0\n"
        ))
    };
    assert_eq!(
        with("atr;BASIS_VERSION ; TAGESART_NR;TAGESART_TEXT "),
        (0, 0)
    );
    assert_eq!(
        with("atr; TAGESART_NR; BASIS_VERSION; TAGESART_TEXT"),
        (0, 0)
    );
    for atr in [
        "atr;",
        "atr; BASIS_VERSION; TAGESART_NR",
        "atr; BASIS_VERSION; TAGESART_NR; TAGESART_TEXT;",
        "atr; TAGESART_NR; TAGESART_TEXT",
        "atr; TAGESART_NR; BASIS_VERSION; TAGESART_TEXT; BASIS_VERSION",
        "atr; BASIS_VERSION; BASIS_VERSION; TAGESART_TEXT",
        "atr; TAGESART_NR; BASIS_VERSION; BETRIEBSTAG_TEXT",
        "atr; BASIS_VERSION; TAGESART_NR; Tagesart_Text",
        "atr; BASIS_VERSION; TAGESART_NR; \"TAGESART_TEXT\"",
    ] {
        assert_eq!(with(atr), (8, 2), "{atr}");
    }
}

#[test]
fn formats() {
    let with = |frm: &str| {
        table(&format!(
            "tbl; MENGE_TAGESART\natr; BASIS_VERSION; TAGESART_NR; TAGESART_TEXT\n{frm}\nend; 0\n"
        ))
    };
    assert_eq!(with("frm;num[1.0];num[255.0];char[1]"), (0, 0));
    for frm in [
        "frm;",
        "frm; num[9.0]; num[3.0]",
        "frm; num[9.0]; num[3.0]; char[40];",
        "frm; num[9.0]; char[3]; char[40]",
        "frm; num[ 9.0 ]; num[3.0]; char[40]",
        "frm; num[9.0]; num[3.0]; char[0]",
        "frm; num[9.0]; num[3.0]; char[256]",
        "frm; num[9.0]; num[03.0]; char[40]",
    ] {
        assert_eq!(with(frm), (9, 3), "{frm}");
    }
}

#[test]
fn a_format_limits_no_value() {
    let section = "tbl; MENGE_TAGESART\natr; BASIS_VERSION; TAGESART_NR; TAGESART_TEXT\n\
        frm; num[1.0]; num[1.0]; char[1]\nrec; 123456789; 999; \"longer than one\"\nend; 1\n";
    assert_eq!(table(section), (0, 0));
}

#[test]
fn field_counts() {
    assert_eq!(days(&["rec; 7; 1", "end; 1"]), (10, 4));
    assert_eq!(days(&["rec; 7; 1; \"\";", "end; 1"]), (10, 4));
    assert_eq!(days(&["rec;", "end; 1"]), (10, 4));
    assert_eq!(days(&["rec; x; 0; y; z", "end; 1"]), (10, 4));
}

#[test]
fn a_missing_quote_swallows_separators() {
    assert_eq!(days(&["rec; 7; 1; \"x", "end; 1"]), (11, 4));
    let day = calendar(&[b"rec; 7; 20240101; \"New Year; 1", b"end; 1"]);
    assert_eq!(verdict(&day), (10, 4));
}

#[test]
fn fields_from_the_left() {
    assert_eq!(days(&["rec; x; 0; y", "end; 1"]), (12, 4));
    assert_eq!(days(&["rec; 0; x; y", "end; 1"]), (13, 4));
    assert_eq!(days(&["rec; 7; 1000; y", "end; 1"]), (13, 4));
    assert_eq!(days(&["rec; 7; 1; y", "end; 1"]), (11, 4));
    assert_eq!(days(&["rec; \"7\"; 1; \"\"", "end; 1"]), (12, 4));
    assert_eq!(days(&["rec; ; 1; \"\"", "end; 1"]), (12, 4));
}

#[test]
fn numbers() {
    assert_eq!(
        days(&["rec; 000000000000000007; 1; \"\"", "end; 1"]),
        (0, 0)
    );
    assert_eq!(
        days(&["rec; 0000000000000000007; 1; \"\"", "end; 1"]),
        (12, 4)
    );
    assert_eq!(
        days(&["rec; 999999999999999999; 1; \"\"", "end; 1"]),
        (13, 4)
    );
    assert_eq!(days(&["rec; -7; 1; \"\"", "end; 1"]), (13, 4));
    assert_eq!(days(&["rec; +7; 1; \"\"", "end; 1"]), (12, 4));
    assert_eq!(days(&["rec; 7.0; 1; \"\"", "end; 1"]), (12, 4));
}

#[test]
fn text_sizes() {
    let with = |text: String| days(&[&format!("rec; 7; 1; \"{text}\""), "end; 1"]);
    assert_eq!(with("x".repeat(40)), (0, 0));
    assert_eq!(with("x".repeat(41)), (13, 4));
    assert_eq!(with("\"\"".repeat(40)), (0, 0));
    assert_eq!(with("\"\"".repeat(41)), (13, 4));
    assert_eq!(with(";".repeat(40)), (0, 0));
}

#[test]
fn a_text_has_nothing_beside_it() {
    for text in ["\"a\" b", "a \"b\"", "\"a\" \"b\"", "\"a\"\"", "'a'"] {
        assert_eq!(
            days(&[&format!("rec; 7; 1; {text}"), "end; 1"]),
            (11, 4),
            "{text}"
        );
    }
    assert_eq!(days(&["rec; 7; 1;   \"a\"   ", "end; 1"]), (0, 0));
}

#[test]
fn equal_points_come_after_the_fields() {
    assert_eq!(
        verdict(&links(&[b"rec; 7; 0; 1; 5; 1; 5; 0", b"end; 1"])),
        (13, 4)
    );
    assert_eq!(
        verdict(&links(&[b"rec; 7; 0; 2; 5; 02; 005; 1", b"end; 1"])),
        (14, 4)
    );
    assert_eq!(
        verdict(&times(&[b"rec; 7; 0; 1; 1; 5; 1; 5; 60", b"end; 1"])),
        (14, 4)
    );
    assert_eq!(
        verdict(&times(&[b"rec; 7; 0; 1; 1; 5; 1; 6; 65532", b"end; 1"])),
        (0, 0)
    );
    assert_eq!(
        verdict(&times(&[b"rec; 7; 0; 1; 1; 5; 1; 6; 65533", b"end; 1"])),
        (13, 4)
    );
}

#[test]
fn end_counts() {
    assert_eq!(days(&["end;"]), (12, 4));
    assert_eq!(days(&["end; 0;"]), (10, 4));
    assert_eq!(days(&["end; x"]), (12, 4));
    assert_eq!(days(&["end; 1"]), (16, 4));
    assert_eq!(days(&["end; -1"]), (16, 4));
    assert_eq!(days(&["end; -0"]), (0, 0));
    assert_eq!(days(&["rec; 7; 1; \"\"", "end; 0"]), (16, 5));
    assert_eq!(days(&["end; \"0\""]), (12, 4));
    assert_eq!(days(&["end; 0000000000000000000"]), (12, 4));
}
