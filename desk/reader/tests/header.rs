//! The header's rules, by its answer and its values.

mod common;

use common::*;
use reader::{header, Charset, Date, Time};

const MOD: &str = "mod; DD.MM.YYYY; HH:MM:SS; free";
const SRC: &str = "src; \"Desk\"; \"01.02.2024\"; \"06:00:00\"";
const CHS: &str = "chs; \"ASCII\"";
const VER: &str = "ver; \"1\"";
const IFV: &str = "ifv; \"1.0\"";

/// The answer of a file with these header lines and no table.
fn with(lines: &[&str]) -> (u8, usize, usize) {
    answer(format!("{}\neof; 0\n", lines.join("\n")).as_bytes())
}

#[test]
fn any_order_after_mod() {
    assert_eq!(with(&[MOD, SRC, CHS, VER, IFV]), (0, 0, 0));
    assert_eq!(with(&[MOD, IFV, VER, CHS, SRC]), (0, 0, 0));
    assert_eq!(with(&[SRC, MOD, CHS, VER, IFV]), (2, 0, 1));
}

#[test]
fn blank_lines_and_comments_anywhere() {
    let lines = [
        "", "com; a", MOD, "  ", SRC, "com;", CHS, VER, "com;x;y", IFV, "",
    ];
    assert_eq!(with(&lines), (0, 0, 0));
    let mark = [MOD, SRC, CHS, "com; \"SUGGESTED 99\"", VER, IFV];
    assert_eq!(with(&mark), (0, 0, 0));
}

#[test]
fn something_missing_is_the_line_count() {
    assert_eq!(with(&[MOD, SRC, CHS, VER]), (2, 0, 4));
    assert_eq!(with(&[MOD, "", "com; x", CHS, VER, IFV, ""]), (2, 0, 7));
    assert_eq!(with(&["com; x", ""]), (2, 0, 2));
}

#[test]
fn no_section_and_no_trailer_leaves_all_to_the_header() {
    let all = [MOD, SRC, CHS, VER, IFV].join("\n");
    assert_eq!(answer(all.as_bytes()), (3, 0, 0));
    assert_eq!(answer(b"tbl; X\n"), (2, 0, 0));
    assert_eq!(answer(b"eof; 0\n"), (2, 0, 0));
}

#[test]
fn second_ones_are_at_fault_at_their_place() {
    for again in [MOD, SRC, CHS, VER, IFV] {
        assert_eq!(
            with(&[MOD, SRC, CHS, VER, IFV, again]),
            (2, 0, 6),
            "{again}"
        );
    }
    for again in ["dve; \"\"", "fft; \"\""] {
        assert_eq!(with(&[MOD, again, again, SRC, CHS, VER, IFV]), (2, 0, 3));
        assert_eq!(with(&[MOD, again, SRC, CHS, VER, IFV]), (0, 0, 0));
    }
}

#[test]
fn foreign_lines_are_at_fault() {
    for line in [
        "rec; 1", "atr; X", "frm; X", "end; 0", "abc; 1", "com", "x", ";", "MOD; 1",
    ] {
        assert_eq!(with(&[MOD, SRC, line, CHS, VER, IFV]), (2, 0, 3), "{line}");
    }
}

#[test]
fn modes() {
    let lines = |mode| [mode, SRC, CHS, VER, IFV];
    for mode in [
        "mod; DD.MM.YYYY; HH:MM:SS; aligned",
        " mod ;DD.MM.YYYY;HH:MM:SS;  free ",
    ] {
        assert_eq!(with(&lines(mode)), (0, 0, 0), "{mode}");
    }
    for mode in [
        "mod; DD.MM.YY; HH:MM:SS; free",
        "mod; DD.MM.YYYY; HH:MM; free",
        "mod; DD.MM.YYYY; HH:MM:SS; Free",
        "mod; \"DD.MM.YYYY\"; HH:MM:SS; free",
        "mod; DD.MM.YYYY; HH:MM:SS",
        "mod; DD.MM.YYYY; HH:MM:SS; free;",
        "mod; MM.DD.YYYY; HH:MM:SS; free",
        "mod;",
    ] {
        assert_eq!(with(&lines(mode)), (2, 0, 1), "{mode}");
    }
}

#[test]
fn dates_are_in_the_stated_form() {
    let slashed = "mod; YYYY/MM/DD; HH:MM:SS; free";
    let source = "src; \"Desk\"; \"2024/02/29\"; \"23:59:59\"";
    assert_eq!(with(&[slashed, source, CHS, VER, IFV]), (0, 0, 0));
    assert_eq!(with(&[slashed, SRC, CHS, VER, IFV]), (2, 0, 2));
    assert_eq!(with(&[MOD, source, CHS, VER, IFV]), (2, 0, 2));
}

#[test]
fn sources() {
    for source in [
        "src; \"Desk\"; 01.02.2024; \"06:00:00\"",
        "src; \"Desk\"; \"01.02.2024\"; \"24:00:00\"",
        "src; \"Desk\"; \"29.02.2023\"; \"06:00:00\"",
        "src; \"Desk\"; \"01.01.0000\"; \"06:00:00\"",
        "src; \"Desk\"; \" 01.02.2024\"; \"06:00:00\"",
        "src; Desk; \"01.02.2024\"; \"06:00:00\"",
        "src; \"Desk\"; \"01.02.2024\"",
        "src; \"Desk\"; \"01.02.2024\"; \"06:00:00\"; ",
        "src; \"Desk; \"01.02.2024\"; \"06:00:00\"",
    ] {
        assert_eq!(with(&[MOD, source, CHS, VER, IFV]), (2, 0, 2), "{source}");
    }
}

#[test]
fn character_sets() {
    for set in ["ASCII", "ISO8859-1", "ISO-8859-1"] {
        let line = format!("chs; \"{set}\"");
        assert_eq!(with(&[MOD, SRC, &line, VER, IFV]), (0, 0, 0), "{set}");
    }
    for line in [
        "chs; ASCII",
        "chs; \"ascii\"",
        "chs; \"UTF-8\"",
        "chs; \"ISO8859-15\"",
        "chs; \"ASCII \"",
        "chs; \"\"",
        "chs; 'ASCII'",
    ] {
        assert_eq!(with(&[MOD, SRC, line, VER, IFV]), (2, 0, 3), "{line}");
    }
}

#[test]
fn bad_bytes_in_comments_too() {
    let file = [&b"com; f\xfcr\n"[..], HEADER, b"eof; 0\n"].concat();
    assert_eq!(answer(&file), (2, 0, 1));
    let file = [HEADER, b"\r\r\n", b"eof; 0\n"].concat();
    assert_eq!(answer(&file), (2, 0, 6));
}

#[test]
fn values() {
    let file = b"mod; YYYY/MM/DD; HH:MM:SS; aligned\n\
        fft; \"LIO\"\n\
        src; \"say \"\"so\"\"\"; \"1998/06/18\"; \"14:05:48\"\n\
        ver; \"\"\nifv; \"Version_1.7\"\nchs; \"ISO-8859-1\"\neof; 0";
    let header = header(file).unwrap();
    assert_eq!(&*header.source.undone(), b"say \"so\"");
    assert_eq!(
        header.date,
        Date {
            year: 1998,
            month: 6,
            day: 18
        }
    );
    assert_eq!(
        header.time,
        Time {
            hour: 14,
            minute: 5,
            second: 48
        }
    );
    assert_eq!(header.charset, Charset::Latin1);
    assert!(header.version.is_empty());
    assert_eq!(&file[header.interface.span()], b"Version_1.7");
    assert_eq!(header.data, None);
    assert_eq!(header.format.unwrap().stored(), b"LIO");
}

#[test]
fn header_texts_have_no_size() {
    let version = format!("ver; \"{}\"", "x".repeat(300));
    assert_eq!(with(&[MOD, SRC, CHS, &version, IFV]), (0, 0, 0));
}
