//! A C program over `include/vdv.h`, linked with the same archive.

use std::io::Write;
use std::path::{Path, PathBuf};
use std::process::{Command, Stdio};

const FILE: &[u8] = b"mod; DD.MM.YYYY; HH:MM:SS; free\n\
    src; \"Desk\"; \"01.02.2024\"; \"06:00:59\"\n\
    chs; \"ISO8859-1\"\nver; \"1\"\nifv; \"1.0\"\nfft; \"plain\"\n\
    tbl; MENGE_BASIS_VERSIONEN\n\
    atr; BASIS_VERSION; BASIS_VERSION_TEXT\n\
    frm; num[9.0]; char[40]\n\
    com; \"SUGGESTED 2\"\n\
    rec; 7; \"Winter\"\n\
    end; 1\n\
    eof; 1\n";

/// The same with its columns in another order.
const ARRANGED: &[u8] = b"mod; DD.MM.YYYY; HH:MM:SS; free\n\
    src; \"Desk\"; \"01.02.2024\"; \"06:00:59\"\n\
    chs; \"ISO8859-1\"\nver; \"1\"\nifv; \"1.0\"\nfft; \"plain\"\n\
    tbl; MENGE_BASIS_VERSIONEN\n\
    atr; BASIS_VERSION_TEXT; BASIS_VERSION\n\
    frm; char[40]; num[9.0]\n\
    com; \"SUGGESTED 1\"\n\
    rec; \"Winter\"; 7\n\
    end; 1\n\
    eof; 1\n";

/// A version, and a connection whose last number is this.
fn connection(last: &str) -> String {
    format!(
        "mod; DD.MM.YYYY; HH:MM:SS; free\n\
        src; \"Desk\"; \"01.02.2024\"; \"06:00:59\"\n\
        chs; \"ISO8859-1\"\nver; \"1\"\nifv; \"1.0\"\nfft; \"plain\"\n\
        tbl; MENGE_BASIS_VERSIONEN\n\
        atr; BASIS_VERSION; BASIS_VERSION_TEXT\n\
        frm; num[9.0]; char[40]\n\
        rec; 7; \"\"\n\
        end; 1\n\
        tbl; EINZELANSCHLUSS\n\
        atr; BASIS_VERSION; EINAN_NR; ANSCHLUSS_NAME; ANSCHLUSS_GRUPPE; LEITSTELLENKENNUNG; \
        ZUB_LI_NR; ZUB_LI_RI_NR; ZUB_ORT_REF_ORT; ZUB_ONR_TYP_NR; ZUB_ORT_NR; VON_ORT_REF_ORT; \
        LinienID; RichtungsID; ASBID; ABB_LI_NR; ABB_LI_RI_NR; ABB_ORT_REF_ORT; ABB_ONR_TYP_NR; \
        ABB_ORT_NR; NACH_ORT_REF_ORT\n\
        frm; num[9.0]; num[5.0]; char[40]; char[6]; num[3.0]; num[6.0]; num[3.0]; num[6.0]; \
        num[2.0]; num[6.0]; num[6.0]; char[6]; char[6]; char[10]; num[6.0]; num[3.0]; num[6.0]; \
        num[2.0]; num[6.0]; num[6.0]\n\
        rec; 7; 1; \"\"; \"\"; 0; 12; 1; 117; ; ; ; \"\"; \"\"; \"\"; 5; 0; 117; ; ; {last}\n\
        end; 1\n\
        eof; 2\n"
    )
}

/// A version, and the day from which it is valid.
fn valid_from(day: &str) -> Vec<u8> {
    let (file, trailer) = FILE.split_at(FILE.len() - b"eof; 1\n".len());
    assert_eq!(trailer, b"eof; 1\n");
    let validity = format!(
        "tbl; BASIS_VER_GUELTIGKEIT\n\
        atr; VER_GUELTIGKEIT; BASIS_VERSION\n\
        frm; num[8.0]; num[9.0]\n\
        rec; {day}; 7\n\
        end; 1\n\
        eof; 2\n"
    );
    [file, validity.as_bytes()].concat()
}

fn compiled(name: &str) -> PathBuf {
    let here = Path::new(env!("CARGO_MANIFEST_DIR"));
    let out = Path::new(env!("CARGO_TARGET_TMPDIR")).join(name);
    let status = Command::new("cc")
        .args(["-std=c11", "-Wall", "-Wextra", "-Werror", "-I"])
        .arg(here.join("include"))
        .arg(here.join("tests/program.c"))
        .arg(Path::new(env!("OUT_DIR")).join("libvdv.a"))
        .arg("-o")
        .arg(&out)
        .status();
    assert!(status.expect("a C compiler").success());
    out
}

fn said(program: &Path, file: &[u8]) -> Vec<u8> {
    let mut child = Command::new(program)
        .stdin(Stdio::piped())
        .stdout(Stdio::piped())
        .spawn()
        .unwrap();
    child.stdin.take().unwrap().write_all(file).unwrap();
    let output = child.wait_with_output().unwrap();
    assert!(output.status.success());
    output.stdout
}

/// The file as it is written, with this before and in the record.
fn form(mark: &str, text: &[u8]) -> Vec<u8> {
    let head = "mod; DD.MM.YYYY; HH:MM:SS; free\n\
        src; \"Desk\"; \"01.02.2024\"; \"06:00:59\"\n\
        chs; \"ISO8859-1\"\nver; \"1\"\nifv; \"1.0\"\nfft; \"plain\"\n\
        tbl; MENGE_BASIS_VERSIONEN\n\
        atr; BASIS_VERSION; BASIS_VERSION_TEXT\n\
        frm; num[9.0]; char[40]\n";
    let start = format!("{head}{mark}rec; 7; \"");
    [start.as_bytes(), text, b"\"\nend; 1\neof; 1\n"].concat()
}

/// What the program says of either file: only the text's place is the file's.
fn told(file: &[u8]) -> Vec<u8> {
    let place = |part: &[u8]| file.windows(part.len()).position(|p| p == part).unwrap();
    let (table, text) = (place(b"tbl;"), place(b"Winter"));
    let mark = "com; \"SUGGESTED 2\"\n";
    let told = format!(
        "check;sound\nheader;0;2024;59;1;1;0;1;plain\nsection;0;485;{table};1\nlist;0;485;1;9\n\
         value;0;0;7;\nvalue;0;2;0;Winter\nvalue;24;0;0;\ntext;0;2;Winter\n\
         table;0;6;0;7;0;2;{text};{};9\nlast;24;0;0;0;0;24;24;0;0;0\n",
        text + b"Winter".len()
    );
    let parts = [
        told.as_bytes(),
        b"write;0\n",
        &form(mark, b"Winter"),
        b"strip;0\n",
        &form("", b""),
        b"fill;0\n",
        &form(mark, b"S\xfcd"),
    ];
    parts.concat()
}

fn is_told(name: &str, file: &[u8]) {
    let said = said(&compiled(name), file);
    let (said, told) = (said.escape_ascii(), told(file));
    assert_eq!(said.to_string(), told.escape_ascii().to_string());
}

#[test]
fn c_is_told_the_same() {
    is_told("accepted", FILE);
}

#[test]
fn c_is_told_columns_by_their_numbers() {
    is_told("arranged", ARRANGED);
}

/// "an empty field is a missing number": of a kind of its own, and no amount.
#[test]
fn c_is_told_a_missing_number() {
    let program = compiled("connection");
    for (last, told) in [
        ("", "last;0;3;0;0;0;11;0;3;0;0\n"),
        ("120", "last;0;0;120;0;0;11;0;0;120;0\n"),
    ] {
        let file = connection(last);
        let said = said(&program, file.as_bytes());
        let said = String::from_utf8_lossy(&said);
        assert!(said.starts_with("check;sound\n"), "{said}");
        assert!(said.contains(&format!("\n{told}")), "{said}");
        let form = format!("write;0\n{file}strip;0\n{file}");
        assert!(said.contains(&form), "{said}");
    }
}

/// "20240229 passes, 20230229 does not."
#[test]
fn c_is_told_a_day_that_is_none() {
    let program = compiled("day");
    for (day, check, write) in [
        ("20240229", "check;sound\n", "\nwrite;0\nmod; "),
        ("20230229", "check;26;2;4\n", "\nwrite;26\nstrip;26\n"),
    ] {
        let said = said(&program, &valid_from(day));
        let said = String::from_utf8_lossy(&said);
        assert!(said.starts_with(check), "{said}");
        assert!(said.contains(write), "{said}");
    }
}

#[test]
fn c_is_told_a_refusal() {
    let program = compiled("refused");
    let told = "check;header;0\nheader;2;0;0;0;0;0;0;\nsection;2;0;0;0\nlist;2;0;0;9\n\
         value;2;0;0;\nvalue;2;0;0;\nvalue;2;0;0;\ntext;2;0;\ntable;2;0;0;0;0;0;0;0;9\n\
         last;2;0;0;0;0;2;2;0;0;0\nwrite;2\nstrip;2\nfill;2\n";
    assert_eq!(String::from_utf8(said(&program, b"")).unwrap(), told);
}
