//! Small files to test with.
#![allow(dead_code)]

use reader::{check, list, Answer, Row};

pub const HEADER: &[u8] = b"mod; DD.MM.YYYY; HH:MM:SS; free\n\
src; \"Desk\"; \"01.02.2024\"; \"06:00:00\"\n\
chs; \"ISO8859-1\"\n\
ver; \"1\"\n\
ifv; \"1.0\"\n";

pub const ASCII_HEADER: &[u8] = b"mod; DD.MM.YYYY; HH:MM:SS; free\n\
src; \"Desk\"; \"01.02.2024\"; \"06:00:00\"\n\
chs; \"ASCII\"\n\
ver; \"1\"\n\
ifv; \"1.0\"\n";

pub const VERSIONS: &[u8] = b"tbl; MENGE_BASIS_VERSIONEN\n\
atr; BASIS_VERSION; BASIS_VERSION_TEXT\n\
frm; num[9.0]; char[40]\n\
rec; 7; \"Winter\"\n\
end; 1\n";

pub const POINT_TYPES: &[u8] = b"tbl; MENGE_ONR_TYP\n\
atr; BASIS_VERSION; ONR_TYP_NR; STR_ONR_TYP; ONR_TYP_TEXT\n\
frm; num[9.0]; num[2.0]; char[6]; char[40]\n\
rec; 7; 1; \"HP\"; \"Haltepunkt\"\n\
rec; 7; 2; \"BHOF\"; \"Betriebshof\"\n\
end; 2\n";

const DAY_TYPE_HEAD: &[u8] = b"tbl; MENGE_TAGESART\n\
atr; BASIS_VERSION; TAGESART_NR; TAGESART_TEXT\n\
frm; num[9.0]; num[3.0]; char[40]\n";

const POINT_TYPE_HEAD: &[u8] = b"tbl; MENGE_ONR_TYP\n\
atr; BASIS_VERSION; ONR_TYP_NR; STR_ONR_TYP; ONR_TYP_TEXT\n\
frm; num[9.0]; num[2.0]; char[6]; char[40]\n";

const LINK_HEAD: &[u8] = b"tbl; REC_UEB\n\
atr; BASIS_VERSION; BEREICH_NR; ONR_TYP_NR; ORT_NR; UEB_ZIEL_TYP; UEB_ZIEL; UEB_LAENGE\n\
frm; num[9.0]; num[3.0]; num[2.0]; num[6.0]; num[2.0]; num[6.0]; num[6.0]\n";

const TIME_HEAD: &[u8] = b"tbl; UEB_FZT\n\
atr; BASIS_VERSION; BEREICH_NR; FGR_NR; ONR_TYP_NR; ORT_NR; UEB_ZIEL_TYP; UEB_ZIEL; UEB_FAHRZEIT\n\
frm; num[9.0]; num[3.0]; num[9.0]; num[2.0]; num[6.0]; num[2.0]; num[6.0]; num[6.0]\n";

const VALIDITY_HEAD: &[u8] = b"tbl; BASIS_VER_GUELTIGKEIT\n\
atr; VER_GUELTIGKEIT; BASIS_VERSION\n\
frm; num[8.0]; num[9.0]\n";

const CALENDAR_HEAD: &[u8] = b"tbl; FIRMENKALENDER\n\
atr; BASIS_VERSION; BETRIEBSTAG; BETRIEBSTAG_TEXT; TAGESART_NR\n\
frm; num[9.0]; num[8.0]; char[40]; num[3.0]\n";

pub const CONNECTION_COLUMNS: [&str; 20] = [
    "BASIS_VERSION",
    "EINAN_NR",
    "ANSCHLUSS_NAME",
    "ANSCHLUSS_GRUPPE",
    "LEITSTELLENKENNUNG",
    "ZUB_LI_NR",
    "ZUB_LI_RI_NR",
    "ZUB_ORT_REF_ORT",
    "ZUB_ONR_TYP_NR",
    "ZUB_ORT_NR",
    "VON_ORT_REF_ORT",
    "LinienID",
    "RichtungsID",
    "ASBID",
    "ABB_LI_NR",
    "ABB_LI_RI_NR",
    "ABB_ORT_REF_ORT",
    "ABB_ONR_TYP_NR",
    "ABB_ORT_NR",
    "NACH_ORT_REF_ORT",
];

pub const CONNECTION_FORMATS: [&str; 20] = [
    "num[9.0]", "num[5.0]", "char[40]", "char[6]", "num[3.0]", "num[6.0]", "num[3.0]", "num[6.0]",
    "num[2.0]", "num[6.0]", "num[6.0]", "char[6]", "char[6]", "char[10]", "num[6.0]", "num[3.0]",
    "num[6.0]", "num[2.0]", "num[6.0]", "num[6.0]",
];

const TRANSFER_HEAD: &[u8] = b"tbl; REC_UMS\n\
atr; BASIS_VERSION; EINAN_NR; TAGESART_NR; UMS_BEGINN; UMS_ENDE; UMS_MIN; UMS_MAX; \
MAX_VERZ_MAN; MAX_VERZ_AUTO\n\
frm; num[9.0]; num[5.0]; num[3.0]; num[6.0]; num[6.0]; num[5.0]; num[5.0]; num[5.0]; num[5.0]\n";

/// A section of this heading whose lines after `frm` are given.
fn section(head: &[u8], lines: &[&[u8]]) -> Vec<u8> {
    let mut out = head.to_vec();
    for line in lines {
        out.extend_from_slice(line);
        out.push(b'\n');
    }
    out
}

pub fn day_types(lines: &[&[u8]]) -> Vec<u8> {
    section(DAY_TYPE_HEAD, lines)
}

pub fn point_types(lines: &[&[u8]]) -> Vec<u8> {
    section(POINT_TYPE_HEAD, lines)
}

pub fn links(lines: &[&[u8]]) -> Vec<u8> {
    section(LINK_HEAD, lines)
}

pub fn times(lines: &[&[u8]]) -> Vec<u8> {
    section(TIME_HEAD, lines)
}

pub fn validity(lines: &[&[u8]]) -> Vec<u8> {
    section(VALIDITY_HEAD, lines)
}

pub fn calendar(lines: &[&[u8]]) -> Vec<u8> {
    section(CALENDAR_HEAD, lines)
}

pub fn connections(lines: &[&[u8]]) -> Vec<u8> {
    let [names, formats] = [CONNECTION_COLUMNS, CONNECTION_FORMATS].map(|all| all.join("; "));
    let head = format!("tbl; EINZELANSCHLUSS\natr; {names}\nfrm; {formats}\n");
    section(head.as_bytes(), lines)
}

pub fn transfers(lines: &[&[u8]]) -> Vec<u8> {
    section(TRANSFER_HEAD, lines)
}

/// A connection from a line of one's own, and from one that another control
/// centre runs. What may be missing is.
pub const OWN: [&str; 20] = [
    "7",
    "1",
    "\"Markt\"",
    "\"\"",
    "0",
    "12",
    "1",
    "500",
    "",
    "",
    "",
    "\"\"",
    "\"\"",
    "\"\"",
    "4",
    "2",
    "600",
    "",
    "",
    "",
];
pub const FOREIGN: [&str; 20] = [
    "7",
    "2",
    "\"\"",
    "\"A\"",
    "31",
    "0",
    "0",
    "0",
    "",
    "",
    "",
    "\"S1\"",
    "\"Nord\"",
    "\"Bahnhof\"",
    "4",
    "0",
    "600",
    "",
    "",
    "",
];

/// The record with other fields, each by its number from 1.
pub fn with<'f>(record: [&'f str; 20], changes: &[(usize, &'f str)]) -> [&'f str; 20] {
    let mut changed = record;
    for &(field, value) in changes {
        changed[field - 1] = value;
    }
    changed
}

/// As a `rec` line.
pub fn rec(fields: &[&str]) -> Vec<u8> {
    format!("rec; {}", fields.join("; ")).into_bytes()
}

/// The sections between a header and an `eof` that counts them.
pub fn file_under(header: &[u8], sections: &[&[u8]]) -> Vec<u8> {
    let mut out = header.to_vec();
    for section in sections {
        out.extend_from_slice(section);
    }
    out.extend_from_slice(format!("eof; {}\n", sections.len()).as_bytes());
    out
}

pub fn file(sections: &[&[u8]]) -> Vec<u8> {
    file_under(HEADER, sections)
}

/// A section's own verdict and line, alone in a file.
pub fn verdict(section: &[u8]) -> (u8, usize) {
    verdict_under(HEADER, section)
}

pub fn verdict_under(header: &[u8], section: &[u8]) -> (u8, usize) {
    let Row { verdict, line, .. } = list(&file_under(header, &[section])).unwrap()[0];
    (verdict, line)
}

pub fn answer(file: &[u8]) -> (u8, usize, usize) {
    let Answer {
        number,
        section,
        line,
    } = check(file);
    (number, section, line)
}

/// Document 01's listing example.
pub const DAMAGED: &[u8] = b"mod; DD.MM.YYYY; HH:MM:SS; free
src; \"Desk\"; \"01.02.2024\"; \"06:00:00\"
chs; \"ISO8859-1\"
ver; \"1\"
ifv; \"1.0\"
tbl; MENGE_TAGESART
atr; BASIS_VERSION; TAGESART_NR; TAGESART_TEXT
frm; num[9.0]; num[3.0]; char[40]
rec; 7; 1; \"School day
end; 1
tbl; MENGE_BASIS_VERSIONEN
atr; BASIS_VERSION; BASIS_VERSION_TEXT
frm; num[9.0]; char[40]
rec; 7; \"Winter\"
end; 1
eof; 2
";
