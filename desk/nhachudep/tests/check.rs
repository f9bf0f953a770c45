//! `nhachudep check`.

mod common;

use std::fs;

use common::{cases, examples, run_in, Folder, DAMAGED, SMALL};

#[test]
fn a_sound_file() {
    let run = run_in(&examples(), &["check", "depot-week.x10"]);
    run.expect(0, "depot-week.x10: sound\n", "");
}

#[test]
fn a_refused_file_shows_its_line() {
    run_in(&examples(), &["check", "damaged.x10"]).expect(1, "", DAMAGED);
}

#[test]
fn several_files() {
    let run = run_in(
        &examples(),
        &["check", "451-1.x10", "damaged.x10", "451-2.x10"],
    );
    let told = format!("{DAMAGED}2 of 3 files are sound\n");
    run.expect(1, "451-1.x10: sound\n451-2.x10: sound\n", &told);
}

#[test]
fn a_file_that_is_not_there_does_not_hide_the_others() {
    let run = run_in(
        &examples(),
        &["check", "451-1.x10", "none.x10", "damaged.x10"],
    );
    assert_eq!(run.code, 2);
    assert_eq!(run.text(), "451-1.x10: sound\n");
    assert!(run.err.starts_with("nhachudep: none.x10: "));
    assert!(run
        .err
        .contains("damaged.x10: section 1, line 4: 11 not a text\n"));
    assert!(run.err.ends_with("1 of 3 files are sound\n"));
}

#[test]
fn standard_input() {
    let folder = Folder::new("check-input");
    folder
        .fed(&["check", "-"], SMALL.as_bytes())
        .expect(0, "-: sound\n", "");
    let refused = folder.fed(&["check", "-"], b"");
    assert_eq!(refused.code, 1);
    assert!(refused
        .err
        .starts_with("-: header, line 0: 2 header breaks a rule\n"));
    assert!(refused
        .err
        .contains("missing in the header: mod, src, chs, ver, ifv"));
}

#[test]
fn header_and_trailer_places() {
    let folder = Folder::new("check-places");
    folder.put(
        "header.x10",
        SMALL.replace("\"01.02.2024\"", "\"31.02.2024\""),
    );
    let refused = folder.run(&["check", "header.x10"]);
    assert_eq!(
        refused.err,
        "header.x10: header, line 2: 2 header breaks a rule\n     \
         2 | src; \"Desk\"; \"31.02.2024\"; \"06:00:00\"\n"
    );
    folder.put("missing.x10", SMALL.replace("ver; \"1\"\n", ""));
    let refused = folder.run(&["check", "missing.x10"]);
    assert!(
        refused.err.starts_with("missing.x10: header, line 4: 2 "),
        "{}",
        refused.err
    );
    assert!(refused.err.ends_with("= missing in the header: ver\n"));
    folder.put("trailer.x10", SMALL.replace("eof; 1", "eof; 2"));
    let refused = folder.run(&["check", "trailer.x10"]);
    assert_eq!(
        refused.err,
        "trailer.x10: trailer, line 1: 3 trailer breaks a rule\n    13 | eof; 2\n       \
         = `tbl` lines in the file: 1\n"
    );
    folder.put("no-eof.x10", SMALL.replace("eof; 1\n", ""));
    let refused = folder.run(&["check", "no-eof.x10"]);
    let told = "no-eof.x10: trailer, line 0: 3 trailer breaks a rule\n";
    assert_eq!(
        refused.err,
        format!("{told}       = no `eof` line stands\n")
    );
    folder.put("no-end.x10", SMALL.replace("end; 2\n", ""));
    let refused = folder.run(&["check", "no-end.x10"]);
    assert!(refused.err.starts_with("no-end.x10: section 1, line 6: 6 "));
    assert!(refused.err.ends_with("= the section has no `end`\n"));
}

#[test]
fn control_bytes_are_visible_and_letters_are_letters() {
    let folder = Folder::new("check-bytes");
    let odd = SMALL.replace("Winter", "W\u{1}");
    let odd: Vec<u8> = odd.bytes().map(|b| if b == 1 { 0x1b } else { b }).collect();
    folder.put("odd.x10", odd);
    let refused = folder.run(&["check", "odd.x10"]);
    assert_eq!(
        refused.err,
        "odd.x10: section 1, line 5: 4 byte not allowed in this line\n    \
         10 | rec; 7; \"W\\x1b\"\n       |           ^^^^\n"
    );
    let text = SMALL.replace("rec; 8; \"\"", "rec; 7; \"W\"");
    let text: Vec<u8> = text
        .bytes()
        .map(|b| if b == b'W' { 0xfc } else { b })
        .collect();
    folder.put("letter.x10", text);
    let refused = folder.run(&["check", "letter.x10"]);
    assert!(
        refused.err.contains("11 | rec; 7; \"ü\"\n"),
        "{}",
        refused.err
    );
}

/// The reference is named that finds nothing, and its fields are marked.
#[test]
fn a_lost_reference() {
    let folder = Folder::new("check-reference");
    let tables = "tbl; MENGE_TAGESART\n\
        atr; BASIS_VERSION; TAGESART_NR; TAGESART_TEXT\n\
        frm; num[9.0]; num[3.0]; char[40]\n\
        rec; 7; 1; \"Schultag\"\n\
        end; 1\n\
        tbl; FIRMENKALENDER\n\
        atr; BASIS_VERSION; BETRIEBSTAG; BETRIEBSTAG_TEXT; TAGESART_NR\n\
        frm; num[9.0]; num[8.0]; char[40]; num[3.0]\n\
        rec; 7; 20250106; \"\"; 1\n\
        com; \"a week later\"\n\
        rec; 8; 20250113; \"\"; 1\n\
        end; 2\n\
        eof; 3\n";
    let file = SMALL.replace("eof; 1\n", tables);
    folder.put("day.x10", &file);
    folder.run(&["check", "day.x10"]).expect(
        1,
        "",
        "day.x10: section 3, line 6: 20 a reference finds no record\n    \
         23 | rec; 8; 20250113; \"\"; 1\n       |      ^                ^\n       \
         = no record of MENGE_TAGESART has BASIS_VERSION 8, TAGESART_NR 1\n",
    );
    folder.put("version.x10", file.replace("rec; 8; 2025", "rec; 9; 2025"));
    let refused = folder.run(&["check", "version.x10"]);
    let note = "\n       = no record of MENGE_BASIS_VERSIONEN has BASIS_VERSION 9\n";
    assert!(refused.err.ends_with(note), "{}", refused.err);
}

/// 8 says every name that is missing, stands again, or is no column.
#[test]
fn names_at_fault() {
    let folder = Folder::new("check-names");
    let expected = "= expected, each once and in any order: BASIS_VERSION, BASIS_VERSION_TEXT\n";
    for (atr, told) in [
        (
            "atr; BASIS_VERSION",
            "       = missing: BASIS_VERSION_TEXT\n       ",
        ),
        (
            "atr; BASIS_VERSION; BASIS_VERSION",
            "       |                     ^^^^^^^^^^^^^\n       \
             = named before: BASIS_VERSION\n       \
             = missing: BASIS_VERSION_TEXT\n       ",
        ),
        (
            "atr; BASIS_TEXT; BASIS_VERSION; BASIS_VERSION; X",
            "       |      ^^^^^^^^^^                 ^^^^^^^^^^^^^  ^\n       \
             = no column of MENGE_BASIS_VERSIONEN: BASIS_TEXT, X\n       \
             = named before: BASIS_VERSION\n       \
             = missing: BASIS_VERSION_TEXT\n       ",
        ),
        (
            "atr; BASIS_VERSION; BASIS_VERSION_TEXT;",
            "       = no column of MENGE_BASIS_VERSIONEN: an empty name\n       ",
        ),
    ] {
        let right = "atr; BASIS_VERSION; BASIS_VERSION_TEXT";
        folder.put("a.x10", SMALL.replace(right, atr));
        folder.run(&["check", "a.x10"]).expect(
            1,
            "",
            &format!(
                "a.x10: section 1, line 2: 8 `atr` does not name each of the table's columns \
                 once\n     7 | {atr}\n{told}{expected}"
            ),
        );
    }
}

/// 15 says what is wrong with the mark, by the place where it stands.
#[test]
fn marks_at_fault() {
    let folder = Folder::new("check-marks");
    let mark = "com; \"SUGGESTED 2\"\n";
    let outside = "a mark stands behind `frm` and before `end`";
    for (from, to, line, note) in [
        ("atr;", format!("{mark}atr;"), 7, outside),
        ("frm;", format!("{mark}frm;"), 8, outside),
        ("eof;", format!("{mark}eof;"), 13, outside),
        (
            mark,
            mark.repeat(2),
            10,
            "the marks of one record rise: this one is no higher than the last",
        ),
        (
            mark,
            mark.replace('2', "02"),
            9,
            "after `SUGGESTED ` comes a number without leading zeros, and no more",
        ),
        (
            "rec; 8;",
            format!("{mark}rec; 8;"),
            12,
            "BASIS_VERSION_TEXT is marked, and empty",
        ),
        (
            "end;",
            format!("{mark}end;"),
            13,
            "the mark before it speaks of no record",
        ),
        (
            mark,
            mark.replace('2', "1"),
            9,
            "BASIS_VERSION stands 1st in this `atr`, and may not be marked\n       \
             = only BASIS_VERSION_TEXT may be marked, which stands 2nd",
        ),
    ] {
        folder.put("a.x10", SMALL.replace(from, &to));
        let run = folder.run(&["check", "a.x10"]);
        assert!(run.err.contains(": 15 mark "), "{}", run.err);
        assert!(run.err.contains(&format!("\n{line:6} | ")), "{}", run.err);
        let note = format!("\n       = {note}\n");
        assert!(run.err.ends_with(&note), "{}", run.err);
    }
}

/// Notes are no wider than a terminal, however many columns a table has.
#[test]
fn long_notes_are_wrapped() {
    let folder = Folder::new("check-wrapped");
    let times = "tbl; UEB_FZT\natr; BASIS_VERSION\nfrm; num[9.0]\nend; 0\neof; 2\n";
    folder.put("a.x10", SMALL.replace("eof; 1\n", times));
    let run = folder.run(&["check", "a.x10"]);
    assert!(
        run.err.ends_with(
            "= expected, each once and in any order: BASIS_VERSION, BEREICH_NR,\n         \
             FGR_NR, ONR_TYP_NR, ORT_NR, UEB_ZIEL_TYP, UEB_ZIEL, UEB_FAHRZEIT\n"
        ),
        "{}",
        run.err
    );
}

#[test]
fn a_file_over_the_limit() {
    let folder = Folder::new("check-limit");
    folder.put("long.x10", vec![b' '; 16_777_217]);
    let run = folder.run(&["check", "long.x10"]);
    run.expect(1, "", "long.x10: 1 file over 16,777,216 bytes\n");
}

#[test]
fn json() {
    let run = run_in(
        &examples(),
        &["check", "--json", "451-1.x10", "damaged.x10"],
    );
    run.expect(
        1,
        "{\"file\":\"451-1.x10\",\"number\":0,\"part\":null,\"section\":0,\"line\":0,\
         \"rule\":\"sound\",\"advice\":[]}\n\
         {\"file\":\"damaged.x10\",\"number\":11,\"part\":\"section\",\"section\":1,\"line\":4,\
         \"rule\":\"not a text\",\"advice\":[]}\n",
        "",
    );
}

/// Every case, told as its name and place say.
#[test]
fn every_case() {
    let places = fs::read_to_string(cases().join("places.txt")).unwrap();
    let mut names = Vec::new();
    let mut expected = Vec::new();
    for line in places.lines() {
        let words: Vec<&str> = line.split(' ').collect();
        let [name, section, place] = words[..] else {
            panic!("{line}");
        };
        names.push(name);
        let number: u32 = name[..2].parse().unwrap();
        let part = match (number, section) {
            (0, _) => continue,
            (2, _) => "header".to_owned(),
            (3, _) => "trailer".to_owned(),
            _ => format!("section {section}"),
        };
        expected.push(format!("{name}: {part}, line {place}: {number} "));
    }
    let run = run_in(&cases().join("data"), &[&["check"], &names[..]].concat());
    assert_eq!(run.code, 1);
    let told: Vec<&str> = run
        .err
        .lines()
        .filter(|line| !line.starts_with(' ') && !line.contains("looks like a mark"))
        .collect();
    assert_eq!(told.len(), expected.len() + 1);
    for (told, expected) in told.iter().zip(&expected) {
        assert!(told.starts_with(expected), "{told}\n{expected}");
    }
    let lost = told.iter().filter(|line| line.contains(": 20 ")).count();
    let named = run.err.matches("\n       = no record of ").count();
    assert!(lost > 0 && lost == named, "{lost} {named}");
    let broken = told.iter().filter(|line| line.contains(": 25 ")).count();
    let named = run
        .err
        .matches("\n       = with LEITSTELLENKENNUNG ")
        .count();
    assert_eq!(broken, named);
    let unreal = told.iter().filter(|line| line.contains(": 26 ")).count();
    let named = run.err.matches(" stands here, and is no day: ").count();
    assert_eq!(unreal, named);
    assert!(!run.err.contains('\x1b'));
    assert_eq!(run.text().lines().count(), names.len() - expected.len());
}
