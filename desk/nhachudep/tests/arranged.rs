//! Files whose columns stand in the sender's order: what is shown, put out and
//! named goes by document 01's, what is pointed at by the file's.

mod common;

use std::fs;

use common::{examples, run_in, Folder};

fn example() -> Vec<u8> {
    fs::read(examples().join("arranged.x10")).unwrap()
}

/// The example with some bytes of it, which stand there once, changed.
fn changed(folder: &Folder, from: &str, to: &str) {
    let text: String = example().into_iter().map(char::from).collect();
    assert_eq!(text.matches(from).count(), 1, "{from}");
    folder.put("a.x10", latin(&text.replace(from, to)));
}

fn latin(text: &str) -> Vec<u8> {
    text.chars().map(|c| c as u8).collect()
}

/// The example's written form: "452's order", and marks renumbered.
const FORM: &str = "\
mod; DD.MM.YYYY; HH:MM:SS; free
src; \"Betriebshof Nord\"; \"13.01.2025\"; \"07:30:00\"
chs; \"ISO8859-1\"
ver; \"2.0\"
ifv; \"1.6\"
tbl; MENGE_BASIS_VERSIONEN
atr; BASIS_VERSION; BASIS_VERSION_TEXT
frm; num[9.0]; char[40]
com; \"SUGGESTED 2\"
rec; 42; \"Winterfahrplan\"
end; 1
tbl; MENGE_TAGESART
atr; BASIS_VERSION; TAGESART_NR; TAGESART_TEXT
frm; num[9.0]; num[3.0]; char[40]
rec; 42; 1; \"Schultag\"
com; \"SUGGESTED 3\"
rec; 42; 2; \"Ferientag für Schüler\"
rec; 42; 3; \"\"
end; 3
tbl; FIRMENKALENDER
atr; BASIS_VERSION; BETRIEBSTAG; BETRIEBSTAG_TEXT; TAGESART_NR
frm; num[9.0]; num[8.0]; char[40]; num[3.0]
rec; 42; 20250113; \"Montag\"; 1
com; \"SUGGESTED 3\"
rec; 42; 20250201; \"Erster Ferientag\"; 2
end; 2
tbl; MENGE_ONR_TYP
atr; BASIS_VERSION; ONR_TYP_NR; STR_ONR_TYP; ONR_TYP_TEXT
frm; num[9.0]; num[2.0]; char[6]; char[40]
rec; 42; 1; \"HP\"; \"Haltepunkt\"
rec; 42; 2; \"BHOF\"; \"\"
end; 2
tbl; REC_UEB
atr; BASIS_VERSION; BEREICH_NR; ONR_TYP_NR; ORT_NR; UEB_ZIEL_TYP; UEB_ZIEL; UEB_LAENGE
frm; num[9.0]; num[3.0]; num[2.0]; num[6.0]; num[2.0]; num[6.0]; num[6.0]
rec; 42; 1; 1; 117; 2; 1; 4200
end; 1
eof; 5
";

#[test]
fn the_example_is_sound() {
    let run = run_in(&examples(), &["check", "--strict", "arranged.x10"]);
    run.expect(0, "arranged.x10: sound\n", "");
}

#[test]
fn tables_are_shown_in_document_01_s_order() {
    run_in(&examples(), &["show", "arranged.x10"]).expect(
        0,
        "\
MENGE_BASIS_VERSIONEN (485), section 1
record  BASIS_VERSION    BASIS_VERSION_TEXT
     1             42  * \"Winterfahrplan\"

MENGE_TAGESART (290), section 2
record  BASIS_VERSION  TAGESART_NR    TAGESART_TEXT
     1             42            1    \"Schultag\"
     2             42            2  * \"Ferientag für Schüler\"
     3             42            3    \"\"

FIRMENKALENDER (348), section 3
record  BASIS_VERSION  BETRIEBSTAG    BETRIEBSTAG_TEXT    TAGESART_NR
     1             42     20250113    \"Montag\"                      1
     2             42     20250201  * \"Erster Ferientag\"            2

MENGE_ONR_TYP (998), section 4
record  BASIS_VERSION  ONR_TYP_NR  STR_ONR_TYP    ONR_TYP_TEXT
     1             42           1  \"HP\"           \"Haltepunkt\"
     2             42           2  \"BHOF\"         \"\"

REC_UEB (225), section 5
record  BASIS_VERSION  BEREICH_NR  ONR_TYP_NR  ORT_NR  UEB_ZIEL_TYP  UEB_ZIEL  UEB_LAENGE
     1             42           1           1     117             2         1        4200

* a suggestion, not the operator's text
",
        "",
    );
}

#[test]
fn tables_for_machines_too() {
    let run = run_in(&examples(), &["show", "arranged.x10", "290", "--json"]);
    assert_eq!((run.code, run.err.as_str()), (0, ""));
    let table = "\"columns\":[\"BASIS_VERSION\",\"TAGESART_NR\",\"TAGESART_TEXT\"],\"records\":[\
        [42,1,{\"text\":\"Schultag\",\"suggestion\":false}],\
        [42,2,{\"text\":\"Ferientag für Schüler\",\"suggestion\":true}],\
        [42,3,{\"text\":\"\",\"suggestion\":false}]]";
    assert!(run.text().contains(table), "{}", run.text());
}

#[test]
fn our_sentences_are_found_by_line() {
    run_in(&examples(), &["marks", "arranged.x10"]).expect(
        0,
        "\
MENGE_BASIS_VERSIONEN (485), section 1
our sentence      key  record  line
\"Winterfahrplan\"  42        1    11

MENGE_TAGESART (290), section 2
our sentence             key   record  line
\"Ferientag für Schüler\"  42;2       2    18

FIRMENKALENDER (348), section 3
our sentence        key          record  line
\"Erster Ferientag\"  42;20250201       2    26

3 of 8 texts are ours, 2 are empty
",
        "",
    );
    let run = run_in(&examples(), &["marks", "arranged.x10", "--json"]);
    let mark = "\"record\":2,\"field\":3,\"column\":\"TAGESART_TEXT\",\"line\":6,\"file_line\":18";
    assert!(run.text().contains(mark), "{}", run.text());
}

#[test]
fn the_form_has_document_01_s_order() {
    let folder = Folder::new("arranged-write");
    folder.put("a.x10", example());
    let run = folder.run(&["write", "a.x10"]);
    assert_eq!((run.code, run.err.as_str()), (0, ""));
    assert_eq!(run.out, latin(FORM));
    folder.put("b.x10", latin(FORM));
    assert_eq!(folder.run(&["write", "b.x10"]).out, latin(FORM));
    let bare = FORM
        .replace("com; \"SUGGESTED 2\"\n", "")
        .replace("com; \"SUGGESTED 3\"\n", "")
        .replace("Winterfahrplan", "")
        .replace("Ferientag für Schüler", "")
        .replace("Erster Ferientag", "");
    assert_eq!(folder.run(&["strip", "a.x10"]).out, latin(&bare));
}

/// "A fill goes on naming the column by its number in document 01's table."
#[test]
fn a_fill_names_the_column_by_its_number() {
    let folder = Folder::new("arranged-fill");
    folder.put("a.x10", example());
    let filled = FORM.replace(
        "rec; 42; 3; \"\"",
        "com; \"SUGGESTED 3\"\nrec; 42; 3; \"Samstag\"",
    );
    let run = folder.run(&["fill", "a.x10", "2", "3", "3", "Samstag"]);
    assert_eq!((run.code, run.err.as_str()), (0, ""));
    assert_eq!(run.out, latin(&filled));
    folder
        .run(&["fill", "a.x10", "2", "3", "2", "Samstag"])
        .expect(
            1,
            "",
            "a.x10: 23 field may not be filled\n       \
             = field 2 of MENGE_TAGESART is TAGESART_NR; only 3 may be filled, TAGESART_TEXT\n",
        );
    let run = folder.run(&["fill", "a.x10", "5", "1", "1", "x"]);
    assert!(run
        .err
        .ends_with("= field 1 of REC_UEB is BASIS_VERSION; none may be filled\n"));
}

/// Refusals of a field say the column that stands there.
#[test]
fn fields_at_fault() {
    let folder = Folder::new("arranged-fields");
    for (from, to, told) in [
        (
            "frm; num[3.0]; char[40]; num[9.0]",
            "frm; num[9.0]; num[3.0]; char[40]",
            "section 2, line 3: 9 `frm` differs from the columns' kinds\n    \
             15 | frm; num[9.0]; num[3.0]; char[40]\n       \
             |                ^^^^^^^^\n       \
             = format of TAGESART_TEXT: char[n] is expected, n from 1 to 255\n",
        ),
        (
            "rec; 1; \"Schultag\"; 42",
            "rec; 1; Schultag; 42",
            "section 2, line 4: 11 not a text\n    \
             16 | rec; 1; Schultag; 42\n       \
             |         ^^^^^^^^\n       \
             = TAGESART_TEXT stands here, a text of up to 40 bytes\n",
        ),
        (
            "rec; 1; \"Montag\"; 20250113; 42",
            "rec; 1; \"Montag\"; 13.01.2025; 42",
            "section 3, line 4: 12 not a number\n    \
             24 | rec; 1; \"Montag\"; 13.01.2025; 42\n       \
             |                   ^^^^^^^^^^\n       \
             = BETRIEBSTAG stands here, a number from 1 to 99999999\n       \
             = a day is YYYYMMDD, from 00010101 to 99991231, leading zeros optional\n",
        ),
        (
            "rec; \"HP\"; \"Haltepunkt\"; 1; 42",
            "rec; \"Haltepunkt\"; \"HP\"; 1; 42",
            "section 4, line 4: 13 number out of range, or text over its size\n    \
             31 | rec; \"Haltepunkt\"; \"HP\"; 1; 42\n       \
             |      ^^^^^^^^^^^^\n       \
             = STR_ONR_TYP stands here, a text of up to 6 bytes\n",
        ),
    ] {
        changed(&folder, from, to);
        let run = folder.run(&["check", "a.x10"]);
        run.expect(1, "", &format!("a.x10: {told}"));
    }
}

/// Keys, points and references are pointed at where their columns stand.
#[test]
fn records_at_fault() {
    let folder = Folder::new("arranged-records");
    for (from, to, told) in [
        (
            "rec; 4200; 1; 2; 117; 1; 1; 42",
            "rec; 4200; 117; 1; 117; 1; 1; 42",
            "section 5, line 4: 14 the two points are the same\n    \
             37 | rec; 4200; 117; 1; 117; 1; 1; 42\n       \
             |            ^^^  ^  ^^^  ^\n",
        ),
        (
            "rec; 3; \"\"; 42",
            "rec; 2; \"\"; 42",
            "section 2, line 7: 18 primary key met before\n    \
             19 | rec; 2; \"\"; 42\n       \
             |      ^      ^^\n",
        ),
        (
            "rec; \"BHOF\"; \"\"; 2; 42",
            "rec; \"HP\"; \"\"; 2; 42",
            "section 4, line 5: 19 second key met before\n    \
             32 | rec; \"HP\"; \"\"; 2; 42\n       \
             |      ^^^^         ^^\n",
        ),
        (
            "rec; 1; \"Montag\"; 20250113; 42",
            "rec; 4; \"Montag\"; 20250113; 42",
            "section 3, line 4: 20 a reference finds no record\n    \
             24 | rec; 4; \"Montag\"; 20250113; 42\n       \
             |      ^                      ^^\n       \
             = no record of MENGE_TAGESART has BASIS_VERSION 42, TAGESART_NR 4\n",
        ),
    ] {
        changed(&folder, from, to);
        let run = folder.run(&["check", "a.x10"]);
        run.expect(1, "", &format!("a.x10: {told}"));
    }
}

const RULE: &str = "15 mark misplaced, unreadable, not allowed, not rising, on an empty text, \
    or with no record";

/// "A mark's number counts in the file's own order."
#[test]
fn marks_at_fault() {
    let folder = Folder::new("arranged-marks");
    let before = "com; \"SUGGESTED 2\"\nrec; 2; \"Ferientag";
    for (to, told) in [
        (
            "com; \"SUGGESTED 3\"\nrec; 2; \"Ferientag",
            "    17 | com; \"SUGGESTED 3\"\n       |      ^^^^^^^^^^^^^\n       \
             = BASIS_VERSION stands 3rd in this `atr`, and may not be marked\n       \
             = only TAGESART_TEXT may be marked, which stands 2nd\n",
        ),
        (
            "com; \"SUGGESTED 4\"\nrec; 2; \"Ferientag",
            "    17 | com; \"SUGGESTED 4\"\n       |      ^^^^^^^^^^^^^\n       \
             = MENGE_TAGESART has 3 columns, and the mark counts to 4\n       \
             = only TAGESART_TEXT may be marked, which stands 2nd\n",
        ),
        (
            "com; SUGGESTED\ncom; \"SUGGESTED 2\"\nrec; 2; \"\"; 42\nrec; 4; \"Ferientag",
            "    19 | rec; 2; \"\"; 42\n       |         ^^\n       \
             = TAGESART_TEXT is marked, and empty\n",
        ),
    ] {
        changed(&folder, before, to);
        let run = folder.run(&["check", "a.x10"]);
        assert!(
            run.err.starts_with("a.x10: section 2, line "),
            "{}",
            run.err
        );
        assert!(
            run.err.ends_with(&format!(": {RULE}\n{told}")),
            "{}",
            run.err
        );
    }
}

#[test]
fn a_lost_mark_is_told_of_by_its_column() {
    let folder = Folder::new("arranged-advice");
    changed(&folder, "com; \"SUGGESTED 1\"", "com; \"SUGGESTED 1");
    folder.run(&["check", "a.x10"]).expect(
        0,
        "a.x10: sound\n",
        "a.x10: line 10 looks like a mark but is none; \
         the text after it, BASIS_VERSION_TEXT, counts as the operator's\n    \
         10 | com; \"SUGGESTED 1\n       = section 1, line 4, before record 1\n",
    );
}
