//! `nhachudep marks`: "Show me which of these sentences are ours."

mod common;

use common::{examples, run_in, Folder, DAMAGED, SMALL};

/// Text columns that a line of standard output may take.
const COLUMNS: usize = 80;

/// The depot planner's table: a mark, and a quote that is lost below it.
const DAYS: &str = "tbl; MENGE_TAGESART\n\
    atr; BASIS_VERSION; TAGESART_NR; TAGESART_TEXT\n\
    frm; num[9.0]; num[3.0]; char[40]\n\
    com; \"SUGGESTED 3\"\n\
    rec; 7; 1; \"Sunday service\n\
    end; 1\n\
    eof; 2\n";

#[test]
fn every_sentence_of_ours_is_shown() {
    run_in(&examples(), &["marks", "suggestions.x10"]).expect(
        0,
        "\
MENGE_BASIS_VERSIONEN (485), section 1
our sentence              key  record  line
\"Winterfahrplan 2024/25\"  42        1    11

MENGE_TAGESART (290), section 2
our sentence                   key   record  line
\"Ferientag für Schüler\"        42;2       2    20
\"Sonn- und Feiertag, \"ruhig\"\"  42;4       4    24

FIRMENKALENDER (348), section 3
our sentence              key          record  line
\"Samstag nach Dreikönig\"  42;20250111       2    31

MENGE_ONR_TYP (998), section 4
our sentence   key   record  line
\"Betriebshof\"  42;2       2    39

5 of 11 texts are ours, 3 are empty
",
        "",
    );
}

#[test]
fn a_file_without_any() {
    let run = run_in(&examples(), &["marks", "depot-week.x10"]);
    run.expect(0, "0 of 44 texts are ours, 0 are empty\n", "");
}

/// The longest texts and keys that a file may have, and the longest rule.
#[test]
fn no_line_is_wider_than_a_terminal() {
    let folder = Folder::new("marks-wide");
    let text = "\u{fc}".repeat(40);
    let days = format!(
        "tbl; FIRMENKALENDER\n\
        atr; BASIS_VERSION; BETRIEBSTAG; BETRIEBSTAG_TEXT; TAGESART_NR\n\
        frm; num[9.0]; num[8.0]; char[40]; num[3.0]\n{}\
        com; \"SUGGESTED 3\"\n\
        rec; 999999999; 99991231; \"{text}\"; 999\n\
        end; 100001\n",
        "rec;1;10101;\"\";1\n".repeat(100_000)
    );
    let versions = "tbl; MENGE_BASIS_VERSIONEN\n\
        atr; BASIS_VERSION; BASIS_VERSION_TEXT\n\
        frm; num[9.0]; char[40]\n\
        com; \"SUGGESTED 3\"\n\
        rec; 7; \"Winter\"\n\
        end; 1\n\
        eof; 3\n";
    let file = SMALL.replace("eof; 1\n", &(days + versions));
    let latin: Vec<u8> = file.chars().map(|c| u32::from(c) as u8).collect();
    folder.put("a.x10", latin);
    let run = folder.run(&["marks", "a.x10"]);
    assert_eq!(run.code, 1);
    let row = format!("\"{text}\"  999999999;99991231  100001  100017\n");
    assert!(run.text().contains(&row), "{}", run.text());
    assert!(run
        .text()
        .contains("MENGE_BASIS_VERSIONEN, which is refused:\n  line 4: 15 "));
    let widths = run.text().lines().map(|line| line.chars().count());
    assert!(widths.max().unwrap() <= COLUMNS, "{}", run.text());
}

/// Of a refused table nothing is claimed, whatever becomes of standard error.
#[test]
fn a_refused_section_is_no_all_clear() {
    let run = run_in(&examples(), &["marks", "damaged.x10"]);
    run.expect(
        1,
        "cannot be said of section 1, MENGE_TAGESART, which is refused:\n  \
         line 4: 11 not a text\n\n\
         0 of 1 texts are ours, 0 are empty, in the sound sections\n",
        DAMAGED,
    );
}

#[test]
fn every_refused_section_is_named() {
    let folder = Folder::new("marks-refused");
    let unknown = "tbl; REC_ORT\nend; 0\n";
    let file = SMALL.replace("eof; 1\n", &format!("{unknown}{DAYS}"));
    folder.put("a.x10", file.replace("eof; 2", "eof; 3"));
    let run = folder.run(&["marks", "a.x10"]);
    assert_eq!(run.code, 1);
    assert_eq!(
        run.text(),
        "MENGE_BASIS_VERSIONEN (485), section 1\n\
         our sentence  key  record  line\n\
         \"Winter\"      7         1    10\n\n\
         cannot be said of section 2, unknown table, which is refused:\n  \
         line 1: 7 unknown table\n\n\
         cannot be said of section 3, MENGE_TAGESART, which is refused:\n  \
         line 5: 11 not a text\n\n\
         1 of 2 texts is ours, 1 is empty, in the sound sections\n"
    );
    assert!(run
        .err
        .starts_with("a.x10: section 2, line 1: 7 unknown table\n"));
    let json = folder.run(&["marks", "a.x10", "--json"]);
    assert_eq!(json.code, 1);
    let refused = "\"complete\":false,\"refused\":[\
        {\"section\":2,\"table\":0,\"name\":null,\"number\":7,\"line\":1,\
        \"rule\":\"unknown table\"},\
        {\"section\":3,\"table\":290,\"name\":\"MENGE_TAGESART\",\"number\":11,\"line\":5,\
        \"rule\":\"not a text\"}]";
    assert!(json.text().contains(refused), "{}", json.text());
}

#[test]
fn a_refused_header_is_no_all_clear() {
    let folder = Folder::new("marks-header");
    folder.put("a.x10", SMALL.replace("chs;", "chz;"));
    let run = folder.run(&["marks", "a.x10"]);
    assert_eq!(run.code, 1);
    let said = "cannot be said of any text:\n  header, line 3: 2 header breaks a rule\n";
    assert_eq!(run.text(), said);
    let json = folder.run(&["marks", "a.x10", "--json"]);
    assert_eq!(json.code, 1);
    assert!(json.text().contains("\"complete\":false,\"refused\":[]"));
}

#[test]
fn marks_for_machines() {
    let folder = Folder::new("marks-json");
    folder.put("a.x10", SMALL.replace('\n', "\r\n"));
    folder.run(&["marks", "a.x10", "--json"]).expect(
        0,
        "{\"file\":\"a.x10\",\"number\":0,\"part\":null,\"section\":0,\"line\":0,\"rule\":\"sound\",\
         \"marks\":[{\"section\":1,\"table\":485,\"name\":\"MENGE_BASIS_VERSIONEN\",\"key\":[7],\
         \"record\":1,\"field\":2,\"column\":\"BASIS_VERSION_TEXT\",\"line\":5,\"file_line\":10,\
         \"text\":\"Winter\"}],\"texts\":2,\"ours\":1,\"empty\":1,\"complete\":true,\"refused\":[],\
         \"advice\":[]}\n",
        "",
    );
}
