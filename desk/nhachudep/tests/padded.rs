//! Texts padded inside their quotes: "Spaces at the end of a text in a record
//! no longer belong to it."

mod common;

use std::fs;

use common::{examples, run_in, Folder, SMALL};

/// The example's written form: only the header's text keeps its space.
const FORM: &str = "\
mod; DD.MM.YYYY; HH:MM:SS; free
src; \"Betriebshof Nord\"; \"13.01.2025\"; \"07:30:00\"
chs; \"ISO8859-1\"
ver; \"2.0 \"
ifv; \"1.6\"
tbl; MENGE_BASIS_VERSIONEN
atr; BASIS_VERSION; BASIS_VERSION_TEXT
frm; num[9.0]; char[40]
rec; 42; \"Winterfahrplan\"
end; 1
tbl; MENGE_TAGESART
atr; BASIS_VERSION; TAGESART_NR; TAGESART_TEXT
frm; num[9.0]; num[3.0]; char[40]
rec; 42; 1; \"Schultag\"
com; \"SUGGESTED 3\"
rec; 42; 2; \"Ferientag für Schüler\"
rec; 42; 3; \"\"
end; 3
tbl; MENGE_ONR_TYP
atr; BASIS_VERSION; ONR_TYP_NR; STR_ONR_TYP; ONR_TYP_TEXT
frm; num[9.0]; num[2.0]; char[6]; char[40]
rec; 42; 1; \"HP\"; \"Haltepunkt\"
rec; 42; 2; \"BHOF\"; \"Betriebshof \"\"Süd\"\"\"
end; 2
eof; 3
";

fn latin(text: &str) -> Vec<u8> {
    text.chars().map(|c| c as u8).collect()
}

#[test]
fn the_example_is_shown_without_padding() {
    let run = run_in(&examples(), &["check", "--strict", "padded.x10"]);
    run.expect(0, "padded.x10: sound\n", "");
    run_in(&examples(), &["show", "padded.x10"]).expect(
        0,
        "\
MENGE_BASIS_VERSIONEN (485), section 1
record  BASIS_VERSION    BASIS_VERSION_TEXT
     1             42    \"Winterfahrplan\"

MENGE_TAGESART (290), section 2
record  BASIS_VERSION  TAGESART_NR    TAGESART_TEXT
     1             42            1    \"Schultag\"
     2             42            2  * \"Ferientag für Schüler\"
     3             42            3    \"\"

MENGE_ONR_TYP (998), section 3
record  BASIS_VERSION  ONR_TYP_NR  STR_ONR_TYP    ONR_TYP_TEXT
     1             42           1  \"HP\"           \"Haltepunkt\"
     2             42           2  \"BHOF\"         \"Betriebshof \"Süd\"\"

* a suggestion, not the operator's text
",
        "",
    );
    let run = run_in(&examples(), &["show", "padded.x10", "290", "--json"]);
    let records = "[42,1,{\"text\":\"Schultag\",\"suggestion\":false}],\
        [42,2,{\"text\":\"Ferientag für Schüler\",\"suggestion\":true}],\
        [42,3,{\"text\":\"\",\"suggestion\":false}]";
    assert!(run.text().contains(records), "{}", run.text());
}

#[test]
fn end_spaces_are_not_put_out() {
    let run = run_in(&examples(), &["write", "padded.x10"]);
    assert_eq!((run.code, run.err.as_str()), (0, ""));
    assert_eq!(run.out, latin(FORM));
}

#[test]
fn a_text_of_spaces_is_filled_and_the_text_trimmed() {
    let folder = Folder::new("padded-fill");
    let file = fs::read(examples().join("padded.x10")).unwrap();
    folder.put("a.x10", file);
    let run = folder.run(&["fill", "a.x10", "2", "3", "3", "Samstag  "]);
    assert_eq!((run.code, run.err.as_str()), (0, ""));
    let marked = "com; \"SUGGESTED 3\"\nrec; 42; 3; \"Samstag\"\n";
    assert_eq!(run.out, latin(&FORM.replace("rec; 42; 3; \"\"\n", marked)));
    let run = folder.run(&["fill", "a.x10", "2", "3", "3", "  "]);
    assert_eq!((run.code, run.text()), (1, ""));
    assert!(run.err.contains("11 "), "{}", run.err);
}

#[test]
fn padding_makes_no_other_second_key() {
    let folder = Folder::new("padded-key");
    let types = "tbl; MENGE_ONR_TYP\n\
        atr; BASIS_VERSION; ONR_TYP_NR; STR_ONR_TYP; ONR_TYP_TEXT\n\
        frm; num[9.0]; num[2.0]; char[6]; char[40]\n\
        rec; 7; 1; \"HP\"; \"\"\n\
        rec; 7; 2; \"HP \"; \"\"\n\
        end; 2\neof; 2\n";
    folder.put("a.x10", SMALL.replace("eof; 1\n", types));
    let run = folder.run(&["check", "a.x10"]);
    assert_eq!((run.code, run.text()), (1, ""));
    let first = run.err.lines().next().unwrap();
    assert!(
        first.starts_with("a.x10: section 2, line 5: 19 "),
        "{}",
        run.err
    );
}
