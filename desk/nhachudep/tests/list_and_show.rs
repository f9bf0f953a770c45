//! `nhachudep list` and `nhachudep show`.

mod common;

use common::{examples, run_in, Folder, DAMAGED, SMALL};

#[test]
fn a_listing_has_every_section() {
    run_in(&examples(), &["list", "damaged.x10"]).expect(
        1,
        "\
source   Desk
date     2024-02-01 06:00:00
charset  ISO8859-1
ver      1
ifv      1.0

section  number  table                  records  place  length  verdict
      1     290  MENGE_TAGESART               0    107     131  line 4: 11 not a text
      2     485  MENGE_BASIS_VERSIONEN        1    238     114  sound
",
        DAMAGED,
    );
}

#[test]
fn a_refused_header_lists_nothing() {
    let folder = Folder::new("list-header");
    folder.put("a.x10", SMALL.replace("mod;", "mud;"));
    let run = folder.run(&["list", "a.x10"]);
    assert_eq!((run.code, run.text()), (1, ""));
    assert!(run
        .err
        .starts_with("a.x10: header, line 1: 2 header breaks a rule\n"));
    assert!(run.err.contains("| ^^^\n"), "{}", run.err);
}

#[test]
fn an_unknown_table_is_listed_without_name() {
    let folder = Folder::new("list-unknown");
    folder.put("a.x10", SMALL.replace("MENGE_BASIS_VERSIONEN", "REC_ORT"));
    let run = folder.run(&["list", "a.x10"]);
    assert_eq!(run.code, 1);
    assert!(run.text().ends_with(
        "section  number  table  records  place  length  verdict\n      \
         1       0               0    107     130  line 1: 7 unknown table\n"
    ));
}

#[test]
fn listing_for_machines() {
    let folder = Folder::new("list-json");
    folder.put("a.x10", SMALL);
    folder.run(&["list", "--json", "a.x10"]).expect(
        0,
        "{\"file\":\"a.x10\",\"number\":0,\"part\":null,\"section\":0,\"line\":0,\"rule\":\"sound\",\
         \"header\":{\"source\":\"Desk\",\"date\":\"2024-02-01\",\"time\":\"06:00:00\",\
         \"charset\":\"ISO8859-1\",\"ver\":\"1\",\"ifv\":\"1.0\",\"dve\":null,\"fft\":null},\
         \"sections\":[{\"section\":1,\"table\":485,\"name\":\"MENGE_BASIS_VERSIONEN\",\
         \"records\":2,\"place\":107,\"length\":144,\"verdict\":0,\"line\":0,\"rule\":\"sound\"}]}\n",
        "",
    );
}

#[test]
fn tables_are_shown_in_columns_and_suggestions_set_apart() {
    run_in(&examples(), &["show", "suggestions.x10"]).expect(
        0,
        "\
MENGE_BASIS_VERSIONEN (485), section 1
record  BASIS_VERSION    BASIS_VERSION_TEXT
     1             42  * \"Winterfahrplan 2024/25\"
     2             43    \"\"

MENGE_TAGESART (290), section 2
record  BASIS_VERSION  TAGESART_NR    TAGESART_TEXT
     1             42            1    \"Schultag\"
     2             42            2  * \"Ferientag für Schüler\"
     3             42            3    \"\"
     4             42            4  * \"Sonn- und Feiertag, \"ruhig\"\"

FIRMENKALENDER (348), section 3
record  BASIS_VERSION  BETRIEBSTAG    BETRIEBSTAG_TEXT          TAGESART_NR
     1             42     20250110    \"Freitag\"                           1
     2             42     20250111  * \"Samstag nach Dreikönig\"            3
     3             42     20250112    \"\"                                  4

MENGE_ONR_TYP (998), section 4
record  BASIS_VERSION  ONR_TYP_NR  STR_ONR_TYP    ONR_TYP_TEXT
     1             42           1  \"HP\"           \"Haltepunkt\"
     2             42           2  \"BHOF\"       * \"Betriebshof\"

* a suggestion, not the operator's text
",
        "",
    );
}

#[test]
fn one_table() {
    let shown = "\
MENGE_ONR_TYP (998), section 4
record  BASIS_VERSION  ONR_TYP_NR  STR_ONR_TYP    ONR_TYP_TEXT
     1             42           1  \"HP\"           \"Haltepunkt\"
     2             42           2  \"BHOF\"       * \"Betriebshof\"

* a suggestion, not the operator's text
";
    for table in ["998", "MENGE_ONR_TYP", "menge_onr_typ"] {
        run_in(&examples(), &["show", "suggestions.x10", table]).expect(0, shown, "");
    }
}

#[test]
fn a_table_the_file_does_not_have() {
    let run = run_in(&examples(), &["show", "suggestions.x10", "REC_UEB"]);
    run.expect(
        1,
        "",
        "suggestions.x10: no section of REC_UEB can be read\n",
    );
    let run = run_in(&examples(), &["show", "suggestions.x10", "REC_ORT"]);
    assert_eq!((run.code, run.text()), (2, ""));
    assert!(run
        .err
        .contains("REC_ORT is none of the tables: 485 MENGE_BASIS_VERSIONEN, "));
}

#[test]
fn what_is_whole_is_shown_beside_what_is_not() {
    run_in(&examples(), &["show", "damaged.x10"]).expect(
        1,
        "\
MENGE_TAGESART (290), section 1: refused, line 4: 11 not a text

MENGE_BASIS_VERSIONEN (485), section 2
record  BASIS_VERSION    BASIS_VERSION_TEXT
     1              7    \"Winter\"
",
        DAMAGED,
    );
}

#[test]
fn tables_for_machines() {
    let folder = Folder::new("show-json");
    let latin: Vec<u8> = SMALL
        .replace("Winter", "W \"\"x\"\"")
        .bytes()
        .map(|byte| if byte == b'W' { 0xdc } else { byte })
        .collect();
    folder.put("a.x10", latin);
    folder.run(&["show", "a.x10", "--json"]).expect(
        0,
        "{\"file\":\"a.x10\",\"number\":0,\"part\":null,\"section\":0,\"line\":0,\"rule\":\"sound\",\
         \"tables\":[{\"section\":1,\"table\":485,\"name\":\"MENGE_BASIS_VERSIONEN\",\
         \"verdict\":0,\"line\":0,\"columns\":[\"BASIS_VERSION\",\"BASIS_VERSION_TEXT\"],\
         \"records\":[[7,{\"text\":\"Ü \\\"x\\\"\",\"suggestion\":true}],\
         [8,{\"text\":\"\",\"suggestion\":false}]]}],\"advice\":[]}\n",
        "",
    );
}
