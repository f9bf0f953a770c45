//! Connections: numbers that may be missing, and "25, wrong combination".

mod common;

use std::fs;

use common::{examples, run_in, Folder};

/// The example, a character for each of its bytes.
fn example() -> String {
    let file = fs::read(examples().join("connections.x10")).unwrap();
    file.into_iter().map(char::from).collect()
}

fn latin(text: &str) -> Vec<u8> {
    text.chars().map(|c| c as u8).collect()
}

/// The example with some bytes of it, which stand there once, changed.
fn changed(folder: &Folder, from: &str, to: &str) {
    let text = example();
    assert_eq!(text.matches(from).count(), 1, "{from}");
    folder.put("a.x10", latin(&text.replace(from, to)));
}

/// The example's written form: "an empty field" where a number is missing, also
/// at a line's end.
fn form() -> String {
    let text = example().replace("1170;;;\n", "1170; ; ; \n");
    let lines = text.split_inclusive('\n');
    let is_kept = |line: &&str| !line.starts_with("com;") || line.contains("SUGGESTED");
    lines.filter(is_kept).collect()
}

#[test]
fn the_example_is_sound() {
    let run = run_in(&examples(), &["check", "--strict", "connections.x10"]);
    run.expect(0, "connections.x10: sound\n", "");
}

/// Twenty columns do not fit side by side.
#[test]
fn a_missing_number_is_left_blank() {
    let run = run_in(&examples(), &["show", "connections.x10", "432"]);
    run.expect(
        0,
        "\
EINZELANSCHLUSS (432), section 3
record  BASIS_VERSION  EINAN_NR    ANSCHLUSS_NAME                   ANSCHLUSS_GRUPPE  LEITSTELLENKENNUNG  ZUB_LI_NR
     1             42         1    \"Bahnhof, 12 an 5\"               \"A\"                                0         12
     2             42         2  * \"Südring, 7 an Nachtbus\"         \"\"                                 0          7
     3             42         3    \"\"                               \"B\"                                0         12
     4             42         4    \"Bahnhof, S-Bahn aus Mühlental\"  \"A\"                               17          0
     5             42         5    \"Bahnhof, Zug aus Köln\"          \"A\"                               17          0

record  ZUB_LI_RI_NR  ZUB_ORT_REF_ORT  ZUB_ONR_TYP_NR  ZUB_ORT_NR  VON_ORT_REF_ORT  LinienID  RichtungsID  ASBID
     1             1             1170               1         117             1160  \"\"        \"\"           \"\"
     2             0             1310                                               \"\"        \"\"           \"\"
     3             2             1170               1         117                   \"\"        \"\"           \"\"
     4             0                0                                               \"S1\"      \"H\"          \"BHF-S\"
     5             0                0                                               \"RE9\"     \"R\"          \"BHF-R\"

record  ABB_LI_NR  ABB_LI_RI_NR  ABB_ORT_REF_ORT  ABB_ONR_TYP_NR  ABB_ORT_NR  NACH_ORT_REF_ORT
     1          5             2             1170               1         118              1200
     2        901             0             1310
     3          7             1             1170
     4          5             1             1170                                          1200
     5         12             2             1170               1         119

* a suggestion, not the operator's text
",
        "",
    );
    let run = run_in(&examples(), &["show", "connections.x10", "rec_ums"]);
    assert_eq!((run.code, run.err.as_str()), (0, ""));
    let line = "     4             42         2            4       86400    129599       60     \
                1200           600              0\n";
    assert!(run.text().contains(line), "{}", run.text());
    assert_eq!(run.text().lines().count(), 8);
}

#[test]
fn a_missing_number_is_null() {
    let run = run_in(&examples(), &["show", "connections.x10", "432", "--json"]);
    assert_eq!((run.code, run.err.as_str()), (0, ""));
    let empty = "{\"text\":\"\",\"suggestion\":false}";
    let record = format!(
        "[42,2,{{\"text\":\"Südring, 7 an Nachtbus\",\"suggestion\":true}},{empty},0,7,0,1310,\
         null,null,null,{empty},{empty},{empty},901,0,1310,null,null,null]"
    );
    assert!(run.text().contains(&record), "{}", run.text());
}

#[test]
fn a_missing_number_is_put_out_as_an_empty_field() {
    let run = run_in(&examples(), &["write", "connections.x10"]);
    assert_eq!((run.code, run.err.as_str()), (0, ""));
    assert_eq!(run.out, latin(&form()));
    let folder = Folder::new("connections-write");
    folder.put("a.x10", latin(&form()));
    assert_eq!(folder.run(&["write", "a.x10"]).out, latin(&form()));
    let bare = form()
        .replace("com; \"SUGGESTED 3\"\n", "")
        .replace("Südring, 7 an Nachtbus", "");
    assert_eq!(folder.run(&["strip", "a.x10"]).out, latin(&bare));
}

#[test]
fn a_connection_s_name_may_be_ours() {
    run_in(&examples(), &["marks", "connections.x10"]).expect(
        0,
        "\
EINZELANSCHLUSS (432), section 3
our sentence              key   record  line
\"Südring, 7 an Nachtbus\"  42;2       2    25

1 of 9 texts is ours, 1 is empty
",
        "",
    );
    let run = run_in(&examples(), &["marks", "connections.x10", "--json"]);
    let mark =
        "\"table\":432,\"name\":\"EINZELANSCHLUSS\",\"key\":[42,2],\"record\":2,\"field\":3,\
        \"column\":\"ANSCHLUSS_NAME\",\"line\":7,\"file_line\":25";
    assert!(run.text().contains(mark), "{}", run.text());
}

#[test]
fn a_name_is_filled_and_no_number() {
    let folder = Folder::new("connections-fill");
    folder.put("a.x10", latin(&example()));
    let run = folder.run(&["fill", "a.x10", "3", "3", "3", "Bahnhof, 12 an 7"]);
    assert_eq!((run.code, run.err.as_str()), (0, ""));
    let filled = form().replace(
        "rec; 42; 3; \"\"; \"B\"",
        "com; \"SUGGESTED 3\"\nrec; 42; 3; \"Bahnhof, 12 an 7\"; \"B\"",
    );
    assert_eq!(run.out, latin(&filled));
    for (section, field, told) in [
        (
            "3",
            "11",
            "field 11 of EINZELANSCHLUSS is VON_ORT_REF_ORT; only 3 may be filled, ANSCHLUSS_NAME",
        ),
        (
            "3",
            "12",
            "field 12 of EINZELANSCHLUSS is LinienID; only 3 may be filled, ANSCHLUSS_NAME",
        ),
        (
            "4",
            "2",
            "field 2 of REC_UMS is EINAN_NR; none may be filled",
        ),
    ] {
        let run = folder.run(&["fill", "a.x10", section, "3", field, "x"]);
        let told = format!("a.x10: 23 field may not be filled\n       = {told}\n");
        run.expect(1, "", &told);
    }
}

/// What is told of the example with a connection, from 1, written like this. What
/// stands between `<` and `>` is pointed at.
fn is_told(folder: &Folder, number: usize, written: &str, rule: &str, notes: &[&str]) {
    let text = example();
    let mut lines: Vec<&str> = text.lines().collect();
    let mut all = lines.iter();
    let table = all
        .position(|line| *line == "tbl; EINZELANSCHLUSS")
        .unwrap();
    let is_connection = |line: &str| line.starts_with("rec;") && line.matches(';').count() == 20;
    let mut places = (0..lines.len()).filter(|place| is_connection(lines[*place]));
    let place = places.nth(number - 1).unwrap();
    let line = written.replace(['<', '>'], "");
    lines[place] = &line;
    folder.put("a.x10", latin(&format!("{}\n", lines.join("\n"))));
    let (before, rest) = written.split_once('<').unwrap();
    let (pointed, _) = rest.split_once('>').unwrap();
    let told = format!(
        "a.x10: section 3, line {}: {rule}\n{:6} | {line}\n       | {}{}\n",
        place - table + 1,
        place + 1,
        " ".repeat(before.chars().count()),
        "^".repeat(pointed.chars().count()),
    );
    let notes: String = notes.iter().map(|n| format!("       = {n}\n")).collect();
    let run = folder.run(&["check", "a.x10"]);
    run.expect(1, "", &format!("{told}{notes}"));
}

const COMBINATION: &str = "25 wrong combination";

/// "With LEITSTELLENKENNUNG 0, LinienID, RichtungsID and ASBID are empty, and
/// ZUB_LI_NR and ZUB_ORT_REF_ORT lie above 0".
#[test]
fn a_feeder_of_the_own_control_centre() {
    let rule = "with LEITSTELLENKENNUNG 0 (own control centre), LinienID, RichtungsID\n         \
        and ASBID are empty, and ZUB_LI_NR and ZUB_ORT_REF_ORT lie above 0";
    let folder = Folder::new("connections-own");
    for (written, note) in [
        (
            "rec; 42; 3; \"\"; \"B\"; 0; <0>; 2; 1170; ; ; ; \"\"; \"\"; \"\"; 7; 1; 1170; ; ; ",
            "ZUB_LI_NR stands here, and is 0; a number above 0 is expected",
        ),
        (
            "rec; 42; 3; \"\"; \"B\"; 0; 12; 0; <000>; ; ; ; \"S1\"; \"\"; \"\"; 7; 1; 1170; ; ; ",
            "ZUB_ORT_REF_ORT stands here, and is 000; a number above 0 is expected",
        ),
        (
            "rec; 42; 3; \"\"; \"B\"; 0; 12; 2; 1170; ; ; ; \" \"; <\"Süd \">; \"X\"; 7; 1; 1170; ; ; ",
            "RichtungsID stands here, and is \"Süd\"; an empty text is expected",
        ),
    ] {
        is_told(&folder, 3, written, COMBINATION, &[note, rule]);
    }
}

/// "with 1 to 255 the three texts are filled, and ZUB_LI_NR, ZUB_LI_RI_NR and
/// ZUB_ORT_REF_ORT are 0".
#[test]
fn a_feeder_of_another_control_centre() {
    let rule = "with LEITSTELLENKENNUNG 17 (another control centre), LinienID,\n         \
        RichtungsID and ASBID are filled, and ZUB_LI_NR, ZUB_LI_RI_NR and\n         \
        ZUB_ORT_REF_ORT are 0";
    let folder = Folder::new("connections-another");
    for (written, note) in [
        (
            "rec; 42; 5; \"\"; \"\"; 17; 0; <1>; 0; ; ; ; \"\"; \"R\"; \"BHF\"; 12; 2; 1170; ; ; 9",
            "ZUB_LI_RI_NR stands here, and is 1; 0 is expected",
        ),
        (
            "rec; 42; 5; \"\"; \"\"; 17; 0; 0; 0; ; ; ; \"RE9\"; \"R\"; <\"   \">; 12; 2; 1170; ; ; 9",
            "ASBID stands here, and is empty; a text is expected",
        ),
    ] {
        is_told(&folder, 5, written, COMBINATION, &[note, rule]);
    }
}

/// "any arrangement of a table's columns, each once, shall be read".
#[test]
fn a_combination_is_pointed_at_where_its_columns_stand() {
    let folder = Folder::new("connections-arranged");
    let turned = |line: &str| {
        let (command, fields) = line.split_once(';').unwrap();
        let mut fields: Vec<&str> = fields.split(';').map(str::trim).collect();
        fields.reverse();
        format!("{command}; {}\n", fields.join("; "))
    };
    let is_long = |line: &str| line.matches(';').count() == 20;
    let text = example().replace("; 17; 0; 0; 0;", "; 17; 0; 0; 1170;");
    let mark = text.replace("SUGGESTED 3", "SUGGESTED 18");
    let file: String = mark
        .lines()
        .map(|line| match is_long(line) {
            true => turned(line),
            false => format!("{line}\n"),
        })
        .collect();
    folder.put("a.x10", latin(&file));
    let run = folder.run(&["check", "a.x10"]);
    let pointed =
        "28 | rec; 1200; ; ; 1170; 1; 5; \"BHF-S\"; \"H\"; \"S1\"; ; ; ; 1170; 0; 0; 17; \
        \"A\"; \"Bahnhof, S-Bahn aus Mühlental\"; 4; 42\n       \
        |                                                      ^^^^\n       \
        = ZUB_ORT_REF_ORT stands here, and is 1170; 0 is expected\n";
    assert!(run.err.contains(pointed), "{}", run.err);
}

#[test]
fn what_may_be_left_out_and_what_may_not() {
    let folder = Folder::new("connections-empty");
    is_told(
        &folder,
        3,
        "rec; 42; 3; \"\"; \"B\"; 0; 12; 2; 1170; ; ; ; \"\"; \"\"; \"\";< >; 1; 1170; ; ; ",
        "12 not a number",
        &["ABB_LI_NR stands here, a number from 1 to 999, and may not be left out"],
    );
    is_told(
        &folder,
        3,
        "rec; 42; 3; \"\"; \"B\"; 0; 12; 2; 1170; ; ; ;< >; \"\"; \"\"; 7; 1; 1170; ; ; ",
        "11 not a text",
        &["LinienID stands here, a text of up to 6 bytes; an empty text is `\"\"`"],
    );
    is_told(
        &folder,
        3,
        "rec; 42; 3; \"\"; \"B\"; 0; 12; 2; 1170; ; ; ; \"\"; \"\"; \"\"; 7; 1; 1170; ; ; <0>",
        "13 number out of range, or text over its size",
        &[
            "NACH_ORT_REF_ORT stands here, a number from 1 to 999999; for a missing\n         \
             number the field is left empty",
        ],
    );
}

#[test]
fn a_refused_combination_is_a_section_s() {
    let folder = Folder::new("connections-refused");
    let file = example().replace("; 17;", "; 0;");
    folder.put("a.x10", latin(&file));
    let run = folder.run(&["show", "a.x10"]);
    assert_eq!(run.code, 1);
    let refused = "EINZELANSCHLUSS (432), section 3: refused, line 10: 25 wrong combination\n";
    assert!(run.text().contains(refused), "{}", run.text());
    assert!(run.text().contains("\nREC_UMS (232), section 4\nrecord "));
    let run = folder.run(&["check", "a.x10", "--json"]);
    run.expect(
        1,
        "{\"file\":\"a.x10\",\"number\":25,\"part\":\"section\",\"section\":3,\"line\":10,\
         \"rule\":\"wrong combination\",\"advice\":[]}\n",
        "",
    );
}

/// "REC_UMS refers to 432, 290 and 485."
#[test]
fn a_transfer_refers_to_its_connection() {
    let folder = Folder::new("connections-reference");
    for (to, pointed, note) in [
        (
            "rec; 42; 6; 4; 0; 129599;",
            "     ^^  ^\n",
            "no record of EINZELANSCHLUSS has BASIS_VERSION 42, EINAN_NR 6",
        ),
        (
            "rec; 42; 5; 3; 0; 129599;",
            "     ^^     ^\n",
            "no record of MENGE_TAGESART has BASIS_VERSION 42, TAGESART_NR 3",
        ),
    ] {
        changed(&folder, "rec; 42; 5; 4; 0; 129599;", to);
        folder.run(&["check", "a.x10"]).expect(
            1,
            "",
            &format!(
                "a.x10: section 4, line 9: 20 a reference finds no record\n    \
                 39 | {to} 240; 1200; 0; 0\n       | {pointed}       = {note}\n"
            ),
        );
    }
}

#[test]
fn a_lost_mark_is_told_of_by_its_column() {
    let folder = Folder::new("connections-advice");
    changed(&folder, "com; \"SUGGESTED 3\"", "com; \"SUGGESTED 3");
    folder.run(&["check", "a.x10"]).expect(
        0,
        "a.x10: sound\n",
        "a.x10: line 24 looks like a mark but is none; \
         the text after it, ANSCHLUSS_NAME, counts as the operator's\n    \
         24 | com; \"SUGGESTED 3\n       = section 3, line 6, before record 2\n",
    );
    changed(&folder, "com; \"SUGGESTED 3\"", "com; \"SUGGESTED 4\"");
    let run = folder.run(&["check", "a.x10"]);
    let notes =
        "\n       = ANSCHLUSS_GRUPPE stands 4th in this `atr`, and may not be marked\n       \
        = only ANSCHLUSS_NAME may be marked, which stands 3rd\n";
    assert!(run.err.ends_with(notes), "{}", run.err);
}

/// 8 says all twenty names, in lines of a terminal.
#[test]
fn every_name_that_is_expected_is_said() {
    let folder = Folder::new("connections-names");
    changed(
        &folder,
        "EINAN_NR; ANSCHLUSS_NAME",
        "EINAN_NR; Anschluss_Name",
    );
    let run = folder.run(&["check", "a.x10"]);
    let notes = "       \
       = no column of EINZELANSCHLUSS: Anschluss_Name\n       \
       = missing: ANSCHLUSS_NAME\n       \
       = expected, each once and in any order: BASIS_VERSION, EINAN_NR,\n         \
         ANSCHLUSS_NAME, ANSCHLUSS_GRUPPE, LEITSTELLENKENNUNG, ZUB_LI_NR,\n         \
         ZUB_LI_RI_NR, ZUB_ORT_REF_ORT, ZUB_ONR_TYP_NR, ZUB_ORT_NR,\n         \
         VON_ORT_REF_ORT, LinienID, RichtungsID, ASBID, ABB_LI_NR, ABB_LI_RI_NR,\n         \
         ABB_ORT_REF_ORT, ABB_ONR_TYP_NR, ABB_ORT_NR, NACH_ORT_REF_ORT\n";
    assert!(run.err.ends_with(notes), "{}", run.err);
}

#[test]
fn both_tables_are_known_by_name() {
    let run = run_in(&examples(), &["show", "depot-week.x10", "einzelanschluss"]);
    run.expect(
        1,
        "",
        "depot-week.x10: no section of EINZELANSCHLUSS can be read\n",
    );
    let run = run_in(&examples(), &["show", "depot-week.x10", "REC_ORT"]);
    let known = ", 247 UEB_FZT, 432 EINZELANSCHLUSS, 232 REC_UMS\n";
    assert!(run.err.contains(known), "{}", run.err);
}
