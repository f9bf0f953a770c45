//! `nhachudep write`, `fill` and `strip`.

mod common;

use std::fs;

use common::{Folder, SMALL};

/// The small file, loosely written.
fn loose() -> String {
    let loose = SMALL.replace("; ", ";").replace("rec;7", "rec ; 007 ");
    loose.replace("ver;", "com; Beiwerk\r\n\nver;")
}

fn filled(text: &str) -> String {
    let marked = format!("com; \"SUGGESTED 2\"\nrec; 8; \"{text}\"\n");
    SMALL.replace("rec; 8; \"\"\n", &marked)
}

fn stripped() -> String {
    let bare = SMALL.replace("com; \"SUGGESTED 2\"\n", "");
    bare.replace("\"Winter\"", "\"\"")
}

#[test]
fn the_form_on_standard_output() {
    let folder = Folder::new("write-out");
    folder.put("a.x10", loose());
    folder.run(&["write", "a.x10"]).expect(0, SMALL, "");
    folder.run(&["strip", "a.x10"]).expect(0, &stripped(), "");
    let run = folder.run(&["fill", "a.x10", "1", "2", "2", "Sommer"]);
    run.expect(0, &filled("Sommer"), "");
    folder
        .fed(&["write", "-"], loose().as_bytes())
        .expect(0, SMALL, "");
    assert_eq!(folder.get("a.x10"), loose().as_bytes());
    assert_eq!(folder.names(), ["a.x10"]);
}

#[test]
fn the_form_in_another_file() {
    let folder = Folder::new("write-file");
    folder.put("a.x10", loose());
    folder
        .run(&["write", "a.x10", "-o", "b.x10"])
        .expect(0, "", "");
    assert_eq!(folder.get("b.x10"), SMALL.as_bytes());
    folder
        .run(&["strip", "-o", "b.x10", "a.x10"])
        .expect(0, "", "");
    assert_eq!(folder.get("b.x10"), stripped().as_bytes());
    folder
        .fed(&["write", "-", "-o", "c.x10"], loose().as_bytes())
        .expect(0, "", "");
    assert_eq!(folder.get("c.x10"), SMALL.as_bytes());
    assert_eq!(folder.get("a.x10"), loose().as_bytes());
    assert_eq!(folder.names(), ["a.x10", "b.x10", "c.x10"]);
}

#[test]
fn the_form_in_place() {
    let folder = Folder::new("write-place");
    folder.put("a.x10", loose());
    folder
        .run(&["fill", "a.x10", "1", "2", "2", "Sommer", "--in-place"])
        .expect(0, "", "");
    assert_eq!(folder.get("a.x10"), filled("Sommer").as_bytes());
    folder
        .run(&["strip", "--in-place", "a.x10"])
        .expect(0, "", "");
    assert_eq!(folder.get("a.x10"), stripped().as_bytes());
    assert_eq!(folder.names(), ["a.x10"]);
}

#[test]
fn the_input_is_not_written_over_unasked() {
    let folder = Folder::new("write-over");
    folder.put("a.x10", loose());
    for name in ["a.x10", "./a.x10", "../write-over/a.x10"] {
        let run = folder.run(&["write", "a.x10", "-o", name]);
        assert_eq!((run.code, run.text()), (2, ""));
        assert!(
            run.err.contains("is the input; say --in-place"),
            "{}",
            run.err
        );
    }
    assert_eq!(folder.get("a.x10"), loose().as_bytes());
    let run = folder.fed(&["write", "-", "--in-place"], loose().as_bytes());
    assert_eq!(run.code, 2);
}

#[test]
fn a_refused_file_is_left_alone() {
    let folder = Folder::new("write-refused");
    let wrong = SMALL.replace("end; 2", "end; 3");
    folder.put("a.x10", &wrong);
    folder.put("b.x10", "as before");
    let told = "a.x10: section 1, line 7: 16 `end` count wrong\n    12 | end; 3\n       |      ^\n";
    for arguments in [
        &["write", "a.x10"][..],
        &["strip", "a.x10", "-o", "b.x10"],
        &["write", "a.x10", "--in-place"],
        &["fill", "a.x10", "1", "2", "2", "neu", "-o", "b.x10"],
    ] {
        folder.run(arguments).expect(1, "", told);
    }
    assert_eq!(folder.get("a.x10"), wrong.as_bytes());
    assert_eq!(folder.get("b.x10"), b"as before");
    assert_eq!(folder.names(), ["a.x10", "b.x10"]);
}

#[test]
fn refused_fills() {
    let folder = Folder::new("fill-refused");
    folder.put("a.x10", SMALL);
    let long = "x".repeat(41);
    for (place, text, told) in [
        (
            ["2", "1", "2"],
            "neu",
            "24 no such section, record or field",
        ),
        (
            ["1", "3", "2"],
            "neu",
            "24 no such section, record or field",
        ),
        (
            ["1", "2", "0"],
            "neu",
            "24 no such section, record or field",
        ),
        (
            ["1", "2", "1"],
            "neu",
            "23 field may not be filled\n       \
             = field 1 of MENGE_BASIS_VERSIONEN is BASIS_VERSION; \
             only 2 may be filled, BASIS_VERSION_TEXT",
        ),
        (["1", "1", "2"], "neu", "22 field to fill is not empty"),
        (["1", "2", "2"], "", "11 not a text"),
        (
            ["1", "2", "2"],
            "a\tb",
            "4 byte not allowed in this line\n       = U+0009 may stand in no text",
        ),
        (
            ["1", "2", "2"],
            &long,
            "13 number out of range, or text over its size",
        ),
    ] {
        let [section, record, field] = place;
        let run = folder.run(&["fill", "a.x10", section, record, field, text]);
        run.expect(1, "", &format!("a.x10: {told}\n"));
    }
    assert_eq!(folder.get("a.x10"), SMALL.as_bytes());
}

#[test]
fn a_text_in_utf_8_becomes_latin_1() {
    let folder = Folder::new("fill-latin");
    folder.put("a.x10", SMALL);
    let run = folder.run(&["fill", "a.x10", "1", "2", "2", "Für \"Schüler\"; ÿ"]);
    assert_eq!(run.code, 0);
    let line = b"rec; 8; \"F\xfcr \"\"Sch\xfcler\"\"; \xff\"\n";
    assert!(run.out.windows(line.len()).any(|window| window == line));
}

#[test]
fn a_character_that_latin_1_does_not_have() {
    let folder = Folder::new("fill-foreign");
    folder.put("a.x10", SMALL);
    folder
        .run(&["fill", "a.x10", "1", "2", "2", "5 €", "--in-place"])
        .expect(
            1,
            "",
            "a.x10: 4 byte not allowed in this line\n       \
         = `€` (U+20AC) is no character of ISO 8859-1\n",
        );
    assert_eq!(folder.get("a.x10"), SMALL.as_bytes());
    // What is judged before the text's bytes is told before them.
    let run = folder.run(&["fill", "a.x10", "1", "1", "2", "5 €"]);
    run.expect(1, "", "a.x10: 22 field to fill is not empty\n");
}

#[test]
fn a_text_that_begins_with_a_dash() {
    let folder = Folder::new("fill-dash");
    folder.put("a.x10", SMALL);
    let run = folder.run(&["fill", "--", "a.x10", "1", "2", "2", "-x"]);
    run.expect(0, &filled("-x"), "");
}

#[test]
fn forms_for_machines() {
    let folder = Folder::new("write-json");
    folder.put("a.x10", SMALL);
    let sound = "{\"file\":\"a.x10\",\"number\":0,\"part\":null,\"section\":0,\"line\":0,\
                 \"rule\":\"sound\",\"out\":\"b.x10\",\"bytes\":";
    let length = SMALL.len();
    let run = folder.run(&["write", "a.x10", "-o", "b.x10", "--json"]);
    run.expect(0, &format!("{sound}{length},\"advice\":[]}}\n"), "");
    let refused = folder.run(&["fill", "a.x10", "1", "1", "2", "x", "-o", "b.x10", "--json"]);
    refused.expect(
        1,
        "{\"file\":\"a.x10\",\"number\":22,\"part\":null,\"section\":0,\"line\":0,\
         \"rule\":\"field to fill is not empty\",\"advice\":[]}\n",
        "",
    );
    assert_eq!(folder.run(&["write", "a.x10", "--json"]).code, 2);
}

#[test]
fn a_folder_that_is_not_there() {
    let folder = Folder::new("write-nowhere");
    folder.put("a.x10", SMALL);
    let run = folder.run(&["write", "a.x10", "-o", "none/b.x10"]);
    assert_eq!((run.code, run.text()), (2, ""));
    assert!(run.err.starts_with("nhachudep: none/b.x10: "));
    fs::create_dir(folder.path("there")).unwrap();
    assert_eq!(folder.run(&["write", "a.x10", "-o", "there"]).code, 2);
    assert_eq!(folder.names(), ["a.x10", "there"]);
}

#[cfg(unix)]
mod unix {
    use super::*;
    use std::os::unix::fs::{symlink, FileTypeExt, PermissionsExt};

    #[test]
    fn permissions_stay() {
        let folder = Folder::new("write-mode");
        folder.put("a.x10", loose());
        let mode = fs::Permissions::from_mode(0o640);
        fs::set_permissions(folder.path("a.x10"), mode).unwrap();
        folder
            .run(&["write", "--in-place", "a.x10"])
            .expect(0, "", "");
        let found = fs::metadata(folder.path("a.x10")).unwrap().permissions();
        assert_eq!(found.mode() & 0o777, 0o640);
    }

    #[test]
    fn a_link_goes_on_leading_to_its_file() {
        let folder = Folder::new("write-link");
        folder.put("a.x10", loose());
        symlink("a.x10", folder.path("link.x10")).unwrap();
        folder
            .run(&["write", "--in-place", "link.x10"])
            .expect(0, "", "");
        assert!(fs::symlink_metadata(folder.path("link.x10"))
            .unwrap()
            .is_symlink());
        assert_eq!(folder.get("a.x10"), SMALL.as_bytes());
        let over = folder.run(&["write", "a.x10", "-o", "link.x10"]);
        assert_eq!(over.code, 2);
    }

    #[test]
    fn a_device_is_written_to_and_not_replaced() {
        let folder = Folder::new("write-device");
        folder.put("a.x10", SMALL);
        folder
            .run(&["write", "a.x10", "-o", "/dev/null"])
            .expect(0, "", "");
        let null = fs::metadata("/dev/null").unwrap();
        assert!(null.file_type().is_char_device());
    }
}
