//! Lines that look like a mark and are none: the verdict stays, and it is said.

mod common;

use common::{cases, examples, run_in, Folder, SMALL};

const MARK: &str = "com; \"SUGGESTED 2\"\n";

/// The small file with this line in the mark's place.
fn with_line(line: &str) -> String {
    SMALL.replace(MARK, &format!("{line}\n"))
}

fn advised(line: &str) -> String {
    format!(
        "a.x10: line 9 looks like a mark but is none; \
         the text after it, BASIS_VERSION_TEXT, counts as the operator's\n     \
         9 | {line}\n       = section 1, line 4, before record 1\n"
    )
}

fn warned(line: &str) -> String {
    advised(line).replace("is none;", "is none and is not put out;")
}

const WORDS: &str = "\"words\":\"line 9 looks like a mark but is none; \
    the text after it, BASIS_VERSION_TEXT, counts as the operator's\"";

fn advice(words: &str) -> String {
    format!(
        "\"advice\":[{{\"section\":1,\"line\":4,\"file_line\":9,\"record\":1,\
         \"column\":\"BASIS_VERSION_TEXT\",{words}}}]}}\n"
    )
}

#[test]
fn every_damaged_mark_is_told_of() {
    let folder = Folder::new("advice-lines");
    for line in [
        "com; \"SUGGESTED 2",
        "com; SUGGESTED 2\"",
        "com; SUGGESTED 2",
        "com; \"suggested 2\"",
        "com; suggested 2",
        "com; \" SUGGESTED 2\"",
        "com; \"SUGGESTED2\"",
        "com; \"SUGGESTED\"",
        "com; \"SUGGESTED 2\";",
        "com; \"SUGGESTED 2\" x",
        "com; \"SUGGESTEN 2\"",
        "com; earlier com; \"SUGGESTED 2\"",
    ] {
        folder.put("a.x10", with_line(line));
        let run = folder.run(&["check", "a.x10"]);
        run.expect(0, "a.x10: sound\n", &advised(line));
    }
}

#[test]
fn other_comments_are_not() {
    let folder = Folder::new("advice-none");
    for line in ["com; \"SUGGESTED 2\"", "com; suggestions of May", "com;"] {
        folder.put("a.x10", with_line(line));
        let run = folder.run(&["check", "--strict", "a.x10"]);
        run.expect(0, "a.x10: sound\n", "");
    }
}

#[test]
fn marks_and_show_advise_too() {
    let folder = Folder::new("advice-commands");
    folder.put("a.x10", with_line("com; \"SUGGESTED 2"));
    let marks = folder.run(&["marks", "a.x10"]);
    let told = advised("com; \"SUGGESTED 2");
    let said = "1 line looks like a mark but is none\n\n0 of 2 texts are ours, 1 is empty\n";
    marks.expect(0, said, &told);
    let show = folder.run(&["show", "a.x10"]);
    assert_eq!((show.code, show.err), (0, told));
    for command in ["check", "marks", "show"] {
        let run = folder.run(&[command, "a.x10", "--json"]);
        assert_eq!((run.code, run.err.as_str()), (0, ""));
        assert!(run.text().ends_with(&advice(WORDS)), "{}", run.text());
    }
}

#[test]
fn forms_warn_before_the_line_goes() {
    let folder = Folder::new("advice-forms");
    let line = "com; SUGGESTED 2";
    folder.put("a.x10", with_line(line));
    let form = SMALL.replace(MARK, "");
    let filled = form.replace("rec; 8; \"\"", "com; \"SUGGESTED 2\"\nrec; 8; \"Sommer\"");
    for (arguments, form) in [
        (&["write", "a.x10"][..], &form),
        (&["strip", "a.x10"], &form),
        (&["fill", "a.x10", "1", "2", "2", "Sommer"], &filled),
    ] {
        folder.run(arguments).expect(0, form, &warned(line));
        let place = ["-o", "b.x10"];
        let run = folder.run(&[arguments, &place].concat());
        run.expect(0, "", &warned(line));
        assert_eq!(folder.get("b.x10"), form.as_bytes());
        let run = folder.run(&[arguments, &place, &["--json"]].concat());
        let words = WORDS.replace("is none;", "is none and is not put out;");
        assert_eq!((run.code, run.err.as_str()), (0, ""));
        assert!(run.text().ends_with(&advice(&words)), "{}", run.text());
    }
}

#[test]
fn strict_is_1() {
    let folder = Folder::new("advice-strict");
    let line = "com; SUGGESTED 2";
    folder.put("a.x10", with_line(line));
    let told = advised(line);
    let run = folder.run(&["check", "--strict", "a.x10"]);
    run.expect(1, "a.x10: sound\n", &told);
    for command in ["marks", "show"] {
        let run = folder.run(&[command, "--strict", "a.x10"]);
        assert_eq!((run.code, run.err), (1, told.clone()));
    }
    folder.put("b.x10", SMALL);
    let run = folder.run(&["check", "--strict", "a.x10", "b.x10"]);
    let told = format!("{told}2 of 2 files are sound\n");
    run.expect(1, "a.x10: sound\nb.x10: sound\n", &told);
    assert_eq!(folder.run(&["list", "--strict", "a.x10"]).code, 2);
}

#[test]
fn strict_puts_nothing_out() {
    let folder = Folder::new("advice-strict-forms");
    let line = "com; SUGGESTED 2";
    folder.put("a.x10", with_line(line));
    let told = format!(
        "{}a.x10: nothing is put out, for --strict is given\n",
        advised(line)
    );
    for arguments in [
        &["write", "a.x10", "--strict"][..],
        &["strip", "a.x10", "--strict", "-o", "b.x10"],
        &["write", "a.x10", "--strict", "--in-place"],
        &[
            "fill",
            "a.x10",
            "1",
            "2",
            "2",
            "Sommer",
            "--strict",
            "--in-place",
        ],
    ] {
        folder.run(arguments).expect(1, "", &told);
    }
    let run = folder.run(&["write", "a.x10", "--strict", "-o", "b.x10", "--json"]);
    assert_eq!(run.code, 1);
    let held = format!("\"out\":null,{}", advice(WORDS));
    assert!(run.text().ends_with(&held), "{}", run.text());
    assert_eq!(folder.get("a.x10"), with_line(line).as_bytes());
    assert_eq!(folder.names(), ["a.x10"]);
}

/// Behind the last record, and in a table with no text to mark, no sentence is
/// at stake; the line is told of all the same, for it is lost when it is
/// written.
#[test]
fn a_line_that_speaks_of_no_text() {
    let folder = Folder::new("advice-end");
    let last = format!("{MARK}end;").replace("\"SUGGESTED 2\"", "suggested 2");
    folder.put("a.x10", SMALL.replace("end;", &last));
    let run = folder.run(&["check", "a.x10"]);
    run.expect(
        0,
        "a.x10: sound\n",
        "a.x10: line 12 looks like a mark but is none; no text that may be marked stands after it\n    \
         12 | com; suggested 2\n       = section 1, line 7\n",
    );
    let validity = "tbl; BASIS_VER_GUELTIGKEIT\n\
        atr; VER_GUELTIGKEIT; BASIS_VERSION\n\
        frm; num[8.0]; num[9.0]\n\
        com; suggested 2\n\
        rec; 20250101; 7\n\
        end; 1\n\
        eof; 2\n";
    folder.put("a.x10", SMALL.replace("eof; 1\n", validity));
    let run = folder.run(&["check", "a.x10"]);
    assert_eq!(run.code, 0);
    assert!(run.err.ends_with(
        "; no text that may be marked stands after it\n    \
         16 | com; suggested 2\n       = section 2, line 4\n"
    ));
}

/// "Outside a section a mark is an ordinary comment", and of a refused section
/// no text is handed out.
#[test]
fn nothing_is_said_of_header_and_refused_sections() {
    let folder = Folder::new("advice-outside");
    folder.put("a.x10", SMALL.replace("ver;", "com; suggested 2\nver;"));
    let run = folder.run(&["check", "--strict", "a.x10"]);
    run.expect(0, "a.x10: sound\n", "");
    let refused = with_line("com; suggested 2").replace("end; 2", "end; 3");
    folder.put("a.x10", refused);
    let run = folder.run(&["check", "a.x10"]);
    assert_eq!(run.code, 1);
    assert!(!run.err.contains("looks like"), "{}", run.err);
}

#[test]
fn many_are_told_in_few_words() {
    let folder = Folder::new("advice-many");
    folder.put("a.x10", with_line(&["com; suggested 2"; 25].join("\n")));
    let run = folder.run(&["check", "a.x10"]);
    assert_eq!(run.err.matches("looks like a mark").count(), 10);
    assert!(run
        .err
        .ends_with("a.x10: 15 more lines look like a mark but are none\n"));
    let json = folder.run(&["check", "a.x10", "--json"]);
    assert_eq!(json.text().matches("looks like a mark").count(), 25);
}

/// Cases that are sound because a damaged mark is a comment.
#[test]
fn cases_of_marks_that_are_comments() {
    let data = cases().join("data");
    for name in [
        "00-mark-quote-lost-is-a-comment.x10",
        "00-mark-something-beside-is-a-comment.x10",
        "00-mark-without-quotes-is-a-comment.x10",
        "00-mark-word-alone-is-a-comment.x10",
    ] {
        let run = run_in(&data, &["check", name]);
        assert_eq!((run.code, run.text()), (0, &*format!("{name}: sound\n")));
        let told = "line 14 looks like a mark but is none; the text after it, TAGESART_TEXT, \
                    counts as the operator's";
        assert!(run.err.contains(told), "{name}");
    }
}

#[test]
fn the_example_with_a_lost_mark() {
    let run = run_in(&examples(), &["marks", "lost-mark.x10"]);
    assert_eq!(run.code, 0);
    assert!(run.text().ends_with(
        "1 line looks like a mark but is none\n\n4 of 11 texts are ours, 3 are empty\n"
    ));
    assert_eq!(
        run.err,
        "lost-mark.x10: line 23 looks like a mark but is none; \
         the text after it, TAGESART_TEXT, counts as the operator's\n    \
         23 | com; \"SUGGESTED 3\n       = section 2, line 10, before record 4\n"
    );
}
