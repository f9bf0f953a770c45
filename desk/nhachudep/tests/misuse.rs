//! Help, version, and what is not understood.

mod common;

use std::ffi::OsStr;
use std::os::unix::ffi::OsStrExt;

use common::{examples, run_in, Folder, SMALL};

const COMMANDS: [&str; 7] = ["check", "list", "show", "marks", "write", "fill", "strip"];

#[test]
fn help_for_the_tool_and_each_command() {
    let folder = Folder::new("help");
    for arguments in [&["--help"][..], &["-h"], &["help"]] {
        let help = folder.run(arguments);
        assert_eq!((help.code, help.err.as_str()), (0, ""));
        assert!(COMMANDS.iter().all(|command| help.text().contains(command)));
    }
    for command in COMMANDS {
        let help = folder.run(&[command, "--help"]);
        assert_eq!((help.code, help.err.as_str()), (0, ""));
        let usage = format!("usage: nhachudep {command} ");
        assert!(help.text().starts_with(&usage));
        assert_eq!(help.out, folder.run(&["help", command]).out);
    }
}

#[test]
fn version() {
    let version = Folder::new("version").run(&["--version"]);
    assert_eq!((version.code, version.err.as_str()), (0, ""));
    let start = format!("nhachudep {}", env!("CARGO_PKG_VERSION"));
    assert!(version.text().starts_with(&start));
}

#[test]
fn misuse_is_2_and_says_where_help_is() {
    let folder = Folder::new("misuse");
    for arguments in [
        &[][..],
        &["chek", "a.x10"],
        &["check"],
        &["list", "a.x10", "b.x10"],
        &["fill", "a.x10", "1", "1", "2"],
        &["fill", "a.x10", "one", "1", "2", "x"],
        &["write", "a.x10", "-o"],
        &["write", "a.x10", "-o", "b.x10", "--in-place"],
        &["marks", "a.x10", "--in-place"],
        &["--loud"],
    ] {
        let run = folder.run(arguments);
        assert_eq!((run.code, run.text()), (2, ""), "{arguments:?}");
        assert!(run.err.starts_with("nhachudep: "), "{arguments:?}");
        assert!(
            run.err.ends_with("try `nhachudep --help`\n"),
            "{arguments:?}"
        );
    }
}

#[test]
fn a_missing_file_is_2() {
    let folder = Folder::new("missing");
    for command in ["list", "show", "marks", "write", "strip"] {
        let run = folder.run(&[command, "none.x10"]);
        assert_eq!((run.code, run.text()), (2, ""));
        assert!(run.err.starts_with("nhachudep: none.x10: "));
    }
}

#[test]
fn no_colours_beside_a_terminal() {
    for command in ["show", "marks", "list", "check"] {
        let run = run_in(&examples(), &[command, "suggestions.x10"]);
        assert!(!run.text().contains('\x1b') && !run.err.contains('\x1b'));
    }
}

/// Whatever a name holds, a terminal is not given orders by it.
#[test]
fn odd_names_are_seen_and_not_obeyed() {
    let folder = Folder::new("odd-names");
    folder.put("a.x10", SMALL);
    let odd = "\u{1b}[2J\u{9b}31m\r\n\u{7f}\u{202e}";
    let shown = "\\x1b[2J\\x9b31m\\x0d\\x0a\\x7f\\u{202e}";
    let option = format!("--{odd}");
    let nowhere = format!("none/{odd}");
    folder.put(odd, SMALL);
    for arguments in [
        &[odd][..],
        &["help", odd],
        &[&option],
        &["check", &option, "a.x10"],
        &["show", "a.x10", odd],
        &["fill", "a.x10", odd, "1", "2", "x"],
        &["write", "a.x10", "-o", &nowhere],
        &["write", odd, "-o", odd],
        &["check", &nowhere],
    ] {
        let run = folder.run(arguments);
        assert_eq!((run.code, run.text()), (2, ""), "{arguments:?}");
        assert!(run.err.contains(shown), "{}", run.err);
        let is_plain = |c: char| c == '\n' || !c.is_control() && c != '\u{202e}';
        assert!(run.err.chars().all(is_plain), "{:?}", run.err);
    }
}

/// Nor by bytes that are no characters.
#[test]
fn odd_bytes_are_seen_and_not_obeyed() {
    let folder = Folder::new("odd-bytes");
    let odd = OsStr::from_bytes(b"-\x9b2J\xff");
    let output = folder.tool(&[]).arg(odd).output().unwrap();
    assert_eq!(output.status.code(), Some(2));
    let told = "nhachudep: unknown option -\\x9b2J\\xff\n";
    assert!(output.stderr.starts_with(told.as_bytes()));
}
