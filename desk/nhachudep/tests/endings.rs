//! How a run ends when its outlets or the system fail it.

mod common;

use std::fs;
use std::io::{pipe, PipeWriter};
use std::os::unix::process::{CommandExt, ExitStatusExt};
use std::process::Command;

use common::meanwhile::meanwhile;
use common::{examples, Folder, Run, SMALL};

const NOT_OPEN: &str = "nhachudep: standard output: is not open for writing\n";

/// The tool in a shell, where `$0` is its name.
fn shell(folder: &Folder, line: &str) -> Run {
    let mut command = Command::new("sh");
    command
        .current_dir(folder.path(""))
        .args(["-c", line, env!("CARGO_BIN_EXE_nhachudep")]);
    Run::of(command.output().unwrap())
}

#[test]
fn a_closed_standard_output_is_noticed() {
    let folder = Folder::new("closed");
    folder.put("a.x10", SMALL);
    for line in [
        "\"$0\" write a.x10 >&-",
        "\"$0\" strip a.x10 1<a.x10",
        "\"$0\" check a.x10 >&-",
        "\"$0\" marks a.x10 >&-",
        "\"$0\" --version >&-",
        "\"$0\" write a.x10 -o b.x10 --json >&-",
    ] {
        shell(&folder, line).expect(2, "", NOT_OPEN);
    }
    assert_eq!(folder.names(), ["a.x10"]);
}

/// What goes nowhere on purpose is no failure, and what needs no standard
/// output asks for none.
#[test]
fn a_standard_output_that_is_not_needed() {
    let folder = Folder::new("not-needed");
    folder.put("a.x10", SMALL);
    shell(&folder, "\"$0\" write a.x10 >/dev/null").expect(0, "", "");
    shell(&folder, "\"$0\" write a.x10 1<>/dev/null").expect(0, "", "");
    shell(&folder, "\"$0\" write a.x10 -o b.x10 >&-").expect(0, "", "");
    assert_eq!(folder.get("b.x10"), SMALL.as_bytes());
}

#[test]
fn a_full_disk_is_2() {
    let folder = Folder::new("full");
    folder.put("a.x10", SMALL);
    for command in ["write", "show", "check"] {
        let run = shell(&folder, &format!("\"$0\" {command} a.x10 >/dev/full"));
        assert_eq!(run.code, 2, "{command}");
        assert!(run.err.starts_with("nhachudep: standard output: "));
    }
}

#[test]
fn a_file_over_the_systems_limit_leaves_nothing() {
    let folder = Folder::new("limit");
    let file = fs::read(examples().join("depot-week.x10")).unwrap();
    folder.put("a.x10", &file);
    for place in ["--in-place", "-o b.x10"] {
        let run = shell(
            &folder,
            &format!("ulimit -f 1; exec \"$0\" write a.x10 {place}"),
        );
        assert_eq!(run.code, 2, "{}", run.err);
        assert!(run.err.starts_with("nhachudep: "), "{}", run.err);
    }
    assert_eq!(folder.get("a.x10"), file);
    assert_eq!(folder.names(), ["a.x10"]);
}

extern "C" {
    fn signal(signal: i32, handler: usize) -> usize;
}

/// What is ignored where the tests are run, as under nohup, would be ignored by
/// the tool too; here the signal does by default what it does.
fn heed(command: &mut Command, number: i32) {
    const BY_DEFAULT: usize = 0;
    let reset = move || {
        // SAFETY: nothing handles this signal.
        unsafe { signal(number, BY_DEFAULT) };
        Ok(())
    };
    // SAFETY: `signal` may be called between fork and exec.
    unsafe { command.pre_exec(reset) };
}

/// A signal waits for the short time in which the new file has a name of its
/// own, and then ends the tool.
#[test]
fn a_signal_leaves_no_file_behind() {
    for (signal, number) in [("INT", 2), ("TERM", 15), ("HUP", 1)] {
        for (place, name) in [(&["--in-place"][..], "a.x10"), (&["-o", "b.x10"], "b.x10")] {
            let folder = Folder::new("signal");
            folder.put("a.x10", SMALL.replace("; ", ";"));
            let line = format!("ls .{name}.new-* > seen; kill -{signal} $PPID");
            let arguments = [&["write", "a.x10"], place].concat();
            let mut command = meanwhile(&folder, &arguments, &line);
            heed(&mut command, number);
            let status = command.status().unwrap();
            assert_eq!(status.signal(), Some(number), "{signal}");
            assert!(folder.get("seen").starts_with(b"."));
            assert_eq!(folder.get(name), SMALL.as_bytes());
            assert!(folder.names().iter().all(|name| !name.starts_with('.')));
        }
    }
}

/// A pipe whose reader has gone.
fn unread() -> PipeWriter {
    let (_, writer) = pipe().unwrap();
    writer
}

/// Whoever stops reading ends the tool as it ends others: by SIGPIPE, and
/// without a word.
#[test]
fn a_reader_that_has_gone() {
    const SIGPIPE: i32 = 13;
    let folder = Folder::new("gone");
    folder.put("a.x10", SMALL);
    for arguments in [
        &["show", "a.x10"][..],
        &["write", "a.x10"],
        &["check", "a.x10"],
        &["--help"],
    ] {
        let output = folder.tool(arguments).stdout(unread()).output().unwrap();
        assert_eq!(output.status.signal(), Some(SIGPIPE), "{arguments:?}");
        assert!(output.stderr.is_empty(), "{arguments:?}");
    }
}

/// A reader of standard error that has gone changes nothing.
#[test]
fn nobody_reads_the_errors() {
    let folder = Folder::new("unread");
    folder.put("a.x10", SMALL.replace("end; 2", "end; 3"));
    let output = folder
        .tool(&["check", "a.x10"])
        .stderr(unread())
        .output()
        .unwrap();
    assert_eq!(output.status.code(), Some(1));
}
