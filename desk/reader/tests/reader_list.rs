//! The program `reader-list`.

mod common;

use std::io::Write;
use std::path::PathBuf;
use std::process::{Command, Output, Stdio};

use common::DAMAGED;
use reader::{forms_shown, listing};

fn program() -> Command {
    Command::new(env!("CARGO_BIN_EXE_reader-list"))
}

fn fed(input: &[u8]) -> Output {
    let mut child = program()
        .stdin(Stdio::piped())
        .stdout(Stdio::piped())
        .spawn()
        .unwrap();
    child.stdin.take().unwrap().write_all(input).unwrap();
    child.wait_with_output().unwrap()
}

fn examples() -> PathBuf {
    PathBuf::from(env!("CARGO_MANIFEST_DIR")).join("../../examples")
}

#[test]
fn standard_input() {
    let output = fed(DAMAGED);
    assert!(output.status.success());
    assert_eq!(output.stdout, listing(DAMAGED));
    assert_eq!(fed(&[b' '; 65_537]).stdout, b"too long\n");
    assert_eq!(fed(&[b' '; 65_536]).stdout, b"header;2;1\nfile;2;0;1\n");
}

#[test]
fn named_files() {
    let run = |names: &[&str]| {
        let output = program()
            .args(names)
            .current_dir(examples())
            .output()
            .unwrap();
        assert!(output.status.success());
        output.stdout
    };
    assert_eq!(run(&["damaged.x10"]), listing(DAMAGED));
    let named = run(&["--cases", "damaged.x10", "damaged.x10"]);
    let once = [
        b"damaged.x10\n",
        &listing(DAMAGED)[..],
        &forms_shown(DAMAGED)[..],
    ]
    .concat();
    assert_eq!(named, once.repeat(2));
}

#[test]
fn a_file_that_is_not_there() {
    let output = program().arg("no-such-file.x10").output().unwrap();
    assert!(!output.status.success());
    assert!(output.stdout.is_empty());
}
