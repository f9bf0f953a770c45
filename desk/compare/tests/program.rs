//! The program `compare`.

use std::process::{Command, Output};

fn compare(arguments: &[&str]) -> Output {
    Command::new(env!("CARGO_BIN_EXE_compare"))
        .args(arguments)
        .output()
        .unwrap()
}

#[test]
fn a_short_run() {
    let output = compare(&["--count", "50", "--seed", "3", "--small"]);
    assert_eq!(output.status.code(), Some(0));
    let printed = String::from_utf8(output.stdout).unwrap();
    assert!(printed.contains(" against reader, seed 3\n"));
    assert!(printed.contains("50 files"));
    assert!(printed.contains("  sound\n"));
    let progress = String::from_utf8(output.stderr).unwrap();
    assert!(progress.contains("of 50 files"));
}

#[test]
fn the_same_seed_gives_the_same_counts() {
    let run = || compare(&["--count", "40", "--small"]).stdout;
    assert_eq!(run(), run());
}

#[test]
fn help_and_misuse() {
    let help = compare(&["--help"]);
    assert_eq!(help.status.code(), Some(0));
    assert!(help.stdout.starts_with(b"Compares two implementations"));
    let misuse = compare(&["--seed"]);
    assert_eq!(misuse.status.code(), Some(2));
    assert!(misuse.stdout.is_empty() && !misuse.stderr.is_empty());
}
