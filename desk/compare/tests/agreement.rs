//! The chosen library and the independent reader give the same answers, over
//! drawn files and over those under `cases/` and `examples/`.

use std::fs;
use std::path::{Path, PathBuf};

use compare::{compare_file, run, Options, Pair, Tally};
use samples::Random;
use vdv::number;

fn pair() -> Pair<'static> {
    Pair {
        subject: compare::chosen(),
        baseline: compare::baseline(),
    }
}

/// The large ones are left to the program, which is compiled to be fast.
#[test]
fn drawn_files() {
    let options = Options {
        seed: 2,
        count: 2_000,
        large: false,
        ..Options::default()
    };
    let summary = run(pair(), &options, |_| {});
    assert!(summary.is_clean(), "{summary}");
    assert!(summary.runs > 1_000 && summary.kept > 3_000, "{summary}");
}

/// What is compared with keeps the laws by itself, and the draws reach every
/// number that needs no large file, with arranged columns too.
#[test]
fn the_reader_beside_itself() {
    let options = Options {
        seed: 2,
        count: 2_000,
        large: false,
        ..Options::default()
    };
    let alone = Pair {
        subject: compare::baseline(),
        baseline: compare::baseline(),
    };
    let summary = run(alone, &options, |_| {});
    assert!(summary.is_clean(), "{summary}");
    assert_eq!(summary.tally.missed(), [number::FILE_TOO_LONG], "{summary}");
}

fn files(folder: &str) -> Vec<(PathBuf, Vec<u8>)> {
    let folder = Path::new(env!("CARGO_MANIFEST_DIR"))
        .join("../..")
        .join(folder);
    let entries = fs::read_dir(folder)
        .unwrap()
        .map(|entry| entry.unwrap().path());
    let named = entries.filter(|path| path.extension().is_some_and(|e| e == "x10"));
    named
        .map(|path| (path.clone(), fs::read(&path).unwrap()))
        .collect()
}

#[test]
fn cases_and_examples() {
    let mut tally = Tally::default();
    let files = [files("crates/cases/data"), files("examples")].concat();
    assert!(files.len() > 200);
    for (path, file) in files {
        let compared = compare_file(pair(), &mut tally, &mut Random::new(1), &file);
        compared.unwrap_or_else(|difference| panic!("{}: {difference}", path.display()));
    }
    let of_files = (number::SOUND..=number::REFERENCE).chain(number::COMBINATION..=number::LAST);
    for number in of_files.filter(|n| *n != number::FILE_TOO_LONG) {
        assert!(tally.checks(number) >= 5, "{tally}");
    }
}

#[test]
fn every_cut_of_every_case() {
    let Pair { subject, baseline } = pair();
    for (path, file) in files("crates/cases/data") {
        for length in 0..file.len() {
            let cut = &file[..length];
            assert_eq!(
                subject.check(cut),
                baseline.check(cut),
                "{} {length}",
                path.display()
            );
        }
    }
}
