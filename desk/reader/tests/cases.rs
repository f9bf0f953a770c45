//! The case files: each name begins with the file's expected number, and
//! `places.txt` gives the expected section and line.

mod common;

use std::collections::BTreeMap;
use std::fs;
use std::path::PathBuf;

use common::answer;
use reader::{check, forms_shown, listing, strip, write, Answer};

fn folder() -> PathBuf {
    PathBuf::from(env!("CARGO_MANIFEST_DIR")).join("../../crates/cases")
}

fn read_text(name: &str) -> String {
    fs::read_to_string(folder().join(name)).unwrap()
}

/// Every case by its file's name, in the names' byte order.
fn cases() -> BTreeMap<String, Vec<u8>> {
    let mut found = BTreeMap::new();
    for entry in fs::read_dir(folder().join("data")).unwrap() {
        let path = entry.unwrap().path();
        if path.extension().is_some_and(|e| e == "x10") {
            let name = path.file_name().unwrap().to_str().unwrap().to_owned();
            found.insert(name, fs::read(&path).unwrap());
        }
    }
    found
}

fn number_in(name: &str) -> u8 {
    name[..2].parse().unwrap()
}

#[test]
fn each_case_gives_the_number_in_its_name() {
    let wrong: Vec<_> = cases()
        .iter()
        .map(|(name, file)| (name.clone(), answer(file)))
        .filter(|(name, answer)| answer.0 != number_in(name))
        .collect();
    assert!(wrong.is_empty(), "{wrong:#?}");
}

#[test]
fn each_place_is_the_one_written_down() {
    let cases = cases();
    let mut wrong = Vec::new();
    for line in read_text("places.txt").lines() {
        let words: Vec<&str> = line.split(' ').collect();
        let [name, section, place] = words[..] else {
            panic!("{line}");
        };
        let expected = (
            number_in(name),
            section.parse().unwrap(),
            place.parse().unwrap(),
        );
        let found = answer(&cases[name]);
        if found != expected {
            wrong.push((name.to_owned(), found, expected));
        }
    }
    assert!(wrong.is_empty(), "{wrong:#?}");
}

#[test]
fn every_number_a_file_can_give_is_met() {
    let cases = cases();
    assert!(cases.len() >= 220);
    let count = |number| cases.keys().filter(|n| number_in(n) == number).count();
    assert!(count(0) >= 30);
    for number in (2..=20).chain([25, 26]) {
        assert!(count(number) >= 5, "{number}");
    }
    assert!(cases.values().all(|file| file.len() < 2048));
}

#[test]
fn every_case_has_its_place() {
    let text = read_text("places.txt");
    let placed: Vec<&str> = text.lines().filter_map(|l| l.split(' ').next()).collect();
    assert_eq!(placed, cases().keys().collect::<Vec<_>>());
}

#[test]
fn the_expected_output_is_every_name_listing_and_form() {
    let cases = cases();
    let names: String = cases.keys().map(|name| format!("{name}\n")).collect();
    assert!(read_text("args") == names, "args names other files");
    let mut expected = Vec::new();
    for (name, file) in &cases {
        expected.extend_from_slice(format!("{name}\n").as_bytes());
        expected.extend_from_slice(&listing(file));
        expected.extend_from_slice(&forms_shown(file));
    }
    let stdout = fs::read(folder().join("stdout")).unwrap();
    assert!(stdout == expected, "stdout is not what the reader shows");
}

#[test]
fn sound_cases_have_a_form_and_the_others_their_own_answer() {
    for (name, file) in cases() {
        let mut out = vec![7; 8192];
        let written = write(&file, &mut out);
        match check(&file) {
            Answer::SOUND => {
                let form = &out[..written.unwrap()];
                let mut again = vec![0; form.len()];
                assert_eq!(write(form, &mut again), Ok(form.len()), "{name}");
                assert_eq!(again, form, "{name}");
            }
            refusal => {
                assert_eq!(written, Err(refusal), "{name}");
                assert_eq!(out, vec![7; 8192], "{name}");
            }
        }
    }
}

#[test]
fn stripping_twice_is_stripping_once() {
    for (name, file) in cases() {
        let mut once = vec![0; 8192];
        let Ok(length) = strip(&file, &mut once) else {
            continue;
        };
        let mut twice = vec![0; length];
        assert_eq!(strip(&once[..length], &mut twice), Ok(length), "{name}");
        assert_eq!(twice, once[..length], "{name}");
    }
}

#[test]
fn every_cut_is_answered() {
    for file in cases().values() {
        for length in 0..file.len() {
            let cut = &file[..length];
            assert!(matches!(check(cut).number, 0..=20 | 25 | 26));
            assert!(listing(cut).ends_with(b"\n"));
        }
    }
}
