//! Damage to marks, and marks where none belongs.

use crate::page::{Line, Page};
use crate::random::Random;

const MALFORMED: [&[u8]; 13] = [
    b"com; \"SUGGESTED \"",
    b"com; \"SUGGESTED 0\"",
    b"com; \"SUGGESTED 03\"",
    b"com; \"SUGGESTED 3 \"",
    b"com; \"SUGGESTED  3\"",
    b"com; \"SUGGESTED -3\"",
    b"com; \"SUGGESTED x\"",
    b"com; \"SUGGESTED 3;\"",
    b"com; \"SUGGESTED \"\"3\"\"\"",
    b"com; \"SUGGESTED 18446744073709551619\"",
    b"com; \"SUGGESTED 4294967299\"",
    b"com; \"SUGGESTED 3",
    b"com; SUGGESTED 3",
];

fn mark(random: &mut Random) -> Vec<u8> {
    match random.below(3) {
        0 => random.pick(&MALFORMED).to_vec(),
        1 => format!("com; \"SUGGESTED {}\"", random.between(1, 4)).into_bytes(),
        _ => format!("com;\"SUGGESTED {}\" ", random.below(24)).into_bytes(),
    }
}

/// Where marks stand now.
pub(super) fn places(page: &Page) -> Vec<usize> {
    let is_mark = |line: &Line| {
        let fields = line.fields();
        line.command() == b"com"
            && fields.len() == 1
            && fields[0].trim_ascii().starts_with(b"\"SUGGESTED ")
    };
    let lines = page.lines.iter().enumerate();
    lines.filter(|(_, l)| is_mark(l)).map(|(i, _)| i).collect()
}

pub fn put_mark_anywhere(random: &mut Random, page: &mut Page) {
    let place = random.below(page.lines.len() + 1);
    let mark = mark(random);
    if place == page.lines.len() {
        page.append(&mark);
    } else {
        page.insert(place, &mark);
    }
}

/// Before a `rec` or `end` line, where it may be sound or not.
pub fn put_mark_before_record(random: &mut Random, page: &mut Page) {
    let mut found = page.places_of("rec");
    found.extend(page.places_of("end"));
    if let Some(place) = random.choose(&found) {
        page.insert(*place, &mark(random));
    }
}

pub fn malform_mark(random: &mut Random, page: &mut Page) {
    let found = places(page);
    if let Some(place) = random.choose(&found) {
        page.lines[*place].content = mark(random);
    }
}

pub fn double_mark(random: &mut Random, page: &mut Page) {
    let found = places(page);
    if let Some(place) = random.choose(&found) {
        let content = page.lines[*place].content.clone();
        page.insert(*place, &content);
    }
}
