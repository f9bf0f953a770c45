//! Damage to lines, whatever they say.

use crate::page::{End, Line, Page};
use crate::random::Random;
use crate::texts;

/// Lines that stand in files of other systems, or in none.
const FOREIGN: [&[u8]; 18] = [
    b"tbl; REC_ORT",
    b"tbl; MENGE_TAGESART",
    b"tbl;",
    b"atr; BASIS_VERSION",
    b"frm; num[9.0]",
    b"rec; 1",
    b"rec; 1; 2; 3",
    b"end; 0",
    b"eof; 1",
    b"mod; DD.MM.YYYY; HH:MM:SS; free",
    b"ver; \"2\"",
    b"REC; 1; \"x\"",
    b"xyz; 1",
    b";x",
    b"rec",
    b"\t",
    b"com; \"fremd\"",
    b"\"rec; 7\"",
];

fn pick_line(random: &mut Random, page: &Page) -> Option<usize> {
    (!page.lines.is_empty()).then(|| random.below(page.lines.len()))
}

pub fn drop_line(random: &mut Random, page: &mut Page) {
    if let Some(place) = pick_line(random, page) {
        let count = random.pick(&[1, 1, 2, 5]);
        let end = page.lines.len().min(place + count);
        page.lines.drain(place..end);
    }
}

pub fn double_line(random: &mut Random, page: &mut Page) {
    if let Some(place) = pick_line(random, page) {
        let mut line = page.lines[place].clone();
        if line.end == End::Nothing {
            line.end = End::Feed;
        }
        page.lines.insert(place, line);
    }
}

pub fn swap_lines(random: &mut Random, page: &mut Page) {
    let (Some(one), Some(other)) = (pick_line(random, page), pick_line(random, page)) else {
        return;
    };
    let other = match random.below(2) {
        0 => other,
        _ => (one + 1).min(page.lines.len() - 1),
    };
    let moved = page.lines[one].content.clone();
    page.lines[one].content = page.lines[other].content.clone();
    page.lines[other].content = moved;
}

pub fn cut_line(random: &mut Random, page: &mut Page) {
    if let Some(place) = pick_line(random, page) {
        let content = &mut page.lines[place].content;
        let length = random.below(content.len() + 1);
        content.truncate(length);
    }
}

pub fn join_lines(random: &mut Random, page: &mut Page) {
    if let Some(place) = pick_line(random, page) {
        page.lines[place].end = End::Nothing;
    }
}

pub fn add_foreign_line(random: &mut Random, page: &mut Page) {
    let content = if random.percent(80) {
        random.pick(&FOREIGN).to_vec()
    } else {
        let length = random.below(30);
        texts::any(random, true, length)
    };
    let place = random.below(page.lines.len() + 1);
    if place == page.lines.len() {
        page.append(&content);
    } else {
        let end = End::Feed;
        page.lines.insert(place, Line { content, end });
    }
}
