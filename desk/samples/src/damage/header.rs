//! Damage to header and trailer.

use super::sections::{odd_count, pick_line};
use crate::page::{End, Page};
use crate::random::Random;

const ODD_LINES: [&[u8]; 34] = [
    b"mod; DD.MM.YY; HH:MM:SS; free",
    b"mod; DD.MM.YYYY; HH:MM; free",
    b"mod; DD.MM.YYYY; HH:MM:SS; Free",
    b"mod; DD.MM.YYYY; HH:MM:SS",
    b"mod; YYYY/MM/DD; HH:MM:SS; aligned",
    b"mod; \"DD.MM.YYYY\"; HH:MM:SS; free",
    b"src; \"Desk\"; \"29.02.2023\"; \"06:00:00\"",
    b"src; \"Desk\"; \"29.02.1900\"; \"06:00:00\"",
    b"src; \"Desk\"; \"29.02.2024\"; \"06:00:00\"",
    b"src; \"Desk\"; \"2024/02/29\"; \"06:00:00\"",
    b"src; \"Desk\"; \"01.01.0000\"; \"06:00:00\"",
    b"src; \"Desk\"; \"1.1.2024\"; \"06:00:00\"",
    b"src; \"Desk\"; \"31.04.2024\"; \"06:00:00\"",
    b"src; \"Desk\"; \"01.13.2024\"; \"06:00:00\"",
    b"src; \"Desk\"; \"01.02.2024\"; \"24:00:00\"",
    b"src; \"Desk\"; \"01.02.2024\"; \"23:60:00\"",
    b"src; \"Desk\"; \"01.02.2024\"; \"23:59:60\"",
    b"src; \"Desk\"; \"01.02.2024\"; 06:00:00",
    b"src; Desk; \"01.02.2024\"; \"06:00:00\"",
    b"src; \"Desk; \"01.02.2024\"; \"06:00:00\"",
    b"chs; \"UTF-8\"",
    b"chs; \"ascii\"",
    b"chs; ASCII",
    b"chs; \"ASCII \"",
    b"chs; \"ISO-8859-1\"",
    b"chs; \"ASCII\"",
    b"ver; 1",
    b"ver; \"1\"; \"2\"",
    b"ver;",
    b"ifv; \"1\"\"",
    b"fft; \"\xe4\"",
    b"com; \xe4",
    b"rec; 1",
    b"xyz; \"1\"",
];

/// Header lines in the order in which they are tried.
const COMMANDS: [&str; 7] = ["mod", "src", "chs", "ver", "ifv", "dve", "fft"];

fn header_length(page: &Page) -> usize {
    let is_start = |command: &[u8]| command == b"tbl" || command == b"eof";
    let start = page.lines.iter().position(|line| is_start(line.command()));
    start.unwrap_or(page.lines.len())
}

/// One line replaced by an odd one of the same command, or one put in.
pub fn change_header_line(random: &mut Random, page: &mut Page) {
    let odd = random.pick(&ODD_LINES).to_vec();
    let command = String::from_utf8_lossy(&odd[..3]).into_owned();
    match pick_line(random, page, &command) {
        Some(line) if command != "rec" && command != "com" => line.content = odd,
        _ => {
            let place = random.below(header_length(page) + 1);
            page.insert(place, &odd);
        }
    }
}

pub fn drop_header_line(random: &mut Random, page: &mut Page) {
    let places = page.places_of(random.pick(&COMMANDS));
    if let Some(place) = places.first() {
        page.lines.remove(*place);
    }
}

pub fn double_header_line(random: &mut Random, page: &mut Page) {
    let places = page.places_of(random.pick(&COMMANDS));
    if let Some(place) = places.first() {
        let content = page.lines[*place].content.clone();
        let last = header_length(page).max(*place);
        let behind = place + random.below(last + 1 - place);
        page.insert(behind, &content);
    }
}

pub fn change_eof(random: &mut Random, page: &mut Page) {
    let odd = odd_count(random);
    if let Some(line) = pick_line(random, page, "eof") {
        line.set_fields(&[odd]);
    }
}

pub fn add_second_eof(random: &mut Random, page: &mut Page) {
    let eof = match pick_line(random, page, "eof") {
        Some(line) => line.content.clone(),
        None => b"eof; 0".to_vec(),
    };
    if random.percent(50) {
        page.append(&eof);
    } else {
        page.insert(random.below(page.lines.len() + 1), &eof);
    }
}

/// The first section again behind the trailer, or the last one moved there;
/// the count may tell of it.
pub fn put_table_behind_eof(random: &mut Random, page: &mut Page) {
    let starts = page.places_of("tbl");
    let stops = page.places_of("eof");
    let (Some(&start), Some(&stop)) = (starts.last(), stops.first()) else {
        return;
    };
    if start > stop {
        return;
    }
    let moves = random.percent(50);
    let section: Vec<_> = page.lines[start..stop].to_vec();
    if let Some(last) = page.lines.last_mut() {
        if last.end == End::Nothing {
            last.end = End::Feed;
        }
    }
    page.lines.extend(section);
    if moves {
        page.lines.drain(start..stop);
    } else if random.percent(50) {
        let count = format!(" {}", starts.len() + 1).into_bytes();
        page.lines[stop].set_fields(&[count]);
    }
}

pub fn put_line_behind_eof(random: &mut Random, page: &mut Page) {
    let lines: [&[u8]; 6] = [
        b"com; \"Ende\"",
        b"end; 0",
        b"x",
        b"   ",
        b"rec; 1",
        b"com; \"SUGGESTED 3\"",
    ];
    page.append(random.pick(&lines));
}
