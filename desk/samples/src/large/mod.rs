//! Large files of a given number of bytes, to measure with and for the limit.

mod connections;

use vdv::tables::{
    named, Table, CALENDAR, DAY_TYPES, LINKS, POINT_TYPES, TIMES, VALIDITY, VERSIONS,
};
use vdv::{number, At, Date};

use crate::arrangement::Arrangement;
use crate::days;
use crate::form::form;
use crate::meaning::{self, PARENTS_FIRST};
use crate::page::Line;
use crate::random::Random;

const HEADER: &[u8] = b"mod; DD.MM.YYYY; HH:MM:SS; free\n\
src; \"Messung\"; \"01.02.2024\"; \"06:00:00\"\n\
chs; \"ISO8859-1\"\n\
ver; \"1\"\n\
ifv; \"1.6\"\n";

/// Room left for `end`, `eof` and the comment that fills up to the size; it
/// also lets the written form take one more suggestion.
const RESERVE: usize = 512;

/// Links of one area, so that 18 MB need no more areas than there are.
const LINKS_OF_AREA: usize = 860;

/// The first day that is used; its number and every later one has eight digits.
const FIRST_DAY: Date = Date {
    year: 1000,
    month: 1,
    day: 1,
};

/// The most days from one record of a calendar to the next, so that 18 MB need
/// no more days than there are.
const WIDEST_STEP: usize = 6;

#[derive(Clone, Copy, Debug, PartialEq, Eq)]
pub enum Order {
    Rising,
    Shuffled,
}

#[derive(Clone, Copy, Debug, PartialEq, Eq)]
pub enum Shape {
    /// As many links (225) as running times (247).
    Network(Order),
    /// One huge calendar (348), every eighth text a suggestion.
    Calendar(Order),
    /// Document 01's eight tables, each with a share of the bytes: many
    /// versions with few records each.
    Eight(Order),
    /// The same in key order, each table's columns in another order than
    /// document 01's.
    Arranged,
    /// Connections (432), each with four transfers (232): of every second the
    /// numbers are missing that may be, every eighth name is a suggestion.
    Connections(Order),
    /// Small tables again and again: unsound by 17.
    Small,
}

/// Those that are accepted.
pub const SOUND: [Shape; 9] = [
    Shape::Network(Order::Rising),
    Shape::Network(Order::Shuffled),
    Shape::Calendar(Order::Rising),
    Shape::Calendar(Order::Shuffled),
    Shape::Eight(Order::Rising),
    Shape::Eight(Order::Shuffled),
    Shape::Arranged,
    Shape::Connections(Order::Rising),
    Shape::Connections(Order::Shuffled),
];

impl Shape {
    pub fn name(self) -> &'static str {
        match self {
            Shape::Network(Order::Rising) => "links and times in key order",
            Shape::Network(Order::Shuffled) => "links and times shuffled",
            Shape::Calendar(Order::Rising) => "one huge calendar in key order",
            Shape::Calendar(Order::Shuffled) => "one huge calendar shuffled",
            Shape::Eight(Order::Rising) => "document 01's eight tables in key order",
            Shape::Eight(Order::Shuffled) => "document 01's eight tables shuffled",
            Shape::Arranged => "document 01's eight tables in key order, columns arranged",
            Shape::Connections(Order::Rising) => "connections and transfers in key order",
            Shape::Connections(Order::Shuffled) => "connections and transfers shuffled",
            Shape::Small => "small tables again and again",
        }
    }

    /// The same records, and no other bytes, in document 01's order.
    pub fn unarranged(self) -> Option<Shape> {
        (self == Shape::Arranged).then_some(Shape::Eight(Order::Rising))
    }

    /// The file's answer: "table a second time" where small ones come again.
    pub fn answer(self) -> u32 {
        match self {
            Shape::Small => number::TABLE_TWICE,
            _ => number::SOUND,
        }
    }
}

/// The empty text that waits to be filled in every sound one.
pub const EMPTY: At = At::new(1, 2, 2);

/// A file of just so many bytes, at least 4096. All shapes but the last are
/// sound.
pub fn file(shape: Shape, bytes: usize, seed: u64) -> Vec<u8> {
    let mut random = Random::new(seed);
    match shape {
        Shape::Network(order) => network(&mut random, bytes, order),
        Shape::Calendar(order) => calendar(&mut random, bytes, order),
        Shape::Eight(order) => eight(&mut random, bytes, order),
        Shape::Arranged => with_columns_reversed(&eight(&mut random, bytes, Order::Rising)),
        Shape::Connections(order) => connections::draw(&mut random, bytes, order),
        Shape::Small => small(&mut random, bytes),
    }
}

/// The same without a space after any `;`, for forms longer than their file.
/// No text of a network has one.
pub fn without_spaces(file: &[u8]) -> Vec<u8> {
    let mut dense = Vec::with_capacity(file.len());
    for &byte in file {
        if byte != b' ' || dense.last() != Some(&b';') {
            dense.push(byte);
        }
    }
    dense
}

/// The same with so many more bytes in the header's first text.
pub fn with_longer_source(file: &[u8], more: usize) -> Vec<u8> {
    let place = file.iter().position(|&byte| byte == b'"').unwrap_or(0) + 1;
    [&file[..place], &vec![b'.'; more], &file[place..]].concat()
}

/// The same with the columns of each table the other way round. Fields are
/// separated alike and marks have one digit, so every line keeps its length.
fn with_columns_reversed(file: &[u8]) -> Vec<u8> {
    let mut out = Vec::with_capacity(file.len());
    let mut reversed = None;
    for line in file.split_inclusive(|byte| *byte == b'\n') {
        let mut line = Line::unended(line);
        if line.command() == b"tbl" {
            let name = line.fields().concat();
            reversed = named(name.trim_ascii()).map(Arrangement::reversed);
        } else if let Some(reversed) = &reversed {
            reverse(&mut line, reversed);
        }
        out.extend_from_slice(&line.content);
    }
    out
}

fn reverse(line: &mut Line, reversed: &Arrangement) {
    let content = line.content.trim_ascii_end().to_vec();
    let unended = Line::unended(&content);
    let fields = match line.command() {
        b"atr" | b"frm" | b"rec" => reversed.arrange(&unended.fields()),
        b"com" => match marked_field(&content).and_then(|field| reversed.place_of(field)) {
            Some(place) => vec![format!(" \"SUGGESTED {place}\"").into_bytes()],
            None => return,
        },
        _ => return,
    };
    line.set_fields(&fields);
    line.content.push(b'\n');
}

/// The number in a mark as the files here write it.
fn marked_field(mark: &[u8]) -> Option<usize> {
    let number = mark
        .strip_prefix(b"com; \"SUGGESTED ")?
        .strip_suffix(b"\"")?;
    std::str::from_utf8(number).ok()?.parse().ok()
}

struct Part {
    table: &'static Table,
    /// Each with its marks and its line end.
    records: Vec<Vec<u8>>,
}

impl Part {
    fn new(table: &'static Table, records: &[&[u8]]) -> Part {
        let records = records.iter().map(|record| record.to_vec()).collect();
        Part { table, records }
    }

    fn put(&self, out: &mut Vec<u8>) {
        put_head(out, self.table);
        for record in &self.records {
            out.extend_from_slice(record);
        }
        out.extend_from_slice(format!("end; {}\n", self.records.len()).as_bytes());
    }
}

fn put_head(out: &mut Vec<u8>, table: &Table) {
    let columns = table.columns.iter();
    let names: String = columns.clone().map(|c| format!("; {}", c.name)).collect();
    let formats: String = columns.map(|c| format!("; {}", c.format())).collect();
    let head = format!("tbl; {}\natr{names}\nfrm{formats}\n", table.name);
    out.extend_from_slice(head.as_bytes());
}

/// The small tables every large one refers to.
fn parents() -> Vec<Part> {
    vec![
        Part::new(&VERSIONS, &[b"rec; 20; \"Winter\"\n", b"rec; 21; \"\"\n"]),
        Part::new(&VALIDITY, &[b"rec; 20240101; 20\n"]),
        Part::new(
            &DAY_TYPES,
            &[
                b"rec; 20; 1; \"Schultag\"\n",
                b"rec; 20; 2; \"Ferientag f\xfcr Sch\xfcler\"\n",
                b"rec; 20; 3; \"Sonn- und Feiertag, \"\"ruhig\"\"\"\n",
            ],
        ),
        Part::new(
            &POINT_TYPES,
            &[
                b"rec; 20; 1; \"HP\"; \"Haltepunkt\"\n",
                b"rec; 20; 2; \"BHOF\"; \"\"\n",
            ],
        ),
    ]
}

/// Header, sections, a comment that fills up, and the trailer.
fn assemble(parts: &[Part], bytes: usize) -> Vec<u8> {
    let mut out = Vec::with_capacity(bytes);
    out.extend_from_slice(HEADER);
    for part in parts {
        part.put(&mut out);
    }
    close(&mut out, parts.len(), bytes);
    out
}

fn close(out: &mut Vec<u8>, tables: usize, bytes: usize) {
    let trailer = format!("eof; {tables}\n");
    let left = bytes - out.len() - trailer.len();
    out.extend_from_slice(b"com; ");
    out.resize(out.len() + left - 6, b'.');
    out.push(b'\n');
    out.extend_from_slice(trailer.as_bytes());
}

/// Bytes that remain for records beside parents and heads.
fn room(parents: &[Part], tables: &[&'static Table], bytes: usize) -> usize {
    let heads = tables.iter().map(|&table| Part::new(table, &[]));
    let mut fixed = HEADER.to_vec();
    for part in parents {
        part.put(&mut fixed);
    }
    for part in heads {
        part.put(&mut fixed);
    }
    bytes - fixed.len() - RESERVE
}

fn network(random: &mut Random, bytes: usize, order: Order) -> Vec<u8> {
    let mut parts = parents();
    let mut room = room(&parts, &[&LINKS, &TIMES], bytes);
    let (mut links, mut times) = (Vec::new(), Vec::new());
    loop {
        let [link, time] = draw_link(random, links.len());
        let length = link.len() + time.len();
        if length > room {
            break;
        }
        room -= length;
        links.push(link);
        times.push(time);
    }
    if order == Order::Shuffled {
        random.shuffle(&mut links);
        random.shuffle(&mut times);
    }
    parts.push(Part {
        table: &LINKS,
        records: links,
    });
    parts.push(Part {
        table: &TIMES,
        records: times,
    });
    assemble(&parts, bytes)
}

/// A link and its running time. Area, type and number of its start rise with
/// the index, and with them the keys of both tables.
fn draw_link(random: &mut Random, index: usize) -> [Vec<u8>; 2] {
    let area = index / LINKS_OF_AREA;
    let half = LINKS_OF_AREA / 2;
    let from_type = index % LINKS_OF_AREA / half + 1;
    let from = 1000 + index % half * 2300 + random.below(2000);
    let (to_type, to) = (
        1 + random.below(2),
        random.between(10_000, 999_998) as usize,
    );
    let to = if to == from { to + 1 } else { to };
    let points = format!("{from_type}; {from}; {to_type}; {to}");
    let (metres, seconds) = (random.between(100, 81_890), random.between(30, 9_999));
    [
        format!("rec; 20; {area}; {points}; {metres}\n").into_bytes(),
        format!("rec; 20; {area}; 1; {points}; {seconds}\n").into_bytes(),
    ]
}

fn calendar(random: &mut Random, bytes: usize, order: Order) -> Vec<u8> {
    let mut parts = parents();
    let mut room = room(&parts, &[&CALENDAR], bytes);
    let mut records = Vec::new();
    let mut days = days::from(FIRST_DAY);
    while let Some(day) = days.nth(random.below(WIDEST_STEP)) {
        let record = draw_day(random, day, records.len() % 8 == 7);
        if record.len() > room {
            break;
        }
        room -= record.len();
        records.push(record);
    }
    if order == Order::Shuffled {
        random.shuffle(&mut records);
    }
    parts.push(Part {
        table: &CALENDAR,
        records,
    });
    assemble(&parts, bytes)
}

fn draw_day(random: &mut Random, day: Date, is_suggestion: bool) -> Vec<u8> {
    let day = days::number_of(day);
    let texts: [&[u8]; 4] = [
        b"Freitag",
        b"Samstag nach Dreik\xf6nig",
        b"Tag der \"\"offenen\"\" T\xfcr",
        b"Schulbeginn; sonst wie immer",
    ];
    let mut record = Vec::new();
    if is_suggestion {
        record.extend_from_slice(b"com; \"SUGGESTED 3\"\n");
    }
    record.extend_from_slice(format!("rec; 20; {day}; \"").as_bytes());
    record.extend_from_slice(random.pick(&texts));
    record.extend_from_slice(format!("\"; {}\n", random.between(1, 3)).as_bytes());
    record
}

fn eight(random: &mut Random, bytes: usize, order: Order) -> Vec<u8> {
    let tables: [_; 8] = std::array::from_fn(|index| PARENTS_FIRST[index]);
    let mut room = room(&[], &tables, bytes);
    let mut parts = tables.map(|table| Part::new(table, &[]));
    for (version, valid) in (1..).zip(days::from(FIRST_DAY)) {
        let records = draw_version(random, version, valid);
        let length: usize = records.iter().flatten().map(Vec::len).sum();
        if length > room {
            break;
        }
        room -= length;
        for (part, records) in parts.iter_mut().zip(records) {
            part.records.extend(records);
        }
    }
    if order == Order::Shuffled {
        for part in &mut parts {
            random.shuffle(&mut part.records);
        }
        let versions = &mut parts[EMPTY.section - 1].records;
        let is_empty = |record: &Vec<u8>| record.ends_with(b"\"\"\n");
        if let Some(empty) = versions.iter().position(is_empty) {
            versions.swap(empty, EMPTY.record - 1);
        }
    }
    assemble(&parts, bytes)
}

/// One version's records of each table, parents first. Every second version
/// has no text.
fn draw_version(random: &mut Random, version: usize, valid: Date) -> [Vec<Vec<u8>>; 8] {
    let lines = |lines: &[String]| lines.iter().map(|line| line.clone().into_bytes()).collect();
    let text = if version.is_multiple_of(2) {
        ""
    } else {
        "Fahrplan"
    };
    let valid = days::number_of(valid);
    let (from, to) = (random.between(1, 499_999), random.between(500_000, 999_998));
    let (metres, seconds) = (random.between(100, 81_890), random.between(30, 9_999));
    let points = [format!("1; {from}; 2; {to}"), format!("2; {to}; 1; {from}")];
    let v = version;
    [
        lines(&[format!("rec; {v}; \"{text}\"\n")]),
        lines(&[format!("rec; {valid}; {v}\n")]),
        lines(&[format!("rec; {v}; 1; \"Schultag\"\n")]),
        lines(&[
            format!("rec; {v}; 20250101; \"Neujahr\"; 1\n"),
            format!("com; \"SUGGESTED 3\"\nrec; {v}; 20250106; \"Feiertag\"; 1\n"),
        ]),
        lines(&[
            format!("rec; {v}; 1; \"HP\"; \"Haltepunkt\"\n"),
            format!("rec; {v}; 2; \"BHOF\"; \"\"\n"),
        ]),
        lines(&[
            format!("rec; {v}; 1; \"NF\"\n"),
            format!("rec; {v}; 2; \"BAF\"\n"),
        ]),
        lines(
            &points
                .clone()
                .map(|p| format!("rec; {v}; 1; {p}; {metres}\n")),
        ),
        lines(&points.map(|p| format!("rec; {v}; 1; 1; {p}; {seconds}\n"))),
    ]
}

/// The sections of small drawn files one after another under one header.
fn small(random: &mut Random, bytes: usize) -> Vec<u8> {
    let mut out = HEADER.to_vec();
    let mut tables = 0;
    loop {
        let model = meaning::draw(random, 3);
        let (sections, count) = sections_of(&form(&model));
        if out.len() + sections.len() + RESERVE > bytes {
            break;
        }
        out.extend_from_slice(&sections);
        tables += count;
    }
    close(&mut out, tables, bytes);
    out
}

/// A written form without header and trailer, and its number of tables. Texts
/// never cross a line end, so a line of the form that begins so is no text.
fn sections_of(form: &[u8]) -> (Vec<u8>, usize) {
    let lines: Vec<&[u8]> = form.split_inclusive(|byte| *byte == b'\n').collect();
    let is_table = |line: &&[u8]| line.starts_with(b"tbl; ");
    let count = lines.iter().filter(|line| is_table(line)).count();
    let sections = lines
        .iter()
        .skip_while(|line| !is_table(line))
        .filter(|line| !line.starts_with(b"eof; "));
    (sections.copied().collect::<Vec<_>>().concat(), count)
}

#[cfg(test)]
mod tests {
    use super::*;

    #[test]
    fn files_have_just_the_asked_size() {
        for shape in SOUND.into_iter().chain([Shape::Small]) {
            for bytes in [4096, 10_001, 65_537] {
                assert_eq!(file(shape, bytes, 1).len(), bytes, "{}", shape.name());
            }
        }
    }

    #[test]
    fn arranged_columns_hold_the_same_records() {
        let straight = file(Shape::Eight(Order::Rising), 65_537, 1);
        let arranged = file(Shape::Arranged, 65_537, 1);
        assert_ne!(arranged, straight);
        assert_eq!(with_columns_reversed(&straight), arranged);
        let holds = |part: &str| {
            let mut windows = arranged.windows(part.len());
            windows.any(|window| window == part.as_bytes())
        };
        assert!(holds(
            "\natr; TAGESART_NR; BETRIEBSTAG_TEXT; BETRIEBSTAG; BASIS_VERSION\n"
        ));
        assert!(holds("\nfrm; num[3.0]; char[40]; num[8.0]; num[9.0]\n"));
        assert!(holds(
            "\ncom; \"SUGGESTED 2\"\nrec; 1; \"Feiertag\"; 20250106; 1\n"
        ));
        assert!(holds("\nrec; \"Fahrplan\"; 1\n"));
    }
}
