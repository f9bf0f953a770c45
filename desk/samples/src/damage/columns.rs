//! Damage to which column stands where: names that are no arrangement of the
//! table's columns, and formats, records and marks that follow another one
//! than their `atr`.

use std::ops::Range;

use vdv::tables::{named, Table, ALL};

use super::marks;
use super::sections::pick_line;
use crate::arrangement::Arrangement;
use crate::page::{Line, Page};
use crate::random::Random;

/// Names that no table has, or only another one.
const ODD_NAMES: [&[u8]; 10] = [
    b"",
    b" basis_version",
    b" \"BASIS_VERSION\"",
    b" BASIS VERSION",
    b" BASIS_VERSIO",
    b" BASIS_VERSION2",
    b" LINIENID",
    b" BASIS_VERSION, TAGESART_NR",
    b" num[9.0]",
    b" 1",
];

/// A section whose `atr` names an arrangement, by the lines behind it.
struct Section {
    table: &'static Table,
    arrangement: Arrangement,
    lines: Range<usize>,
}

impl Section {
    /// Document 01's order, or for a section that has it already another one.
    fn another_order(&self) -> Arrangement {
        if self.arrangement.is_plain() {
            Arrangement::reversed(self.table)
        } else {
            Arrangement::plain(self.table)
        }
    }

    /// Where lines of this command stand in the section.
    fn places_of(&self, page: &Page, command: &str) -> Vec<usize> {
        let places = page.places_of(command).into_iter();
        places.filter(|place| self.lines.contains(place)).collect()
    }

    /// The line's fields in another order than the section's.
    fn arrange_otherwise(&self, line: &mut Line) {
        if let Some(by_column) = self.arrangement.by_column(&line.fields()) {
            line.set_fields(&self.another_order().arrange(&by_column));
        }
    }
}

fn sections(page: &Page) -> Vec<Section> {
    let starts = page.places_of("tbl");
    let ends = starts.iter().skip(1).copied().chain([page.lines.len()]);
    let section = |(start, end): (usize, usize)| {
        let name = page.lines[start].fields().concat();
        let table = named(name.trim_ascii())?;
        let mut names = page.places_of("atr").into_iter();
        let atr = names.find(|place| (start..end).contains(place))?;
        Some(Section {
            table,
            arrangement: Arrangement::named(&page.lines[atr].fields(), table)?,
            lines: atr + 1..end,
        })
    };
    let starts = starts.iter().copied();
    starts.zip(ends).filter_map(section).collect()
}

fn change_names(
    random: &mut Random,
    page: &mut Page,
    change: impl FnOnce(&mut Random, &mut Vec<Vec<u8>>),
) {
    if let Some(line) = pick_line(random, page, "atr") {
        let mut names = line.fields();
        change(random, &mut names);
        line.set_fields(&names);
    }
}

fn odd_name(random: &mut Random) -> Vec<u8> {
    if random.percent(50) {
        return random.pick(&ODD_NAMES).to_vec();
    }
    let columns: Vec<_> = ALL.iter().flat_map(|table| table.columns).collect();
    [b" ", random.pick(&columns).name.as_bytes()].concat()
}

pub fn drop_name(random: &mut Random, page: &mut Page) {
    change_names(random, page, |random, names| {
        names.remove(random.below(names.len()));
    });
}

pub fn repeat_name(random: &mut Random, page: &mut Page) {
    change_names(random, page, |random, names| {
        let [from, to] = [(); 2].map(|()| random.below(names.len()));
        names[to] = names[from].clone();
    });
}

pub fn change_name(random: &mut Random, page: &mut Page) {
    change_names(random, page, |random, names| {
        let place = random.below(names.len());
        names[place] = odd_name(random);
    });
}

pub fn add_name(random: &mut Random, page: &mut Page) {
    change_names(random, page, |random, names| {
        let added = match random.percent(50) {
            true => names[random.below(names.len())].clone(),
            false => odd_name(random),
        };
        names.insert(random.below(names.len() + 1), added);
    });
}

/// Two names change places, and in half of the draws their formats with them:
/// still an arrangement, but not the records'.
pub fn exchange_names(random: &mut Random, page: &mut Page) {
    let found = sections(page);
    let Some(section) = random.choose(&found) else {
        return;
    };
    let [one, other] = [(); 2].map(|()| random.below(section.table.columns.len()));
    let atr = section.lines.start - 1;
    let formats = section.places_of(page, "frm").into_iter();
    let with_formats = random.percent(50);
    for place in formats.filter(|_| with_formats).chain([atr]) {
        let mut fields = page.lines[place].fields();
        if fields.len() == section.table.columns.len() {
            fields.swap(one, other);
            page.lines[place].set_fields(&fields);
        }
    }
}

pub fn arrange_formats_otherwise(random: &mut Random, page: &mut Page) {
    arrange_line_otherwise(random, page, "frm");
}

pub fn arrange_record_otherwise(random: &mut Random, page: &mut Page) {
    arrange_line_otherwise(random, page, "rec");
}

fn arrange_line_otherwise(random: &mut Random, page: &mut Page, command: &str) {
    let found = sections(page);
    let lines = found.iter().flat_map(|section| {
        let places = section.places_of(page, command);
        places.into_iter().map(move |place| (section, place))
    });
    let lines: Vec<_> = lines.collect();
    if let Some((section, place)) = random.choose(&lines) {
        section.arrange_otherwise(&mut page.lines[*place]);
    }
}

/// A mark that is right in document 01's numbering only.
pub fn number_mark_by_column(random: &mut Random, page: &mut Page) {
    renumber_mark(random, page, |_, section| section.table.markable);
}

/// A mark of another place, where mostly a column stands that may not be
/// marked.
pub fn move_mark(random: &mut Random, page: &mut Page) {
    renumber_mark(random, page, |random, section| {
        Some(1 + random.below(section.table.columns.len() + 1))
    });
}

/// Some mark where the columns are not in document 01's order gets another
/// number.
fn renumber_mark(
    random: &mut Random,
    page: &mut Page,
    number: impl FnOnce(&mut Random, &Section) -> Option<usize>,
) {
    let found = sections(page);
    let marks = marks::places(page);
    let in_section = |section: &Section| {
        let marks = marks.iter().copied();
        let inside = marks.filter(|mark| section.lines.contains(mark));
        inside.collect::<Vec<_>>()
    };
    let arranged = found
        .iter()
        .filter(|section| !section.arrangement.is_plain());
    let marked: Vec<_> = arranged
        .flat_map(|section| in_section(section).into_iter().map(move |m| (section, m)))
        .collect();
    let Some((section, mark)) = random.choose(&marked) else {
        return;
    };
    if let Some(number) = number(random, section) {
        page.lines[*mark].set_fields(&[format!(" \"SUGGESTED {number}\"").into_bytes()]);
    }
}
