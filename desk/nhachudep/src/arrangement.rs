//! Which column of a table stands where in a section. "Records follow `atr`",
//! so a line's fields stand in the order of its names. Whether these are an
//! arrangement of the table's columns the library has said; this only looks
//! which one, or why not, to show it.
//!
//! A `field` is a column's number in VDV 452's table, a `place` its number in
//! the file's own order, both from 1.

use std::ops::Range;

use vdv::tables::{Column, Table};

use crate::latin::shown;
use crate::lines::{command, each_line, fields};

/// The columns of a section as they stand in the file.
pub struct Standing {
    pub table: &'static Table,
    fields: Vec<usize>,
}

impl Standing {
    /// As the section's `atr` line arranges them, unless it arranges none.
    pub fn of(table: &'static Table, section: &[u8]) -> Option<Standing> {
        let atr = each_line(section).find(|line| command(line) == Some(b"atr"))?;
        let names = fields(atr).into_iter();
        let found: Option<Vec<usize>> = names.map(|name| field_of(table, &atr[name])).collect();
        let fields = found?;
        let is_once = |field: usize| fields.iter().filter(|other| **other == field).count() == 1;
        let is_arrangement = (1..=table.columns.len()).all(is_once);
        is_arrangement.then_some(Standing { table, fields })
    }

    pub fn column_at(&self, place: usize) -> Option<&'static Column> {
        let field = self.fields.get(place.checked_sub(1)?)?;
        self.table.columns.get(field - 1)
    }

    pub fn place_of(&self, field: usize) -> Option<usize> {
        let index = self.fields.iter().position(|other| *other == field)?;
        Some(index + 1)
    }

    pub fn place_named(&self, name: &str) -> Option<usize> {
        self.place_of(field_of(self.table, name.as_bytes())?)
    }

    /// The only column that may be marked, and its place.
    pub fn markable(&self) -> Option<(&'static Column, usize)> {
        let place = self.place_of(self.table.markable?)?;
        Some((self.column_at(place)?, place))
    }
}

fn field_of(table: &Table, name: &[u8]) -> Option<usize> {
    let mut columns = table.columns.iter();
    let index = columns.position(|column| column.name.as_bytes() == name)?;
    Some(index + 1)
}

/// Names shown of one kind at most, and characters of each.
const NAMES: usize = 20;
const LENGTH: usize = 40;

/// Why the names of an `atr` line are no arrangement: "a name missing, twice,
/// unknown, one too many".
pub struct Flaws<'a> {
    table: &'static Table,
    atr: &'a [u8],
    unknown: Vec<Range<usize>>,
    repeated: Vec<Range<usize>>,
    missing: Vec<&'static str>,
}

impl Flaws<'_> {
    pub fn of<'a>(table: &'static Table, atr: &'a [u8]) -> Flaws<'a> {
        let mut flaws = Flaws {
            table,
            atr,
            unknown: Vec::new(),
            repeated: Vec::new(),
            missing: Vec::new(),
        };
        let mut is_named = vec![false; table.columns.len()];
        for name in fields(atr) {
            match field_of(table, &atr[name.clone()]) {
                None => flaws.unknown.push(name),
                Some(field) if is_named[field - 1] => flaws.repeated.push(name),
                Some(field) => is_named[field - 1] = true,
            }
        }
        let columns = table.columns.iter().zip(is_named);
        flaws.missing = columns
            .filter_map(|(column, is_named)| (!is_named).then_some(column.name))
            .collect();
        flaws
    }

    /// The names at fault, from the left.
    pub fn parts(&self) -> Vec<Range<usize>> {
        let mut parts = [&self.unknown[..], &self.repeated].concat();
        parts.sort_unstable_by_key(|part| part.start);
        parts
    }

    pub fn notes(&self) -> Vec<String> {
        let table = self.table.name;
        let written = |parts: &[Range<usize>]| -> Vec<String> {
            let names = parts.iter().map(|part| &self.atr[part.clone()]);
            names.map(cut).collect()
        };
        let missing: Vec<String> = self.missing.iter().map(|name| name.to_string()).collect();
        let expected = self.table.columns.iter();
        let expected: Vec<String> = expected.map(|column| column.name.to_owned()).collect();
        let said = [
            (format!("no column of {table}"), written(&self.unknown)),
            ("named before".to_owned(), written(&self.repeated)),
            ("missing".to_owned(), missing),
            ("expected, each once and in any order".to_owned(), expected),
        ];
        let said = said.into_iter().filter(|(_, names)| !names.is_empty());
        said.map(|(words, names)| format!("{words}: {}", listed(&names)))
            .collect()
    }
}

/// A name as it is shown; a line may be as long as a file.
fn cut(name: &[u8]) -> String {
    match name.len() {
        0 => "an empty name".to_owned(),
        1..=LENGTH => shown(name),
        _ => format!("{}..", shown(&name[..LENGTH])),
    }
}

fn listed(names: &[String]) -> String {
    let first = names[..names.len().min(NAMES)].join(", ");
    match names.len().saturating_sub(NAMES) {
        0 => first,
        more => format!("{first} and {more} more"),
    }
}

#[cfg(test)]
mod tests {
    use super::*;
    use vdv::tables;

    fn standing(table: u32, atr: &str) -> Option<Standing> {
        let section = format!("tbl; X\ncom; atr;\n\n{atr}\nfrm; num[1.0]\natr; Y\n");
        Standing::of(tables::numbered(table).unwrap(), section.as_bytes())
    }

    #[test]
    fn columns_stand_as_the_names_do() {
        let atr = " atr ;TAGESART_TEXT; BASIS_VERSION ;TAGESART_NR";
        let found = standing(290, atr).unwrap();
        let names = (0..=4).map(|place| found.column_at(place).map(|column| column.name));
        assert!(names.eq([
            None,
            Some("TAGESART_TEXT"),
            Some("BASIS_VERSION"),
            Some("TAGESART_NR"),
            None
        ]));
        assert_eq!(
            [1, 2, 3].map(|f| found.place_of(f)),
            [Some(2), Some(3), Some(1)]
        );
        assert_eq!((found.place_of(0), found.place_of(4)), (None, None));
        let (column, place) = found.markable().unwrap();
        assert_eq!((column.name, place), ("TAGESART_TEXT", 1));
    }

    #[test]
    fn what_is_no_arrangement_has_no_places() {
        for atr in [
            "atr; BASIS_VERSION",
            "atr; BASIS_VERSION; BASIS_VERSION",
            "atr; BASIS_VERSION; BASIS_VERSION_TEXT; BASIS_VERSION",
            "atr; BASIS_VERSION; BASIS_VERSION_TEXT;",
            "atr; basis_version; BASIS_VERSION_TEXT",
            "atr;",
        ] {
            assert!(standing(485, atr).is_none(), "{atr}");
        }
        let versions = tables::numbered(485).unwrap();
        assert!(Standing::of(versions, b"tbl; X\nend; 0\n").is_none());
        assert!(standing(993, "atr; BASIS_VERSION; VER_GUELTIGKEIT")
            .is_some_and(|found| found.markable().is_none()));
    }

    fn flaws(table: u32, atr: &str) -> (Vec<&str>, Vec<String>) {
        let found = Flaws::of(tables::numbered(table).unwrap(), atr.as_bytes());
        let parts = found.parts().into_iter().map(|part| &atr[part]);
        (parts.collect(), found.notes())
    }

    #[test]
    fn every_name_at_fault_is_said() {
        let expected = "expected, each once and in any order: \
            BASIS_VERSION, TAGESART_NR, TAGESART_TEXT";
        let (parts, notes) = flaws(290, "atr; TAGESART_NR; X; TAGESART_NR; tagesart_nr");
        assert_eq!(parts, ["X", "TAGESART_NR", "tagesart_nr"]);
        assert_eq!(
            notes,
            [
                "no column of MENGE_TAGESART: X, tagesart_nr",
                "named before: TAGESART_NR",
                "missing: BASIS_VERSION, TAGESART_TEXT",
                expected
            ]
        );
        let (parts, notes) = flaws(290, "atr; TAGESART_TEXT; TAGESART_NR");
        assert!(parts.is_empty());
        assert_eq!(notes, ["missing: BASIS_VERSION", expected]);
        let (parts, notes) = flaws(290, "atr; TAGESART_TEXT; TAGESART_NR; BASIS_VERSION;");
        assert_eq!(parts, [""]);
        assert_eq!(
            notes,
            ["no column of MENGE_TAGESART: an empty name", expected]
        );
    }

    #[test]
    fn a_long_line_is_told_of_in_few_words() {
        let (_, notes) = flaws(485, &format!("atr{}", "; X".repeat(50)));
        assert!(notes[0].ends_with(", X and 30 more"), "{}", notes[0]);
        let (_, notes) = flaws(485, &format!("atr; {}", "X".repeat(50)));
        assert!(notes[0].ends_with(&format!(": {}..", "X".repeat(40))));
    }
}
