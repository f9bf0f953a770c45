//! Which column stands where: "any arrangement of a table's columns, each
//! once, shall be read".

use crate::fields::Fields;
use crate::lines::Part;
use crate::tables::{Table, WIDEST};

/// The columns of a table in the order in which a file's `atr` names them.
#[derive(Clone, Copy, Debug, PartialEq, Eq)]
pub struct Arrangement {
    width: usize,
    /// The column at each place, both counted from 0.
    columns: [u8; WIDEST],
}

impl Arrangement {
    /// Before any `atr` line no column stands anywhere.
    pub const NONE: Arrangement = Arrangement {
        width: 0,
        columns: [0; WIDEST],
    };

    /// None if the names after `atr` are no arrangement of the table's
    /// columns: one is missing, stands twice or is unknown.
    pub fn read(names: Part<'_>, table: &Table) -> Option<Arrangement> {
        let mut read = Arrangement::NONE;
        for name in Fields::of(names) {
            let mut columns = table.columns.iter();
            let column = columns.position(|c| c.name.as_bytes() == name.bytes)? as u8;
            if read.columns[..read.width].contains(&column) {
                return None;
            }
            read.columns[read.width] = column;
            read.width += 1;
        }
        (read.width == table.columns.len()).then_some(read)
    }

    /// The column at each place, counted from 0, in the file's order.
    pub fn columns(&self) -> impl Iterator<Item = usize> + '_ {
        self.columns[..self.width].iter().map(|&c| usize::from(c))
    }

    /// The field of document 01's table that stands at a place of the file,
    /// both counted from 1.
    pub fn field_at(&self, place: usize) -> Option<usize> {
        self.columns().nth(place.checked_sub(1)?).map(|c| c + 1)
    }
}

#[cfg(test)]
mod tests {
    use super::*;
    use crate::tables::{named, ALL};

    fn read(names: &str, table: &str) -> Option<Vec<usize>> {
        let part = Part {
            at: 0,
            bytes: names.as_bytes(),
        };
        let read = Arrangement::read(part, named(table.as_bytes()).unwrap())?;
        Some(read.columns().collect())
    }

    /// Every order of so many columns.
    fn orders(width: usize) -> Vec<Vec<usize>> {
        if width == 0 {
            return vec![Vec::new()];
        }
        let mut found = Vec::new();
        for shorter in orders(width - 1) {
            for place in 0..width {
                let mut order = shorter.clone();
                order.insert(place, width - 1);
                found.push(order);
            }
        }
        found
    }

    /// Of more columns than are tried in every order: from each column on, both
    /// ways, and with each two exchanged.
    fn telling_orders(width: usize) -> Vec<Vec<usize>> {
        let plain: Vec<usize> = (0..width).collect();
        let mut found = Vec::new();
        for one in 0..width {
            let mut turned = plain.clone();
            turned.rotate_left(one);
            found.push(turned.iter().rev().copied().collect());
            found.push(turned);
            for other in 0..one {
                let mut exchanged = plain.clone();
                exchanged.swap(one, other);
                found.push(exchanged);
            }
        }
        found
    }

    #[test]
    fn arrangements_of_every_table_are_read() {
        for table in &ALL {
            let orders = match table.columns.len() {
                width @ ..=8 => orders(width),
                width => telling_orders(width),
            };
            for order in orders {
                let names: Vec<_> = order.iter().map(|&c| table.columns[c].name).collect();
                assert_eq!(read(&names.join("; "), table.name), Some(order));
            }
        }
    }

    #[test]
    fn names_that_are_no_arrangement() {
        for names in [
            "",
            "BASIS_VERSION; TAGESART_NR",
            "TAGESART_TEXT; TAGESART_NR",
            "BASIS_VERSION; TAGESART_NR; TAGESART_NR",
            "TAGESART_TEXT; TAGESART_TEXT; TAGESART_TEXT",
            "TAGESART_TEXT; TAGESART_NR; BASIS_VERSION;",
            "TAGESART_TEXT; TAGESART_NR; BASIS_VERSION; BASIS_VERSION",
            "TAGESART_TEXT; TAGESART_NR; BASIS_VERSION; BETRIEBSTAG",
            "TAGESART_TEXT; TAGESART_NR; BASIS_VERSION_TEXT",
            "TAGESART_TEXT; TAGESART_NR; Basis_Version",
            "TAGESART_TEXT; TAGESART_NR; \"BASIS_VERSION\"",
            "TAGESART_TEXT TAGESART_NR; BASIS_VERSION",
        ] {
            assert_eq!(read(names, "MENGE_TAGESART"), None, "{names}");
        }
    }

    #[test]
    fn fields_by_their_place() {
        let part = Part {
            at: 0,
            bytes: b"TAGESART_TEXT; BASIS_VERSION; TAGESART_NR",
        };
        let read = Arrangement::read(part, named(b"MENGE_TAGESART").unwrap()).unwrap();
        let fields: Vec<_> = (0..5).map(|place| read.field_at(place)).collect();
        assert_eq!(fields, [None, Some(3), Some(1), Some(2), None]);
        assert_eq!(Arrangement::NONE.field_at(1), None);
    }
}
