//! Which column stands where in a file: "any arrangement of a table's columns,
//! each once, shall be read".

use vdv::tables::{Table, ALL};

use crate::page::Line;
use crate::random::Random;

/// The column at each place, both counted from 0.
#[derive(Clone, Debug, PartialEq, Eq)]
pub struct Arrangement {
    columns: Vec<usize>,
}

impl Arrangement {
    /// Document 01's own order.
    pub fn plain(table: &Table) -> Arrangement {
        let columns = (0..table.columns.len()).collect();
        Arrangement { columns }
    }

    pub fn reversed(table: &Table) -> Arrangement {
        let mut arrangement = Arrangement::plain(table);
        arrangement.columns.reverse();
        arrangement
    }

    /// Any order, or one that is nearly document 01's.
    pub fn draw(random: &mut Random, table: &Table) -> Arrangement {
        let mut arrangement = Arrangement::plain(table);
        let columns = &mut arrangement.columns;
        match random.below(5) {
            0 => columns.reverse(),
            1 => columns.rotate_left(1),
            2 => {
                let place = random.below(columns.len() - 1);
                columns.swap(place, place + 1);
            }
            _ => random.shuffle(columns),
        }
        arrangement
    }

    /// What the names after `atr` say; none if they are no arrangement of the
    /// table's columns.
    pub fn named(names: &[Vec<u8>], table: &Table) -> Option<Arrangement> {
        let column_of = |name: &Vec<u8>| {
            let mut columns = table.columns.iter();
            columns.position(|column| column.name.as_bytes() == name.trim_ascii())
        };
        let columns: Vec<usize> = names.iter().map(column_of).collect::<Option<_>>()?;
        let stands_once = |column| columns.iter().filter(|c| **c == column).count() == 1;
        (0..table.columns.len())
            .all(stands_once)
            .then_some(Arrangement { columns })
    }

    pub fn is_plain(&self) -> bool {
        self.columns.is_sorted()
    }

    /// The column at each place, from the left.
    pub fn columns(&self) -> &[usize] {
        &self.columns
    }

    /// The place, from 1, of a field by its number in document 01's table.
    pub fn place_of(&self, field: usize) -> Option<usize> {
        let place = self.columns.iter().position(|column| column + 1 == field)?;
        Some(place + 1)
    }

    /// What stands in this order, by its columns; none if it is not one for
    /// each.
    pub fn by_column<T: Clone>(&self, standing: &[T]) -> Option<Vec<T>> {
        if standing.len() != self.columns.len() {
            return None;
        }
        let fields = 1..=self.columns.len();
        fields
            .map(|field| Some(standing[self.place_of(field)? - 1].clone()))
            .collect()
    }

    /// What belongs to each column, in document 01's order, as it stands in
    /// this one.
    pub fn arrange<T: Clone>(&self, by_column: &[T]) -> Vec<T> {
        let columns = self.columns.iter();
        columns.map(|column| by_column[*column].clone()).collect()
    }
}

/// Whether an `atr` line of the file has some table's columns in another order
/// than document 01's.
pub fn is_arranged(file: &[u8]) -> bool {
    let mut lines = file
        .split(|byte| *byte == b'\n')
        .map(|line| Line::unended(line.trim_ascii_end()));
    lines.any(|line| {
        let is_another = |table: &&Table| {
            Arrangement::named(&line.fields(), table).is_some_and(|a| !a.is_plain())
        };
        line.command() == b"atr" && ALL.iter().any(is_another)
    })
}

#[cfg(test)]
mod tests {
    use super::*;
    use std::collections::BTreeSet;
    use vdv::tables::{CALENDAR, POINT_TYPES, VERSIONS};

    #[test]
    fn columns_and_places() {
        let arrangement = Arrangement {
            columns: vec![2, 0, 3, 1],
        };
        let places: Vec<_> = (0..6).map(|field| arrangement.place_of(field)).collect();
        assert_eq!(places, [None, Some(2), Some(4), Some(1), Some(3), None]);
        assert_eq!(
            arrangement.arrange(&['a', 'b', 'c', 'd']),
            ['c', 'a', 'd', 'b']
        );
        let undone = arrangement.by_column(&['c', 'a', 'd', 'b']);
        assert_eq!(undone, Some(vec!['a', 'b', 'c', 'd']));
        assert_eq!(arrangement.by_column(&['c', 'a', 'd']), None);
        assert!(!arrangement.is_plain() && Arrangement::plain(&CALENDAR).is_plain());
    }

    #[test]
    fn every_arrangement_is_drawn() {
        let mut random = Random::new(1);
        for (table, orders) in [(&VERSIONS, 2), (&POINT_TYPES, 24)] {
            let draws = (0..1000).map(|_| Arrangement::draw(&mut random, table).columns);
            assert_eq!(draws.collect::<BTreeSet<_>>().len(), orders);
        }
    }

    #[test]
    fn names_are_read_back() {
        let mut random = Random::new(1);
        for table in ALL {
            let drawn = Arrangement::draw(&mut random, table);
            let names: Vec<_> = table.columns.iter().map(|c| c.name.into()).collect();
            let mut names = drawn.arrange(&names);
            assert_eq!(Arrangement::named(&names, table), Some(drawn));
            names[0] = names[1].clone();
            assert_eq!(Arrangement::named(&names, table), None);
            names.pop();
            assert_eq!(Arrangement::named(&names, table), None);
        }
    }

    #[test]
    fn files_with_arranged_columns() {
        let turned = b"tbl; MENGE_BASIS_VERSIONEN\natr ;BASIS_VERSION_TEXT; BASIS_VERSION\r\n";
        assert!(is_arranged(turned));
        assert!(!is_arranged(b"atr; BASIS_VERSION; BASIS_VERSION_TEXT\n"));
        assert!(!is_arranged(
            b"atr; BASIS_VERSION_TEXT; BASIS_VERSION_TEXT\n"
        ));
        assert!(!is_arranged(b"com; BASIS_VERSION_TEXT; BASIS_VERSION\n"));
    }
}
