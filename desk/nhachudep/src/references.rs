//! Which of a refused record's references finds no record. That one finds none
//! the library has said; this only looks which, to show it.

use vdv::tables::{self, Reference, Table};
use vdv::{all_rows, number, table_cells, value_in, Refusal, Row, Value, CELLS};

use crate::lines::{command, lines_of};

/// A reference that finds nothing, and what it looks for.
pub struct Lost {
    pub reference: &'static Reference,
    parent: &'static Table,
    key: Vec<u64>,
}

impl Lost {
    /// The first reference of the refused record that finds nothing.
    pub fn of(file: &[u8], refusal: Refusal) -> Option<Lost> {
        if refusal.number != number::REFERENCE {
            return None;
        }
        let rows = all_rows(file).ok()?.rows;
        let row = *rows.get(refusal.section.checked_sub(1)?)?;
        let table = tables::numbered(row.table)?;
        let lines = lines_of(row.span().of(file));
        let so_far = lines.iter().take(refusal.line);
        let records = so_far.filter(|line| command(line) == Some(b"rec")).count();
        let record = numbers(file, refusal.section, row).nth(records.checked_sub(1)?)?;
        table.references.iter().find_map(|reference| {
            let parent = tables::numbered(reference.to)?;
            let key = picked(&record, reference.fields);
            let sections = rows.iter().enumerate();
            let is_found = sections
                .filter(|(_, row)| row.table == parent.number)
                .flat_map(|(index, row)| numbers(file, index + 1, *row))
                .any(|other| picked(&other, parent.primary) == key);
            (!is_found).then_some(Lost {
                reference,
                parent,
                key,
            })
        })
    }

    /// `no record of MENGE_TAGESART has BASIS_VERSION 7, TAGESART_NR 3`.
    pub fn sentence(&self) -> String {
        let names = self.parent.primary.iter();
        let names = names.map(|field| self.parent.columns[field - 1].name);
        let parts: Vec<String> = names
            .zip(&self.key)
            .map(|(name, number)| format!("{name} {number}"))
            .collect();
        let table = self.parent.name;
        format!("no record of {table} has {}", parts.join(", "))
    }
}

/// The numbers of each record of a section; a text or a missing number counts
/// as 0, for no reference goes by one.
fn numbers(file: &[u8], section: usize, row: Row) -> impl Iterator<Item = Vec<u64>> {
    let cells = table_cells(file, section, row).unwrap_or_default();
    let number = |cells: &[u64]| match value_in(cells) {
        Some(Value::Number(number)) => number,
        _ => 0,
    };
    let all: Vec<u64> = cells.chunks(CELLS).map(number).collect();
    let width = vdv::width_of(row).max(1);
    let count = all.len() / width;
    (0..count).map(move |record| all[record * width..(record + 1) * width].to_vec())
}

fn picked(record: &[u64], fields: &[usize]) -> Vec<u64> {
    fields.iter().map(|field| record[field - 1]).collect()
}
