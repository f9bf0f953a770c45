//! Calls made with as much room as they need.

use crate::{list, number, table, tables, Refusal, Row, CELLS, LIMIT};

/// Rows lent at first; a sound file has ten at most.
const FIRST_ROWS: usize = 16;

/// A file's rows, and the file's answer.
#[derive(Clone, Debug, PartialEq, Eq)]
pub struct Listing {
    pub rows: Vec<Row>,
    pub answer: Refusal,
}

/// Every row of a file, unless 1 or 2 refuses.
///
/// ```
/// let file = b"mod; DD.MM.YYYY; HH:MM:SS; free\n\
///     src; \"\"; \"01.02.2024\"; \"06:00:00\"\n\
///     chs; \"ASCII\"\nver; \"1\"\nifv; \"1.0\"\n\
///     tbl; NOWHERE\ntbl; NOWHERE\n";
/// let listing = vdv::all_rows(file).unwrap();
/// assert_eq!(listing.rows.len(), 2);
/// assert_eq!(listing.answer.number, vdv::number::TRAILER);
/// ```
pub fn all_rows(file: &[u8]) -> Result<Listing, Refusal> {
    listing_of(file, list)
}

/// What a listing call says of a file, lent as many rows as it asks for. A
/// section has at least the four bytes of `tbl;`, so that the rows written are
/// those with a length.
pub fn listing_of(
    file: &[u8],
    list: impl Fn(&[u8], &mut [Row]) -> Result<Refusal, Refusal>,
) -> Result<Listing, Refusal> {
    let mut rows = vec![Row::default(); FIRST_ROWS];
    loop {
        match list(file, &mut rows) {
            Ok(answer) => {
                let count = rows.iter().take_while(|row| row.length > 0).count();
                rows.truncate(count);
                return Ok(Listing { rows, answer });
            }
            Err(refusal) if refusal.number == number::NO_ROOM && rows.len() <= file.len() => {
                rows.resize(rows.len() * 8, Row::default());
            }
            Err(refusal) => return Err(refusal),
        }
    }
}

/// Fields of a record of the row's table; none of an unknown one.
pub fn width_of(row: Row) -> usize {
    tables::numbered(row.table).map_or(0, |table| table.columns.len())
}

/// Cells that a section with this row hands out.
pub fn cells_of(row: Row) -> usize {
    row.records * width_of(row) * CELLS
}

/// Every cell of a section whose row is known.
pub fn table_cells(file: &[u8], section: usize, row: Row) -> Result<Vec<u64>, Refusal> {
    let mut cells = vec![0; cells_of(row)];
    let length = table(file, section, &mut cells)?;
    cells.truncate(length);
    Ok(cells)
}

/// What a writing call puts out, lent room for the longest form.
pub fn form_of(
    write: impl FnOnce(&mut [u8]) -> Result<usize, Refusal>,
) -> Result<Vec<u8>, Refusal> {
    let mut out = vec![0; LIMIT];
    let length = write(&mut out)?;
    out.truncate(length);
    out.shrink_to_fit();
    Ok(out)
}
