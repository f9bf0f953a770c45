//! The compared calls as one trait, so that the proved library and the
//! independent reader stand behind the same ones.

use vdv::{cells_of, listing_of, number, At, Copied, Header, Listing, Refusal, Row, Value};

/// One implementation. No call keeps anything of the file; what is lent keeps
/// its values wherever nothing is promised to be written.
pub trait Library: Sync {
    /// What reports call it.
    fn name(&self) -> &'static str;

    /// The file's answer.
    fn check(&self, file: &[u8]) -> Refusal;

    /// The header's values, or 1 or 2.
    fn header(&self, file: &[u8]) -> Result<Header, Refusal>;

    /// One row by value, or the first of 1, 2 and 24.
    fn section(&self, file: &[u8], section: usize) -> Result<Row, Refusal>;

    /// "Listing is refused by 1, 2 and 21 only and then writes no row; other
    /// verdicts go into the rows and the file's answer."
    fn list(&self, file: &[u8], rows: &mut [Row]) -> Refusal;

    /// "Reading one record gives the first of 1, 2, 24 for the section, the
    /// section's verdict, 24 for the record or field."
    fn value(&self, file: &[u8], at: At) -> Result<Value, Refusal>;

    /// A text's own bytes, doubled quotes undone, and whose it is: refused as
    /// its value is, then 11 for a number, there or missing, then 21.
    fn text(&self, file: &[u8], at: At, out: &mut [u8]) -> Result<Copied, Refusal>;

    /// Every value of a section, three cells each: refused as its values are,
    /// then 21.
    fn table(&self, file: &[u8], section: usize, cells: &mut [u64]) -> Result<usize, Refusal>;

    /// The written form.
    fn write(&self, file: &[u8], out: &mut [u8]) -> Result<usize, Refusal>;

    /// The written form with one more suggestion.
    fn fill(&self, file: &[u8], at: At, text: &[u8], out: &mut [u8]) -> Result<usize, Refusal>;

    /// The written form without suggestions.
    fn strip(&self, file: &[u8], out: &mut [u8]) -> Result<usize, Refusal>;
}

/// Every row of a file, unless 1 or 2 refuses.
pub fn all_rows(library: &dyn Library, file: &[u8]) -> Result<Listing, Refusal> {
    listing_of(file, |file, rows| {
        let answer = library.list(file, rows);
        match answer.number {
            number::FILE_TOO_LONG | number::HEADER | number::NO_ROOM => Err(answer),
            _ => Ok(answer),
        }
    })
}

/// Every cell of a section whose row is known.
pub fn table_cells(
    library: &dyn Library,
    file: &[u8],
    section: usize,
    row: Row,
) -> Result<Vec<u64>, Refusal> {
    let mut cells = vec![0; cells_of(row)];
    let length = library.table(file, section, &mut cells)?;
    cells.truncate(length);
    Ok(cells)
}
