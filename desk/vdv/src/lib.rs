//! The proved library for VDV 451 planning files, for Rust programs. What each
//! function answers is said by documents 01 and 02, and proved: see
//! `docs/PROMISES.md` of the repository. Every call takes any bytes, and none
//! keeps anything of them.
//!
//! ```
//! let file = b"mod; DD.MM.YYYY; HH:MM:SS; free\n\
//!     src; \"Desk\"; \"01.02.2024\"; \"06:00:00\"\n\
//!     chs; \"ISO8859-1\"\nver; \"1\"\nifv; \"1.0\"\n\
//!     tbl; MENGE_BASIS_VERSIONEN\n\
//!     atr; BASIS_VERSION; BASIS_VERSION_TEXT\n\
//!     frm; num[9.0]; char[40]\n\
//!     com; \"SUGGESTED 2\"\n\
//!     rec; 7; \"Winter\"\n\
//!     end; 1\n\
//!     eof; 1\n";
//! assert_eq!(vdv::check(file), Ok(()));
//! let text = vdv::value(file, vdv::At::new(1, 1, 2));
//! let Ok(vdv::Value::Text { span, owner }) = text else {
//!     panic!("{text:?}");
//! };
//! assert_eq!(span.of(file), b"Winter");
//! assert_eq!(owner, vdv::Owner::Suggestion);
//! ```

mod ample;
mod answers;
mod boundary;
pub mod number;
pub mod tables;

pub use ample::{all_rows, cells_of, form_of, listing_of, table_cells, width_of, Listing};
pub use answers::{
    own_bytes, value_in, At, Copied, Date, Header, Owner, Refusal, Row, Span, Time, Value, CELLS,
    LIMIT,
};

use boundary::{HeaderAnswer, ValueAnswer};

/// The file's answer.
///
/// ```
/// let refusal = vdv::check(b"").unwrap_err();
/// assert_eq!(refusal, vdv::Refusal::new(vdv::number::HEADER, 0, 0));
/// let words = "refused with 2 at header, line 0: header breaks a rule";
/// assert_eq!(refusal.to_string(), words);
/// ```
pub fn check(file: &[u8]) -> Result<(), Refusal> {
    // SAFETY: a slice's pointer and count, borrowed during the call; the
    // function has no other condition. So it is for every call below.
    unless_refused((), unsafe {
        boundary::vdv_check(file.as_ptr(), file.len())
    })
}

/// The header's values, or 1 or 2.
///
/// ```
/// let file = b"mod; YYYY/MM/DD; HH:MM:SS; free\n\
///     src; \"Desk\"; \"2024/02/01\"; \"06:00:00\"\n\
///     chs; \"ISO8859-1\"\nver; \"1\"\nifv; \"1.0\"\n";
/// let header = vdv::header(file).unwrap();
/// assert_eq!(header.source.of(file), b"Desk");
/// assert_eq!((header.date.month, header.latin, header.dve), (2, true, None));
/// ```
pub fn header(file: &[u8]) -> Result<Header, Refusal> {
    // SAFETY: as in `check`.
    let answer = unsafe { boundary::vdv_header(file.as_ptr(), file.len()) };
    unless_refused(header_of(&answer), answer.refusal)
}

/// One section's row, or the first of 1, 2 and 24.
///
/// ```
/// let file = b"mod; DD.MM.YYYY; HH:MM:SS; free\n\
///     src; \"\"; \"01.02.2024\"; \"06:00:00\"\n\
///     chs; \"ASCII\"\nver; \"1\"\nifv; \"1.0\"\n\
///     tbl; MENGE_TAGESART\n";
/// let row = vdv::section(file, 1).unwrap();
/// assert_eq!((row.table, row.verdict, row.line), (290, vdv::number::ORDER, 1));
/// assert_eq!(vdv::section(file, 2).unwrap_err().number, vdv::number::NO_SUCH);
/// ```
pub fn section(file: &[u8], section: usize) -> Result<Row, Refusal> {
    // SAFETY: as in `check`.
    let answer = unsafe { boundary::vdv_section(file.as_ptr(), file.len(), section) };
    unless_refused(answer.row, answer.refusal)
}

/// Lent rows, one a section: the file's answer where they are written. Listing
/// is refused by 1, 2 and 21 only and then writes no row; spare rows keep
/// their values.
///
/// ```
/// let file = b"mod; DD.MM.YYYY; HH:MM:SS; free\n\
///     src; \"\"; \"01.02.2024\"; \"06:00:00\"\n\
///     chs; \"ASCII\"\nver; \"1\"\nifv; \"1.0\"\n\
///     tbl; NOWHERE\n";
/// let mut rows = [vdv::Row::default(); 1];
/// let answer = vdv::list(file, &mut rows).unwrap();
/// assert_eq!(rows[0].verdict, vdv::number::UNKNOWN_TABLE);
/// assert_eq!(answer.number, vdv::number::TRAILER);
/// assert_eq!(vdv::list(file, &mut []).unwrap_err().number, vdv::number::NO_ROOM);
/// ```
pub fn list(file: &[u8], rows: &mut [Row]) -> Result<Refusal, Refusal> {
    // SAFETY: as in `check`; `rows` is borrowed alone.
    let answer =
        unsafe { boundary::vdv_list(file.as_ptr(), file.len(), rows.as_mut_ptr(), rows.len()) };
    match answer.number {
        number::FILE_TOO_LONG | number::HEADER | number::NO_ROOM => Err(answer),
        _ => Ok(answer),
    }
}

/// One value: refused by the first of 1, 2, 24 for the section, the section's
/// verdict, 24 for the record or field. The field is named by its number in
/// VDV 452's table, wherever the file has it; a text's span lies where the text
/// lies in the file. An empty field is a missing number where the column allows
/// it.
///
/// ```
/// let file = b"mod; DD.MM.YYYY; HH:MM:SS; free\n\
///     src; \"\"; \"01.02.2024\"; \"06:00:00\"\n\
///     chs; \"ASCII\"\nver; \"1\"\nifv; \"1.0\"\n\
///     tbl; MENGE_BASIS_VERSIONEN\n\
///     atr; BASIS_VERSION_TEXT; BASIS_VERSION\n\
///     frm; char[40]; num[9.0]\n\
///     rec; \"Winter\"; 7\n\
///     end; 1\n";
/// assert_eq!(vdv::value(file, vdv::At::new(1, 1, 1)), Ok(vdv::Value::Number(7)));
/// let refusal = vdv::value(file, vdv::At::new(1, 1, 3)).unwrap_err();
/// assert_eq!(refusal.number, vdv::number::NO_SUCH);
/// ```
pub fn value(file: &[u8], at: At) -> Result<Value, Refusal> {
    // SAFETY: as in `check`.
    let answer =
        unsafe { boundary::vdv_value(file.as_ptr(), file.len(), at.section, at.record, at.field) };
    unless_refused(value_of(&answer), answer.refusal)
}

/// A text's own bytes into lent room, doubled quotes undone and the spaces at
/// its end off, and whose it is: refused as its value is, then 11 for a number,
/// a missing one too, then 21. A refused call leaves lent room as it was; so it
/// is for every call below.
///
/// ```
/// let file = b"mod; DD.MM.YYYY; HH:MM:SS; free\n\
///     src; \"\"; \"01.02.2024\"; \"06:00:00\"\n\
///     chs; \"ASCII\"\nver; \"1\"\nifv; \"1.0\"\n\
///     tbl; MENGE_BASIS_VERSIONEN\n\
///     atr; BASIS_VERSION; BASIS_VERSION_TEXT\n\
///     frm; num[9.0]; char[40]\n\
///     com; \"SUGGESTED 2\"\n\
///     rec; 7; \"Bake \"\"1\"\"  \"\n\
///     end; 1\n";
/// let mut out = [0; 40];
/// let text = vdv::text(file, vdv::At::new(1, 1, 2), &mut out).unwrap();
/// assert_eq!(&out[..text.length], b"Bake \"1\"");
/// assert_eq!(text.owner, vdv::Owner::Suggestion);
/// let refusal = vdv::text(file, vdv::At::new(1, 1, 1), &mut out).unwrap_err();
/// assert_eq!(refusal.number, vdv::number::NOT_A_TEXT);
/// ```
pub fn text(file: &[u8], at: At, out: &mut [u8]) -> Result<Copied, Refusal> {
    // SAFETY: as in `check`; `out` is borrowed alone.
    let answer = unsafe {
        boundary::vdv_text(
            file.as_ptr(),
            file.len(),
            at.section,
            at.record,
            at.field,
            out.as_mut_ptr(),
            out.len(),
        )
    };
    let text = Copied {
        length: answer.length,
        owner: owner_of(answer.owner),
    };
    unless_refused(text, answer.refusal)
}

/// Every value of a section into lent cells, [`CELLS`] a value, record after
/// record, the values of each in the order of VDV 452's table whatever the
/// file's; [`value_in`] reads them back. Refused as its values are, then 21.
/// Answers how many cells are written.
///
/// ```
/// use vdv::{value_in, Value, CELLS};
///
/// let file = b"mod; DD.MM.YYYY; HH:MM:SS; free\n\
///     src; \"\"; \"01.02.2024\"; \"06:00:00\"\n\
///     chs; \"ASCII\"\nver; \"1\"\nifv; \"1.0\"\n\
///     tbl; BASIS_VER_GUELTIGKEIT\n\
///     atr; VER_GUELTIGKEIT; BASIS_VERSION\n\
///     frm; num[8.0]; num[9.0]\n\
///     rec; 20240101; 7\n\
///     end; 1\n";
/// let row = vdv::section(file, 1).unwrap();
/// let mut cells = vec![0; row.records * 2 * CELLS];
/// assert_eq!(vdv::table(file, 1, &mut cells), Ok(cells.len()));
/// let values: Vec<_> = cells.chunks(CELLS).filter_map(value_in).collect();
/// assert_eq!(values, [Value::Number(20240101), Value::Number(7)]);
/// let refusal = vdv::table(file, 2, &mut cells).unwrap_err();
/// assert_eq!(refusal.number, vdv::number::NO_SUCH);
/// ```
pub fn table(file: &[u8], section: usize, cells: &mut [u64]) -> Result<usize, Refusal> {
    // SAFETY: as in `text`.
    let answer = unsafe {
        boundary::vdv_table(
            file.as_ptr(),
            file.len(),
            section,
            cells.as_mut_ptr(),
            cells.len(),
        )
    };
    unless_refused(answer.length, answer.refusal)
}

/// The written form into lent room: the file's verdict, then 21. Its columns
/// stand in the order of VDV 452's tables, and its marks count so; a missing
/// number is an empty field.
///
/// ```
/// let file = b"mod; DD.MM.YYYY; HH:MM:SS; free\n\
///     src; \"Desk\"; \"01.02.2024\"; \"06:00:00\"\n\
///     chs; \"ASCII\"\nver; \"1\"\nifv; \"1.0\"\n\
///     tbl; MENGE_BASIS_VERSIONEN\n\
///     atr; BASIS_VERSION_TEXT; BASIS_VERSION\n\
///     frm; char[40]; num[9.0]\n\
///     com; \"SUGGESTED 1\"\n\
///     rec; \"Winter\"; 7\n\
///     end; 1\n\
///     eof; 1\n";
/// let mut form = vec![0; 1024];
/// let length = vdv::write(file, &mut form).unwrap();
/// let lines = b"com; \"SUGGESTED 2\"\nrec; 7; \"Winter\"\nend; 1\neof; 1\n";
/// assert!(form[..length].ends_with(lines));
/// let mut out = [0; 64];
/// assert_eq!(vdv::write(b"", &mut out).unwrap_err().number, vdv::number::HEADER);
/// assert_eq!(out, [0; 64]);
/// ```
pub fn write(file: &[u8], out: &mut [u8]) -> Result<usize, Refusal> {
    // SAFETY: as in `text`.
    let answer =
        unsafe { boundary::vdv_write(file.as_ptr(), file.len(), out.as_mut_ptr(), out.len()) };
    unless_refused(answer.length, answer.refusal)
}

/// The written form with one more suggestion into lent room: the file's
/// verdict, 24, 23, 22, for the text, the spaces at its end off, 11 if it is
/// empty, 4, 13 if it is over 40 bytes, then 21. The field is named as for
/// [`value`].
///
/// ```
/// let file = b"mod; DD.MM.YYYY; HH:MM:SS; free\n\
///     src; \"Desk\"; \"01.02.2024\"; \"06:00:00\"\n\
///     chs; \"ASCII\"\nver; \"1\"\nifv; \"1.0\"\n\
///     tbl; MENGE_BASIS_VERSIONEN\n\
///     atr; BASIS_VERSION; BASIS_VERSION_TEXT\n\
///     frm; num[9.0]; char[40]\n\
///     rec; 7; \"\"\n\
///     end; 1\n\
///     eof; 1\n";
/// let at = vdv::At::new(1, 1, 2);
/// let mut form = vec![0; 1024];
/// let length = vdv::fill(file, at, b"Winter  ", &mut form).unwrap();
/// let form = &form[..length];
/// let lines = b"com; \"SUGGESTED 2\"\nrec; 7; \"Winter\"\n";
/// assert!(form.windows(lines.len()).any(|part| part == lines));
/// let refusal = vdv::fill(form, at, b"Sommer", &mut [0; 1024]).unwrap_err();
/// assert_eq!(refusal.number, vdv::number::NOT_EMPTY);
/// ```
pub fn fill(file: &[u8], at: At, text: &[u8], out: &mut [u8]) -> Result<usize, Refusal> {
    // SAFETY: as in `text`; the text is a slice too.
    let answer = unsafe {
        boundary::vdv_fill(
            file.as_ptr(),
            file.len(),
            at.section,
            at.record,
            at.field,
            text.as_ptr(),
            text.len(),
            out.as_mut_ptr(),
            out.len(),
        )
    };
    unless_refused(answer.length, answer.refusal)
}

/// The written form without suggestions into lent room.
///
/// ```
/// let file = b"mod; DD.MM.YYYY; HH:MM:SS; free\n\
///     src; \"Desk\"; \"01.02.2024\"; \"06:00:00\"\n\
///     chs; \"ASCII\"\nver; \"1\"\nifv; \"1.0\"\n\
///     tbl; MENGE_BASIS_VERSIONEN\n\
///     atr; BASIS_VERSION; BASIS_VERSION_TEXT\n\
///     frm; num[9.0]; char[40]\n\
///     com; \"SUGGESTED 2\"\n\
///     rec; 7; \"Winter\"\n\
///     end; 1\n\
///     eof; 1\n";
/// let mut form = vec![0; 1024];
/// let length = vdv::strip(file, &mut form).unwrap();
/// assert!(form[..length].ends_with(b"rec; 7; \"\"\nend; 1\neof; 1\n"));
/// ```
pub fn strip(file: &[u8], out: &mut [u8]) -> Result<usize, Refusal> {
    // SAFETY: as in `text`.
    let answer =
        unsafe { boundary::vdv_strip(file.as_ptr(), file.len(), out.as_mut_ptr(), out.len()) };
    unless_refused(answer.length, answer.refusal)
}

fn unless_refused<T>(answer: T, refusal: Refusal) -> Result<T, Refusal> {
    match refusal.number {
        number::SOUND => Ok(answer),
        _ => Err(refusal),
    }
}

fn header_of(answer: &HeaderAnswer) -> Header {
    let span = |from, to| Span { from, to };
    Header {
        source: span(answer.source_from, answer.source_to),
        date: Date {
            year: answer.year,
            month: answer.month,
            day: answer.day,
        },
        time: Time {
            hour: answer.hour,
            minute: answer.minute,
            second: answer.second,
        },
        latin: answer.latin,
        ver: span(answer.ver_from, answer.ver_to),
        ifv: span(answer.ifv_from, answer.ifv_to),
        dve: answer.dve.then(|| span(answer.dve_from, answer.dve_to)),
        fft: answer.fft.then(|| span(answer.fft_from, answer.fft_to)),
    }
}

/// Kind 0 is a number, 1 the operator's text, 2 a suggestion, 3 a missing
/// number; there is no other.
fn value_of(answer: &ValueAnswer) -> Value {
    match answer.kind {
        0 => Value::Number(answer.amount),
        3 => Value::Missing,
        kind => Value::Text {
            span: Span {
                from: answer.from,
                to: answer.to,
            },
            owner: owner_of(kind),
        },
    }
}

fn owner_of(kind: u32) -> Owner {
    match kind {
        1 => Owner::Operator,
        _ => Owner::Suggestion,
    }
}
