//! Where in a refused line the fault lies, as far as the number tells. This
//! only points; whether a line is refused is never decided here.

use std::ops::Range;

use vdv::number;
use vdv::tables::{Column, Kind, Table};

use crate::arrangement::{Flaws, Standing};
use crate::combination::Broken;
use crate::days;
use crate::lines::{command, fields};

/// The columns that say where the two points lie, in each table that has them.
const POINTS: [&str; 4] = ["ONR_TYP_NR", "ORT_NR", "UEB_ZIEL_TYP", "UEB_ZIEL"];

/// A refused line and what is known of its section.
pub struct Line<'a> {
    pub content: &'a [u8],
    pub number: u32,
    pub table: Option<&'static Table>,
    /// What stands where in the section, if its `atr` line says so.
    pub standing: Option<Standing>,
    /// Whether it stands behind `frm` and before `end`.
    pub is_among_records: bool,
    /// Whether the file's character set is ISO8859-1.
    pub latin: bool,
    /// Fields, by their numbers, by which the record refers to none.
    pub lost: &'static [usize],
}

impl Line<'_> {
    /// The parts of the line to point at, from the left; none if that is not
    /// known.
    pub fn parts(&self) -> Vec<Range<usize>> {
        let one = |part: Option<Range<usize>>| part.into_iter().collect();
        let mut parts: Vec<Range<usize>> = match self.number {
            number::HEADER | number::TRAILER => one(self.bad_byte().or(self.odd_command())),
            number::BYTE => one(self.bad_byte()),
            number::COMMAND => one(self.odd_command()),
            number::ORDER => one(self.command()),
            number::UNKNOWN_TABLE | number::TABLE_TWICE | number::END_COUNT => one(self.field(1)),
            number::ATR => self.flaws().map_or(Vec::new(), |flaws| flaws.parts()),
            number::NOT_A_NUMBER if self.has_command(b"end") => one(self.field(1)),
            number::FRM
            | number::NOT_A_TEXT
            | number::NOT_A_NUMBER
            | number::RANGE
            | number::NO_SUCH_DAY => {
                one(self.odd_place().and_then(|place| self.field_or_gap(place)))
            }
            number::MARK => one(self.mark()),
            number::SAME_POINTS => {
                let points = POINTS.iter();
                points.filter_map(|name| self.field_named(name)).collect()
            }
            number::COMBINATION => one(Broken::of(self).map(|broken| broken.part)),
            number::PRIMARY_KEY => self.of_columns(self.table.map(|table| table.primary)),
            number::SECOND_KEY => self.of_columns(self.table.map(|table| table.second)),
            number::REFERENCE => self.of_columns(Some(self.lost)),
            _ => Vec::new(),
        };
        parts.retain(|part| !part.is_empty());
        parts.sort_unstable_by_key(|part| part.start);
        parts
    }

    pub fn has_command(&self, name: &[u8]) -> bool {
        command(self.content) == Some(name)
    }

    /// Why an `atr` line is refused.
    pub fn flaws(&self) -> Option<Flaws<'_>> {
        self.table.map(|table| Flaws::of(table, self.content))
    }

    /// The place of the first field that is not as the column there asks, or of
    /// one too many.
    pub fn odd_place(&self) -> Option<usize> {
        let is_odd: fn(&Column, &[u8]) -> bool = match self.number {
            number::FRM => |column, format| !takes_format(column, format),
            number::NOT_A_TEXT => |column, text| column.is_text() && !is_text(text),
            number::NOT_A_NUMBER => |column, value| {
                let is_missing = column.may_be_missing && value.is_empty();
                !column.is_text() && !is_missing && read_number(value).is_none()
            },
            number::RANGE => |column, value| !fits(column, value),
            number::NO_SUCH_DAY => |column, value| column.is_day() && !days::is_day(value),
            _ => return None,
        };
        let standing = self.standing.as_ref()?;
        let found = fields(self.content);
        let odd = found.into_iter().enumerate().find(|(index, field)| {
            let column = standing.column_at(index + 1);
            column.is_none_or(|column| is_odd(column, &self.content[field.clone()]))
        });
        odd.map(|(index, _)| index + 1)
    }

    /// What a lost quote looks like: 10 or 11, and quotes that do not pair.
    pub fn has_odd_quotes(&self) -> bool {
        let quotes = self.content.iter().filter(|byte| **byte == b'"').count();
        let tells = [number::FIELD_COUNT, number::NOT_A_TEXT, number::HEADER];
        tells.contains(&self.number) && !quotes.is_multiple_of(2)
    }

    fn bad_byte(&self) -> Option<Range<usize>> {
        let wide = self.latin && self.has_command(b"rec");
        let is_allowed = |byte: u8| matches!(byte, 32..=126) || wide && byte >= 161;
        let mut bytes = self.content.iter();
        let place = bytes.position(|byte| !is_allowed(*byte))?;
        Some(place..place + 1)
    }

    fn command(&self) -> Option<Range<usize>> {
        let found = command(self.content)?;
        let from = self.content.iter().position(|byte| *byte != b' ')?;
        Some(from..from + found.len())
    }

    /// A command that is not known, or a line that has none.
    fn odd_command(&self) -> Option<Range<usize>> {
        const KNOWN: [&[u8]; 14] = [
            b"mod", b"src", b"chs", b"ver", b"ifv", b"dve", b"fft", b"tbl", b"atr", b"frm", b"rec",
            b"end", b"com", b"eof",
        ];
        match command(self.content) {
            None if self.content.iter().all(|byte| *byte == b' ') => None,
            None => Some(0..self.content.len()),
            Some(name) if KNOWN.contains(&name) => None,
            Some(_) => self.command(),
        }
    }

    /// The field at a place.
    pub fn field(&self, place: usize) -> Option<Range<usize>> {
        fields(self.content).get(place.checked_sub(1)?).cloned()
    }

    /// What a record has in a column, wherever it stands.
    pub fn field_named(&self, name: &str) -> Option<Range<usize>> {
        self.field(self.standing.as_ref()?.place_named(name)?)
    }

    /// The field at a place or, where it is empty, the byte behind its `;`; at
    /// the line's end that `;` itself.
    fn field_or_gap(&self, place: usize) -> Option<Range<usize>> {
        let field = self.field(place)?;
        let gap = field.start.min(self.content.len() - 1);
        match field.is_empty() {
            true => Some(gap..gap + 1),
            false => Some(field),
        }
    }

    /// A mark's own text, or the empty text it stands on.
    fn mark(&self) -> Option<Range<usize>> {
        let standing = self.standing.as_ref();
        match (
            command(self.content)?,
            standing.and_then(Standing::markable),
        ) {
            (b"com", _) => self.field(1),
            (b"rec", Some((_, place))) => self.field(place),
            _ => self.command(),
        }
    }

    /// What a record has in these columns, wherever they stand.
    fn of_columns(&self, fields: Option<&[usize]>) -> Vec<Range<usize>> {
        let fields = fields.unwrap_or_default().iter();
        let places = fields.filter_map(|field| self.standing.as_ref()?.place_of(*field));
        places.filter_map(|place| self.field(place)).collect()
    }
}

/// Whether a field is one closed text with nothing beside it.
pub fn is_text(field: &[u8]) -> bool {
    own_size(field).is_some()
}

/// A closed text's own bytes, doubled quotes counted once and the spaces at
/// its end not at all.
pub fn own_size(field: &[u8]) -> Option<usize> {
    let inner = field.strip_prefix(b"\"")?.strip_suffix(b"\"")?;
    let last = inner.iter().rposition(|byte| *byte != b' ');
    let (mut size, mut bytes) = (0, inner[..last.map_or(0, |last| last + 1)].iter());
    while let Some(byte) = bytes.next() {
        if *byte == b'"' && bytes.next() != Some(&b'"') {
            return None;
        }
        size += 1;
    }
    Some(size)
}

pub fn read_number(field: &[u8]) -> Option<i64> {
    let digits = field.strip_prefix(b"-").unwrap_or(field);
    let all_digits = digits.iter().all(u8::is_ascii_digit);
    if !all_digits || digits.is_empty() || digits.len() > 18 {
        return None;
    }
    std::str::from_utf8(field).ok()?.parse().ok()
}

fn fits(column: &Column, field: &[u8]) -> bool {
    match column.kind {
        Kind::Number { low, high } | Kind::Day { low, high } => read_number(field)
            .is_none_or(|n| u64::try_from(n).is_ok_and(|n| (low..=high).contains(&n))),
        Kind::Text { size } => own_size(field).is_none_or(|own| own <= size),
    }
}

fn takes_format(column: &Column, format: &[u8]) -> bool {
    (1..=255).any(|size| column.format_of_size(size).as_bytes() == format)
}

#[cfg(test)]
mod tests {
    use super::*;
    use vdv::tables;

    /// A line of a section whose names stand so; with none of them, as in VDV
    /// 452.
    fn line<'a>(atr: &str, content: &'a [u8], number: u32, table: u32) -> Line<'a> {
        let table = tables::numbered(table);
        let columns = table.map_or(&[][..], |table| table.columns);
        let names: Vec<&str> = columns.iter().map(|column| column.name).collect();
        let atr = match atr {
            "" => format!("atr; {}", names.join("; ")),
            _ => atr.to_owned(),
        };
        Line {
            content,
            number,
            table,
            standing: table.and_then(|table| Standing::of(table, atr.as_bytes())),
            is_among_records: true,
            latin: false,
            lost: &[1, 3],
        }
    }

    fn pointed<'a>(atr: &str, content: &'a [u8], number: u32, table: u32) -> Vec<&'a [u8]> {
        let parts = line(atr, content, number, table).parts();
        parts.into_iter().map(|part| &content[part]).collect()
    }

    /// A line with its number and table, and the parts pointed at.
    type Case<'a> = (&'a [u8], u32, u32, &'a [&'a [u8]]);

    fn all_point(cases: &[Case<'_>]) {
        for (content, number, table, parts) in cases {
            let shown = content.escape_ascii();
            assert_eq!(pointed("", content, *number, *table), *parts, "{shown}");
        }
    }

    #[test]
    fn fields_at_fault() {
        all_point(&[
            (b"rec; 7; 1; \"School day", 11, 290, &[b"\"School day"]),
            (b"rec; 7; x; \"a\"", 12, 290, &[b"x"]),
            (b"rec; 7; 1000; \"a\"", 13, 290, &[b"1000"]),
            (b"rec; 7; 1; \"1234567\"; \"\"", 13, 998, &[b"\"1234567\""]),
            (b"rec; 7; 8; \"HP      \"; \"\"", 13, 998, &[b"8"]),
            (
                b"rec; 7; 1; \"1234567 \"; \"\"",
                13,
                998,
                &[b"\"1234567 \""],
            ),
            (b"end; x", 12, 290, &[b"x"]),
            (b"end; 3", 16, 290, &[b"3"]),
            (b"rec; 7; -1; 1; 2; 1; 3; 4", 13, 225, &[b"-1"]),
            (b"rec; 7; 0; \"\"; 1", 13, 348, &[b"0"]),
            (b"rec; 7; 20230229; \"\"; 1000", 26, 348, &[b"20230229"]),
            (b"rec;20230229 ; 0", 26, 993, &[b"20230229"]),
            (b"rec; 20230229; 0", 13, 993, &[b"0"]),
        ]);
    }

    /// Where nothing stands, the gap is pointed at.
    #[test]
    fn fields_left_out() {
        let place = |content, number, table| line("", content, number, table).parts().remove(0);
        assert_eq!(place(b"rec; 7; ; \"a\"", 12, 290), 7..8);
        assert_eq!(place(b"rec; 7;; \"a\"", 12, 290), 7..8);
        assert_eq!(place(b"rec; 7; 1; ", 11, 290), 10..11);
        assert_eq!(place(b"rec; 7; 1;", 11, 290), 9..10);
        let own = b"rec; 7; 1; \"\"; \"\"; 0; 12; 1; 5; ; ; ; \"\"; \"\"; \"\"; ; 0; 5; ; ; ";
        assert_eq!(place(own, 12, 432), 49..50);
    }

    #[test]
    fn heads_at_fault() {
        all_point(&[
            (b"tbl; REC_ORT", 7, 0, &[b"REC_ORT"]),
            (b"atr; BASIS_VERSION; X", 8, 485, &[b"X"]),
            (
                b"atr; BASIS_VERSION; BASIS_VERSION_TEXT; X",
                8,
                485,
                &[b"X"],
            ),
            (b"frm; num[9.0]; char[040]", 9, 485, &[b"char[040]"]),
            (b"atr; BASIS_VERSION", 8, 485, &[]),
        ]);
    }

    #[test]
    fn commands_and_bytes_at_fault() {
        all_point(&[
            (b"  REC ; 7", 5, 485, &[b"REC"]),
            (b"hello", 5, 485, &[b"hello"]),
            (b" rec; 7", 6, 485, &[b"rec"]),
            (b"rec; 7; \"\xfc\"", 4, 485, &[b"\xfc"]),
            (b"com; \"SUGGESTED x\"", 15, 485, &[b"\"SUGGESTED x\""]),
            (b"rec; 7; \"\"", 15, 485, &[b"\"\""]),
            (b"end; 0", 15, 485, &[b"end"]),
        ]);
    }

    #[test]
    fn keys_and_points() {
        let link = b"rec; 7; 0; 1; 5; 1; 5; 9";
        all_point(&[
            (b"rec; 7; 1; \"a\"", 18, 290, &[b"7", b"1"]),
            (b"rec; 7; 1; \"HP\"; \"\"", 19, 998, &[b"7", b"\"HP\""]),
            (link, 14, 225, &[b"1", b"5", b"1", b"5"]),
            (link, 20, 225, &[b"7", b"1"]),
        ]);
    }

    /// Carets go by the file's own order, and stand from the left.
    #[test]
    fn columns_are_found_where_they_stand() {
        let days = "atr; TAGESART_TEXT; TAGESART_NR; BASIS_VERSION";
        for (content, number, parts) in [
            (
                &b"frm; char[40]; num[3.0]; char[9]"[..],
                9,
                &[&b"char[9]"[..]][..],
            ),
            (b"frm; num[9.0]; num[3.0]; char[40]", 9, &[b"num[9.0]"]),
            (b"rec; 7; 1; \"a\"", 11, &[b"7"]),
            (b"rec; \"a\"; 1; \"a\"", 12, &[b"\"a\""]),
            (b"rec; \"a\"; 1000; 1000", 13, &[b"1000"]),
            (b"rec; \"\"; 1; 7", 15, &[b"\"\""]),
            (b"rec; \"a\"; 1; 7", 18, &[b"1", b"7"]),
        ] {
            let shown = content.escape_ascii();
            assert_eq!(pointed(days, content, number, 290), parts, "{shown}");
        }
        let links = "atr; UEB_LAENGE; UEB_ZIEL; ORT_NR; BEREICH_NR; UEB_ZIEL_TYP; ONR_TYP_NR; \
            BASIS_VERSION";
        let link = b"rec; 9; 5; 5; 0; 1; 1; 7";
        let place = |number| line(links, link, number, 225).parts();
        assert_eq!(place(14), [8..9, 11..12, 17..18, 20..21]);
        assert_eq!(place(20), [20..21, 23..24]);
    }

    #[test]
    fn lost_quotes() {
        let odd = |content, number| line("", content, number, 290).has_odd_quotes();
        assert!(odd(b"rec; 7; 1; \"School day", 11));
        assert!(!odd(b"rec; 7; 1; School day", 11));
        assert!(!odd(b"rec; 7; 1; \"School day", 4));
    }
}
