//! The eight tables of document 01 and the two of document 02's E3: columns,
//! kinds, ranges, sizes, keys and references.

/// Range or size of a column's values.
#[derive(Clone, Copy, Debug, PartialEq, Eq)]
pub enum Kind {
    Number {
        low: i64,
        high: i64,
    },
    /// A number from 1 to [`EIGHT_DIGITS`], "the number's value read as
    /// YYYYMMDD".
    Day,
    Text {
        size: usize,
    },
}

pub const EIGHT_DIGITS: i64 = 99_999_999;

#[derive(Debug)]
pub struct Column {
    pub name: &'static str,
    pub kind: Kind,
    /// The size in a written `frm`: 452's decimal or char size.
    pub written: usize,
    /// "Where a column there allows NULL, an empty field is a missing number".
    pub may_be_missing: bool,
}

/// A reference to another table's primary key, by columns counted from 0.
#[derive(Debug)]
pub struct Reference {
    pub to: u16,
    pub by: &'static [usize],
}

#[derive(Debug)]
pub struct Table {
    pub number: u16,
    pub name: &'static str,
    pub columns: &'static [Column],
    /// Columns of the primary and of the second key, counted from 0.
    pub primary: &'static [usize],
    pub second: &'static [usize],
    pub references: &'static [Reference],
    /// The field, counted from 1, that may be marked.
    pub markable: Option<usize>,
    /// Columns of (type, number) of the two points that must differ.
    pub points: Option<[(usize, usize); 2]>,
    pub feeder: Option<Feeder>,
}

/// How a connection names its feeder: by numbers of one's own, or by the texts
/// agreed with another control centre. Columns, counted from 0.
#[derive(Debug)]
pub struct Feeder {
    /// The other control centre, 0 if the feeder is one's own.
    pub centre: usize,
    pub line: usize,
    pub direction: usize,
    pub stop: usize,
    pub texts: [usize; 3],
}

/// The most columns a table has.
pub const WIDEST: usize = 20;

const fn num(name: &'static str, low: i64, high: i64, written: usize) -> Column {
    Column {
        name,
        kind: Kind::Number { low, high },
        written,
        may_be_missing: false,
    }
}

const fn day(name: &'static str) -> Column {
    Column {
        name,
        kind: Kind::Day,
        written: 8,
        may_be_missing: false,
    }
}

/// ">0, NULL": "up to the decimal size".
const fn num_or_null(name: &'static str, size: u32) -> Column {
    Column {
        may_be_missing: true,
        ..num(name, 1, 10i64.pow(size) - 1, size as usize)
    }
}

const fn char(name: &'static str, size: usize) -> Column {
    Column {
        name,
        kind: Kind::Text { size },
        written: size,
        may_be_missing: false,
    }
}

const V: Column = num("BASIS_VERSION", 1, 999_999_999, 9);
const TAGESART_NR: Column = num("TAGESART_NR", 1, 999, 3);
const BEREICH_NR: Column = num("BEREICH_NR", 0, 252, 3);
const LINK_ONR_TYP_NR: Column = num("ONR_TYP_NR", 1, 2, 2);
const ORT_NR: Column = num("ORT_NR", 1, 999_999, 6);
const UEB_ZIEL_TYP: Column = num("UEB_ZIEL_TYP", 1, 2, 2);
const UEB_ZIEL: Column = num("UEB_ZIEL", 1, 999_999, 6);
const EINAN_NR: Column = num("EINAN_NR", 1, 32_764, 5);

const TO_VERSION: Reference = Reference { to: 485, by: &[0] };

pub static ALL: [Table; 10] = [
    Table {
        number: 485,
        name: "MENGE_BASIS_VERSIONEN",
        columns: &[V, char("BASIS_VERSION_TEXT", 40)],
        primary: &[0],
        second: &[],
        references: &[],
        markable: Some(2),
        points: None,
        feeder: None,
    },
    Table {
        number: 993,
        name: "BASIS_VER_GUELTIGKEIT",
        columns: &[day("VER_GUELTIGKEIT"), V],
        primary: &[0],
        second: &[],
        references: &[Reference { to: 485, by: &[1] }],
        markable: None,
        points: None,
        feeder: None,
    },
    Table {
        number: 348,
        name: "FIRMENKALENDER",
        columns: &[
            V,
            day("BETRIEBSTAG"),
            char("BETRIEBSTAG_TEXT", 40),
            TAGESART_NR,
        ],
        primary: &[0, 1],
        second: &[],
        references: &[
            TO_VERSION,
            Reference {
                to: 290,
                by: &[0, 3],
            },
        ],
        markable: Some(3),
        points: None,
        feeder: None,
    },
    Table {
        number: 290,
        name: "MENGE_TAGESART",
        columns: &[V, TAGESART_NR, char("TAGESART_TEXT", 40)],
        primary: &[0, 1],
        second: &[],
        references: &[TO_VERSION],
        markable: Some(3),
        points: None,
        feeder: None,
    },
    Table {
        number: 998,
        name: "MENGE_ONR_TYP",
        columns: &[
            V,
            num("ONR_TYP_NR", 1, 7, 2),
            char("STR_ONR_TYP", 6),
            char("ONR_TYP_TEXT", 40),
        ],
        primary: &[0, 1],
        second: &[0, 2],
        references: &[TO_VERSION],
        markable: Some(4),
        points: None,
        feeder: None,
    },
    Table {
        number: 332,
        name: "MENGE_FAHRTART",
        columns: &[V, num("FAHRTART_NR", 1, 4, 2), char("STR_FAHRTART", 6)],
        primary: &[0, 1],
        second: &[0, 2],
        references: &[TO_VERSION],
        markable: None,
        points: None,
        feeder: None,
    },
    Table {
        number: 225,
        name: "REC_UEB",
        columns: &[
            V,
            BEREICH_NR,
            LINK_ONR_TYP_NR,
            ORT_NR,
            UEB_ZIEL_TYP,
            UEB_ZIEL,
            num("UEB_LAENGE", 1, 81_890, 6),
        ],
        primary: &[0, 1, 2, 3, 4, 5],
        second: &[],
        references: &[
            TO_VERSION,
            Reference {
                to: 998,
                by: &[0, 2],
            },
            Reference {
                to: 998,
                by: &[0, 4],
            },
        ],
        markable: None,
        points: Some([(2, 3), (4, 5)]),
        feeder: None,
    },
    Table {
        number: 247,
        name: "UEB_FZT",
        columns: &[
            V,
            BEREICH_NR,
            num("FGR_NR", 1, 999_999_999, 9),
            LINK_ONR_TYP_NR,
            ORT_NR,
            UEB_ZIEL_TYP,
            UEB_ZIEL,
            num("UEB_FAHRZEIT", 1, 65_532, 6),
        ],
        primary: &[0, 1, 2, 3, 4, 5, 6],
        second: &[],
        references: &[
            TO_VERSION,
            Reference {
                to: 225,
                by: &[0, 1, 3, 4, 5, 6],
            },
        ],
        markable: None,
        points: Some([(3, 4), (5, 6)]),
        feeder: None,
    },
    Table {
        number: 432,
        name: "EINZELANSCHLUSS",
        columns: &[
            V,
            EINAN_NR,
            char("ANSCHLUSS_NAME", 40),
            char("ANSCHLUSS_GRUPPE", 6),
            num("LEITSTELLENKENNUNG", 0, 255, 3),
            num("ZUB_LI_NR", 0, 999, 6),
            num("ZUB_LI_RI_NR", 0, 2, 3),
            num("ZUB_ORT_REF_ORT", 0, 999_999, 6),
            num_or_null("ZUB_ONR_TYP_NR", 2),
            num_or_null("ZUB_ORT_NR", 6),
            num_or_null("VON_ORT_REF_ORT", 6),
            char("LinienID", 6),
            char("RichtungsID", 6),
            char("ASBID", 10),
            num("ABB_LI_NR", 1, 999, 6),
            num("ABB_LI_RI_NR", 0, 2, 3),
            num("ABB_ORT_REF_ORT", 1, 999_999, 6),
            num_or_null("ABB_ONR_TYP_NR", 2),
            num_or_null("ABB_ORT_NR", 6),
            num_or_null("NACH_ORT_REF_ORT", 6),
        ],
        primary: &[0, 1],
        second: &[],
        references: &[TO_VERSION],
        markable: Some(3),
        points: None,
        feeder: Some(Feeder {
            centre: 4,
            line: 5,
            direction: 6,
            stop: 7,
            texts: [11, 12, 13],
        }),
    },
    Table {
        number: 232,
        name: "REC_UMS",
        columns: &[
            V,
            EINAN_NR,
            TAGESART_NR,
            num("UMS_BEGINN", 0, 129_599, 6),
            num("UMS_ENDE", 0, 129_599, 6),
            num("UMS_MIN", 0, 65_532, 5),
            num("UMS_MAX", 0, 65_532, 5),
            num("MAX_VERZ_MAN", 0, 65_532, 5),
            num("MAX_VERZ_AUTO", 0, 65_532, 5),
        ],
        primary: &[0, 1, 2, 3, 4],
        second: &[],
        references: &[
            TO_VERSION,
            Reference {
                to: 432,
                by: &[0, 1],
            },
            Reference {
                to: 290,
                by: &[0, 2],
            },
        ],
        markable: None,
        points: None,
        feeder: None,
    },
];

/// Where the table stands among the ten.
pub fn position(number: u16) -> Option<usize> {
    ALL.iter().position(|t| t.number == number)
}

pub fn named(name: &[u8]) -> Option<&'static Table> {
    ALL.iter().find(|t| t.name.as_bytes() == name)
}

impl Column {
    /// "`num[n.0]` or `char[n]` as the column's kind asks, n from 1 to 255
    /// without leading zeros".
    pub fn takes_format(&self, format: &[u8]) -> bool {
        let (start, end): (&[u8], &[u8]) = match self.kind {
            Kind::Number { .. } | Kind::Day => (b"num[", b".0]"),
            Kind::Text { .. } => (b"char[", b"]"),
        };
        format
            .strip_prefix(start)
            .and_then(|rest| rest.strip_suffix(end))
            .is_some_and(is_format_size)
    }
}

fn is_format_size(digits: &[u8]) -> bool {
    if digits.len() > 3 || digits.first() == Some(&b'0') {
        return false;
    }
    crate::fields::read_number(digits).is_some_and(|n| (1..=255).contains(&n))
}

#[cfg(test)]
mod tests {
    use super::*;

    #[test]
    fn row_7_formats() {
        let v = &ALL[0].columns[0];
        let text = &ALL[0].columns[1];
        assert!(v.takes_format(b"num[9.0]") && v.takes_format(b"num[1.0]"));
        assert!(v.takes_format(b"num[255.0]") && text.takes_format(b"char[255]"));
        for format in [
            &b"num[9]"[..],
            b"num[0.0]",
            b"num[09.0]",
            b"num[256.0]",
            b"num[-1.0]",
            b"num[ 9.0 ]",
            b"num[9.0",
            b"num[.0]",
            b"NUM[9.0]",
            b"num[9.1]",
            b"char[9]",
            b"num[]",
            b"num[9.0].0]",
            b"",
        ] {
            assert!(!v.takes_format(format), "{}", format.escape_ascii());
        }
        assert!(!text.takes_format(b"num[40.0]") && !text.takes_format(b"char[40.0]"));
        assert!(!text.takes_format(b"char[]") && !text.takes_format(b"char[040]"));
    }

    #[test]
    fn references_reach_the_whole_primary_key() {
        for table in &ALL {
            assert!(table.columns.len() <= WIDEST);
            for reference in table.references {
                let target = &ALL[position(reference.to).unwrap()];
                assert_eq!(target.primary.len(), reference.by.len());
            }
        }
    }

    #[test]
    fn only_texts_may_be_marked() {
        let fields: Vec<_> = ALL
            .iter()
            .filter_map(|t| t.markable.map(|f| (t.number, f)))
            .collect();
        assert_eq!(fields, [(485, 2), (348, 3), (290, 3), (998, 4), (432, 3)]);
        for table in &ALL {
            if let Some(field) = table.markable {
                assert_eq!(table.columns[field - 1].kind, Kind::Text { size: 40 });
            }
        }
    }

    #[test]
    fn days() {
        let columns = ALL.iter().flat_map(|table| table.columns);
        let days = columns.filter(|column| column.kind == Kind::Day);
        let names: Vec<_> = days.map(|column| column.name).collect();
        assert_eq!(names, ["VER_GUELTIGKEIT", "BETRIEBSTAG"]);
    }

    #[test]
    fn only_numbers_outside_keys_may_be_missing() {
        for table in &ALL {
            for (index, column) in table.columns.iter().enumerate() {
                let keys = [table.primary, table.second].concat();
                let is_number = matches!(column.kind, Kind::Number { low: 1, .. });
                assert!(!column.may_be_missing || is_number && !keys.contains(&index));
            }
        }
        let missing = |table: &Table| table.columns.iter().filter(|c| c.may_be_missing).count();
        assert_eq!(ALL.each_ref().map(missing), [0, 0, 0, 0, 0, 0, 0, 0, 6, 0]);
    }
}
