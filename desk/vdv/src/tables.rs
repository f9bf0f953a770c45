//! The ten tables of documents 01 and 02, as the desk's tools know them. A column
//! is named by its number here, from 1, as calls name it; in a file it stands
//! where the section's `atr` has it.

/// Range or size of a column's values.
#[derive(Clone, Copy, Debug, PartialEq, Eq)]
pub enum Kind {
    Number {
        low: u64,
        high: u64,
    },
    /// "Gregorian dates from 00010101 to 99991231, the number's value read as
    /// YYYYMMDD with leading zeros optional". What is outside the range is 13,
    /// what is in it and no such day 26.
    Day {
        low: u64,
        high: u64,
    },
    Text {
        size: usize,
    },
}

#[derive(Debug, PartialEq, Eq)]
pub struct Column {
    pub name: &'static str,
    pub kind: Kind,
    /// The size in a written `frm`.
    pub written: usize,
    /// "Where a column there allows NULL, an empty field is a missing number".
    pub may_be_missing: bool,
}

#[derive(Debug, PartialEq, Eq)]
pub struct Table {
    pub number: u32,
    pub name: &'static str,
    pub columns: &'static [Column],
    /// Columns of the primary and of the second key.
    pub primary: &'static [usize],
    pub second: &'static [usize],
    /// "Only these may be marked": the column. A mark in a file has the number
    /// of its place there.
    pub markable: Option<usize>,
    /// In the order of their numbers.
    pub references: &'static [Reference],
}

/// "References go to the named table's primary key": by these columns.
#[derive(Debug, PartialEq, Eq)]
pub struct Reference {
    pub fields: &'static [usize],
    /// The number of the table.
    pub to: u32,
}

const fn to(table: u32, fields: &'static [usize]) -> Reference {
    Reference { fields, to: table }
}

const fn num(name: &'static str, low: u64, high: u64, written: usize) -> Column {
    let kind = Kind::Number { low, high };
    Column {
        name,
        kind,
        written,
        may_be_missing: false,
    }
}

/// A number from 1, or none.
const fn num_or_null(name: &'static str, high: u64, written: usize) -> Column {
    Column {
        may_be_missing: true,
        ..num(name, 1, high, written)
    }
}

const fn day(name: &'static str) -> Column {
    let (low, high) = (1, 99_999_999);
    Column {
        name,
        kind: Kind::Day { low, high },
        written: 8,
        may_be_missing: false,
    }
}

const fn text(name: &'static str, size: usize) -> Column {
    let kind = Kind::Text { size };
    let written = size;
    Column {
        name,
        kind,
        written,
        may_be_missing: false,
    }
}

const V: Column = num("BASIS_VERSION", 1, 999_999_999, 9);

pub static VERSIONS: Table = Table {
    number: 485,
    name: "MENGE_BASIS_VERSIONEN",
    columns: &[V, text("BASIS_VERSION_TEXT", 40)],
    primary: &[1],
    second: &[],
    markable: Some(2),
    references: &[],
};

pub static VALIDITY: Table = Table {
    number: 993,
    name: "BASIS_VER_GUELTIGKEIT",
    columns: &[day("VER_GUELTIGKEIT"), V],
    primary: &[1],
    second: &[],
    markable: None,
    references: &[to(485, &[2])],
};

pub static CALENDAR: Table = Table {
    number: 348,
    name: "FIRMENKALENDER",
    columns: &[
        V,
        day("BETRIEBSTAG"),
        text("BETRIEBSTAG_TEXT", 40),
        num("TAGESART_NR", 1, 999, 3),
    ],
    primary: &[1, 2],
    second: &[],
    markable: Some(3),
    references: &[to(485, &[1]), to(290, &[1, 4])],
};

pub static DAY_TYPES: Table = Table {
    number: 290,
    name: "MENGE_TAGESART",
    columns: &[V, num("TAGESART_NR", 1, 999, 3), text("TAGESART_TEXT", 40)],
    primary: &[1, 2],
    second: &[],
    markable: Some(3),
    references: &[to(485, &[1])],
};

pub static POINT_TYPES: Table = Table {
    number: 998,
    name: "MENGE_ONR_TYP",
    columns: &[
        V,
        num("ONR_TYP_NR", 1, 7, 2),
        text("STR_ONR_TYP", 6),
        text("ONR_TYP_TEXT", 40),
    ],
    primary: &[1, 2],
    second: &[1, 3],
    markable: Some(4),
    references: &[to(485, &[1])],
};

pub static TRIP_TYPES: Table = Table {
    number: 332,
    name: "MENGE_FAHRTART",
    columns: &[V, num("FAHRTART_NR", 1, 4, 2), text("STR_FAHRTART", 6)],
    primary: &[1, 2],
    second: &[1, 3],
    markable: None,
    references: &[to(485, &[1])],
};

pub static LINKS: Table = Table {
    number: 225,
    name: "REC_UEB",
    columns: &[
        V,
        num("BEREICH_NR", 0, 252, 3),
        num("ONR_TYP_NR", 1, 2, 2),
        num("ORT_NR", 1, 999_999, 6),
        num("UEB_ZIEL_TYP", 1, 2, 2),
        num("UEB_ZIEL", 1, 999_999, 6),
        num("UEB_LAENGE", 1, 81_890, 6),
    ],
    primary: &[1, 2, 3, 4, 5, 6],
    second: &[],
    markable: None,
    references: &[to(485, &[1]), to(998, &[1, 3]), to(998, &[1, 5])],
};

pub static TIMES: Table = Table {
    number: 247,
    name: "UEB_FZT",
    columns: &[
        V,
        num("BEREICH_NR", 0, 252, 3),
        num("FGR_NR", 1, 999_999_999, 9),
        num("ONR_TYP_NR", 1, 2, 2),
        num("ORT_NR", 1, 999_999, 6),
        num("UEB_ZIEL_TYP", 1, 2, 2),
        num("UEB_ZIEL", 1, 999_999, 6),
        num("UEB_FAHRZEIT", 1, 65_532, 6),
    ],
    primary: &[1, 2, 3, 4, 5, 6, 7],
    second: &[],
    markable: None,
    references: &[to(485, &[1]), to(225, &[1, 2, 4, 5, 6, 7])],
};

/// What a connection is called by, in both of its tables.
const EINAN_NR: Column = num("EINAN_NR", 1, 32_764, 5);

/// The feeder's columns begin with ZUB, those of the line that it feeds with ABB.
pub static CONNECTIONS: Table = Table {
    number: 432,
    name: "EINZELANSCHLUSS",
    columns: &[
        V,
        EINAN_NR,
        text("ANSCHLUSS_NAME", 40),
        text("ANSCHLUSS_GRUPPE", 6),
        num("LEITSTELLENKENNUNG", 0, 255, 3),
        num("ZUB_LI_NR", 0, 999, 6),
        num("ZUB_LI_RI_NR", 0, 2, 3),
        num("ZUB_ORT_REF_ORT", 0, 999_999, 6),
        num_or_null("ZUB_ONR_TYP_NR", 99, 2),
        num_or_null("ZUB_ORT_NR", 999_999, 6),
        num_or_null("VON_ORT_REF_ORT", 999_999, 6),
        text("LinienID", 6),
        text("RichtungsID", 6),
        text("ASBID", 10),
        num("ABB_LI_NR", 1, 999, 6),
        num("ABB_LI_RI_NR", 0, 2, 3),
        num("ABB_ORT_REF_ORT", 1, 999_999, 6),
        num_or_null("ABB_ONR_TYP_NR", 99, 2),
        num_or_null("ABB_ORT_NR", 999_999, 6),
        num_or_null("NACH_ORT_REF_ORT", 999_999, 6),
    ],
    primary: &[1, 2],
    second: &[],
    markable: Some(3),
    references: &[to(485, &[1])],
};

pub static TRANSFERS: Table = Table {
    number: 232,
    name: "REC_UMS",
    columns: &[
        V,
        EINAN_NR,
        num("TAGESART_NR", 1, 999, 3),
        num("UMS_BEGINN", 0, 129_599, 6),
        num("UMS_ENDE", 0, 129_599, 6),
        num("UMS_MIN", 0, 65_532, 5),
        num("UMS_MAX", 0, 65_532, 5),
        num("MAX_VERZ_MAN", 0, 65_532, 5),
        num("MAX_VERZ_AUTO", 0, 65_532, 5),
    ],
    primary: &[1, 2, 3, 4, 5],
    second: &[],
    markable: None,
    references: &[to(485, &[1]), to(432, &[1, 2]), to(290, &[1, 3])],
};

pub static ALL: [&Table; 10] = [
    &VERSIONS,
    &VALIDITY,
    &CALENDAR,
    &DAY_TYPES,
    &POINT_TYPES,
    &TRIP_TYPES,
    &LINKS,
    &TIMES,
    &CONNECTIONS,
    &TRANSFERS,
];

pub fn numbered(number: u32) -> Option<&'static Table> {
    ALL.into_iter().find(|table| table.number == number)
}

pub fn named(name: &[u8]) -> Option<&'static Table> {
    ALL.into_iter().find(|table| table.name.as_bytes() == name)
}

impl Column {
    /// The format of a written `frm`.
    pub fn format(&self) -> String {
        self.format_of_size(self.written)
    }

    pub fn format_of_size(&self, size: usize) -> String {
        match self.kind {
            Kind::Number { .. } | Kind::Day { .. } => format!("num[{size}.0]"),
            Kind::Text { .. } => format!("char[{size}]"),
        }
    }

    pub fn is_text(&self) -> bool {
        matches!(self.kind, Kind::Text { .. })
    }

    pub fn is_day(&self) -> bool {
        matches!(self.kind, Kind::Day { .. })
    }
}

#[cfg(test)]
mod tests {
    use super::*;

    #[test]
    fn tables_are_found_by_number_and_name() {
        for table in ALL {
            assert_eq!(numbered(table.number), Some(table));
            assert_eq!(named(table.name.as_bytes()), Some(table));
        }
        assert_eq!(numbered(0), None);
        assert_eq!(named(b"REC_ORT"), None);
    }

    #[test]
    fn keys_references_and_marks_name_columns() {
        for table in ALL {
            let fields = table.primary.iter().chain(table.second);
            for &field in fields.chain(&table.markable) {
                assert!((1..=table.columns.len()).contains(&field));
            }
            for reference in table.references {
                let parent = numbered(reference.to).unwrap();
                assert_eq!(reference.fields.len(), parent.primary.len());
                for (&field, &key) in reference.fields.iter().zip(parent.primary) {
                    let kinds = [&table.columns[field - 1], &parent.columns[key - 1]];
                    assert!(kinds.iter().all(|column| !column.is_text()));
                }
            }
            if let Some(field) = table.markable {
                assert_eq!(table.columns[field - 1].kind, Kind::Text { size: 40 });
            }
        }
    }

    /// "VER_GUELTIGKEIT and BETRIEBSTAG must be Gregorian dates": no others, and
    /// both stay numbers.
    #[test]
    fn days() {
        let columns = ALL.iter().flat_map(|table| table.columns);
        let days: Vec<_> = columns.filter(|column| column.is_day()).collect();
        assert_eq!(
            days.iter().map(|day| day.name).collect::<Vec<_>>(),
            ["VER_GUELTIGKEIT", "BETRIEBSTAG"]
        );
        for day in days {
            assert_eq!((day.format().as_str(), day.is_text()), ("num[8.0]", false));
            assert!(!day.may_be_missing);
        }
    }

    /// What no key and no reference goes by, and 0 is never in its stead.
    #[test]
    fn numbers_that_may_be_missing() {
        for table in ALL {
            for (field, column) in (1..).zip(table.columns) {
                if !column.may_be_missing {
                    continue;
                }
                assert!(matches!(column.kind, Kind::Number { low: 1, .. }));
                let mut references = table.references.iter();
                assert!(!table.primary.contains(&field) && !table.second.contains(&field));
                assert!(references.all(|reference| !reference.fields.contains(&field)));
            }
        }
        let columns = ALL.iter().flat_map(|table| table.columns);
        assert_eq!(columns.filter(|column| column.may_be_missing).count(), 6);
    }
}
