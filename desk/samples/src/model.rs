//! What a file says: header values, and tables with their records.

use vdv::tables::Table;
use vdv::{At, Date, Owner, Time};

#[derive(Clone, Debug, PartialEq, Eq)]
pub struct Model {
    pub header: Heading,
    pub tables: Vec<Content>,
}

/// "Header values are the texts, date, time and character set, not the mode
/// or the date's form."
#[derive(Clone, Debug, PartialEq, Eq)]
pub struct Heading {
    pub source: Vec<u8>,
    pub date: Date,
    pub time: Time,
    pub latin: bool,
    pub ver: Vec<u8>,
    pub ifv: Vec<u8>,
    pub dve: Option<Vec<u8>>,
    pub fft: Option<Vec<u8>>,
}

#[derive(Clone, Debug, PartialEq, Eq)]
pub struct Content {
    pub table: &'static Table,
    pub records: Vec<Record>,
}

pub type Record = Vec<Datum>;

#[derive(Clone, Debug, PartialEq, Eq)]
pub enum Datum {
    Number(u64),
    Missing,
    /// A text's own bytes, and whose it is.
    Text(Vec<u8>, Owner),
}

impl Datum {
    /// The number; 0 if it is missing, or a text.
    pub fn number(&self) -> u64 {
        match self {
            Datum::Number(number) => *number,
            Datum::Missing | Datum::Text(..) => 0,
        }
    }

    pub fn is_suggestion(&self) -> bool {
        matches!(self, Datum::Text(_, Owner::Suggestion))
    }
}

impl Model {
    /// "Filling names section, record and field (from 1) and a text".
    pub fn filled(&self, at: At, text: &[u8]) -> Model {
        let mut model = self.clone();
        let record = &mut model.tables[at.section - 1].records[at.record - 1];
        record[at.field - 1] = Datum::Text(text.to_vec(), Owner::Suggestion);
        model
    }

    /// "marked texts empty and no marks".
    pub fn stripped(&self) -> Model {
        let mut model = self.clone();
        let records = model.tables.iter_mut().flat_map(|t| &mut t.records);
        for datum in records.flatten().filter(|datum| datum.is_suggestion()) {
            *datum = Datum::Text(Vec::new(), Owner::Operator);
        }
        model
    }

    /// Every place where an empty text may be filled.
    pub fn fillable(&self) -> Vec<At> {
        let mut places = Vec::new();
        for (index, content) in self.tables.iter().enumerate() {
            let Some(field) = content.table.markable else {
                continue;
            };
            for (line, record) in content.records.iter().enumerate() {
                if matches!(&record[field - 1], Datum::Text(text, _) if text.is_empty()) {
                    places.push(At::new(index + 1, line + 1, field));
                }
            }
        }
        places
    }
}
