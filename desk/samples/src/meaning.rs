//! What a sound file may say: keys that differ, and references that are met.

use std::collections::BTreeSet;

use vdv::tables::{
    Column, Kind, Table, ALL, CALENDAR, CONNECTIONS, DAY_TYPES, LINKS, POINT_TYPES, TIMES,
    TRANSFERS, TRIP_TYPES, VALIDITY, VERSIONS,
};
use vdv::{Owner, Time};

use crate::days;
use crate::feeder;
use crate::model::{Content, Datum, Heading, Model, Record};
use crate::random::Random;
use crate::texts;

/// What a record refers to is drawn before it: document 01's tables, then the
/// connections.
pub const PARENTS_FIRST: [&Table; 10] = [
    &VERSIONS,
    &VALIDITY,
    &DAY_TYPES,
    &CALENDAR,
    &POINT_TYPES,
    &TRIP_TYPES,
    &LINKS,
    &TIMES,
    &CONNECTIONS,
    &TRANSFERS,
];

/// The most records a table has: few in most files.
pub fn draw_size(random: &mut Random) -> usize {
    match random.below(20) {
        0 => 25,
        1..=3 => 8,
        4..=6 => 0,
        _ => 3,
    }
}

pub fn draw(random: &mut Random, most: usize) -> Model {
    let header = draw_header(random);
    let mut tables = draw_tables(random);
    let mut records = Records {
        latin: header.latin,
        random,
        most,
        tables: Vec::new(),
    };
    for table in PARENTS_FIRST {
        if tables.contains(&table.number) {
            records.add(table);
        }
    }
    let mut drawn = records.tables;
    random.shuffle(&mut tables);
    drawn.sort_by_key(|content| tables.iter().position(|n| *n == content.table.number));
    Model {
        header,
        tables: drawn,
    }
}

/// Numbers of the tables the file has: mostly all ten, else any of them.
fn draw_tables(random: &mut Random) -> Vec<u32> {
    let share = random.pick(&[100, 100, 100, 85, 85, 50, 10]);
    let all = ALL.into_iter().map(|table| table.number);
    all.filter(|_| random.percent(share)).collect()
}

fn draw_header(random: &mut Random) -> Heading {
    let mut text = || {
        let size = random.pick(&[1, 12, 40, 90]);
        texts::draw(random, false, size)
    };
    let [source, ver, ifv, dve, fft] = [(); 5].map(|()| text());
    Heading {
        source,
        date: days::draw(random),
        time: Time {
            hour: random.between(0, 23),
            minute: random.between(0, 59),
            second: random.between(0, 59),
        },
        latin: random.percent(65),
        ver,
        ifv,
        dve: random.percent(40).then_some(dve),
        fft: random.percent(40).then_some(fft),
    }
}

/// The tables drawn so far.
struct Records<'r> {
    random: &'r mut Random,
    latin: bool,
    most: usize,
    tables: Vec<Content>,
}

impl Records<'_> {
    fn add(&mut self, table: &'static Table) {
        let wanted = self.draw_count(table);
        let mut records = Vec::new();
        let mut primary = BTreeSet::new();
        let mut second = BTreeSet::new();
        for _ in 0..wanted {
            let Some(record) = self.draw_record(table) else {
                break;
            };
            let keys = [table.primary, table.second].map(|fields| key(&record, fields));
            let [first_key, second_key] = keys;
            if primary.contains(&first_key) || second.contains(&second_key) {
                continue;
            }
            primary.insert(first_key);
            if !table.second.is_empty() {
                second.insert(second_key);
            }
            records.push(record);
        }
        self.tables.push(Content { table, records });
    }

    /// Tables that many records refer to are seldom left empty.
    fn draw_count(&mut self, table: &Table) -> usize {
        let count = self.random.below(self.most + 1);
        let parents = [&VERSIONS, &DAY_TYPES, &POINT_TYPES, &LINKS, &CONNECTIONS];
        if parents.contains(&table) && self.random.percent(85) {
            self.most - count / 2
        } else {
            count
        }
    }

    /// None if a record would lack its parents.
    fn draw_record(&mut self, table: &'static Table) -> Option<Record> {
        let fixed = match table.number {
            485 => vec![(0, self.draw_version())],
            993 => vec![(1, self.parent(&VERSIONS)?[0].number())],
            348 => {
                let day_type = self.parent(&DAY_TYPES)?;
                vec![(0, day_type[0].number()), (3, day_type[1].number())]
            }
            998 => {
                let version = self.parent(&VERSIONS)?[0].number();
                vec![(0, version), (1, self.draw_point_type())]
            }
            225 => self.draw_points()?,
            247 => {
                let link = self.parent(&LINKS)?;
                let shared = [0, 1, 3, 4, 5, 6].into_iter();
                shared.zip(link.iter().map(Datum::number)).collect()
            }
            232 => self.draw_transfer()?,
            _ => vec![(0, self.parent(&VERSIONS)?[0].number())],
        };
        Some(self.draw_values(table, &fixed))
    }

    /// Mostly one of the two that links name.
    fn draw_point_type(&mut self) -> u64 {
        match self.random.below(5) {
            0 => self.random.between(1, 7),
            _ => self.random.between(1, 2),
        }
    }

    /// A record of a table drawn before.
    fn parent(&mut self, table: &Table) -> Option<Record> {
        let content = self.tables.iter().find(|c| c.table == table)?;
        self.random.choose(&content.records).cloned()
    }

    fn draw_version(&mut self) -> u64 {
        match self.random.below(4) {
            0 => self.random.pick(&[1, 999_999_999]),
            _ => self.random.between(1, 60),
        }
    }

    /// Version, and the two points of a link: their types stand in the file,
    /// and "the two points, type and number together, differ".
    fn draw_points(&mut self) -> Option<Vec<(usize, u64)>> {
        let types = self.link_types();
        let (version, from) = *self.random.choose(&types)?;
        let others: Vec<_> = types.iter().filter(|(v, _)| *v == version).collect();
        let (_, to) = *self.random.pick(&others);
        let start = self.draw_point();
        let goal = match self.random.below(3) {
            0 if from != to => start,
            _ => self.draw_point(),
        };
        let goal = if (from, start) == (to, goal) {
            goal % 999_999 + 1
        } else {
            goal
        };
        Some(vec![
            (0, version),
            (2, from),
            (3, start),
            (4, to),
            (5, goal),
        ])
    }

    /// Versions and point types that a link may name.
    fn link_types(&self) -> Vec<(u64, u64)> {
        let mut types = self.keys_of(&POINT_TYPES);
        types.retain(|(_, point_type)| (1..=2).contains(point_type));
        types
    }

    /// Versions and numbers of a table drawn before.
    fn keys_of(&self, table: &Table) -> Vec<(u64, u64)> {
        let drawn = self.tables.iter().filter(|c| c.table == table);
        drawn
            .flat_map(|content| &content.records)
            .map(|record| (record[0].number(), record[1].number()))
            .collect()
    }

    /// Version, connection and day type of a transfer.
    fn draw_transfer(&mut self) -> Option<Vec<(usize, u64)>> {
        let connections = self.keys_of(&CONNECTIONS);
        let mut days = self.keys_of(&DAY_TYPES);
        days.retain(|(version, _)| connections.iter().any(|(v, _)| v == version));
        let (version, day_type) = *self.random.choose(&days)?;
        let of_version = connections.iter().filter(|(v, _)| *v == version);
        let of_version: Vec<_> = of_version.collect();
        let (_, connection) = *self.random.pick(&of_version);
        Some(vec![(0, version), (1, connection), (2, day_type)])
    }

    fn draw_point(&mut self) -> u64 {
        match self.random.below(6) {
            0 => self.random.pick(&[1, 999_999]),
            _ => self.random.between(1, 30),
        }
    }

    fn draw_values(&mut self, table: &Table, fixed: &[(usize, u64)]) -> Record {
        let mut record: Record = table.columns.iter().map(|c| self.draw_value(c)).collect();
        for &(column, number) in fixed {
            record[column] = Datum::Number(number);
        }
        if *table == CONNECTIONS {
            feeder::draw(self.random, self.latin, &mut record);
        }
        if let Some(field) = table.markable {
            self.draw_owner(&mut record[field - 1]);
        }
        record
    }

    fn draw_value(&mut self, column: &Column) -> Datum {
        match column.kind {
            _ if column.may_be_missing && self.random.percent(40) => Datum::Missing,
            Kind::Number { low, high } => Datum::Number(match self.random.below(5) {
                0 => low,
                1 => high,
                2 => self.random.between(low, high),
                _ => self.random.between(low, high.min(low + 12)),
            }),
            Kind::Day { .. } => Datum::Number(days::number_of(days::draw(self.random))),
            Kind::Text { size } => {
                let text = texts::draw(self.random, self.latin, size);
                Datum::Text(texts::unpadded(text), Owner::Operator)
            }
        }
    }

    /// A mark on an empty text is 15, so only others are suggestions.
    fn draw_owner(&mut self, datum: &mut Datum) {
        if let Datum::Text(text, owner) = datum {
            if !text.is_empty() && self.random.percent(40) {
                *owner = Owner::Suggestion;
            }
        }
    }
}

/// A key's values; texts by their own bytes, whoever's they are. No number of
/// a key is missing.
pub fn key(record: &Record, fields: &[usize]) -> Vec<(u64, Vec<u8>)> {
    let value = |field: &usize| match &record[field - 1] {
        Datum::Text(text, _) => (0, text.clone()),
        number => (number.number(), Vec::new()),
    };
    fields.iter().map(value).collect()
}
