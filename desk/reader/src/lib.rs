//! An independent reader of VDV 451 planning files with ten VDV 452 tables,
//! written from documents 01 and 02 alone. It shares no code, no tables and no
//! expectations with the library it is compared with.
//!
//! Every place is a section (from 1; 0 for header and trailer) and a line.

mod answer;
mod arrangement;
mod calendar;
mod fields;
mod file;
mod forms;
mod header;
mod keys;
mod lines;
mod listing;
mod marks;
mod section;
mod showing;
mod tables;

pub use answer::{number, Answer, Verdict, LIMIT};
pub use calendar::Date;
pub use fields::Text;
pub use file::{
    check, header, list, list_into, section, sections, table, trailer, value, visit, Listed, Row,
    TableView,
};
pub use forms::{fill, strip, write};
pub use header::{Charset, Header, Time};
pub use listing::{listing, LISTED};
pub use section::{Owner, Record, Value};
pub use showing::forms_shown;
