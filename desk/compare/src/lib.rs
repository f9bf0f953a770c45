//! Two implementations, compared call by call over drawn and damaged files. The
//! subject is the one that is tried; the baseline is the independent reader.

mod calls;
pub mod command_line;
mod difference;
mod forms;
mod lent;
mod library;
mod limit;
mod linked;
pub mod locality;
mod meaning;
mod options;
mod plain;
mod run;
mod shrink;
mod tally;

pub use calls::compare_file;
pub use difference::Difference;
pub use library::{all_rows, Library};
pub use limit::compare_large;
pub use linked::Linked;
pub use options::Options;
pub use plain::Plain;
pub use run::{run, Failure, Summary};
pub use shrink::shrink;
pub use tally::Tally;

/// What is compared and measured.
pub fn chosen() -> &'static dyn Library {
    &Linked
}

/// What the chosen one is compared with: the independent reader.
pub fn baseline() -> &'static dyn Library {
    &Plain
}

#[derive(Clone, Copy)]
pub struct Pair<'a> {
    pub subject: &'a dyn Library,
    pub baseline: &'a dyn Library,
}
