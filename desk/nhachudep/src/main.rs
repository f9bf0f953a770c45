//! `nhachudep`: checks, lists, shows and writes VDV 451 planning files, and
//! says which of their sentences are ours.

mod advice;
mod arguments;
mod arrangement;
mod columns;
mod combination;
mod commands;
mod days;
mod explaining;
mod help;
mod input;
mod json;
mod latin;
mod lines;
mod names;
mod outlets;
mod output;
mod picture;
mod place;
mod pointing;
mod references;
mod refusals;
mod system;
mod terminal;
mod trouble;

use std::io;
use std::process::ExitCode;

use arguments::Wish;
use outlets::Outlets;
use system::Output;
use trouble::{Outcome, Trouble};

const REFUSED: u8 = 1;
const TROUBLE: u8 = 2;

fn main() -> ExitCode {
    system::ignore_size_signal();
    let mut out = io::BufWriter::new(Output);
    let mut err = io::stderr().lock();
    let mut outlets = Outlets::new(&mut out, &mut err);
    let done = run(&mut outlets).and_then(|outcome| outlets.finish().map(|()| outcome));
    match done {
        Ok(Outcome::Fine) => ExitCode::SUCCESS,
        Ok(Outcome::Advised | Outcome::Refused) => ExitCode::from(REFUSED),
        Ok(Outcome::Unread) => ExitCode::from(TROUBLE),
        Err(Trouble::NobodyReads) => system::end_by_broken_pipe(),
        Err(trouble) => {
            outlets.tell(&trouble);
            ExitCode::from(TROUBLE)
        }
    }
}

fn run(outlets: &mut Outlets<'_>) -> Result<Outcome, Trouble> {
    let wish = Wish::read(std::env::args_os().skip(1))?;
    if wish.speaks() {
        Output::expect_open().map_err(|error| Trouble::of_output(&error))?;
    }
    match wish {
        Wish::Help(topic) => outlets.print(&help::of(topic))?,
        Wish::Version => outlets.print(&help::version())?,
        Wish::Run(order) => return commands::run(&order, outlets),
    }
    Ok(Outcome::Fine)
}
