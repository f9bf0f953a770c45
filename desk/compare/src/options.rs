//! What the program is asked for.

use std::path::PathBuf;

use crate::command_line::{self, Value};

const HELP: &str = "\
Compares two implementations call by call over drawn and damaged files.

usage: compare [--seed N] [--count N] [--from N] [--save FOLDER] [--small]

  --seed N       draw from this seed (1)
  --count N      so many files (20000)
  --from N       begin at this file of the seed (0)
  --save FOLDER  keep files that show a difference there
  --small        leave out the large files and the numbers only they reach

Progress goes to standard error, the counts of each number to standard output.
Ends with 0 if all answers agree and every number was reached, 1 if not,
2 if it could not run.
";

#[derive(Clone, Debug, PartialEq, Eq)]
pub struct Options {
    pub seed: u64,
    pub count: u64,
    pub from: u64,
    pub save: Option<PathBuf>,
    pub large: bool,
    /// Differences after which the rest is not looked at.
    pub enough: usize,
}

impl Default for Options {
    fn default() -> Options {
        Options {
            seed: 1,
            count: 20_000,
            from: 0,
            save: None,
            large: true,
            enough: 5,
        }
    }
}

impl command_line::Options for Options {
    const PROGRAM: &'static str = "compare";
    const HELP: &'static str = HELP;

    fn take(&mut self, name: &str, value: &mut Value<'_>) -> Result<bool, String> {
        match name {
            "--small" => self.large = false,
            "--seed" => self.seed = value.number(0..=u64::MAX)?,
            "--count" => self.count = value.number(0..=MOST)?,
            "--from" => self.from = value.number(0..=MOST)?,
            "--save" => self.save = Some(value.word()?.into()),
            _ => return Ok(false),
        }
        Ok(true)
    }
}

/// More files than anyone waits for, and few enough to be counted.
const MOST: u64 = 1 << 40;
