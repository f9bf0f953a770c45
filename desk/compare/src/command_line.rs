//! How the comparison and the benchmark are asked for something: options by
//! name, some with a value, `--help`, and misuse told with the help.

use std::ops::RangeInclusive;
use std::process::ExitCode;

/// What a program can be asked for; by default what it does without options.
pub trait Options: Default {
    const PROGRAM: &'static str;
    const HELP: &'static str;

    /// Takes the option of this name; false if there is none.
    fn take(&mut self, name: &str, value: &mut Value<'_>) -> Result<bool, String>;
}

/// The word behind an option's name, for those that need one.
pub struct Value<'a> {
    name: &'a str,
    words: &'a mut dyn Iterator<Item = String>,
}

impl Value<'_> {
    pub fn word(&mut self) -> Result<String, String> {
        let name = self.name;
        self.words.next().ok_or(format!("{name} needs a value"))
    }

    pub fn number(&mut self, range: RangeInclusive<u64>) -> Result<u64, String> {
        let word = self.word()?;
        let Ok(number) = word.parse::<u64>() else {
            return Err(format!("{word} is no number"));
        };
        if range.contains(&number) {
            return Ok(number);
        }
        let (low, high) = range.into_inner();
        Err(format!("{word} is not from {low} to {high}"))
    }
}

#[derive(Clone, Debug, PartialEq, Eq)]
pub enum Wish<O> {
    Run(O),
    Help,
}

pub fn read<O: Options>(words: impl IntoIterator<Item = String>) -> Result<Wish<O>, String> {
    let mut options = O::default();
    let mut words = words.into_iter();
    while let Some(name) = words.next() {
        if name == "--help" || name == "-h" {
            return Ok(Wish::Help);
        }
        let mut value = Value {
            name: &name,
            words: &mut words,
        };
        if !options.take(&name, &mut value)? {
            return Err(format!("unknown option {name}"));
        }
    }
    Ok(Wish::Run(options))
}

/// A program's whole run: ends with 2 if it was misused.
pub fn run<O: Options>(work: impl FnOnce(&O) -> ExitCode) -> ExitCode {
    match read::<O>(std::env::args().skip(1)) {
        Ok(Wish::Run(options)) => work(&options),
        Ok(Wish::Help) => {
            print!("{}", O::HELP);
            ExitCode::SUCCESS
        }
        Err(problem) => {
            eprintln!("{}: {problem}\n\n{}", O::PROGRAM, O::HELP);
            ExitCode::from(2)
        }
    }
}

#[cfg(test)]
mod tests {
    use super::*;

    #[derive(Debug, Default, PartialEq, Eq)]
    struct Some {
        loud: bool,
        count: u64,
    }

    impl Options for Some {
        const PROGRAM: &'static str = "some";
        const HELP: &'static str = "";

        fn take(&mut self, name: &str, value: &mut Value<'_>) -> Result<bool, String> {
            match name {
                "--loud" => self.loud = true,
                "--count" => self.count = value.number(1..=9)?,
                _ => return Ok(false),
            }
            Ok(true)
        }
    }

    fn read(line: &str) -> Result<Wish<Some>, String> {
        super::read(line.split_whitespace().map(str::to_owned))
    }

    #[test]
    fn wishes() {
        assert_eq!(read(""), Ok(Wish::Run(Some::default())));
        let wish = Some {
            loud: true,
            count: 3,
        };
        assert_eq!(read("--count 3 --loud"), Ok(Wish::Run(wish)));
        assert_eq!(read("--loud -h"), Ok(Wish::Help));
    }

    #[test]
    fn misuse() {
        let told = |line| read(line).unwrap_err();
        assert_eq!(told("--count"), "--count needs a value");
        assert_eq!(told("--count x"), "x is no number");
        assert_eq!(told("--count 10"), "10 is not from 1 to 9");
        assert_eq!(told("files"), "unknown option files");
    }
}
