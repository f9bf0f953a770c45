//! How a run ends.

use std::fmt::{self, Display, Formatter};
use std::io;

/// How what was asked for went.
#[derive(Clone, Copy, Debug, PartialEq, Eq, PartialOrd, Ord)]
pub enum Outcome {
    Fine,
    /// Sound, but advised of, where --strict is given.
    Advised,
    Refused,
    /// A file among several could not be read at all; it was told of.
    Unread,
}

impl Outcome {
    pub fn of(is_sound: bool) -> Outcome {
        match is_sound {
            true => Outcome::Fine,
            false => Outcome::Refused,
        }
    }

    pub fn is_sound(self) -> bool {
        matches!(self, Outcome::Fine | Outcome::Advised)
    }
}

/// What keeps the tool from doing what was asked for.
#[derive(Debug)]
pub enum Trouble {
    Usage(String),
    System(String),
    /// Whoever read the output has gone; nobody is left to tell.
    NobodyReads,
}

impl Trouble {
    pub fn usage(words: impl Into<String>) -> Trouble {
        Trouble::Usage(words.into())
    }

    /// With a file, what the system said of it.
    pub fn with(name: impl Display, error: &io::Error) -> Trouble {
        match error.kind() {
            io::ErrorKind::BrokenPipe => Trouble::NobodyReads,
            _ => Trouble::System(format!("{name}: {error}")),
        }
    }

    pub fn of_output(error: &io::Error) -> Trouble {
        Trouble::with("standard output", error)
    }
}

impl Display for Trouble {
    fn fmt(&self, out: &mut Formatter<'_>) -> fmt::Result {
        match self {
            Trouble::Usage(words) => {
                write!(out, "{words}\ntry `nhachudep --help`")
            }
            Trouble::System(words) => out.write_str(words),
            Trouble::NobodyReads => Ok(()),
        }
    }
}

#[cfg(test)]
mod tests {
    use super::*;

    #[test]
    fn a_reader_that_has_gone_is_told_nothing() {
        let gone = io::Error::from(io::ErrorKind::BrokenPipe);
        assert!(matches!(Trouble::of_output(&gone), Trouble::NobodyReads));
        assert!(matches!(Trouble::with("pipe", &gone), Trouble::NobodyReads));
        let full = Trouble::with("a.x10", &io::Error::other("full"));
        assert_eq!(full.to_string(), "a.x10: full");
    }
}
