//! Where a form goes: standard output, another file, or the file it came from.

use std::path::{Path, PathBuf};

use crate::input::Source;
use crate::names::Name;
use crate::trouble::Trouble;

#[derive(Clone, Debug, PartialEq, Eq)]
pub enum Destination {
    StandardOutput,
    File(PathBuf),
    InPlace,
}

/// The file a form is to be put into, standard output if none. The input is
/// written over only if that is asked for in so many words.
pub fn target(source: &Source, destination: &Destination) -> Result<Option<PathBuf>, Trouble> {
    match (destination, source) {
        (Destination::StandardOutput, _) => Ok(None),
        (Destination::File(path), Source::Path(input)) if is_same(path, input) => {
            let words = format!("{} is the input; say --in-place", Name::of(path));
            Err(Trouble::Usage(words))
        }
        (Destination::File(path), _) => Ok(Some(path.clone())),
        (Destination::InPlace, Source::Path(input)) => Ok(Some(input.clone())),
        (Destination::InPlace, Source::StandardInput) => Err(Trouble::usage(
            "standard input has no place to be written to",
        )),
    }
}

fn is_same(one: &Path, other: &Path) -> bool {
    match (one.canonicalize(), other.canonicalize()) {
        (Ok(one), Ok(other)) => one == other,
        _ => false,
    }
}
