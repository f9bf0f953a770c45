//! Refusals as people and machines read them.

use vdv::{number, Refusal};

use crate::input::Source;
use crate::json::Json;
use crate::outlets::Outlets;
use crate::picture::Picture;
use crate::terminal::Tone;

/// What a refusal speaks of.
#[derive(Clone, Copy, Debug, PartialEq, Eq)]
pub enum Part {
    Header,
    Trailer,
    Section,
    /// "1, 21 to 24 and a fill's 11, 4 and 13 have 0 and 0."
    Nothing,
}

impl Part {
    pub fn of(refusal: Refusal) -> Part {
        match (refusal.number, refusal.section) {
            (number::HEADER, 0) => Part::Header,
            (number::TRAILER, 0) => Part::Trailer,
            (_, 0) => Part::Nothing,
            _ => Part::Section,
        }
    }
}

/// `section 1, line 4: 11 not a text`.
pub fn sentence(refusal: Refusal) -> String {
    let Refusal {
        number,
        section,
        line,
    } = refusal;
    let place = match Part::of(refusal) {
        Part::Header => format!("header, line {line}: "),
        Part::Trailer => format!("trailer, line {line}: "),
        Part::Section => format!("section {section}, line {line}: "),
        Part::Nothing => String::new(),
    };
    format!("{place}{number} {}", number::in_words(number))
}

/// The members that say how a file or a request was answered.
pub fn members(source: &Source, refusal: Refusal) -> Vec<(&'static str, Json)> {
    let part = match Part::of(refusal) {
        Part::Header => Json::text("header"),
        Part::Trailer => Json::text("trailer"),
        Part::Section => Json::text("section"),
        Part::Nothing => Json::Null,
    };
    vec![
        ("file", Json::Text(source.name())),
        ("number", Json::Number(refusal.number.into())),
        ("part", part),
        ("section", Json::size(refusal.section)),
        ("line", Json::size(refusal.line)),
        ("rule", Json::text(number::in_words(refusal.number))),
    ]
}

/// A refusal on standard error, with the line it speaks of.
pub fn tell(outlets: &mut Outlets<'_>, source: &Source, file: &[u8], refusal: Refusal) {
    let paint = outlets.paint_err;
    let words = paint.tone(Tone::Refused, sentence(refusal));
    let picture = Picture::of(file, refusal);
    outlets.note(&format_args!(
        "{source}: {words}\n{}",
        picture.painted(paint)
    ));
}

#[cfg(test)]
mod tests {
    use super::*;

    #[test]
    fn places_in_words() {
        let words = |number, section, line| sentence(Refusal::new(number, section, line));
        assert_eq!(words(11, 1, 4), "section 1, line 4: 11 not a text");
        assert_eq!(words(2, 0, 2), "header, line 2: 2 header breaks a rule");
        assert_eq!(words(3, 0, 1), "trailer, line 1: 3 trailer breaks a rule");
        assert_eq!(words(22, 0, 0), "22 field to fill is not empty");
        assert_eq!(words(1, 0, 0), "1 file over 16,777,216 bytes");
    }
}
