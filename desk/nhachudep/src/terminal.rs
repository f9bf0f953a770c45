//! Colours, and only where someone sees them.

use std::ffi::OsStr;
use std::fmt::Display;

#[derive(Clone, Copy, Debug, PartialEq, Eq)]
pub struct Paint {
    colours: bool,
}

#[derive(Clone, Copy)]
pub enum Tone {
    Refused,
    Suggestion,
    Heading,
    Faint,
}

impl Paint {
    #[cfg(test)]
    pub const PLAIN: Paint = Paint { colours: false };

    /// "colour only on a terminal", and never with NO_COLOR or a terminal that
    /// has none.
    pub fn choose(is_terminal: bool, no_color: Option<&OsStr>, term: Option<&OsStr>) -> Paint {
        let unwanted = no_color.is_some_and(|value| !value.is_empty());
        let unable = term.is_some_and(|value| value == "dumb");
        Paint {
            colours: is_terminal && !unwanted && !unable,
        }
    }

    pub fn tone(self, tone: Tone, what: impl Display) -> String {
        if !self.colours {
            return what.to_string();
        }
        let code = match tone {
            Tone::Refused => "1;31",
            Tone::Suggestion => "33",
            Tone::Heading => "1",
            Tone::Faint => "2",
        };
        format!("\x1b[{code}m{what}\x1b[0m")
    }
}

#[cfg(test)]
mod tests {
    use super::*;

    #[test]
    fn colours_need_a_terminal_and_leave() {
        let choose = |terminal, no_color: Option<&str>, term: Option<&str>| {
            Paint::choose(terminal, no_color.map(OsStr::new), term.map(OsStr::new)).colours
        };
        assert!(choose(true, None, Some("xterm")));
        assert!(choose(true, Some(""), None));
        assert!(!choose(false, None, Some("xterm")));
        assert!(!choose(true, Some("1"), Some("xterm")));
        assert!(!choose(true, None, Some("dumb")));
    }

    #[test]
    fn plain_words_stay_plain() {
        assert_eq!(Paint::PLAIN.tone(Tone::Refused, 11), "11");
        let coloured = Paint { colours: true };
        assert_eq!(coloured.tone(Tone::Refused, 11), "\x1b[1;31m11\x1b[0m");
    }
}
