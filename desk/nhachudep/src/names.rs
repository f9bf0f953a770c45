//! Names and words from the command line, as a terminal may be shown them.

use std::ffi::OsStr;
use std::fmt::{self, Display, Formatter, Write};
use std::path::Path;

/// A name as it was given; shown, every byte and character that is not printed
/// stands as an escape.
#[derive(Clone, Copy)]
pub struct Name<'a>(pub &'a OsStr);

impl<'a> Name<'a> {
    pub fn of(path: &'a Path) -> Name<'a> {
        Name(path.as_os_str())
    }
}

impl Display for Name<'_> {
    fn fmt(&self, out: &mut Formatter<'_>) -> fmt::Result {
        for chunk in self.0.as_encoded_bytes().utf8_chunks() {
            for character in chunk.valid().chars() {
                put_character(out, character)?;
            }
            for byte in chunk.invalid() {
                write!(out, "\\x{byte:02x}")?;
            }
        }
        Ok(())
    }
}

fn put_character(out: &mut Formatter<'_>, character: char) -> fmt::Result {
    let code = u32::from(character);
    match (is_printed(character), code) {
        (true, _) => out.write_char(character),
        (false, 0..=0xff) => write!(out, "\\x{code:02x}"),
        (false, _) => write!(out, "\\u{{{code:x}}}"),
    }
}

/// Whether a character is seen where it stands: no control, and none of those
/// that turn the direction of writing or take no room.
pub fn is_printed(character: char) -> bool {
    let is_hidden = matches!(
        character,
        '\u{ad}'
            | '\u{61c}'
            | '\u{200b}'..='\u{200f}'
            | '\u{2028}'..='\u{202e}'
            | '\u{2060}'..='\u{206f}'
            | '\u{feff}'
    );
    !character.is_control() && !is_hidden
}

#[cfg(test)]
mod tests {
    use super::*;
    use std::os::unix::ffi::OsStrExt;

    fn shown(bytes: &[u8]) -> String {
        Name(OsStr::from_bytes(bytes)).to_string()
    }

    #[test]
    fn names_give_a_terminal_no_orders() {
        assert_eq!(shown(b"a\x1b[2J\x7f.x10"), "a\\x1b[2J\\x7f.x10");
        assert_eq!(shown("\u{9b}2J".as_bytes()), "\\x9b2J");
        assert_eq!(shown("01x\u{202e}.x10".as_bytes()), "01x\\u{202e}.x10");
    }

    #[test]
    fn letters_stay_letters_and_other_bytes_are_seen() {
        assert_eq!(shown("für Köln €.x10".as_bytes()), "für Köln €.x10");
        assert_eq!(shown(b"f\xfcr \x9b2J"), "f\\xfcr \\x9b2J");
    }
}
