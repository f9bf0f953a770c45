//! ISO 8859-1 on a UTF-8 terminal, and back.

/// Bytes as they are shown: 161 to 255 as their characters, what a terminal
/// would obey as `\x1b`.
pub fn shown(bytes: &[u8]) -> String {
    bytes.iter().map(|byte| shown_byte(*byte)).collect()
}

/// Columns that the bytes take when shown.
pub fn width(bytes: &[u8]) -> usize {
    let byte_width = |byte: &u8| if is_printed(*byte) { 1 } else { 4 };
    bytes.iter().map(byte_width).sum()
}

fn shown_byte(byte: u8) -> String {
    if is_printed(byte) {
        char::from(byte).to_string()
    } else {
        format!("\\x{byte:02x}")
    }
}

fn is_printed(byte: u8) -> bool {
    matches!(byte, 32..=126 | 161..=255)
}

/// The characters that bytes stand for in ISO 8859-1.
pub fn characters(bytes: &[u8]) -> String {
    bytes.iter().map(|byte| char::from(*byte)).collect()
}

/// A text argument as bytes of ISO 8859-1.
#[derive(Clone, Debug, PartialEq, Eq)]
pub struct Argument {
    pub bytes: Vec<u8>,
    /// The first character that ISO 8859-1 does not have.
    pub foreign: Option<char>,
}

/// Stands for a foreign character: a byte allowed nowhere, so that the text is
/// refused by 4, but not before what is judged first.
const NO_BYTE: u8 = 0;

impl Argument {
    pub fn read(text: &str) -> Argument {
        let byte = |character| u8::try_from(u32::from(character)).unwrap_or(NO_BYTE);
        Argument {
            bytes: text.chars().map(byte).collect(),
            foreign: text.chars().find(|character| *character > '\u{ff}'),
        }
    }
}

#[cfg(test)]
mod tests {
    use super::*;

    #[test]
    fn letters_are_shown_and_controls_are_visible() {
        assert_eq!(shown(b"Sch\xfcler"), "Schüler");
        assert_eq!(
            shown(b"\x1b[2J\0\x7f\x80\xa0\xa1"),
            "\\x1b[2J\\x00\\x7f\\x80\\xa0¡"
        );
        assert_eq!(width(b"\x1b[2J"), 7);
        assert_eq!(width(b"Sch\xfcler"), shown(b"Sch\xfcler").chars().count());
    }

    #[test]
    fn arguments_become_bytes() {
        let plain = Argument::read("Schüler ÿ");
        assert_eq!(plain.bytes, b"Sch\xfcler \xff");
        assert_eq!(plain.foreign, None);
        let foreign = Argument::read("5 € und ✓");
        assert_eq!(foreign.bytes, b"5 \0 und \0");
        assert_eq!(foreign.foreign, Some('€'));
    }

    #[test]
    fn every_byte_is_a_character() {
        let all: Vec<u8> = (0..=255).collect();
        assert_eq!(Argument::read(&characters(&all)).bytes, all);
    }
}
