//! Lines, their ends and their commands.

use std::ops::Range;

/// Bytes of the file together with their place in it, so that a text handed
/// out can say where it stands.
#[derive(Clone, Copy, Debug, PartialEq, Eq)]
pub struct Part<'a> {
    pub at: usize,
    pub bytes: &'a [u8],
}

impl<'a> Part<'a> {
    pub fn slice(self, range: Range<usize>) -> Part<'a> {
        Part {
            at: self.at + range.start,
            bytes: &self.bytes[range],
        }
    }

    /// A space is byte 32 and nothing else.
    pub fn trimmed(self) -> Part<'a> {
        let first = self.bytes.iter().position(|&b| b != b' ');
        let last = self.bytes.iter().rposition(|&b| b != b' ');
        match (first, last) {
            (Some(first), Some(last)) => self.slice(first..last + 1),
            _ => self.slice(0..0),
        }
    }

    pub fn span(self) -> Range<usize> {
        self.at..self.at + self.bytes.len()
    }
}

/// The lines of a region of the file, without their ends.
pub struct Lines<'a> {
    file: &'a [u8],
    at: usize,
    end: usize,
}

impl<'a> Lines<'a> {
    pub fn of(file: &'a [u8], region: Range<usize>) -> Lines<'a> {
        Lines {
            file,
            at: region.start,
            end: region.end,
        }
    }
}

impl<'a> Iterator for Lines<'a> {
    type Item = Part<'a>;

    fn next(&mut self) -> Option<Part<'a>> {
        if self.at >= self.end {
            return None;
        }
        let at = self.at;
        let left = &self.file[at..self.end];
        let bytes = match left.iter().position(|&b| b == b'\n') {
            Some(feed) => {
                self.at += feed + 1;
                let line = &left[..feed];
                // Only one CR belongs to the end; a further one is content.
                line.strip_suffix(b"\r").unwrap_or(line)
            }
            None => {
                self.at = self.end;
                left
            }
        };
        Some(Part { at, bytes })
    }
}

#[derive(Clone, Copy, Debug, PartialEq, Eq)]
pub enum Command {
    Mod,
    Src,
    Chs,
    Ver,
    Ifv,
    Dve,
    Fft,
    Tbl,
    Atr,
    Frm,
    Rec,
    End,
    Com,
    Eof,
}

impl Command {
    fn named(name: &[u8]) -> Option<Command> {
        Some(match name {
            b"mod" => Command::Mod,
            b"src" => Command::Src,
            b"chs" => Command::Chs,
            b"ver" => Command::Ver,
            b"ifv" => Command::Ifv,
            b"dve" => Command::Dve,
            b"fft" => Command::Fft,
            b"tbl" => Command::Tbl,
            b"atr" => Command::Atr,
            b"frm" => Command::Frm,
            b"rec" => Command::Rec,
            b"end" => Command::End,
            b"com" => Command::Com,
            b"eof" => Command::Eof,
            _ => return None,
        })
    }
}

/// What a line is, by what stands before its first `;`.
#[derive(Clone, Copy, Debug, PartialEq, Eq)]
pub enum Head<'a> {
    Blank,
    /// Not blank and without `;`: such a line has no command.
    Bare,
    Unknown,
    /// A known command and all that follows its `;`.
    Known(Command, Part<'a>),
}

impl<'a> Head<'a> {
    pub fn of(line: Part<'a>) -> Head<'a> {
        let Some(stop) = line.bytes.iter().position(|&b| b == b';') else {
            return if is_blank(line.bytes) {
                Head::Blank
            } else {
                Head::Bare
            };
        };
        match Command::named(line.slice(0..stop).trimmed().bytes) {
            Some(command) => Head::Known(command, line.slice(stop + 1..line.bytes.len())),
            None => Head::Unknown,
        }
    }
}

pub fn is_blank(line: &[u8]) -> bool {
    line.iter().all(|&b| b == b' ')
}

/// "32..126 everywhere".
pub fn is_plain(bytes: &[u8]) -> bool {
    bytes.iter().all(|b| matches!(b, 32..=126))
}

/// "in `rec` lines under ISO8859-1 also every byte 161..255".
pub fn is_latin(bytes: &[u8]) -> bool {
    bytes.iter().all(|b| matches!(b, 32..=126 | 161..=255))
}

#[cfg(test)]
mod tests {
    use super::*;

    fn lines(file: &[u8]) -> Vec<&[u8]> {
        Lines::of(file, 0..file.len()).map(|l| l.bytes).collect()
    }

    fn head(line: &[u8]) -> Head<'_> {
        Head::of(Part { at: 0, bytes: line })
    }

    #[test]
    fn one_carriage_return_belongs_to_the_end() {
        assert_eq!(lines(b"a\r\nb\r\r\nc\r"), [&b"a"[..], b"b\r", b"c\r"]);
    }

    #[test]
    fn bytes_after_the_last_feed_are_a_line() {
        assert_eq!(lines(b""), [b""; 0]);
        assert_eq!(lines(b"\n"), [b""]);
        assert_eq!(lines(b"a\n\nb"), [&b"a"[..], b"", b"b"]);
    }

    #[test]
    fn row_2_the_command_may_have_spaces_before_its_separator() {
        assert!(matches!(head(b"rec ;1"), Head::Known(Command::Rec, rest) if rest.bytes == b"1"));
        assert!(matches!(head(b"  rec;1"), Head::Known(Command::Rec, _)));
    }

    #[test]
    fn the_command_ends_at_the_first_separator_also_within_quotes() {
        assert_eq!(head(b"\"rec;1\""), Head::Unknown);
        assert_eq!(head(b";x"), Head::Unknown);
        assert_eq!(head(b"REC;1"), Head::Unknown);
        assert_eq!(head(b"rec\t;1"), Head::Unknown);
    }

    #[test]
    fn lines_without_separator() {
        assert_eq!(head(b"   "), Head::Blank);
        assert_eq!(head(b""), Head::Blank);
        assert_eq!(head(b"tbl"), Head::Bare);
        assert_eq!(head(b"\t"), Head::Bare);
        assert_eq!(head(b"\r"), Head::Bare);
    }

    #[test]
    fn trimmed_parts_keep_their_place() {
        let part = Part {
            at: 10,
            bytes: b"  ab ",
        };
        assert_eq!(part.trimmed().span(), 12..14);
        assert_eq!(part.slice(0..2).trimmed().bytes, b"");
    }

    #[test]
    fn allowed_bytes() {
        assert!(is_plain(b" ~") && !is_plain(b"\x1f") && !is_plain(b"\x7f"));
        assert!(is_latin(b"\xa1\xff") && !is_latin(b"\xa0") && !is_latin(b"\x7f"));
    }
}
