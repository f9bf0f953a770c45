//! Where a line stands, for showing it. Nothing here decides anything.

use std::ops::Range;

/// A line of the file as it is shown.
#[derive(Clone, Copy, Debug, PartialEq, Eq)]
pub struct Shown<'a> {
    /// Counted from 1 over the whole file, as an editor counts.
    pub number: usize,
    /// Without its end.
    pub content: &'a [u8],
}

/// The file's line in which this byte stands, from 1.
pub fn number_at(file: &[u8], place: usize) -> usize {
    let before = &file[..place.min(file.len())];
    1 + before.iter().filter(|byte| **byte == b'\n').count()
}

/// Line numbers of places that rise through the file, each byte counted once.
pub struct LineCount<'a> {
    file: &'a [u8],
    place: usize,
    line: usize,
}

impl LineCount<'_> {
    pub fn new(file: &[u8]) -> LineCount<'_> {
        LineCount {
            file,
            place: 0,
            line: 1,
        }
    }

    pub fn at(&mut self, place: usize) -> usize {
        if place < self.place {
            return number_at(self.file, place);
        }
        self.line += number_at(&self.file[self.place..], place - self.place) - 1;
        self.place = place;
        self.line
    }
}

/// A line, counted from 1, of those that begin at a place.
pub fn line_from(file: &[u8], place: usize, line: usize) -> Option<Shown<'_>> {
    let rest = file.get(place..)?;
    let mut lines = rest.split_inclusive(|byte| *byte == b'\n');
    let found = lines.nth(line.checked_sub(1)?)?;
    Some(Shown {
        number: number_at(file, place) + line - 1,
        content: without_end(found),
    })
}

fn without_end(line: &[u8]) -> &[u8] {
    match line.strip_suffix(b"\n") {
        Some(line) => line.strip_suffix(b"\r").unwrap_or(line),
        None => line,
    }
}

/// What stands before the first `;`, spaces trimmed.
pub fn command(content: &[u8]) -> Option<&[u8]> {
    let stop = content.iter().position(|byte| *byte == b';')?;
    Some(&content[trimmed(content, 0..stop)])
}

/// What stands behind the first `;`, spaces trimmed.
pub fn rest(content: &[u8]) -> Option<&[u8]> {
    let stop = content.iter().position(|byte| *byte == b';')?;
    Some(&content[trimmed(content, stop + 1..content.len())])
}

/// The first byte of the first line with one of these commands.
pub fn first_with(file: &[u8], commands: &[&[u8]]) -> Option<usize> {
    let mut place = 0;
    for line in file.split_inclusive(|byte| *byte == b'\n') {
        if command(without_end(line)).is_some_and(|found| commands.contains(&found)) {
            return Some(place);
        }
        place += line.len();
    }
    None
}

/// The header's lines, which end before the first `tbl` or `eof` line.
pub fn header_lines(file: &[u8]) -> Vec<&[u8]> {
    let end = first_with(file, &[b"tbl", b"eof"]).unwrap_or(file.len());
    lines_of(&file[..end])
}

/// Lines without their ends.
pub fn lines_of(bytes: &[u8]) -> Vec<&[u8]> {
    each_line(bytes).collect()
}

pub fn each_line(bytes: &[u8]) -> impl Iterator<Item = &[u8]> {
    let lines = bytes.split_inclusive(|byte| *byte == b'\n');
    lines.map(without_end)
}

/// Where the trimmed fields after the command stand.
pub fn fields(content: &[u8]) -> Vec<Range<usize>> {
    let mut found = Vec::new();
    let Some(stop) = content.iter().position(|byte| *byte == b';') else {
        return found;
    };
    let (mut from, mut inside) = (stop + 1, false);
    for (place, byte) in content.iter().enumerate().skip(stop + 1) {
        inside ^= *byte == b'"';
        if *byte == b';' && !inside {
            found.push(trimmed(content, from..place));
            from = place + 1;
        }
    }
    found.push(trimmed(content, from..content.len()));
    found
}

fn trimmed(content: &[u8], range: Range<usize>) -> Range<usize> {
    let part = &content[range.clone()];
    let first = part.iter().position(|byte| *byte != b' ');
    let last = part.iter().rposition(|byte| *byte != b' ');
    match (first, last) {
        (Some(first), Some(last)) => range.start + first..range.start + last + 1,
        _ => range.start..range.start,
    }
}

#[cfg(test)]
mod tests {
    use super::*;

    #[test]
    fn lines_of_a_section() {
        let file = b"mod; x\r\ntbl; A\nrec; 1\r\nend";
        assert_eq!(line_from(file, 8, 2).unwrap().content, b"rec; 1");
        assert_eq!(line_from(file, 8, 2).unwrap().number, 3);
        assert_eq!(line_from(file, 8, 3).unwrap().content, b"end");
        assert_eq!(line_from(file, 8, 4), None);
        assert_eq!(line_from(file, 8, 0), None);
        assert_eq!(line_from(file, 99, 1), None);
    }

    #[test]
    fn lines_are_counted_forwards_and_back() {
        let mut lines = LineCount::new(b"a\nb\n\nc");
        assert_eq!(
            [0, 2, 5, 5, 3].map(|place| lines.at(place)),
            [1, 2, 4, 4, 2]
        );
    }

    #[test]
    fn commands() {
        assert_eq!(command(b" rec ;1"), Some(&b"rec"[..]));
        assert_eq!(command(b"rec"), None);
        assert_eq!(rest(b"com ; a; b "), Some(&b"a; b"[..]));
        assert_eq!(rest(b"com"), None);
        let file = b"mod; x\n tbl ; A\neof; 1";
        assert_eq!(first_with(file, &[b"tbl"]), Some(7));
        assert_eq!(first_with(file, &[b"eof"]), Some(16));
        assert_eq!(first_with(file, &[b"end"]), None);
        assert_eq!(header_lines(file), [b"mod; x"]);
    }

    #[test]
    fn fields_and_their_places() {
        let line = b"rec; 7 ;\"a;b\"; ";
        let texts: Vec<&[u8]> = fields(line).into_iter().map(|f| &line[f]).collect();
        assert_eq!(texts, [&b"7"[..], b"\"a;b\"", b""]);
        assert!(fields(b"rec").is_empty());
    }
}
