//! A file as lines, each with its end, for whoever dresses or damages it.

/// "A line ends at LF; one CR directly before that LF belongs to the end."
#[derive(Clone, Copy, Debug, PartialEq, Eq)]
pub enum End {
    Feed,
    ReturnFeed,
    Nothing,
}

#[derive(Clone, Debug, PartialEq, Eq)]
pub struct Line {
    pub content: Vec<u8>,
    pub end: End,
}

impl Line {
    pub fn unended(content: &[u8]) -> Line {
        Line {
            content: content.to_vec(),
            end: End::Nothing,
        }
    }

    /// What stands before the first `;`, trimmed; nothing without `;`.
    pub fn command(&self) -> &[u8] {
        let stop = self.content.iter().position(|&byte| byte == b';');
        self.content[..stop.unwrap_or(0)].trim_ascii()
    }

    /// The untrimmed fields after the command.
    pub fn fields(&self) -> Vec<Vec<u8>> {
        let mut fields = Vec::new();
        let Some(stop) = self.content.iter().position(|&byte| byte == b';') else {
            return fields;
        };
        let mut field = Vec::new();
        let mut inside = false;
        for &byte in &self.content[stop + 1..] {
            inside ^= byte == b'"';
            if byte == b';' && !inside {
                fields.push(std::mem::take(&mut field));
            } else {
                field.push(byte);
            }
        }
        fields.push(field);
        fields
    }

    /// The same command with other fields.
    pub fn set_fields(&mut self, fields: &[Vec<u8>]) {
        let mut content = self.command().to_vec();
        for field in fields {
            content.push(b';');
            content.extend_from_slice(field);
        }
        self.content = content;
    }
}

#[derive(Clone, Debug, Default, PartialEq, Eq)]
pub struct Page {
    pub lines: Vec<Line>,
}

impl Page {
    pub fn bytes(&self) -> Vec<u8> {
        let mut bytes = Vec::new();
        for line in &self.lines {
            bytes.extend_from_slice(&line.content);
            bytes.extend_from_slice(match line.end {
                End::Feed => b"\n",
                End::ReturnFeed => b"\r\n",
                End::Nothing => b"",
            });
        }
        bytes
    }

    /// Where lines of this command stand.
    pub fn places_of(&self, command: &str) -> Vec<usize> {
        let is_it = |line: &Line| line.command() == command.as_bytes();
        let places = self.lines.iter().enumerate();
        places.filter(|(_, l)| is_it(l)).map(|(i, _)| i).collect()
    }

    pub fn insert(&mut self, place: usize, content: &[u8]) {
        let line = Line {
            content: content.to_vec(),
            end: End::Feed,
        };
        self.lines.insert(place, line);
    }

    /// A line may be put behind the last only if that has an end.
    pub fn append(&mut self, content: &[u8]) {
        if let Some(last) = self.lines.last_mut() {
            if last.end == End::Nothing {
                last.end = End::Feed;
            }
        }
        self.insert(self.lines.len(), content);
    }
}

#[cfg(test)]
mod tests {
    use super::*;

    fn line(content: &[u8]) -> Line {
        Line {
            content: content.to_vec(),
            end: End::Feed,
        }
    }

    #[test]
    fn fields_are_cut_outside_quotes() {
        let cut = line(b" rec ; 7;\"a;b\"; ");
        assert_eq!(cut.command(), b"rec");
        assert_eq!(cut.fields(), [&b" 7"[..], b"\"a;b\"", b" "]);
        assert_eq!(line(b"").command(), b"");
        assert!(line(b"rec").fields().is_empty());
    }

    #[test]
    fn fields_are_put_back() {
        let mut changed = line(b"end ; 7");
        changed.set_fields(&[b" 8".to_vec()]);
        assert_eq!(changed.content, b"end; 8");
    }

    #[test]
    fn a_line_is_put_behind_an_unended_one() {
        let mut page = Page {
            lines: vec![Line {
                content: b"eof; 0".to_vec(),
                end: End::Nothing,
            }],
        };
        page.append(b"eof; 0");
        assert_eq!(page.bytes(), b"eof; 0\neof; 0\n");
    }
}
