//! Files read by one who takes padding for a part of the text: the spaces
//! before a closing quote of a record stand for bytes that are none.

/// The file with another byte in the place of each space that pads a text.
pub fn with_padding_kept(file: &[u8]) -> Vec<u8> {
    let mut out = file.to_vec();
    for line in out.split_mut(|byte| *byte == b'\n') {
        let command = line.split(|byte| *byte == b';').next().unwrap_or_default();
        if command.trim_ascii() == b"rec" {
            keep_padding(line);
        }
    }
    out
}

fn keep_padding(line: &mut [u8]) {
    let mut is_inside = false;
    for place in 0..line.len() {
        if line[place] != b'"' {
            continue;
        }
        let closes = is_inside && line.get(place + 1) != Some(&b'"');
        if closes {
            fill_end(&mut line[..place]);
        }
        is_inside = !is_inside;
    }
}

/// The spaces at the end, filled.
pub fn fill_end(text: &mut [u8]) {
    let spaces = text.iter().rev().take_while(|byte| **byte == b' ').count();
    let from = text.len() - spaces;
    text[from..].fill(b'.');
}
