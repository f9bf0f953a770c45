//! What the program `cases` prints of a file after its listing: what writing,
//! filling and stripping make of it.

use std::io::{Result, Write};

use crate::answer::Answer;
use crate::tables::WIDEST;
use crate::{check, fill, section, strip, write};

/// The text that is filled in: a quote to double, a `;`, and spaces at its end.
const TEXT: &[u8] = b"Tag \"neu\"; 1  ";

type Form = std::result::Result<Vec<u8>, Answer>;

pub fn forms_shown(file: &[u8]) -> Vec<u8> {
    let mut out = Vec::new();
    show(file, &mut out).expect("writing to memory does not fail");
    out
}

fn show(file: &[u8], out: &mut Vec<u8>) -> Result<()> {
    let written = form(|room| write(file, room));
    write!(out, "write")?;
    show_form(&written, out)?;
    if let Ok(written) = &written {
        let again = form(|room| write(written, room));
        writeln!(out, "again;{}", u8::from(again.as_ref() == Ok(written)))?;
    }
    write!(out, "strip")?;
    show_form(&form(|room| strip(file, room)), out)?;
    if check(file) != Answer::SOUND {
        return show_fill(file, (1, 1, 1), out);
    }
    let mut index = 1;
    while let Ok(row) = section(file, index) {
        for record in 1..=row.records {
            for field in 1..=WIDEST {
                show_fill(file, (index, record, field), out)?;
            }
        }
        index += 1;
    }
    show_fill(file, (0, 1, 1), out)
}

fn show_fill(file: &[u8], at: (usize, usize, usize), out: &mut Vec<u8>) -> Result<()> {
    let (section, record, field) = at;
    write!(out, "fill;{section};{record};{field}")?;
    show_form(
        &form(|room| fill(file, section, record, field, TEXT, room)),
        out,
    )
}

/// A form in as much room as the program lends.
fn form(put: impl FnOnce(&mut [u8]) -> std::result::Result<usize, Answer>) -> Form {
    let mut room = vec![0; 131_072];
    let length = put(&mut room)?;
    room.truncate(length);
    Ok(room)
}

fn show_form(form: &Form, out: &mut Vec<u8>) -> Result<()> {
    match form {
        Ok(bytes) => {
            writeln!(out, ";0;{}", bytes.len())?;
            out.write_all(bytes)
        }
        Err(answer) => writeln!(out, ";{};{};{}", answer.number, answer.section, answer.line),
    }
}
