//! What the program `lister` prints.

use std::io::Write;

use crate::answer::{number, Answer};
use crate::file::Opened;

/// "reads standard input, up to 64 KiB"; "longer input prints the one line
/// `too long`".
pub const LISTED: usize = 65_536;

pub fn listing(input: &[u8]) -> Vec<u8> {
    let mut out = Vec::new();
    if input.len() > LISTED {
        out.extend_from_slice(b"too long\n");
        return out;
    }
    print(input, &mut out).expect("writing to memory does not fail");
    out
}

fn print(input: &[u8], out: &mut Vec<u8>) -> std::io::Result<()> {
    let opened = match Opened::open(input) {
        Ok(opened) => opened,
        Err(refusal) => {
            writeln!(out, "header;{};{}", number::HEADER, refusal.line)?;
            return print_file(refusal, out);
        }
    };
    writeln!(out, "header;0;0")?;
    let mut rows = Vec::with_capacity(opened.section_count());
    let answer = opened.answer_seeing(|_, row| rows.push(row));
    for (index, row) in rows.iter().enumerate() {
        writeln!(
            out,
            "table;{};{};{};{};{}",
            index + 1,
            row.table,
            row.verdict,
            row.records,
            row.line
        )?;
    }
    writeln!(out, "trailer;{}", opened.trailer_verdict().number)?;
    print_file(answer, out)
}

fn print_file(answer: Answer, out: &mut Vec<u8>) -> std::io::Result<()> {
    writeln!(
        out,
        "file;{};{};{}",
        answer.number, answer.section, answer.line
    )
}
