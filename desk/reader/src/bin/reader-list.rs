//! Prints the listing of standard input, or of each named file; with
//! `--cases` each file's name on a line of its own before its listing, and
//! after it what writing, filling and stripping make of the file.

use std::ffi::OsString;
use std::fs::File;
use std::io::{self, Read, Write};
use std::process::ExitCode;

fn main() -> ExitCode {
    match run() {
        Ok(()) => ExitCode::SUCCESS,
        Err(error) => {
            eprintln!("reader-list: {error}");
            ExitCode::FAILURE
        }
    }
}

fn run() -> io::Result<()> {
    let (options, files): (Vec<OsString>, Vec<OsString>) =
        std::env::args_os().skip(1).partition(|a| a == "--cases");
    let mut out = io::stdout().lock();
    if files.is_empty() {
        return out.write_all(&reader::listing(&read(io::stdin().lock())?));
    }
    for file in &files {
        let input = File::open(file)
            .map_err(|e| io::Error::new(e.kind(), format!("{}: {e}", file.display())))?;
        let bytes = read(input)?;
        if options.is_empty() {
            out.write_all(&reader::listing(&bytes))?;
        } else {
            out.write_all(file.as_encoded_bytes())?;
            out.write_all(b"\n")?;
            out.write_all(&reader::listing(&bytes))?;
            out.write_all(&reader::forms_shown(&bytes))?;
        }
    }
    Ok(())
}

/// One byte over the listed length is enough to know that it is too long.
fn read(input: impl Read) -> io::Result<Vec<u8>> {
    let mut bytes = Vec::new();
    input
        .take(reader::LISTED as u64 + 1)
        .read_to_end(&mut bytes)?;
    Ok(bytes)
}
