//! Standard output and standard error, and whether each may be coloured.

use std::fmt::Display;
use std::io::{self, IsTerminal, Write};

use crate::columns::WIDTH;
use crate::system;
use crate::terminal::Paint;
use crate::trouble::Trouble;

pub struct Outlets<'a> {
    pub out: &'a mut dyn Write,
    pub err: &'a mut dyn Write,
    pub paint_out: Paint,
    pub paint_err: Paint,
    /// Columns that a sheet on standard output may take.
    pub width: usize,
    /// Progress is for people who look.
    pub shows_progress: bool,
}

impl<'a> Outlets<'a> {
    pub fn new(out: &'a mut dyn Write, err: &'a mut dyn Write) -> Outlets<'a> {
        let no_color = std::env::var_os("NO_COLOR");
        let term = std::env::var_os("TERM");
        let paint = |is_terminal| Paint::choose(is_terminal, no_color.as_deref(), term.as_deref());
        let (paint_out, paint_err) = (
            paint(io::stdout().is_terminal()),
            paint(io::stderr().is_terminal()),
        );
        Outlets {
            out,
            err,
            paint_out,
            paint_err,
            width: system::terminal_width().unwrap_or(WIDTH),
            shows_progress: io::stderr().is_terminal() && term.is_some_and(|t| t != "dumb"),
        }
    }

    pub fn print(&mut self, what: &dyn Display) -> Result<(), Trouble> {
        write!(self.out, "{what}").map_err(|error| Trouble::of_output(&error))
    }

    pub fn put(&mut self, bytes: &[u8]) -> Result<(), Trouble> {
        let put = self.out.write_all(bytes);
        put.map_err(|error| Trouble::of_output(&error))
    }

    /// Refusals and notes; a standard error that cannot be written to changes
    /// no exit code.
    pub fn note(&mut self, what: &dyn Display) {
        let _ = write!(self.err, "{what}");
    }

    /// What was printed before a refusal stands before it on a terminal too.
    pub fn flush(&mut self) -> Result<(), Trouble> {
        self.out.flush().map_err(|error| Trouble::of_output(&error))
    }

    pub fn finish(&mut self) -> Result<(), Trouble> {
        self.flush()
    }

    pub fn tell(&mut self, trouble: &Trouble) {
        self.note(&format_args!("nhachudep: {trouble}\n"));
    }
}
