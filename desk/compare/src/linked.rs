//! The proved library behind the trait.

use vdv::{At, Copied, Header, Refusal, Row, Value};

use crate::Library;

pub struct Linked;

impl Library for Linked {
    fn name(&self) -> &'static str {
        "vdv"
    }

    fn check(&self, file: &[u8]) -> Refusal {
        vdv::check(file).err().unwrap_or(Refusal::SOUND)
    }

    fn header(&self, file: &[u8]) -> Result<Header, Refusal> {
        vdv::header(file)
    }

    fn section(&self, file: &[u8], section: usize) -> Result<Row, Refusal> {
        vdv::section(file, section)
    }

    fn list(&self, file: &[u8], rows: &mut [Row]) -> Refusal {
        vdv::list(file, rows).unwrap_or_else(|refusal| refusal)
    }

    fn value(&self, file: &[u8], at: At) -> Result<Value, Refusal> {
        vdv::value(file, at)
    }

    fn text(&self, file: &[u8], at: At, out: &mut [u8]) -> Result<Copied, Refusal> {
        vdv::text(file, at, out)
    }

    fn table(&self, file: &[u8], section: usize, cells: &mut [u64]) -> Result<usize, Refusal> {
        vdv::table(file, section, cells)
    }

    fn write(&self, file: &[u8], out: &mut [u8]) -> Result<usize, Refusal> {
        vdv::write(file, out)
    }

    fn fill(&self, file: &[u8], at: At, text: &[u8], out: &mut [u8]) -> Result<usize, Refusal> {
        vdv::fill(file, at, text, out)
    }

    fn strip(&self, file: &[u8], out: &mut [u8]) -> Result<usize, Refusal> {
        vdv::strip(file, out)
    }
}
