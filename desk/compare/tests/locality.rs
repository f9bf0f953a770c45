//! Demand 3 as a test: a run of whole lines after the first table's line is
//! replaced, and the tables outside it read the same.

use compare::locality::{hold, replace_lines, Replaced};
use compare::{Library, Plain};
use samples::Random;
use vdv::{At, Copied, Header, Refusal, Row, Value};

/// Drawn files, sound and damaged, each with a run replaced.
fn replaced(library: &dyn Library, count: u64) -> Vec<(Vec<u8>, Replaced)> {
    let draw = |index| {
        let mut random = Random::of_file(21, index);
        let file = match index % 3 {
            0 => samples::damaged(&mut random),
            _ => samples::sound(&mut random).bytes(),
        };
        let replaced = replace_lines(library, &mut random, &file)?;
        Some((file, replaced))
    };
    (0..count).filter_map(draw).collect()
}

#[test]
fn tables_outside_the_run_read_the_same() {
    let library = compare::chosen();
    let mut kept = 0;
    let files = replaced(library, 1_500);
    assert!(files.len() > 1_000);
    for (file, replaced) in files {
        let held = hold(library, &file, &replaced);
        kept += held.unwrap_or_else(|difference| panic!("{difference}"));
    }
    assert!(kept > 3_000, "{kept}");
}

#[test]
fn runs_lie_after_the_first_table_line() {
    for (file, replaced) in replaced(&Plain, 300) {
        let first = Plain.section(&file, 1).unwrap().place;
        assert!(replaced.run.start > first);
        assert_eq!(file[replaced.run.start - 1], b'\n');
        assert!(replaced.run.end == file.len() || file[replaced.run.end - 1] == b'\n');
        let behind = replaced.run.start + replaced.length;
        assert_eq!(
            replaced.file[..replaced.run.start],
            file[..replaced.run.start]
        );
        assert_eq!(replaced.file[behind..], file[replaced.run.end..]);
    }
}

/// The old importer's fault: what stands behind damage is lost.
struct LosesTheRest;

impl LosesTheRest {
    fn is_lost(&self, file: &[u8], section: usize) -> bool {
        (1..section).any(|before| Plain.section(file, before).is_ok_and(|row| !row.is_sound()))
    }
}

impl Library for LosesTheRest {
    fn name(&self) -> &'static str {
        "loses the rest"
    }

    fn check(&self, file: &[u8]) -> Refusal {
        Plain.check(file)
    }

    fn header(&self, file: &[u8]) -> Result<Header, Refusal> {
        Plain.header(file)
    }

    fn section(&self, file: &[u8], section: usize) -> Result<Row, Refusal> {
        Plain.section(file, section)
    }

    fn list(&self, file: &[u8], rows: &mut [Row]) -> Refusal {
        Plain.list(file, rows)
    }

    fn value(&self, file: &[u8], at: At) -> Result<Value, Refusal> {
        Plain.value(file, at)
    }

    fn text(&self, file: &[u8], at: At, out: &mut [u8]) -> Result<Copied, Refusal> {
        Plain.text(file, at, out)
    }

    fn table(&self, file: &[u8], section: usize, cells: &mut [u64]) -> Result<usize, Refusal> {
        if self.is_lost(file, section) {
            return Ok(0);
        }
        Plain.table(file, section, cells)
    }

    fn write(&self, file: &[u8], out: &mut [u8]) -> Result<usize, Refusal> {
        Plain.write(file, out)
    }

    fn fill(&self, file: &[u8], at: At, text: &[u8], out: &mut [u8]) -> Result<usize, Refusal> {
        Plain.fill(file, at, text, out)
    }

    fn strip(&self, file: &[u8], out: &mut [u8]) -> Result<usize, Refusal> {
        Plain.strip(file, out)
    }
}

#[test]
fn a_reader_that_loses_the_rest_is_found() {
    let files = replaced(&LosesTheRest, 300);
    let found = files
        .iter()
        .filter(|(f, r)| hold(&LosesTheRest, f, r).is_err());
    assert!(found.count() > 10);
}
