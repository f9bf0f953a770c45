//! What is to be measured.

use compare::command_line::{self, Value};
use samples::large::{Order, Shape};
use vdv::number;

use crate::calls::{Call, ALL};
use crate::load::Size;

const HELP: &str = "\
Measures the library beside the independent reader.

usage: bench [--runs N] [--largest MIB | --small] [--call NAME] [--shape NAME]

  --runs N       the best of so many runs (3)
  --largest MIB  sizes 1, 2, 4, .. up to this many MiB (16)
  --small        256 files of 4 KiB instead, one after the other in each run
  --call NAME    one call: check, section, list, value, table, write, fill,
                 strip
  --shape NAME   one shape: rising, shuffled, eight, eight-shuffled, arranged,
                 connections, connections-shuffled, many, huge, huge-shuffled

rising and shuffled have as many links as running times, in key order or not;
eight is document 01's eight tables with a share of the bytes each; arranged is
the same records with the columns of each table in another order, measured in
turn with eight; connections have four transfers each, and half of them miss the
numbers that may be missing; many is small tables again and again, which is
refused by 17 and so only read, and never small; huge is one table, the calendar.
section, value and table read the section with the most records, value in its
last record the last text, or the last column of a table that has no texts.
Prints Markdown tables: MB/s of both, the subject's time by the baseline's, the
time by that of half the size (2 is growth with the bytes), the most stack a call
needed, in bytes, and for arranged the time by that of the same records in
document 01's order.
";

const SHAPES: [(&str, Shape); 10] = [
    ("rising", Shape::Network(Order::Rising)),
    ("shuffled", Shape::Network(Order::Shuffled)),
    ("eight", Shape::Eight(Order::Rising)),
    ("eight-shuffled", Shape::Eight(Order::Shuffled)),
    ("arranged", Shape::Arranged),
    ("connections", Shape::Connections(Order::Rising)),
    ("connections-shuffled", Shape::Connections(Order::Shuffled)),
    ("many", Shape::Small),
    ("huge", Shape::Calendar(Order::Rising)),
    ("huge-shuffled", Shape::Calendar(Order::Shuffled)),
];

/// A file has no more.
const MOST: u64 = 16;

#[derive(Clone, Debug, PartialEq, Eq)]
pub struct Options {
    pub runs: u64,
    largest: u64,
    small: bool,
    call: Option<Call>,
    shape: Option<Shape>,
}

impl Default for Options {
    fn default() -> Options {
        Options {
            runs: 3,
            largest: MOST,
            small: false,
            call: None,
            shape: None,
        }
    }
}

impl command_line::Options for Options {
    const PROGRAM: &'static str = "bench";
    const HELP: &'static str = HELP;

    fn take(&mut self, name: &str, value: &mut Value<'_>) -> Result<bool, String> {
        match name {
            "--runs" => self.runs = value.number(1..=1000)?,
            "--largest" => self.largest = value.number(1..=MOST)?,
            "--small" => self.small = true,
            "--call" => self.call = Some(call(&value.word()?)?),
            "--shape" => self.shape = Some(shape(&value.word()?)?),
            _ => return Ok(false),
        }
        Ok(true)
    }
}

impl Options {
    pub fn sizes(&self) -> Vec<Size> {
        if self.small {
            return vec![Size::SMALL];
        }
        let sizes = [1, 2, 4, 8, 16].into_iter();
        let wanted = sizes.filter(|size| *size <= self.largest);
        wanted.map(|size| Size::mebibytes(size as usize)).collect()
    }

    pub fn unit(&self) -> &'static str {
        self.sizes()[0].unit()
    }

    pub fn title(&self, shape: Shape) -> String {
        match self.small {
            true => format!("{}, {} small files", shape.name(), Size::SMALL.files),
            false => shape.name().to_owned(),
        }
    }

    /// A file that is refused is only read.
    pub fn calls(&self, shape: Shape) -> Vec<Call> {
        let calls = self.call.map_or(ALL.to_vec(), |call| vec![call]);
        let is_sound = shape.answer() == number::SOUND;
        let can_run = |call: &Call| is_sound || !call.puts_out();
        calls.into_iter().filter(can_run).collect()
    }

    /// A small file has no table again and again.
    pub fn shapes(&self) -> Vec<Shape> {
        let all = || SHAPES.map(|(_, shape)| shape).to_vec();
        let mut shapes = self.shape.map_or_else(all, |shape| vec![shape]);
        shapes.retain(|shape| !self.small || *shape != Shape::Small);
        shapes
    }
}

fn call(name: &str) -> Result<Call, String> {
    Call::named(name).ok_or(format!("unknown call {name}"))
}

fn shape(name: &str) -> Result<Shape, String> {
    let found = SHAPES.iter().find(|(known, _)| *known == name);
    found
        .map(|(_, shape)| *shape)
        .ok_or(format!("unknown shape {name}"))
}

#[cfg(test)]
mod tests {
    use super::*;
    use compare::command_line::Wish;

    fn read(line: &str) -> Result<Options, String> {
        match command_line::read(line.split_whitespace().map(str::to_owned))? {
            Wish::Run(options) => Ok(options),
            Wish::Help => Err("help".to_owned()),
        }
    }

    #[test]
    fn wishes() {
        let all = read("").unwrap();
        assert_eq!(all.sizes(), [1, 2, 4, 8, 16].map(Size::mebibytes));
        assert_eq!(all.shapes().len(), 10);
        assert_eq!(all.calls(Shape::Eight(Order::Rising)), ALL);
        assert_eq!(
            all.calls(Shape::Small),
            [
                Call::Check,
                Call::Section,
                Call::List,
                Call::Value,
                Call::Table
            ]
        );
        let some = read("--largest 4 --call table --shape huge").unwrap();
        assert_eq!(some.sizes(), [1, 2, 4].map(Size::mebibytes));
        assert_eq!(some.shapes(), [Shape::Calendar(Order::Rising)]);
        assert_eq!(some.calls(some.shapes()[0]), [Call::Table]);
        assert_eq!(
            read("--shape arranged").unwrap().shapes(),
            [Shape::Arranged]
        );
        let shuffled = read("--shape connections-shuffled").unwrap().shapes();
        assert_eq!(shuffled, [Shape::Connections(Order::Shuffled)]);
        let small = read("--small").unwrap();
        assert_eq!(small.sizes(), [Size::SMALL]);
        assert!(!small.shapes().contains(&Shape::Small));
    }

    #[test]
    fn misuse() {
        for line in [
            "--runs 0",
            "--largest 17",
            "--call x",
            "--shape y",
            "--shape",
        ] {
            assert!(read(line).is_err(), "{line}");
        }
    }
}
