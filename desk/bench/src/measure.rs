//! The best of several runs, of both implementations in turn, and the stack
//! that a run needs.

use std::hint::black_box;
use std::time::Duration;

use compare::Library;

use crate::calls::{Call, Prepared};
use crate::{clock, stack};

/// What one run of both implementations took.
#[derive(Clone, Copy, Debug, PartialEq, Eq)]
pub struct Measured {
    pub subject: Taken,
    pub baseline: Taken,
}

#[derive(Clone, Copy, Debug, PartialEq, Eq)]
pub struct Taken {
    pub time: Duration,
    /// Bytes of stack.
    pub stack: usize,
}

/// A call over some files, which is measured as often as it is run.
pub struct Measuring<'a> {
    subject: Vec<Prepared<'a>>,
    baseline: Vec<Prepared<'a>>,
    /// The number that the call is to answer.
    meant: u32,
    measured: Measured,
}

impl<'a> Measuring<'a> {
    /// The first run, which no time is taken of, tells the stack.
    pub fn new(
        call: Call,
        files: &'a [Vec<u8>],
        answer: u32,
        [subject, baseline]: [&'a dyn Library; 2],
    ) -> Result<Measuring<'a>, String> {
        let prepare = |library| -> Vec<_> {
            let files = files.iter();
            files.map(|file| call.prepare(library, file)).collect()
        };
        let (mut subject, mut baseline) = (prepare(subject), prepare(baseline));
        let meant = call.meant(answer);
        let measured = Measured {
            subject: taken(&mut subject, meant)?,
            baseline: taken(&mut baseline, meant)?,
        };
        Ok(Measuring {
            subject,
            baseline,
            meant,
            measured,
        })
    }

    /// Both in turn, so that what else the machine does falls on both.
    pub fn run(&mut self) -> Result<(), String> {
        let times = [
            (&mut self.measured.subject, &mut self.subject),
            (&mut self.measured.baseline, &mut self.baseline),
        ];
        for (taken, prepared) in times {
            taken.time = taken.time.min(time(prepared, self.meant)?);
        }
        Ok(())
    }

    /// What is fast and wrong is not measured.
    pub fn measured(&self) -> Result<Measured, String> {
        let mut both = self.subject.iter().zip(&self.baseline);
        match both.all(|(subject, baseline)| subject.agrees(baseline)) {
            true => Ok(self.measured),
            false => Err("the two put out different things".to_owned()),
        }
    }
}

fn taken(prepared: &mut [Prepared<'_>], meant: u32) -> Result<Taken, String> {
    let mut answered = Ok(());
    let stack = stack::used_by(&mut || answered = run_all(prepared, meant))?;
    let time = Duration::MAX;
    answered.map(|()| Taken { time, stack })
}

fn time(prepared: &mut [Prepared<'_>], meant: u32) -> Result<Duration, String> {
    let start = clock::now();
    run_all(prepared, meant)?;
    Ok(clock::now() - start)
}

/// The call with one file after the other.
fn run_all(prepared: &mut [Prepared<'_>], meant: u32) -> Result<(), String> {
    for file in prepared {
        let answer = black_box(file.run());
        if answer.number != meant {
            return Err(format!("answered by {}", answer.number));
        }
    }
    Ok(())
}
