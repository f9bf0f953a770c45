//! The whole comparison: drawn sound files, damaged ones, large ones, and
//! demand 3.

use std::fmt::{self, Display, Formatter};
use std::ops::Range;
use std::path::Path;
use std::sync::atomic::{AtomicU64, AtomicUsize, Ordering};
use std::{fs, io, thread};

use samples::{Model, Random};

use crate::calls::compare_file;
use crate::difference::{law, Difference};
use crate::limit::compare_large;
use crate::locality;
use crate::meaning::model_of;
use crate::options::Options;
use crate::shrink::shrink;
use crate::tally::Tally;
use crate::Pair;

/// Runs in which every number must be reached.
const TELLING: u64 = 2_000;

#[derive(Debug, Default)]
pub struct Summary {
    pub files: u64,
    pub tally: Tally,
    /// Runs of lines replaced, and tables that read the same beside them.
    pub runs: u64,
    pub kept: u64,
    pub failures: Vec<Failure>,
    pub missed: Vec<u32>,
}

/// A file on which the implementations part.
#[derive(Debug)]
pub struct Failure {
    /// The file's index under the seed; none for the large ones.
    pub index: Option<u64>,
    pub file: Vec<u8>,
    pub difference: Difference,
}

pub fn run(pair: Pair<'_>, options: &Options, progress: impl Fn(u64) + Sync) -> Summary {
    let drawn = options.from..options.from + options.count;
    let course = Course {
        pair,
        options,
        progress: &progress,
        done: AtomicU64::new(0),
        failed: AtomicUsize::new(0),
    };
    let mut summary = course.run_on_every_core(drawn);
    if summary.failures.len() >= options.enough {
        return summary;
    }
    if options.large {
        if let Err(difference) = compare_large(pair, &mut summary.tally) {
            summary.failures.push(Failure {
                index: None,
                file: Vec::new(),
                difference,
            });
        }
    }
    if options.large && options.count >= TELLING {
        summary.missed = summary.tally.missed();
    }
    summary
}

/// A run over drawn files, shared by the machine's cores. What a file is
/// follows from the seed and its index, so the counts do not depend on them.
struct Course<'a> {
    pair: Pair<'a>,
    options: &'a Options,
    progress: &'a (dyn Fn(u64) + Sync),
    done: AtomicU64,
    failed: AtomicUsize,
}

impl Course<'_> {
    fn run_on_every_core(&self, drawn: Range<u64>) -> Summary {
        let cores = thread::available_parallelism().map_or(1, |count| count.get());
        let mut summary = Summary::default();
        thread::scope(|scope| {
            let every = |first: usize| drawn.clone().skip(first).step_by(cores);
            let workers: Vec<_> = (0..cores)
                .map(|first| scope.spawn(move || self.run_over(every(first))))
                .collect();
            for worker in workers {
                match worker.join() {
                    Ok(part) => summary.add(part),
                    Err(panic) => std::panic::resume_unwind(panic),
                }
            }
        });
        summary.failures.sort_by_key(|failure| failure.index);
        summary
    }

    fn run_over(&self, indices: impl Iterator<Item = u64>) -> Summary {
        let mut summary = Summary::default();
        for index in indices {
            if self.failed.load(Ordering::Relaxed) >= self.options.enough {
                break;
            }
            let before = summary.failures.len();
            compare_drawn(self.pair, self.options.seed, index, &mut summary);
            let found = summary.failures.len() - before;
            self.failed.fetch_add(found, Ordering::Relaxed);
            (self.progress)(self.done.fetch_add(1, Ordering::Relaxed) + 1);
        }
        summary
    }
}

/// One in four is sound, with what it means; the others are damaged.
fn draw_file(random: &mut Random) -> (Vec<u8>, Option<Model>) {
    if random.percent(25) {
        let sample = samples::sound(random);
        (sample.bytes(), Some(sample.model))
    } else {
        (samples::damaged(random), None)
    }
}

/// What a drawn sound file says was known before it was put into bytes.
fn says_what_is_meant(pair: Pair<'_>, file: &[u8], model: &Model) -> Result<(), Difference> {
    law(
        pair.subject.check(file).is_sound() && model_of(pair.subject, file).as_ref() == Some(model),
        &"a drawn file says what it was drawn to say",
    )
}

fn compare_drawn(pair: Pair<'_>, seed: u64, index: u64, summary: &mut Summary) {
    let mut random = Random::of_file(seed, index);
    let (file, model) = draw_file(&mut random);
    summary.files += 1;
    let compared = compare_file(pair, &mut summary.tally, &mut random, &file)
        .and_then(|()| keep_damage_local(pair, &mut random, &file, summary))
        .and_then(|()| model.map_or(Ok(()), |model| says_what_is_meant(pair, &file, &model)));
    if let Err(difference) = compared {
        let (file, difference) = reduce(pair, seed, index, file, difference);
        summary.failures.push(Failure {
            index: Some(index),
            file,
            difference,
        });
    }
}

fn keep_damage_local(
    pair: Pair<'_>,
    random: &mut Random,
    file: &[u8],
    summary: &mut Summary,
) -> Result<(), Difference> {
    if let Some(replaced) = locality::replace_lines(pair.subject, random, file) {
        summary.runs += 1;
        summary.kept += locality::hold(pair.subject, file, &replaced)? as u64;
    }
    Ok(())
}

/// The file with as few lines as still part the two.
fn reduce(
    pair: Pair<'_>,
    seed: u64,
    index: u64,
    file: Vec<u8>,
    difference: Difference,
) -> (Vec<u8>, Difference) {
    let mut last = difference;
    let mut fails = |file: &[u8]| {
        let mut random = Random::of_file(seed, index);
        let found = compare_file(pair, &mut Tally::default(), &mut random, file).err();
        match found {
            Some(difference) => {
                last = difference;
                true
            }
            None => false,
        }
    };
    let small = shrink(&file, &mut fails);
    (small, last)
}

impl Summary {
    fn add(&mut self, part: Summary) {
        self.files += part.files;
        self.tally.add(&part.tally);
        self.runs += part.runs;
        self.kept += part.kept;
        self.failures.extend(part.failures);
    }

    pub fn is_clean(&self) -> bool {
        self.failures.is_empty() && self.missed.is_empty()
    }

    /// Each drawn file that shows a difference, by seed and index.
    pub fn save(&self, folder: &Path, seed: u64) -> io::Result<()> {
        fs::create_dir_all(folder)?;
        for failure in &self.failures {
            if let Some(index) = failure.index {
                let name = format!("seed-{seed}-file-{index}.x10");
                fs::write(folder.join(name), &failure.file)?;
            }
        }
        Ok(())
    }
}

impl Display for Summary {
    fn fmt(&self, out: &mut Formatter<'_>) -> fmt::Result {
        write!(out, "{}", self.tally)?;
        writeln!(
            out,
            "{} files; {} runs of lines replaced, {} tables beside them read as before",
            self.files, self.runs, self.kept
        )?;
        for number in &self.missed {
            writeln!(
                out,
                "number {number} was never reached, or by no arranged file"
            )?;
        }
        for failure in &self.failures {
            writeln!(out, "{failure}")?;
        }
        Ok(())
    }
}

impl Display for Failure {
    fn fmt(&self, out: &mut Formatter<'_>) -> fmt::Result {
        match self.index {
            Some(index) => writeln!(out, "file {index}: {}", self.difference)?,
            None => writeln!(out, "large files: {}", self.difference)?,
        }
        for line in self.file.split_inclusive(|byte| *byte == b'\n') {
            writeln!(out, "    {}", line.escape_ascii())?;
        }
        Ok(())
    }
}
