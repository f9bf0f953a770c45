//! Compares the chosen library with the independent reader.

use std::io::{self, IsTerminal, Write};
use std::process::ExitCode;

use compare::{command_line, run, Options, Pair};

fn main() -> ExitCode {
    command_line::run(compare)
}

fn compare(options: &Options) -> ExitCode {
    let pair = Pair {
        subject: compare::chosen(),
        baseline: compare::baseline(),
    };
    let (subject, baseline) = (pair.subject.name(), pair.baseline.name());
    println!("{subject} against {baseline}, seed {}", options.seed);
    let summary = run(pair, options, progress(options.count));
    print!("{summary}");
    if let Some(folder) = &options.save {
        if let Err(error) = summary.save(folder, options.seed) {
            eprintln!("compare: {}: {error}", folder.display());
            return ExitCode::from(2);
        }
    }
    if summary.is_clean() {
        ExitCode::SUCCESS
    } else {
        ExitCode::FAILURE
    }
}

/// A line that is written over on a terminal, else a line for every tenth.
fn progress(count: u64) -> impl Fn(u64) + Sync {
    let on_terminal = io::stderr().is_terminal();
    let step = if on_terminal { 200 } else { count.div_ceil(10) };
    move |done| {
        if !done.is_multiple_of(step) {
            return;
        }
        if on_terminal {
            eprint!("\r{done} of {count} files\x1b[K");
            let _ = io::stderr().flush();
        } else {
            eprintln!("{done} of {count} files");
        }
        if on_terminal && done + step > count {
            eprint!("\r\x1b[K");
        }
    }
}
