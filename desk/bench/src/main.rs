//! Measures the chosen library beside the independent reader: speed, ratio,
//! how the time grows with the file, and the stack that is needed.

mod calls;
mod clock;
mod load;
mod measure;
mod options;
mod report;
mod stack;

use std::env::consts::ARCH;
use std::process::ExitCode;
use std::thread::available_parallelism;

use calls::Call;
use compare::{command_line, Library};
use load::Load;
use measure::{Measured, Measuring};
use options::Options;
use report::Report;
use samples::large::Shape;

fn main() -> ExitCode {
    command_line::run(bench)
}

fn bench(options: &Options) -> ExitCode {
    let (subject, baseline) = (compare::chosen().name(), compare::baseline().name());
    let cores = available_parallelism().map_or(1, |count| count.get());
    println!(
        "{subject} beside {baseline} on {ARCH}, {cores} cores: the best of {} runs over all sizes, of both\n\
         in turn, in the time that the thread was at work. What is lent is made before the first run.",
        options.runs
    );
    let libraries = [compare::chosen(), compare::baseline()];
    for shape in options.shapes() {
        if let Err(words) = bench_shape(options, shape, libraries) {
            eprintln!("bench: {}: {words}", shape.name());
            return ExitCode::FAILURE;
        }
    }
    ExitCode::SUCCESS
}

/// Arranged columns are measured together with the same records in document
/// 01's order, so that the time of the one by the other's can be believed.
fn bench_shape(
    options: &Options,
    shape: Shape,
    libraries: [&dyn Library; 2],
) -> Result<(), String> {
    let sizes = options.sizes();
    let draw = |shape| sizes.iter().map(move |size| Load::draw(shape, *size));
    let unarranged = shape.unarranged();
    let loads: Vec<_> = draw(shape)
        .chain(unarranged.into_iter().flat_map(draw))
        .collect();
    println!("\n## {}\n", options.title(shape));
    let mut report = Report::new(unarranged.is_some());
    report.print_heading(options.unit(), libraries[0].name(), libraries[1].name());
    for call in options.calls(shape) {
        let measured = measure(options.runs, call, shape, &loads, libraries)
            .map_err(|words| format!("{}: {words}", call.name()))?;
        let (measured, plain) = measured.split_at(sizes.len());
        for (index, (load, measured)) in loads.iter().zip(measured).enumerate() {
            report.print(call, load.size, *measured, plain.get(index).copied());
        }
    }
    Ok(())
}

/// Each run goes over all files, so that a machine that is slow for a while is
/// slow for all of them.
fn measure(
    runs: u64,
    call: Call,
    shape: Shape,
    loads: &[Load],
    libraries: [&dyn Library; 2],
) -> Result<Vec<Measured>, String> {
    let loads = loads.iter();
    let mut measuring = loads
        .map(|load| Measuring::new(call, &load.files, shape.answer(), libraries))
        .collect::<Result<Vec<_>, _>>()?;
    for _ in 0..runs {
        for size in &mut measuring {
            size.run()?;
        }
    }
    measuring.iter().map(Measuring::measured).collect()
}

#[cfg(test)]
mod tests {
    use super::*;
    use compare::command_line::{self, Wish};
    use samples::large::Order;

    /// The reader beside itself: the shape holds what every call is to answer.
    fn bench_alone(shape: Shape) -> Result<(), String> {
        let words = ["--largest", "1", "--runs", "1"].map(str::to_owned);
        let Ok(Wish::Run(options)) = command_line::read::<Options>(words) else {
            panic!("no options");
        };
        bench_shape(&options, shape, [compare::baseline(); 2])
    }

    #[test]
    fn arranged_columns_are_measured_with_document_01_s_order() {
        assert_eq!(bench_alone(Shape::Arranged), Ok(()));
    }

    #[test]
    fn connections_are_measured() {
        for order in [Order::Rising, Order::Shuffled] {
            assert_eq!(bench_alone(Shape::Connections(order)), Ok(()));
        }
    }
}
