//! The program `bench`, on small files.

use std::process::{Command, Output};

const CALLS: [&str; 8] = [
    "check", "section", "list", "value", "table", "write", "fill", "strip",
];

fn bench(line: &str) -> Output {
    Command::new(env!("CARGO_BIN_EXE_bench"))
        .args(line.split_whitespace())
        .output()
        .unwrap()
}

/// The cells of each line that measures this call.
fn measured<'p>(printed: &'p str, call: &str) -> Vec<Vec<&'p str>> {
    let cells = |line: &'p str| line.split('|').map(str::trim).collect::<Vec<_>>();
    let lines = printed.lines().map(cells);
    lines.filter(|cells| cells.get(1) == Some(&call)).collect()
}

#[test]
fn every_call_is_measured() {
    let output = bench("--largest 2 --runs 1 --shape rising");
    let printed = String::from_utf8(output.stdout).unwrap();
    assert!(output.status.success(), "{printed}");
    for call in CALLS {
        let lines = measured(&printed, call);
        assert_eq!(lines.len(), 2, "{printed}");
        let (sizes, growths) = ([lines[0][2], lines[1][2]], [lines[0][6], lines[1][6]]);
        assert_eq!(sizes, ["1", "2"]);
        assert!(growths[0].is_empty() && !growths[1].is_empty(), "{printed}");
        let stack: usize = lines[0][8].parse().unwrap();
        assert!((1..1_000_000).contains(&stack), "{printed}");
    }
}

#[test]
fn a_refused_file_is_only_read() {
    let output = bench("--largest 1 --runs 1 --shape many");
    let printed = String::from_utf8(output.stdout).unwrap();
    assert!(output.status.success(), "{printed}");
    let count = |call| measured(&printed, call).len();
    assert_eq!(CALLS.map(count), [1, 1, 1, 1, 1, 0, 0, 0]);
}

#[test]
fn small_files_are_read_one_after_the_other() {
    let output = bench("--small --runs 1 --shape eight");
    let printed = String::from_utf8(output.stdout).unwrap();
    assert!(output.status.success(), "{printed}");
    assert!(printed.contains("\n## document 01's eight tables in key order, 256 small files\n"));
    assert!(printed.contains("| call    | KiB |"), "{printed}");
    for call in CALLS {
        let lines = measured(&printed, call);
        assert_eq!((lines.len(), lines[0][2]), (1, "4"), "{printed}");
    }
}

/// The last two columns: the time of both by that of document 01's order.
#[test]
fn arranged_columns_are_measured_beside_document_01_s_order() {
    let output = bench("--largest 1 --runs 1 --shape arranged");
    let printed = String::from_utf8(output.stdout).unwrap();
    assert!(output.status.success(), "{printed}");
    for call in CALLS {
        let lines = measured(&printed, call);
        assert_eq!(lines.len(), 1, "{printed}");
        let factors: Vec<f64> = lines[0][10..12]
            .iter()
            .map(|f| f.parse().unwrap())
            .collect();
        assert!(factors.iter().all(|factor| *factor > 0.0), "{printed}");
    }
}

#[test]
fn connections_are_measured() {
    let output = bench("--largest 1 --runs 1 --shape connections-shuffled");
    let printed = String::from_utf8(output.stdout).unwrap();
    assert!(output.status.success(), "{printed}");
    assert!(printed.contains("\n## connections and transfers shuffled\n"));
    for call in CALLS {
        assert_eq!(measured(&printed, call).len(), 1, "{printed}");
    }
}

#[test]
fn help_and_misuse() {
    assert!(bench("--help").status.success());
    assert_eq!(bench("--runs").status.code(), Some(2));
}
