//! Days: "26, no such day, at its field directly after 13".

mod common;

use std::fs;

use common::{examples, run_in, Folder};

const EXPECTED: &str = "a day is YYYYMMDD, from 00010101 to 99991231, leading zeros optional";

/// What is told of `examples/no-such-day.x10`.
const TOLD: &str = "\
no-such-day.x10: section 4, line 6: 26 no such day
    29 | rec; 42; 20230231; \"Mittwoch\"; 1
       |          ^^^^^^^^
       = BETRIEBSTAG stands here, and is no day: 2023 has no 31 February
       = 20230231 reads as year 2023, month 2, day 31
       = a day is YYYYMMDD, from 00010101 to 99991231, leading zeros optional
";

/// The lines of the example, counted in the file, that hold a day from which a
/// version is valid, and the operating day that is none.
const VALID_FROM: usize = 15;
const OPERATING_DAY: usize = 29;

const NO_SUCH_DAY: &str = "section 4, line 6: 26 no such day";
const RANGE: &str = "section 4, line 6: 13 number out of range, or text over its size";

/// An example, a character for each of its bytes.
fn example(name: &str) -> String {
    let file = fs::read(examples().join(name)).unwrap();
    file.into_iter().map(char::from).collect()
}

/// The example with a line, counted from 1, written like this.
fn put_with(folder: &Folder, name: &str, number: usize, line: &str) {
    let text = example(name);
    let mut lines: Vec<&str> = text.lines().collect();
    lines[number - 1] = line;
    let text = format!("{}\n", lines.join("\n"));
    folder.put("a.x10", text.chars().map(|c| c as u8).collect::<Vec<_>>());
}

/// A line of an example that is written otherwise. What stands between `<` and
/// `>` is pointed at.
struct Case<'a> {
    example: &'a str,
    number: usize,
    written: &'a str,
    rule: &'a str,
}

impl Case<'_> {
    fn is_told(&self, folder: &Folder, notes: &[&str]) {
        let line = self.written.replace(['<', '>'], "");
        put_with(folder, self.example, self.number, &line);
        let (before, rest) = self.written.split_once('<').unwrap();
        let (pointed, _) = rest.split_once('>').unwrap();
        let told = format!(
            "a.x10: {}\n{:6} | {line}\n       | {}{}\n",
            self.rule,
            self.number,
            " ".repeat(before.len()),
            "^".repeat(pointed.len()),
        );
        let notes: String = notes.iter().map(|n| format!("       = {n}\n")).collect();
        let run = folder.run(&["check", "a.x10"]);
        run.expect(1, "", &format!("{told}{notes}"));
    }
}

/// The example with another line for the day that is none.
fn calendar<'a>(written: &'a str, rule: &'a str) -> Case<'a> {
    Case {
        example: "no-such-day.x10",
        number: OPERATING_DAY,
        written,
        rule,
    }
}

fn no_day(column: &str, flaw: &str) -> String {
    format!("{column} stands here, and is no day: {flaw}")
}

/// "A sender delivered 20230231 as an operating day."
#[test]
fn the_example_has_a_day_that_is_none() {
    run_in(&examples(), &["check", "no-such-day.x10"]).expect(1, "", TOLD);
    let run = run_in(&examples(), &["check", "--json", "no-such-day.x10"]);
    run.expect(
        1,
        "{\"file\":\"no-such-day.x10\",\"number\":26,\"part\":\"section\",\"section\":4,\"line\":6,\
         \"rule\":\"no such day\",\"advice\":[]}\n",
        "",
    );
}

#[test]
fn the_example_s_answer_is_printed_in_its_readme() {
    let project = examples().join("..");
    let run = run_in(&project, &["check", "examples/no-such-day.x10"]);
    assert_eq!(run.err, format!("examples/{TOLD}"));
    let printed: String = run.err.lines().map(|l| format!("    {l}\n")).collect();
    let readme = fs::read_to_string(examples().join("README.md")).unwrap();
    assert!(readme.contains(&printed), "{printed}");
}

/// But for that day the example is sound.
#[test]
fn the_example_with_a_real_day() {
    let folder = Folder::new("days-real");
    for day in [
        "20230226",
        "20240229",
        "20000229",
        "0020240229",
        "00010101",
        "10101",
        "99991231",
    ] {
        let line = format!("rec; 42; {day}; \"Mittwoch\"; 1");
        put_with(&folder, "no-such-day.x10", OPERATING_DAY, &line);
        let run = folder.run(&["check", "--strict", "a.x10"]);
        run.expect(0, "a.x10: sound\n", "");
        let written = format!(
            "\nrec; 42; {}; \"Mittwoch\"; 1\n",
            day.trim_start_matches('0')
        );
        let run = folder.run(&["write", "a.x10"]);
        assert!(run.text().contains(&written), "{}", run.text());
    }
}

#[test]
fn days_that_are_none() {
    let folder = Folder::new("days-none");
    for (day, flaw, reading) in [
        (
            "20230229",
            "2023 has no 29 February",
            "year 2023, month 2, day 29",
        ),
        (
            "19000229",
            "1900 has no 29 February",
            "year 1900, month 2, day 29",
        ),
        (
            "20240230",
            "2024 has no 30 February",
            "year 2024, month 2, day 30",
        ),
        (
            "20230431",
            "2023 has no 31 April",
            "year 2023, month 4, day 31",
        ),
        (
            "99991232",
            "December has no day 32",
            "year 9999, month 12, day 32",
        ),
        (
            "20231301",
            "there is no month 13",
            "year 2023, month 13, day 1",
        ),
        (
            "20230001",
            "there is no month 0",
            "year 2023, month 0, day 1",
        ),
        ("20230100", "there is no day 0", "year 2023, month 1, day 0"),
        ("1", "there is no year 0", "year 0, month 0, day 1"),
        ("100", "there is no year 0", "year 0, month 1, day 0"),
        ("1231", "there is no year 0", "year 0, month 12, day 31"),
        (
            "99999999",
            "there is no month 99",
            "year 9999, month 99, day 99",
        ),
        (
            "29022024",
            "there is no month 20",
            "year 2902, month 20, day 24",
        ),
        (
            "230229",
            "0023 has no 29 February",
            "year 23, month 2, day 29",
        ),
        (
            "000000000020230231",
            "2023 has no 31 February",
            "year 2023, month 2, day 31",
        ),
    ] {
        let written = format!("rec; 42; <{day}>; \"Mittwoch\"; 1");
        let reading = format!("{day} reads as {reading}");
        let notes = [&no_day("BETRIEBSTAG", flaw), &reading, EXPECTED];
        calendar(&written, NO_SUCH_DAY).is_told(&folder, &notes);
    }
}

#[test]
fn a_day_from_which_a_version_is_valid() {
    let flaw = no_day("VER_GUELTIGKEIT", "2022 has no 31 November");
    let reading = "20221131 reads as year 2022, month 11, day 31";
    let case = Case {
        example: "no-such-day.x10",
        number: VALID_FROM,
        written: "rec; <20221131>; 0",
        rule: "section 2, line 4: 26 no such day",
    };
    case.is_told(&Folder::new("days-validity"), &[&flaw, reading, EXPECTED]);
}

/// "at its field directly after 13": before every field further right.
#[test]
fn fields_are_judged_from_the_left() {
    let folder = Folder::new("days-left");
    let flaw = no_day("BETRIEBSTAG", "2023 has no 31 February");
    let reading = "20230231 reads as year 2023, month 2, day 31";
    for written in [
        "rec; 42; <20230231>; Mittwoch; 1",
        "rec; 42; <20230231>; \"Mittwoch\"; 1000",
        "rec; 42; <20230231>; \"Mittwoch\"; x",
        "rec ;42;  <20230231>  ;\"Mittwoch\";1",
    ] {
        calendar(written, NO_SUCH_DAY).is_told(&folder, &[&flaw, reading, EXPECTED]);
    }
    let version = "BASIS_VERSION stands here, a number from 1 to 999999999";
    calendar("rec; <0>; 20230231; \"Mittwoch\"; 1", RANGE).is_told(&folder, &[version]);
}

/// "any arrangement of a table's columns, each once, shall be read".
#[test]
fn a_day_is_pointed_at_where_its_column_stands() {
    let folder = Folder::new("days-arranged");
    let case = |written, rule| Case {
        example: "arranged.x10",
        number: 24,
        written,
        rule,
    };
    let flaw = no_day("BETRIEBSTAG", "2025 has no 29 February");
    let reading = "20250229 reads as year 2025, month 2, day 29";
    case(
        "rec; 1; \"Montag\"; <20250229>; 0",
        "section 3, line 4: 26 no such day",
    )
    .is_told(&folder, &[&flaw, reading, EXPECTED]);
    case(
        "rec; <1000>; \"Montag\"; 20250229; 42",
        "section 3, line 4: 13 number out of range, or text over its size",
    )
    .is_told(
        &folder,
        &["TAGESART_NR stands here, a number from 1 to 999"],
    );
}

/// What is no number, or outside the range, is told how a day is written too.
#[test]
fn what_is_refused_before() {
    let folder = Folder::new("days-before");
    let number = "BETRIEBSTAG stands here, a number from 1 to 99999999";
    for day in ["0", "-0", "-1", "100000000", "202302280"] {
        let written = format!("rec; 42; <{day}>; \"Mittwoch\"; 1");
        calendar(&written, RANGE).is_told(&folder, &[number, EXPECTED]);
    }
    let not_a_number = "section 4, line 6: 12 not a number";
    for day in ["01.03.2023", "2023-03-01", "\"20230301\""] {
        let written = format!("rec; 42; <{day}>; \"Mittwoch\"; 1");
        calendar(&written, not_a_number).is_told(&folder, &[number, EXPECTED]);
    }
    let left_out = format!("{number}, and may not be\n         left out");
    calendar("rec; 42;< >; \"Mittwoch\"; 1", not_a_number).is_told(&folder, &[&left_out, EXPECTED]);
}

#[test]
fn a_section_with_such_a_day_is_listed_as_refused() {
    run_in(&examples(), &["list", "no-such-day.x10"]).expect(
        1,
        "\
source   Planungsbuero Muehlental
date     2023-01-12 08:15:00
charset  ISO8859-1
ver      6.3.1
ifv      1.6

section  number  table                  records  place  length  verdict
      1     485  MENGE_BASIS_VERSIONEN        1    177     131  sound
      2     993  BASIS_VER_GUELTIGKEIT        1    308     112  sound
      3     290  MENGE_TAGESART               3    420     186  sound
      4     348  FIRMENKALENDER               0    606     362  line 6: 26 no such day
",
        TOLD,
    );
    let run = run_in(&examples(), &["list", "--json", "no-such-day.x10"]);
    assert_eq!((run.code, run.err.as_str()), (1, ""));
    let section = "\"records\":0,\"place\":606,\"length\":362,\"verdict\":26,\"line\":6,\
        \"rule\":\"no such day\"}]}\n";
    assert!(run.text().ends_with(section), "{}", run.text());
}

#[test]
fn a_section_with_such_a_day_hands_out_nothing() {
    run_in(&examples(), &["show", "no-such-day.x10", "348"]).expect(
        1,
        "FIRMENKALENDER (348), section 4: refused, line 6: 26 no such day\n",
        TOLD,
    );
    run_in(&examples(), &["marks", "no-such-day.x10"]).expect(
        1,
        "cannot be said of section 4, FIRMENKALENDER, which is refused:\n  \
         line 6: 26 no such day\n\n\
         0 of 4 texts are ours, 0 are empty, in the sound sections\n",
        TOLD,
    );
    for arguments in [
        &["write", "no-such-day.x10"][..],
        &["strip", "no-such-day.x10"],
        &["fill", "no-such-day.x10", "1", "1", "2", "Winter"],
    ] {
        run_in(&examples(), arguments).expect(1, "", TOLD);
    }
}
