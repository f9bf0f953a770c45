//! "Only real days": VER_GUELTIGKEIT and BETRIEBSTAG are Gregorian dates, and
//! "26, no such day, at its field directly after 13".

mod common;

use common::*;
use reader::{check, fill, list, listing, strip, table, value, write, Answer, Value};

/// The verdict on a day of each table.
fn judged(day: &str) -> [(u8, usize); 2] {
    let validity = validity(&[&rec(&[day, "7"]), b"end; 1"]);
    let calendar = calendar(&[&rec(&["7", day, "\"\"", "1"]), b"end; 1"]);
    [validity, calendar].map(|section| verdict(&section))
}

fn judge_all(days: &[&str], number: u8) {
    let line = if number == 0 { 0 } else { 4 };
    for day in days {
        assert_eq!(judged(day), [(number, line); 2], "{day}");
    }
}

fn put_out(put: impl FnOnce(&mut [u8]) -> Result<usize, Answer>) -> Result<String, Answer> {
    let mut out = vec![0; 4096];
    let length = put(&mut out)?;
    Ok(String::from_utf8_lossy(&out[..length]).into_owned())
}

/// "20240229 passes, 20230229 does not."
#[test]
fn leap_days() {
    judge_all(
        &[
            "20240229", "20000229", "16000229", "24000229", "40229", "4000229", "99960229",
        ],
        0,
    );
    judge_all(
        &[
            "20230229", "19000229", "21000229", "18000229", "10229", "1000229", "99990229",
            "20240230", "20000230", "20230230", "20230231",
        ],
        26,
    );
}

/// "from 00010101 to 99991231".
#[test]
fn the_first_day_and_the_last() {
    judge_all(&["00010101", "10101", "10102", "11231", "99991231"], 0);
    judge_all(
        &[
            "1", "7", "99", "100", "101", "1231", "9999", "10000", "10001", "10100", "99991232",
            "99991300", "99999999",
        ],
        26,
    );
}

#[test]
fn months_and_their_days() {
    judge_all(&["20231201", "20230131", "20230430", "20231130"], 0);
    judge_all(
        &[
            "20230001", "20231301", "20239901", "20230100", "20230132", "20230431", "20230631",
            "20230931", "20231131", "20230199",
        ],
        26,
    );
}

#[test]
fn every_month_and_day_of_two_years() {
    for (year, february) in [(2023, 28), (2024, 29)] {
        let days = [31, february, 31, 30, 31, 30, 31, 31, 30, 31, 30, 31];
        for rest in 0..=1_399_usize {
            let (month, day) = (rest / 100, rest % 100);
            let is_month = (1..=12).contains(&month);
            let is_real = is_month && (1..=days[month - 1]).contains(&day);
            let meant = if is_real { (0, 0) } else { (26, 4) };
            assert_eq!(judged(&format!("{year}{rest:04}")), [meant; 2], "{rest}");
        }
    }
}

/// "the number's value read as YYYYMMDD with leading zeros optional".
#[test]
fn the_value_alone_counts() {
    judge_all(
        &[
            "020240229",
            "000000000020240229",
            "00010101",
            "010101",
            " 20240229 ",
        ],
        0,
    );
    judge_all(
        &[
            "020230229",
            "000000000020230229",
            "00000101",
            "0099991232",
            " 20230229 ",
        ],
        26,
    );
}

#[test]
fn other_refusals_stay() {
    judge_all(
        &[
            "0",
            "-0",
            "00000000",
            "-1",
            "-20240229",
            "-20230229",
            "100000000",
            "100000101",
            "202402290",
            "999999999999999999",
        ],
        13,
    );
    judge_all(
        &[
            "",
            "x",
            "29.02.2024",
            "2024-02-29",
            "2024/02/29",
            "+20240229",
            "20240229.0",
            "2024 0229",
            "\"20240229\"",
            "0000000000020240229",
        ],
        12,
    );
}

/// Only the two columns are days.
#[test]
fn other_numbers_are_no_days() {
    let versions = b"tbl; MENGE_BASIS_VERSIONEN\natr; BASIS_VERSION; BASIS_VERSION_TEXT\n\
        frm; num[9.0]; char[40]\nrec; 20230229; \"\"\nend; 1\n";
    let days = day_types(&[b"rec; 20230229; 229; \"20230229\"", b"end; 1"]);
    let valid = validity(&[b"rec; 20240229; 20230229", b"end; 1"]);
    let calendar = calendar(&[b"rec; 20230229; 20240229; \"20230229\"; 229", b"end; 1"]);
    let file = file(&[versions, &days, &valid, &calendar]);
    assert_eq!(answer(&file), (0, 0, 0));
}

const NO_DAY: &str = "20230229";

#[test]
fn its_place_among_the_numbers_of_a_record() {
    let judged = |fields: &[&str]| verdict(&calendar(&[&rec(fields), b"end; 1"]));
    assert_eq!(judged(&["7", NO_DAY, "x", "0"]), (26, 4));
    assert_eq!(judged(&["7", NO_DAY, "\"\"", "x"]), (26, 4));
    assert_eq!(judged(&["7", "0", "x", "0"]), (13, 4));
    assert_eq!(judged(&["7", "20240229", "x", "0"]), (11, 4));
    assert_eq!(judged(&["0", NO_DAY, "\"\"", "1"]), (13, 4));
    assert_eq!(judged(&["x", NO_DAY, "\"\"", "1"]), (12, 4));
    assert_eq!(judged(&["7", NO_DAY, "\"\""]), (10, 4));
    assert_eq!(judged(&["7", NO_DAY, "\"\"", "1", ""]), (10, 4));
    assert_eq!(judged(&["7", NO_DAY, "\"\t\"", "1"]), (4, 4));

    let valid = |fields: &[&str]| verdict(&validity(&[&rec(fields), b"end; 1"]));
    assert_eq!(valid(&[NO_DAY, "x"]), (26, 4));
    assert_eq!(valid(&[NO_DAY, "0"]), (26, 4));
    assert_eq!(valid(&["x", "0"]), (12, 4));
    assert_eq!(valid(&[NO_DAY]), (10, 4));
}

/// A marked empty text is judged after all fields, a wrong count at its line.
#[test]
fn its_place_among_the_lines() {
    let mark = b"com; \"SUGGESTED 3\"";
    let no_day = &rec(&["7", NO_DAY, "\"\"", "1"]);
    assert_eq!(verdict(&calendar(&[mark, no_day, b"end; 1"])), (26, 5));
    assert_eq!(verdict(&calendar(&[mark, mark, no_day])), (15, 5));
    assert_eq!(verdict(&calendar(&[no_day, b"end; 7"])), (26, 4));
    assert_eq!(verdict(&calendar(&[no_day])), (26, 4));
    assert_eq!(verdict(&calendar(&[b"", b"com; x", no_day])), (26, 6));
    let late = &rec(&["0", NO_DAY, "\"\"", "1"]);
    assert_eq!(verdict(&calendar(&[no_day, late, b"end; 2"])), (26, 4));
    assert_eq!(verdict(&calendar(&[late, no_day, b"end; 2"])), (13, 4));
}

const COLUMNS: [&str; 4] = [
    "BASIS_VERSION",
    "BETRIEBSTAG",
    "BETRIEBSTAG_TEXT",
    "TAGESART_NR",
];
const FORMATS: [&str; 4] = ["num[9.0]", "num[8.0]", "char[40]", "num[3.0]"];

/// Every order of four columns.
fn orders() -> Vec<[usize; 4]> {
    let all = (0..256).map(|n| [n / 64 % 4, n / 16 % 4, n / 4 % 4, n % 4]);
    all.filter(|order| (0..4).all(|column| order.contains(&column)))
        .collect()
}

/// The verdict on a record whose fields, given by column, stand in this order.
fn judged_in(order: [usize; 4], fields: [&str; 4]) -> (u8, usize) {
    let [names, formats, fields] =
        [COLUMNS, FORMATS, fields].map(|all| order.map(|column| all[column]).join("; "));
    let section =
        format!("tbl; FIRMENKALENDER\natr; {names}\nfrm; {formats}\nrec; {fields}\nend; 1\n");
    verdict(section.as_bytes())
}

/// "Fields are still checked from the left as written."
#[test]
fn arranged_fields_are_judged_as_they_stand() {
    let long = format!("\"{}\"", "x".repeat(41));
    let wrong = [
        (0, "x", 12),
        (0, "0", 13),
        (2, "x", 11),
        (2, long.as_str(), 13),
        (3, "", 12),
        (3, "1000", 13),
    ];
    assert_eq!(orders().len(), 24);
    for order in orders() {
        let sound = ["7", "20240229", "\"\"", "1"];
        assert_eq!(judged_in(order, sound), (0, 0), "{order:?}");
        for (column, field, number) in wrong {
            let mut fields = sound;
            fields[column] = field;
            for (day, its_number) in [(NO_DAY, 26), ("0", 13), ("x", 12)] {
                fields[1] = day;
                let place = |column| order.iter().position(|c| *c == column);
                let stands_before = place(1) < place(column);
                let meant = if stands_before { its_number } else { number };
                assert_eq!(judged_in(order, fields), (meant, 4), "{order:?} {fields:?}");
            }
        }
    }
}

#[test]
fn an_arranged_validity() {
    let judged = |record: &str| {
        let head = "tbl; BASIS_VER_GUELTIGKEIT\natr; BASIS_VERSION; VER_GUELTIGKEIT\n\
            frm; num[9.0]; num[8.0]\n";
        verdict(format!("{head}rec; {record}\nend; 1\n").as_bytes())
    };
    assert_eq!(judged("20230229; 20240229"), (0, 0));
    assert_eq!(judged("20240229; 20230229"), (26, 4));
    assert_eq!(judged("0; 20230229"), (13, 4));
    assert_eq!(judged("x; 20230229"), (12, 4));
    assert_eq!(judged("7; 100000000"), (13, 4));
}

#[test]
fn keys_go_by_value() {
    let types = day_types(&[b"rec; 7; 1; \"\"", b"end; 1"]);
    let valid = |days: [&str; 2]| {
        let [one, other] = days.map(|day| rec(&[day, "7"]));
        answer(&file(&[VERSIONS, &validity(&[&one, &other, b"end; 2"])]))
    };
    let runs = |days: [&str; 2]| {
        let [one, other] = days.map(|day| rec(&["7", day, "\"\"", "1"]));
        let calendar = calendar(&[&one, &other, b"end; 2"]);
        answer(&file(&[VERSIONS, &types, &calendar]))
    };
    for days in [
        ["20240229", "020240229"],
        ["00010101", "10101"],
        ["99991231", "99991231"],
    ] {
        assert_eq!(valid(days), (18, 2, 5), "{days:?}");
        assert_eq!(runs(days), (18, 3, 5), "{days:?}");
    }
    assert_eq!(valid(["20240228", "20240229"]), (0, 0, 0));
    assert_eq!(runs(["10101", "99991231"]), (0, 0, 0));
    assert_eq!(valid(["20230229", "20230229"]), (26, 2, 4));
}

#[test]
fn days_are_handed_out_and_written_without_leading_zeros() {
    let lines: [&[u8]; 4] = [
        b"rec; 00010101; 7",
        b"rec;020240229;7",
        b"rec; 99991231; 7",
        b"end; 3",
    ];
    let file = file(&[VERSIONS, &validity(&lines)]);
    assert_eq!(answer(&file), (0, 0, 0));
    assert_eq!(value(&file, 2, 1, 1), Ok(Value::Number(10_101)));
    assert_eq!(value(&file, 2, 2, 1), Ok(Value::Number(20_240_229)));
    let form = put_out(|out| write(&file, out)).unwrap();
    assert!(form.contains("\nrec; 10101; 7\nrec; 20240229; 7\nrec; 99991231; 7\nend; 3\n"));
    assert_eq!(answer(form.as_bytes()), (0, 0, 0));
    assert_eq!(put_out(|out| write(form.as_bytes(), out)), Ok(form));
}

/// "A refused section hands out no records"; every call gives section and line.
#[test]
fn every_call_on_a_file_with_no_such_day() {
    let days = validity(&[b"rec; 20240101; 7", b"rec; 20230229; 7", b"end; 2"]);
    let file = file(&[VERSIONS, &days]);
    let refusal = Answer::new(26, 2, 5);
    assert_eq!(check(&file), refusal);
    let row = list(&file).unwrap()[1];
    assert_eq!((row.table, row.records), (993, 0));
    assert_eq!((row.verdict, row.line), (26, 5));
    assert_eq!(value(&file, 2, 1, 1), Err(refusal));
    assert_eq!(value(&file, 1, 1, 1), Ok(Value::Number(7)));
    assert_eq!(table(&file, 2).err(), Some(refusal));
    assert_eq!(put_out(|out| write(&file, out)), Err(refusal));
    assert_eq!(put_out(|out| strip(&file, out)), Err(refusal));
    let filled = put_out(|out| fill(&file, 1, 1, 2, b"x", out));
    assert_eq!(filled, Err(refusal));
    let expected = "header;0;0\ntable;1;485;0;1;0\ntable;2;993;26;0;5\ntrailer;0\nfile;26;2;5\n";
    assert_eq!(listing(&file), expected.as_bytes());
}

/// "the first unsound section in file order, 17, 18, 19, 20".
#[test]
fn its_place_among_the_numbers_of_a_file() {
    let no_day = validity(&[b"rec; 20230229; 8", b"rec; 20230229; 8", b"end; 2"]);
    let no_text = day_types(&[b"rec; 7; 1; x", b"end; 1"]);
    assert_eq!(answer(&file(&[&no_day, &no_text, VERSIONS])), (26, 1, 4));
    assert_eq!(answer(&file(&[&no_text, &no_day, VERSIONS])), (11, 1, 4));
    assert_eq!(answer(&file(&[&no_day, VERSIONS, VERSIONS])), (26, 1, 4));
    let without_eof = [HEADER, &no_day].concat();
    assert_eq!(answer(&without_eof), (3, 0, 0));
}
