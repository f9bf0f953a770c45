//! Large files: sound up to the limit, refused one byte beyond.

use reader::{check, list, write, Answer};
use samples::large::{file, Order, Shape, EMPTY, SOUND};
use vdv::LIMIT;

#[test]
fn large_files_are_sound() {
    for shape in SOUND {
        assert_eq!(check(&file(shape, 300_000, 1)), Answer::SOUND, "{shape:?}");
    }
}

/// What is measured against each other says the same.
#[test]
fn arranged_columns_are_written_in_document_01_s_order() {
    let form = |shape: Shape| {
        let mut out = vec![0; 400_000];
        let length = write(&file(shape, 300_000, 1), &mut out).unwrap();
        out.truncate(length);
        out
    };
    let unarranged = Shape::Arranged.unarranged().unwrap();
    assert!(form(Shape::Arranged) == form(unarranged));
}

#[test]
fn small_tables_again_and_again_are_17() {
    let bytes = file(Shape::Small, 300_000, 1);
    let answer = check(&bytes);
    assert_eq!((answer.number, answer.line), (17, 1));
    let rows = list(&bytes).unwrap();
    assert!(rows.len() > 500);
    assert!(rows.iter().all(|row| row.verdict == 0));
}

#[test]
fn the_limit_and_one_more() {
    let full = file(Shape::Network(Order::Rising), LIMIT, 1);
    assert_eq!(full.len(), LIMIT);
    assert_eq!(check(&full), Answer::SOUND);
    let rows = list(&full).unwrap();
    let of_table = |number| rows.iter().find(|row| row.table == number).unwrap().records;
    assert_eq!(of_table(225), of_table(247));
    assert!(
        (185_000..200_000).contains(&of_table(225)),
        "{}",
        of_table(225)
    );

    let connected = file(Shape::Connections(Order::Rising), LIMIT, 1);
    let rows = list(&connected).unwrap();
    let of_table = |number| rows.iter().find(|row| row.table == number).unwrap().records;
    assert_eq!(of_table(432) * 4, of_table(232));
    assert!(
        (50_000..60_000).contains(&of_table(432)),
        "{}",
        of_table(432)
    );

    let over = file(Shape::Calendar(Order::Shuffled), LIMIT + 1, 1);
    assert_eq!(check(&over), Answer::placeless(1));
}

#[test]
fn the_form_of_a_full_file_takes_one_more_suggestion() {
    for shape in SOUND {
        let full = file(shape, LIMIT, 1);
        let mut out = vec![0; LIMIT];
        let written = write(&full, &mut out).unwrap();
        let (section, record, field) = (EMPTY.section, EMPTY.record, EMPTY.field);
        let filled = reader::fill(&full, section, record, field, b"neu", &mut out).unwrap();
        let more = b"com; \"SUGGESTED 2\"\nneu".len();
        assert_eq!(filled, written + more, "{shape:?}");
    }
}
