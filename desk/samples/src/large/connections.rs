//! Connections and their transfers.

use vdv::tables::{CONNECTIONS, DAY_TYPES, TRANSFERS};

use super::{assemble, parents, room, Order, Part};
use crate::random::Random;

/// Connections of one version, so that 18 MB need no more than two versions.
const CONNECTIONS_OF_VERSION: usize = 32_764;

const TRANSFERS_OF_CONNECTION: usize = 4;

/// Versions 20 and 21 have the same day types.
pub(super) fn draw(random: &mut Random, bytes: usize, order: Order) -> Vec<u8> {
    let mut parts = parents();
    let days = parts.iter_mut().find(|part| *part.table == DAY_TYPES);
    if let Some(days) = days {
        let lines = [1, 2, 3].map(|day| format!("rec; 21; {day}; \"\"\n").into_bytes());
        days.records.extend(lines);
    }
    let mut room = room(&parts, &[&CONNECTIONS, &TRANSFERS], bytes);
    let (mut connections, mut transfers) = (Vec::new(), Vec::new());
    loop {
        let (version, number) = connection_at(connections.len());
        let connection = draw_connection(random, version, number);
        let its_transfers = draw_transfers(random, version, number);
        let length = connection.len() + its_transfers.iter().map(Vec::len).sum::<usize>();
        if length > room {
            break;
        }
        room -= length;
        connections.push(connection);
        transfers.extend(its_transfers);
    }
    if order == Order::Shuffled {
        random.shuffle(&mut connections);
        random.shuffle(&mut transfers);
    }
    parts.push(Part {
        table: &CONNECTIONS,
        records: connections,
    });
    parts.push(Part {
        table: &TRANSFERS,
        records: transfers,
    });
    assemble(&parts, bytes)
}

/// Version and number rise with the index.
fn connection_at(index: usize) -> (usize, usize) {
    (
        20 + index / CONNECTIONS_OF_VERSION,
        1 + index % CONNECTIONS_OF_VERSION,
    )
}

/// Every fourth from a line that another control centre runs.
fn draw_connection(random: &mut Random, version: usize, number: usize) -> Vec<u8> {
    let mark = if number.is_multiple_of(8) {
        "com; \"SUGGESTED 3\"\n"
    } else {
        ""
    };
    let (line, direction) = (random.between(1, 999), random.below(3));
    let [from, to] = [(); 2].map(|()| random.between(1, 999_999));
    let points = if number.is_multiple_of(2) {
        format!("1; {from}; {to}")
    } else {
        "; ; ".to_owned()
    };
    let (feeder, texts) = match number % 4 {
        3 => (
            format!("{}; 0; 0; 0", random.between(1, 255)),
            format!("\"S{}\"; \"Nord\"; \"Bf {number}\"", random.between(1, 99)),
        ),
        _ => (
            format!("0; {}; {direction}; {from}", random.between(1, 999)),
            "\"\"; \"\"; \"\"".to_owned(),
        ),
    };
    format!(
        "{mark}rec; {version}; {number}; \"Umstieg {line}\"; \"A\"; {feeder}; {points}; {texts}; \
         {line}; {direction}; {to}; {points}\n"
    )
    .into_bytes()
}

/// Each begins where the one before ends, so that their keys rise.
fn draw_transfers(random: &mut Random, version: usize, number: usize) -> Vec<Vec<u8>> {
    let day = random.between(1, 3);
    let mut begin = random.between(0, 20_000);
    let mut transfers = Vec::with_capacity(TRANSFERS_OF_CONNECTION);
    for _ in 0..TRANSFERS_OF_CONNECTION {
        let end = begin + random.between(1, 20_000);
        let [least, most] = [random.between(0, 300), random.between(300, 900)];
        let record =
            format!("rec; {version}; {number}; {day}; {begin}; {end}; {least}; {most}; 180; 60\n");
        transfers.push(record.into_bytes());
        begin = end;
    }
    transfers
}
