//! Damage to bytes, wherever they stand.

use crate::random::Random;

/// Bytes that change most: quotes, separators, ends, and those at the edges of
/// what is allowed.
const SHARP: &[u8] = b"\"\";;\n\r 0-9\0\t\x1f\x7f\x80\xa0\xa1\xff";

fn any_byte(random: &mut Random) -> u8 {
    if random.percent(70) {
        random.pick(SHARP)
    } else {
        random.below(256) as u8
    }
}

pub fn replace_some(random: &mut Random, bytes: &mut [u8]) {
    for _ in 0..random.pick(&[1, 1, 1, 2, 10]) {
        if !bytes.is_empty() {
            let place = random.below(bytes.len());
            bytes[place] = any_byte(random);
        }
    }
}

pub fn drop_quote(random: &mut Random, bytes: &mut Vec<u8>) {
    let all = bytes.iter().enumerate();
    let quotes: Vec<usize> = all.filter(|(_, b)| **b == b'"').map(|(i, _)| i).collect();
    if let Some(quote) = random.choose(&quotes) {
        bytes.remove(*quote);
    }
}

pub fn add_quote(random: &mut Random, bytes: &mut Vec<u8>) {
    bytes.insert(random.below(bytes.len() + 1), b'"');
}

pub fn cut_file(random: &mut Random, bytes: &mut Vec<u8>) {
    bytes.truncate(random.below(bytes.len() + 1));
}

pub fn add_or_drop(random: &mut Random, bytes: &mut Vec<u8>) {
    let from = random.below(bytes.len() + 1);
    let to = bytes.len().min(from + random.below(4));
    let added: Vec<u8> = (0..random.below(4)).map(|_| any_byte(random)).collect();
    bytes.splice(from..to, added);
}
