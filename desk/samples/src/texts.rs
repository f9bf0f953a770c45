//! Texts of all kinds: trade words, ones that look like lines of a file, and
//! any bytes allowed.

use crate::random::Random;

const PLAIN: [&[u8]; 22] = [
    b"Winter",
    b"Sommer 2025",
    b"Schultag",
    b"Ferientag",
    b"Sonn- und Feiertag",
    b"HP",
    b"HP ",
    b" HP",
    b"BHOF",
    b" ",
    b"SUGGESTED 3",
    b"tbl; REC_UEB",
    b"end; 1",
    b"eof; 2",
    b"com; \"SUGGESTED 2\"",
    b"Linie 7; nur Mo-Fr",
    b";",
    b"\"",
    b"\"\"",
    b"Bake \"1\"",
    b"\"; \"",
    b"kurz \"und\" gut; ja",
];

const LATIN: [&[u8]; 6] = [
    b"Ferientag f\xfcr Sch\xfcler",
    b"\xdcberf\xfchrung",
    b"Stra\xdfe",
    b"\xa1\xff",
    b"Dreik\xf6nig; \"ruhig\"",
    b"Gro\xdf\xe4cker",
];

/// A text of at most `size` own bytes, often empty, often of just that size.
pub fn draw(random: &mut Random, latin: bool, size: usize) -> Vec<u8> {
    match random.below(20) {
        0..=2 => Vec::new(),
        3..=11 => cut(random.pick(&PLAIN), size),
        12..=14 if latin => cut(random.pick(&LATIN), size),
        12..=16 => {
            let length = 1 + random.below(size);
            any(random, latin, length)
        }
        _ => any(random, latin, size),
    }
}

/// A text without the spaces at its end, as a record has it.
pub fn unpadded(mut text: Vec<u8>) -> Vec<u8> {
    while text.last() == Some(&b' ') {
        text.pop();
    }
    text
}

/// So many bytes of those a `rec` line may hold.
pub fn any(random: &mut Random, latin: bool, length: usize) -> Vec<u8> {
    (0..length).map(|_| byte(random, latin)).collect()
}

/// "32..126 everywhere, and in `rec` lines under ISO8859-1 also every byte
/// 161..255"; quotes, separators and spaces more often than others.
fn byte(random: &mut Random, latin: bool) -> u8 {
    match random.below(12) {
        0 => random.pick(b"\";  "),
        1..=3 if latin => random.between(161, 255) as u8,
        4..=7 => random.between(b'a'.into(), b'z'.into()) as u8,
        _ => random.between(32, 126) as u8,
    }
}

fn cut(text: &[u8], size: usize) -> Vec<u8> {
    text[..text.len().min(size)].to_vec()
}
