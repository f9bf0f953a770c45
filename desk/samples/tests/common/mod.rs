//! What damage makes of drawn files.

use samples::damage::{self, ALL};
use samples::Random;

/// The files with this damage that give this number, each with its answer.
pub fn refused(name: &str, number: u32) -> impl Iterator<Item = (Vec<u8>, reader::Answer)> {
    let damage = ALL.iter().find(|damage| damage.name == name).unwrap();
    let files = (0..1_500).map(|index| damage::with(&mut Random::of_file(13, index), &[*damage]));
    files.filter_map(move |file| {
        let answer = reader::check(&file);
        (u32::from(answer.number) == number).then_some((file, answer))
    })
}

/// The table of the section where a file is refused.
pub fn table_at(file: &[u8], answer: reader::Answer) -> u16 {
    reader::section(file, answer.section).unwrap().table
}
