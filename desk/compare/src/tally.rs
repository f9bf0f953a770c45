//! How often each number was given back, by the file's answer, by that of files
//! whose columns are arranged, and by the other calls.

use std::fmt::{self, Display, Formatter};

use vdv::{number, Refusal};

const NUMBERS: usize = number::LAST as usize + 1;

#[derive(Clone, Debug, Default, PartialEq, Eq)]
pub struct Tally {
    checks: [u64; NUMBERS],
    arranged: [u64; NUMBERS],
    others: [u64; NUMBERS],
}

impl Tally {
    pub fn add_check(&mut self, answer: Refusal) {
        if let Some(count) = self.checks.get_mut(answer.number as usize) {
            *count += 1;
        }
    }

    /// A file that has been added, and some of its columns are arranged.
    pub fn add_arranged(&mut self, answer: Refusal) {
        if let Some(count) = self.arranged.get_mut(answer.number as usize) {
            *count += 1;
        }
    }

    pub fn add_call(&mut self, answer: Refusal) {
        if let Some(count) = self.others.get_mut(answer.number as usize) {
            *count += 1;
        }
    }

    pub fn add(&mut self, other: &Tally) {
        for (counts, more) in [
            (&mut self.checks, &other.checks),
            (&mut self.arranged, &other.arranged),
            (&mut self.others, &other.others),
        ] {
            for (count, more) in counts.iter_mut().zip(more) {
                *count += more;
            }
        }
    }

    /// Files answered in this way.
    pub fn checks(&self, number: u32) -> u64 {
        self.checks.get(number as usize).copied().unwrap_or(0)
    }

    /// Files with arranged columns answered in this way.
    pub fn arranged(&self, number: u32) -> u64 {
        self.arranged.get(number as usize).copied().unwrap_or(0)
    }

    /// Calls answered in this way, besides the check.
    pub fn others(&self, number: u32) -> u64 {
        self.others.get(number as usize).copied().unwrap_or(0)
    }

    /// Numbers that should have been given and were not: 21 to 24 by calls of
    /// their own, the others by files, all but 1 also by arranged ones.
    pub fn missed(&self) -> Vec<u32> {
        (number::SOUND..=number::LAST)
            .filter(|&n| match n {
                number::FILE_TOO_LONG => self.checks(n) == 0,
                number::NO_ROOM..=number::NO_SUCH => self.others(n) == 0,
                _ => self.checks(n) == 0 || self.arranged(n) == 0,
            })
            .collect()
    }
}

impl Display for Tally {
    fn fmt(&self, out: &mut Formatter<'_>) -> fmt::Result {
        writeln!(out, "number      files   arranged      calls  rule")?;
        for n in number::SOUND..=number::LAST {
            let (files, arranged, calls) = (self.checks(n), self.arranged(n), self.others(n));
            let rule = number::in_words(n);
            writeln!(out, "{n:6} {files:10} {arranged:10} {calls:10}  {rule}")?;
        }
        Ok(())
    }
}

#[cfg(test)]
mod tests {
    use super::*;

    #[test]
    fn what_was_never_given_is_missed() {
        let mut tally = Tally::default();
        let of_sections = [number::COMBINATION, number::NO_SUCH_DAY];
        for number in (number::SOUND..=number::REFERENCE).chain(of_sections) {
            tally.add_check(Refusal::placeless(number));
        }
        assert_eq!(tally.missed().len(), 26);
        for number in number::HEADER..=number::REFERENCE {
            tally.add_arranged(Refusal::placeless(number));
        }
        assert_eq!(tally.missed(), [0, 21, 22, 23, 24, 25, 26]);
        for number in [number::SOUND].into_iter().chain(of_sections) {
            tally.add_arranged(Refusal::placeless(number));
        }
        for number in number::NO_ROOM..=number::NO_SUCH {
            tally.add_call(Refusal::placeless(number));
        }
        assert!(tally.missed().is_empty());
        assert_eq!(Tally::default().missed().len(), 27);
        assert!(tally
            .to_string()
            .contains("    20          1          1          0  a reference"));
    }

    #[test]
    fn a_number_that_is_none_is_not_counted() {
        let mut tally = Tally::default();
        tally.add_check(Refusal::placeless(99));
        assert_eq!(tally, Tally::default());
    }
}
