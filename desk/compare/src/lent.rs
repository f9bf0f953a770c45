//! Calls that put something into lent room: both implementations get the same
//! room, and what lies in it afterwards is compared to the last place.

use std::fmt::{Debug, Display};

use vdv::{number, Copied, Refusal, Row};

use crate::difference::{law, same, Difference};
use crate::tally::Tally;
use crate::{Library, Pair};

/// What lent room holds before the call, different at every place.
pub trait Before: Copy + PartialEq + Debug {
    fn before(place: usize) -> Self;
}

impl Before for u8 {
    fn before(place: usize) -> u8 {
        (place * 31 + 7) as u8
    }
}

impl Before for u64 {
    fn before(place: usize) -> u64 {
        (place as u64 + 1).wrapping_mul(0x9e37_79b9_7f4a_7c15)
    }
}

impl Before for Row {
    fn before(place: usize) -> Row {
        Row {
            table: 7,
            place: place + 1,
            length: place + 2,
            records: place + 3,
            verdict: 99,
            line: place + 5,
        }
    }
}

pub fn room<T: Before>(length: usize) -> Vec<T> {
    (0..length).map(T::before).collect()
}

/// Whether the room still holds, from this place on, what it held before.
fn is_kept<T: Before>(room: &[T], from: usize) -> bool {
    let rest = room.iter().enumerate().skip(from);
    rest.into_iter()
        .all(|(place, held)| *held == T::before(place))
}

/// What such a call answers: how much it put out, of a text also whose it is.
pub trait Put: Copy + PartialEq + Debug {
    fn length(self) -> usize;
}

impl Put for usize {
    fn length(self) -> usize {
        self
    }
}

impl Put for Copied {
    fn length(self) -> usize {
        self.length
    }
}

/// A call that puts something into lent room.
pub type Call<'c, T, A = usize> = dyn Fn(&dyn Library, &mut [T]) -> Result<A, Refusal> + 'c;

/// The answer of both to one call, and what they put out.
pub fn lend<T: Before, A: Put>(
    pair: Pair<'_>,
    tally: &mut Tally,
    call: &dyn Display,
    length: usize,
    run: &Call<'_, T, A>,
) -> Result<Result<Vec<T>, Refusal>, Difference> {
    let call = &format_args!("{call} lent {length}");
    let mut room = room::<T>(length);
    let mut other = room.clone();
    let answer = run(pair.subject, &mut room);
    let answer = same(call, answer, run(pair.baseline, &mut other))?;
    if room != other {
        return Err(parted(call, &room, &other));
    }
    let written = answer.map_or(0, A::length);
    law(
        written <= length && is_kept(&room, written),
        &format_args!("{call}: what is not written keeps its values"),
    )?;
    tally.add_call(answer.err().unwrap_or(Refusal::SOUND));
    room.truncate(written);
    Ok(answer.map(|_| room))
}

/// The first place where the two rooms part.
fn parted<T: Before>(call: &dyn Display, subject: &[T], baseline: &[T]) -> Difference {
    let pairs = subject.iter().zip(baseline);
    let place = pairs.take_while(|(one, other)| one == other).count();
    Difference {
        call: format!("{call}: put out at {place}"),
        subject: format!("{:?}", subject.get(place)),
        baseline: format!("{:?}", baseline.get(place)),
    }
}

/// The call with ample room, with just enough, and with too little: "21
/// exactly if the form is longer than the lent output".
pub fn lend_all_ways<T: Before, A: Put>(
    pair: Pair<'_>,
    tally: &mut Tally,
    call: &dyn Display,
    ample: usize,
    run: &Call<'_, T, A>,
) -> Result<Result<Vec<T>, Refusal>, Difference> {
    let answer = lend(pair, tally, call, ample, run)?;
    let Ok(put) = &answer else {
        return Ok(answer);
    };
    let exact = lend(pair, tally, call, put.len(), run)?;
    law(
        exact.as_ref() == Ok(put),
        &format_args!("{call}: just enough room is enough"),
    )?;
    if !put.is_empty() {
        let short = lend(pair, tally, call, put.len() - 1, run)?;
        law(
            short == Err(Refusal::placeless(number::NO_ROOM)),
            &format_args!("{call}: one place less is 21"),
        )?;
    }
    Ok(answer)
}
