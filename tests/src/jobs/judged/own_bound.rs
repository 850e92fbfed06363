//! Pairs of a job whose vector passes one output's own bound, and that vector cut there.

use super::Pair;
use crate::jobs::own_bound::beyond_own_bound;
use crate::jobs::random::Random;
use crate::layout::{wrong_rows, Answer};

/// The word marks the rows that are wrong for the whole vector, or for the cut one.
pub fn pair(random: &mut Random) -> Pair {
    let planted = beyond_own_bound(random);
    let job = &planted.job;
    let whole = planted.answer();
    let cut = Answer::unpack(&whole.pack(job), job);
    let marks = wrong_rows(job, &cut.denominator, &cut.numerators);
    let word = random.one_of(&[whole.word, marks]);
    Pair::judged(job, &Answer { word, ..cut }, false)
}
