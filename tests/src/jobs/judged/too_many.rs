//! Pairs whose offered vector is reduced, but wrong at more than E rows.

use super::right::solvable;
use super::Pair;
use crate::jobs::planted::{planted, spoil, Planted, Shape, WrongRows};
use crate::jobs::random::Random;
use crate::layout::{row_bit, wrong_rows, Answer, HeaderForm, Mark};

#[derive(Clone, Copy, Debug, PartialEq, Eq)]
pub enum TooMany {
    /// E + 1 rows are wrong, and the word marks them.
    AllMarked,
    /// E + 1 rows are wrong, and the word marks E of them.
    OneNotMarked,
    /// The answer of the job before more rows were spoiled, with its word or with their marks.
    Spoiled,
    /// The same, and the rows that were spoiled report a pole.
    FalsePoles,
}

impl TooMany {
    pub fn pair(self, random: &mut Random) -> Pair {
        match self {
            TooMany::AllMarked => {
                let planted = one_too_many(random);
                Pair::judged(&planted.job, &planted.answer(), false)
            }
            TooMany::OneNotMarked => {
                let planted = one_too_many(random);
                let (wrong, _) = planted.wrong_and_right_rows();
                let mut offered = planted.answer();
                offered.word ^= row_bit(random.one_of(&wrong));
                Pair::judged(&planted.job, &offered, false)
            }
            TooMany::Spoiled => spoiled(random),
            TooMany::FalsePoles => false_poles(random),
        }
    }
}

fn false_poles(random: &mut Random) -> Pair {
    let is_flagged = |planted: &Planted| planted.job.header == HeaderForm::Flagged;
    let mut planted = solvable(random, is_flagged);
    let answer = planted.answer();
    let (mut rows, job) = (planted.wrong_and_right_rows().1, &mut planted.job);
    rows.retain(|&row| !job.is_marked(row, Mark::Pole));
    random.shuffle(&mut rows);
    let needed = job.error_bound + 1 - answer.word.count_ones() as usize;
    for &row in rows.iter().take(needed) {
        job.rows[row].put(Mark::Pole);
    }
    let marks = wrong_rows(job, &planted.denominator, &planted.numerators);
    let word = random.one_of(&[answer.word, marks, marks]);
    match rows.len() < needed {
        true => false_poles(random),
        false => Pair::judged(job, &Answer { word, ..answer }, false),
    }
}

fn one_too_many(random: &mut Random) -> Planted {
    let shapes = [Shape::Any, Shape::Any, Shape::Poles, Shape::WholeField];
    let shape = random.one_of(&shapes);
    planted(random, shape, WrongRows::OneTooMany)
}

fn spoiled(random: &mut Random) -> Pair {
    let mut planted = solvable(random, |_| true);
    let answer = planted.answer();
    let job = &mut planted.job;
    let least = job.error_bound + 1;
    let any = random.between(least, job.speaking());
    let wrong_count = random.one_of(&[least, any]);
    let (denominator, numerators) = (&planted.denominator, &planted.numerators);
    let marks = spoil(random, job, denominator, numerators, wrong_count);
    let marks = marks.expect("no more than E rows were wrong");
    let word = random.one_of(&[answer.word, marks]);
    Pair::judged(job, &Answer { word, ..answer }, false)
}
