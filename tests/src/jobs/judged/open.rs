//! Pairs whose verdict is not known; the judges are compared with each other.

use super::refused::{any_bytes, right_length};
use super::right::solvable;
use super::Pair;
use crate::jobs::faulty;
use crate::jobs::fraction::Fraction;
use crate::jobs::planted::{header, Shape, WrongRows};
use crate::jobs::random::Random;
use crate::layout::{wrong_rows, Answer, HeaderForm, Job, Mark};
use crate::second::polynomial::Polynomial;

#[derive(Clone, Copy, Debug, PartialEq, Eq)]
pub enum Open {
    /// Random values, poles at times, and a random reduced vector, whose wrong rows are marked.
    RandomVector,
    /// The answer of the job before one of its bits was flipped.
    DamagedJob,
    /// The job is damaged or random, and so is what is offered.
    RandomBytes,
}

impl Open {
    pub fn pair(self, random: &mut Random) -> Pair {
        match self {
            Open::RandomVector => random_vector(random),
            Open::DamagedJob => {
                let planted = solvable(random, |_| true);
                let mut bytes = planted.job.pack();
                let bit = random.below(8 * bytes.len());
                bytes[bit / 8] ^= 128 >> (bit % 8);
                Pair::new(bytes, planted.answer().pack(&planted.job), None)
            }
            Open::RandomBytes => {
                let job = match random.once_in(2) {
                    true => faulty::random_bytes(random).bytes,
                    false => faulty::damaged(random).bytes,
                };
                let length = random.below(300);
                let length = random.one_of(&[right_length(&job), length]);
                let offered = any_bytes(random, length);
                Pair::new(job, offered, None)
            }
        }
    }
}

/// Most jobs are tiny, as there a random vector is often the answer.
fn random_vector(random: &mut Random) -> Pair {
    let is_tiny = !random.once_in(4);
    let mut job = loop {
        let wrong = random.one_of(&[WrongRows::None, WrongRows::Exact]);
        let job = header(random, Shape::Any, wrong);
        if !is_tiny || job.prime() == 7 && job.outputs() == 1 && job.rows.len() <= 3 {
            break job;
        }
    };
    let prime = job.prime();
    let has_marks = job.header == HeaderForm::Flagged;
    for row in &mut job.rows {
        row.values.fill_with(|| random.residue(prime));
        if has_marks && random.once_in(4) {
            row.put(Mark::Pole);
        }
    }
    let fraction = loop {
        if let Some(fraction) = Fraction::draw(random, &job, Shape::Any, 0) {
            break fraction;
        }
    };
    let answer = with_its_word(&job, &fraction);
    Pair::new(job.pack(), answer.pack(&job), None)
}

/// A vector with the word of its wrong rows.
fn with_its_word(job: &Job, fraction: &Fraction) -> Answer {
    let listed = |polynomial: &Polynomial| polynomial.coefficients().to_vec();
    let denominator = listed(&fraction.denominator);
    let numerators: Vec<Vec<u32>> = fraction.numerators.iter().map(listed).collect();
    Answer {
        word: wrong_rows(job, &denominator, &numerators),
        denominator,
        numerators,
    }
}
