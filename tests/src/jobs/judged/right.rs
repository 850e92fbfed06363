//! Pairs whose offered answer is the job's.

use super::Pair;
use crate::jobs::planted::{planted, Planted, Shape, WrongRows};
use crate::jobs::planted_marks::Marks;
use crate::jobs::random::Random;
use crate::layout::{wrong_rows, Answer, Mark, PRIMES};
use crate::second;

#[derive(Clone, Copy, Debug, PartialEq, Eq)]
pub enum Right {
    Any,
    /// Some rows are marked.
    Marked,
    /// Every f is zero, and g is 1.
    AllZero,
    /// g and all f but one have a common divisor.
    PartlyCommon,
    /// A vector with E + 1 wrong rows was planted, and the job's answer is another one.
    OtherAnswer,
    /// A wrong row was altered, and is wrong as before.
    WrongRowAltered,
}

/// What jobs with an answer are like.
const SOLVABLE: [(Shape, WrongRows); 17] = [
    (Shape::Any, WrongRows::Exact),
    (Shape::Any, WrongRows::Exact),
    (Shape::Any, WrongRows::Fewer),
    (Shape::Any, WrongRows::None),
    (Shape::Poles, WrongRows::Exact),
    (Shape::Poles, WrongRows::Fewer),
    (Shape::CommonFactor, WrongRows::Exact),
    (Shape::CommonFactor, WrongRows::Fewer),
    (Shape::PartlyCommon, WrongRows::Exact),
    (Shape::WholeField, WrongRows::Exact),
    (Shape::LooseBounds, WrongRows::Exact),
    (Shape::LooseBounds, WrongRows::Fewer),
    (Shape::Marked(Marks::Poles), WrongRows::Exact),
    (Shape::Marked(Marks::OwnPoles), WrongRows::Exact),
    (Shape::Marked(Marks::PolesAboveErrors), WrongRows::Exact),
    (Shape::Marked(Marks::Silent), WrongRows::Exact),
    (Shape::Marked(Marks::PolesAndSilent), WrongRows::Fewer),
];

/// A job that has an answer and is as wanted; other draws are thrown away.
pub fn solvable(random: &mut Random, is_wanted: impl Fn(&Planted) -> bool) -> Planted {
    loop {
        let (shape, wrong) = random.one_of(&SOLVABLE);
        let drawn = planted(random, shape, wrong);
        if is_wanted(&drawn) {
            return drawn;
        }
    }
}

/// A job of this shape that has an answer.
pub fn solvable_of(random: &mut Random, shape: Shape) -> Planted {
    let wrong = random.one_of(&[WrongRows::None, WrongRows::Fewer, WrongRows::Exact]);
    planted(random, shape, wrong)
}

impl Right {
    pub fn pair(self, random: &mut Random) -> Pair {
        let planted = match self {
            Right::Any => solvable(random, |_| true),
            Right::Marked => solvable(random, |planted| planted.job.has_marks()),
            Right::AllZero => solvable_of(random, Shape::AllZero),
            Right::PartlyCommon => solvable_of(random, Shape::PartlyCommon),
            Right::WrongRowAltered => wrong_row_altered(random),
            Right::OtherAnswer => return other_answer(random),
        };
        Pair::judged(&planted.job, &planted.answer(), true)
    }
}

fn wrong_row_altered(random: &mut Random) -> Planted {
    let mut planted = solvable(random, |planted| planted.word != 0);
    let (wrong, _) = planted.wrong_and_right_rows();
    let row = random.one_of(&wrong);
    loop {
        let mut job = planted.job.clone();
        let is_pole = job.is_marked(row, Mark::Pole);
        let altered = random.below(job.outputs());
        for (output, value) in job.rows[row].values.iter_mut().enumerate() {
            if is_pole || output == altered {
                *value = random.residue(PRIMES[job.prime_code]);
            }
        }
        let word = wrong_rows(&job, &planted.denominator, &planted.numerators);
        if job != planted.job && word == planted.word {
            planted.job = job;
            return planted;
        }
    }
}

/// Modulo 7, as there such jobs are frequent. The second solver finds the answer.
fn other_answer(random: &mut Random) -> Pair {
    loop {
        let shape = random.one_of(&[Shape::Any, Shape::WholeField]);
        let job = planted(random, shape, WrongRows::OneTooMany).job;
        if job.prime() != 7 {
            continue;
        }
        let mut area = vec![0; job.answer_length()];
        if second::recover(&job.pack(), &mut area).is_recovered() {
            return Pair::judged(&job, &Answer::unpack(&area, &job), true);
        }
    }
}
