//! Pairs whose offered answer is the job's with something altered.

use super::right::{solvable, solvable_of};
use super::Pair;
use crate::jobs::planted::{planted, Planted, Shape, WrongRows};
use crate::jobs::random::Random;
use crate::layout::{row_bit, wrong_rows, Answer, Mark};
use crate::second::polynomial::Polynomial;
use crate::second::Field;

/// What is altered in the word.
#[derive(Clone, Copy, Debug, PartialEq, Eq)]
pub enum Word {
    /// A right row is marked.
    RowMore,
    /// A wrong row is not marked.
    RowLess,
    /// A right row is marked in place of a wrong one.
    RowsSwapped,
    /// A row is marked that does not exist, or all of these are.
    NoSuchRow,
    /// A silent row is marked, or all of these are.
    SilentRow,
    /// A row is marked that reports a pole rightly.
    RightPole,
    /// A row is not marked that reports a pole wrongly.
    FalsePole,
}

/// Where a bit is flipped.
#[derive(Clone, Copy, Debug, PartialEq, Eq)]
pub enum Bit {
    OfAnyAnswer,
    /// In an answer of 254 bytes, each bit in its turn.
    OfLongestAnswer,
}

/// What is altered in the coefficients.
#[derive(Clone, Copy, Debug, PartialEq, Eq)]
pub enum Vector {
    /// g and every f are multiplied by a constant other than 1.
    Scaled,
    /// g and every f are multiplied by a polynomial of positive degree.
    Multiplied,
    /// Every f is zero, and g has a positive degree.
    ZeroNumerators,
    /// g is zero, and at times every f too.
    ZeroDenominator,
    /// A multiple of p is added to a coefficient.
    PlusPrime,
    /// A coefficient is p or more.
    PrimeOrMore,
    NumeratorsSwapped,
    FirstCoefficient,
    LastCoefficient,
    AnyCoefficient,
    /// Coefficients from the top down, numerators first, or the lower byte of each number first.
    OtherOrder,
}

impl Word {
    pub fn pair(self, random: &mut Random) -> Pair {
        let planted = solvable(random, |planted| self.fits(planted));
        let (wrong, right) = planted.wrong_and_right_rows();
        let (false_poles, poles) = planted.wrong_and_right_poles();
        let silent = planted.job.marked(Mark::Silent);
        let row_count = planted.job.rows.len();
        let flipped = match self {
            Word::RightPole => row_bit(random.one_of(&poles)),
            Word::FalsePole => row_bit(random.one_of(&false_poles)),
            Word::SilentRow if random.once_in(4) => silent.into_iter().map(row_bit).sum(),
            Word::SilentRow => row_bit(random.one_of(&silent)),
            Word::RowMore => row_bit(random.one_of(&right)),
            Word::RowLess => row_bit(random.one_of(&wrong)),
            Word::RowsSwapped => row_bit(random.one_of(&right)) | row_bit(random.one_of(&wrong)),
            Word::NoSuchRow if random.once_in(8) => u32::MAX >> row_count,
            Word::NoSuchRow => row_bit(random.between(row_count, 31)),
        };
        let mut offered = planted.answer();
        offered.word ^= flipped;
        Pair::judged(&planted.job, &offered, false)
    }

    /// Whether a job has a row for it.
    fn fits(self, planted: &Planted) -> bool {
        let (false_poles, poles) = planted.wrong_and_right_poles();
        match self {
            Word::RowMore => true,
            Word::RowLess | Word::RowsSwapped | Word::NoSuchRow => planted.word != 0,
            Word::SilentRow => !planted.job.marked(Mark::Silent).is_empty(),
            Word::RightPole => !poles.is_empty(),
            Word::FalsePole => !false_poles.is_empty(),
        }
    }
}

impl Bit {
    /// `turn` pairs of this kind come before this one.
    pub fn pair(self, random: &mut Random, turn: usize) -> Pair {
        let planted = match self {
            Bit::OfAnyAnswer => solvable(random, |_| true),
            Bit::OfLongestAnswer => planted(random, Shape::LongestAnswer, WrongRows::None),
        };
        let bit_count = 8 * planted.job.answer_length();
        let flipped = match self {
            Bit::OfAnyAnswer => random.below(bit_count),
            Bit::OfLongestAnswer => turn % bit_count,
        };
        let mut pair = Pair::judged(&planted.job, &planted.answer(), false);
        pair.offered[flipped / 8] ^= 128 >> (flipped % 8);
        pair.flipped = Some(flipped);
        pair
    }
}

impl Vector {
    pub fn pair(self, random: &mut Random) -> Pair {
        loop {
            let planted = self.planted(random);
            let mut offered = planted.full_answer();
            self.alter(random, &planted, &mut offered);
            if offered.pack(&planted.job) == planted.answer().pack(&planted.job) {
                continue;
            }
            if random.once_in(2) {
                let Answer {
                    denominator,
                    numerators,
                    ..
                } = &offered;
                offered.word = wrong_rows(&planted.job, denominator, numerators);
            }
            return Pair::judged(&planted.job, &offered, false);
        }
    }

    /// A job with an answer that can be altered so.
    fn planted(self, random: &mut Random) -> Planted {
        match self {
            Vector::Multiplied => solvable_of(random, Shape::CommonFactor),
            Vector::ZeroNumerators => loop {
                let planted = solvable_of(random, Shape::AllZero);
                if planted.job.denominator_bound > 0 {
                    return planted;
                }
            },
            Vector::NumeratorsSwapped => solvable(random, |planted| planted.job.outputs() > 1),
            _ => solvable(random, |_| true),
        }
    }

    fn alter(self, random: &mut Random, planted: &Planted, offered: &mut Answer) {
        let prime = planted.job.prime();
        let last = coefficients(offered).len() - 1;
        match self {
            Vector::Scaled => {
                let factor = random.between(2, prime as usize - 1) as u32;
                multiply(offered, &Polynomial::new(vec![factor]), prime);
            }
            Vector::Multiplied => multiply(offered, &planted.common_factor, prime),
            Vector::ZeroNumerators => draw_denominator(random, prime, offered),
            Vector::ZeroDenominator => {
                offered.denominator.fill(0);
                if random.once_in(2) {
                    coefficients(offered).into_iter().for_each(|each| *each = 0);
                }
            }
            Vector::PlusPrime => add_multiple(random, prime, offered),
            Vector::PrimeOrMore => {
                let number = random.between(prime as usize, 65535) as u32;
                let number = random.one_of(&[prime, number]);
                *coefficients(offered)[random.between(0, last)] = number;
            }
            Vector::NumeratorsSwapped => {
                let count = offered.numerators.len();
                let first = random.below(count);
                let second = (first + random.between(1, count - 1)) % count;
                offered.numerators.swap(first, second);
            }
            Vector::FirstCoefficient => replace(random, prime, offered, 0),
            Vector::LastCoefficient => replace(random, prime, offered, last),
            Vector::AnyCoefficient => {
                let place = random.between(0, last);
                replace(random, prime, offered, place);
            }
            Vector::OtherOrder => reorder(random, offered),
        }
    }
}

/// g, then every f.
fn polynomials(answer: &mut Answer) -> impl Iterator<Item = &mut Vec<u32>> {
    std::iter::once(&mut answer.denominator).chain(&mut answer.numerators)
}

/// All coefficients in the answer's order.
fn coefficients(answer: &mut Answer) -> Vec<&mut u32> {
    polynomials(answer).flatten().collect()
}

/// Multiplies g and every f.
fn multiply(answer: &mut Answer, factor: &Polynomial, prime: u32) {
    for list in polynomials(answer) {
        let product = Polynomial::new(list.clone()).times(factor, Field::new(prime));
        *list = product.coefficients().to_vec();
    }
}

/// Takes a g of positive degree with leading coefficient 1 in place of g = 1.
fn draw_denominator(random: &mut Random, prime: u32, answer: &mut Answer) {
    let degree = random.between(1, answer.denominator.len() - 1);
    for coefficient in &mut answer.denominator[..degree] {
        *coefficient = random.residue(prime);
    }
    answer.denominator[degree] = 1;
}

/// Adds p or a multiple of it to a coefficient that leaves room; the leading one of g always does.
fn add_multiple(random: &mut Random, prime: u32, answer: &mut Answer) {
    let mut all = coefficients(answer);
    all.retain(|coefficient| **coefficient + prime <= 65535);
    let chosen = random.below(all.len());
    let most = (65535 - *all[chosen]) / prime;
    let factor = match random.once_in(2) {
        true => 1,
        false => random.between(1, most as usize) as u32,
    };
    *all[chosen] += factor * prime;
}

/// Takes another coefficient below p.
fn replace(random: &mut Random, prime: u32, answer: &mut Answer, place: usize) {
    let added = random.between(1, prime as usize - 1) as u32;
    let mut all = coefficients(answer);
    *all[place] = Field::new(prime).add(*all[place], added);
}

fn reorder(random: &mut Random, answer: &mut Answer) {
    let start = answer.denominator.len();
    let all = coefficients(answer);
    let mut numbers: Vec<u32> = all.iter().map(|number| **number).collect();
    match random.below(3) {
        0 => return polynomials(answer).for_each(|list| list.reverse()),
        1 => numbers.rotate_left(start),
        _ => {
            let swapped = |number: &mut u32| *number = u32::from((*number as u16).swap_bytes());
            numbers.iter_mut().for_each(swapped);
        }
    }
    for (place, number) in all.into_iter().zip(numbers) {
        *place = number;
    }
}
