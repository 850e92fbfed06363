//! Pairs that are refused: for the number of the offered bytes, or for a fault of the job.

use super::right::solvable;
use super::Pair;
use crate::jobs::broken_header::Breach;
use crate::jobs::planted::Planted;
use crate::jobs::random::Random;
use crate::jobs::{Expected, GeneratedJob};
use crate::layout::{wrong_rows, HeaderForm, Job, Mark, MOST_ROWS};
use hanthuvelo::Judgement;

/// The job's answer, with this done to its length.
#[derive(Clone, Copy, Debug, PartialEq, Eq)]
pub enum Length {
    Empty,
    ByteMissing,
    ByteMore,
    Shorter,
    Longer,
    /// dg + 1 coefficients of each f.
    NumeratorsToDg,
    /// df + 1 coefficients of each f, whose own bounds differ.
    NumeratorsToDf,
    WithoutWord,
}

/// Whether the offered bytes are as many as the job's header asks for.
#[derive(Clone, Copy, Debug, PartialEq, Eq)]
pub enum Fit {
    RightLength,
    OtherLength,
}

impl Length {
    pub fn pair(self, random: &mut Random) -> Pair {
        let planted = solvable(random, |planted| self.fits(&planted.job));
        let job = &planted.job;
        let mut offered = planted.answer().pack(job);
        let length = offered.len();
        match self {
            Length::Empty => offered.clear(),
            Length::ByteMissing => offered.truncate(length - 1),
            Length::ByteMore => offered.push(random.byte()),
            Length::Shorter => offered.truncate(random.between(1, length - 2)),
            Length::Longer => {
                let surplus = random.between(2, 300);
                offered.extend(any_bytes(random, surplus));
            }
            Length::NumeratorsToDg => offered.resize(to_dg(job), 0),
            Length::NumeratorsToDf => {
                offered = planted.answer().pack(&job.under(HeaderForm::Short))
            }
            Length::WithoutWord => drop(offered.drain(..4)),
        }
        Pair::new(job.pack(), offered, Some(Judgement::refused(3, 0)))
    }
}

impl Length {
    /// Whether the length that is offered for a job is another one than its answer's.
    fn fits(self, job: &Job) -> bool {
        match self {
            Length::NumeratorsToDg => to_dg(job) != job.answer_length(),
            Length::NumeratorsToDf => !job.has_equal_bounds(),
            _ => true,
        }
    }
}

/// How many bytes an answer with dg + 1 coefficients of each f has.
fn to_dg(job: &Job) -> usize {
    4 + 2 * (1 + job.outputs()) * (job.denominator_bound + 1)
}

/// A job that is refused, often with two faults, and anything for its answer.
pub fn pair(random: &mut Random, job: GeneratedJob, fit: Fit) -> Pair {
    let Expected::Refused { number, row } = job.expected else {
        panic!("the job is refused");
    };
    let right = right_length(&job.bytes);
    let offered = any_bytes(random, right);
    let mut pair = Pair::new(job.bytes, offered, Some(Judgement::refused(number, row)));
    pair.broken = job.broken;
    if fit == Fit::OtherLength {
        pair.change_length(random);
    }
    pair
}

/// How long the answer of a job is; bytes that its header lacks count as zeros.
pub fn right_length(job: &[u8]) -> usize {
    let mut header = [0; 7];
    let given = job.len().min(7);
    header[..given].copy_from_slice(&job[..given]);
    Job::unpack(&header).answer_length()
}

/// Random bytes, zeros, or zeros but for a denominator of 1.
pub fn any_bytes(random: &mut Random, length: usize) -> Vec<u8> {
    let mut bytes = match random.once_in(2) {
        true => return random.bytes(length),
        false => vec![0; length],
    };
    if length > 5 && random.once_in(2) {
        bytes[5] = 1;
    }
    bytes
}

impl Pair {
    /// Another number of offered bytes, often one more or one less.
    fn change_length(&mut self, random: &mut Random) {
        let length = self.offered.len();
        match random.below(5) {
            0 => self.offered.clear(),
            1 => self.offered.truncate(length - 1),
            2 => self.offered.truncate(random.between(1, length - 1)),
            3 => self.offered.push(0),
            _ => {
                let surplus = random.between(1, 300);
                self.offered.extend(any_bytes(random, surplus));
            }
        }
    }
}

/// A job with one fault, without which the offered answer would be the job's.
pub fn slight_pair(random: &mut Random, number: u32) -> Pair {
    let mut planted = solvable(random, |planted| planted.takes_fault(number));
    let mut row = 0;
    match number {
        4 => planted.job.rows.truncate(planted.job.needed_rows() - 1),
        5 => row = add_prime(random, &mut planted.job),
        12 => silence_one(random, &mut planted),
        6 => row = repeat_row(random, &mut planted),
        _ => {}
    }
    let job = &planted.job;
    planted.word = wrong_rows(job, &planted.denominator, &planted.numerators);
    let mut bytes = job.pack();
    match number {
        11 => {
            let breaches = Breach::ALL.into_iter().filter(|breach| breach.fits(job));
            let breaches: Vec<Breach> = breaches.collect();
            random.one_of(&breaches).apply(random, &mut bytes);
        }
        3 if random.once_in(2) => bytes.push(random.byte()),
        3 => drop(bytes.pop()),
        _ => {}
    }
    let expected = Judgement::refused(number, row as u32);
    let mut pair = Pair::new(bytes, planted.answer().pack(job), Some(expected));
    if random.once_in(4) {
        pair.change_length(random);
    }
    pair
}

impl Planted {
    fn takes_fault(&self, number: u32) -> bool {
        let prime = self.job.prime();
        match number {
            5 => numbers(&self.job).any(|(_, number)| number + prime <= HIGHEST),
            6 => self.job.rows.len() < MOST_ROWS,
            12 => self.job.header == HeaderForm::Flagged,
            11 => self.job.header.has_own_bounds(),
            _ => true,
        }
    }
}

/// The highest number that is no mark.
const HIGHEST: u32 = 65533;

/// Every point and value, with its row.
fn numbers(job: &Job) -> impl Iterator<Item = (usize, u32)> + '_ {
    let of_row = |row: &crate::layout::Row| {
        let point = std::iter::once(row.point);
        point.chain(row.values.clone()).collect::<Vec<u32>>()
    };
    let rows = job.rows.iter().map(of_row).enumerate();
    rows.flat_map(|(row, numbers)| numbers.into_iter().map(move |number| (row, number)))
}

/// Adds p to a point or a value, and returns its row.
fn add_prime(random: &mut Random, job: &mut Job) -> usize {
    let prime = job.prime();
    loop {
        let row = random.below(job.rows.len());
        let place = random.below(1 + job.outputs());
        let number = match place {
            0 => &mut job.rows[row].point,
            _ => &mut job.rows[row].values[place - 1],
        };
        if *number + prime <= HIGHEST {
            *number += prime;
            return row;
        }
    }
}

/// Lets all rows to spare be silent, and one more, so that the answer keeps as many wrong rows or has fewer.
fn silence_one(random: &mut Random, planted: &mut Planted) {
    while planted.job.speaking() >= planted.job.needed_rows() {
        let row = random.below(planted.job.rows.len());
        planted.job.rows[row].put(Mark::Silent);
    }
}

/// Puts a right row in a second time, and returns the place of the later one.
fn repeat_row(random: &mut Random, planted: &mut Planted) -> usize {
    let (_, right) = planted.wrong_and_right_rows();
    let row = random.one_of(&right);
    let copy = planted.job.rows[row].clone();
    let place = random.between(0, planted.job.rows.len());
    planted.job.rows.insert(place, copy);
    place.max(row + usize::from(place <= row))
}
