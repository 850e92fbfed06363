//! Pairs of a job and an answer that is offered for it: seeded and repeatable, labelled with what
//! they were made to be.

mod altered;
mod open;
mod own_bound;
mod refused;
mod right;
mod tally;
mod too_many;

use super::broken_header::Broken;
use super::planted::Planted;
use super::random::Random;
use super::{faulty, planned};
use crate::layout::{Answer, Job, Mark};
use altered::{Bit, Vector, Word};
use hanthuvelo::{hex, Judgement};
use open::Open;
use refused::{Fit, Length};
use right::Right;
pub use tally::Tally;
use too_many::TooMany;

/// What a pair was made to be.
#[derive(Clone, Copy, Debug, PartialEq, Eq)]
pub enum Kind {
    /// The job's answer.
    Right(Right),
    /// The job's answer with another word.
    Word(Word),
    /// The job's answer with one bit flipped.
    Bit(Bit),
    /// The job's answer with other coefficients. The word is the answer's, or marks the rows that
    /// are wrong for the others.
    Vector(Vector),
    /// A reduced vector for which more than E rows are wrong.
    TooMany(TooMany),
    /// A vector within df for every output, of which one f is cut at its own bound.
    CutAtOwnBound,
    /// The verdict is not known.
    Open(Open),
    /// The job's answer with another number of bytes.
    Length(Length),
    /// The job is refused with this number.
    Refused(u32, Fit),
    /// The job has the short header with the spare bit 1, and was once refused with 2.
    SpareBit(Fit),
    /// The job's added header breaks a rule, often with another fault.
    Broken(Fit),
    /// The same, and but for this fault of the job the offered answer would be its answer.
    Slight(u32),
}

#[derive(Clone, Copy, Debug, PartialEq, Eq)]
enum Verdict {
    Yes,
    No,
    Refused,
}

impl Kind {
    /// The verdict, where the kind fixes it.
    fn verdict(self) -> Option<Verdict> {
        match self {
            Kind::Right(_) => Some(Verdict::Yes),
            Kind::Word(_) | Kind::Bit(_) | Kind::Vector(_) => Some(Verdict::No),
            Kind::TooMany(_) | Kind::CutAtOwnBound => Some(Verdict::No),
            Kind::Length(_) | Kind::Refused(..) | Kind::Slight(_) => Some(Verdict::Refused),
            Kind::SpareBit(_) | Kind::Broken(_) => Some(Verdict::Refused),
            Kind::Open(_) => None,
        }
    }
}

/// What else is wrong where an added header is broken.
const OTHER_FAULTS: [u32; 7] = [0, 1, 3, 4, 5, 12, 6];

/// Each kind with its share.
const PLAN: [(Kind, usize); 64] = [
    (Kind::Right(Right::Any), 11),
    (Kind::Right(Right::Marked), 6),
    (Kind::Right(Right::AllZero), 2),
    (Kind::Right(Right::PartlyCommon), 4),
    (Kind::Right(Right::OtherAnswer), 2),
    (Kind::Right(Right::WrongRowAltered), 2),
    (Kind::Word(Word::RowMore), 2),
    (Kind::Word(Word::RowLess), 2),
    (Kind::Word(Word::RowsSwapped), 2),
    (Kind::Word(Word::NoSuchRow), 2),
    (Kind::Word(Word::SilentRow), 2),
    (Kind::Word(Word::RightPole), 2),
    (Kind::Word(Word::FalsePole), 2),
    (Kind::Bit(Bit::OfAnyAnswer), 4),
    (Kind::Bit(Bit::OfLongestAnswer), 5),
    (Kind::Vector(Vector::Scaled), 2),
    (Kind::Vector(Vector::Multiplied), 4),
    (Kind::Vector(Vector::ZeroNumerators), 2),
    (Kind::Vector(Vector::ZeroDenominator), 2),
    (Kind::Vector(Vector::PlusPrime), 3),
    (Kind::Vector(Vector::PrimeOrMore), 2),
    (Kind::Vector(Vector::NumeratorsSwapped), 2),
    (Kind::Vector(Vector::FirstCoefficient), 2),
    (Kind::Vector(Vector::LastCoefficient), 2),
    (Kind::Vector(Vector::AnyCoefficient), 2),
    (Kind::Vector(Vector::OtherOrder), 2),
    (Kind::TooMany(TooMany::AllMarked), 4),
    (Kind::TooMany(TooMany::OneNotMarked), 2),
    (Kind::TooMany(TooMany::Spoiled), 3),
    (Kind::TooMany(TooMany::FalsePoles), 2),
    (Kind::CutAtOwnBound, 2),
    (Kind::Open(Open::RandomVector), 4),
    (Kind::Open(Open::DamagedJob), 2),
    (Kind::Open(Open::RandomBytes), 1),
    (Kind::Length(Length::Empty), 1),
    (Kind::Length(Length::ByteMissing), 1),
    (Kind::Length(Length::ByteMore), 1),
    (Kind::Length(Length::Shorter), 1),
    (Kind::Length(Length::Longer), 1),
    (Kind::Length(Length::NumeratorsToDg), 1),
    (Kind::Length(Length::NumeratorsToDf), 1),
    (Kind::Length(Length::WithoutWord), 1),
    (Kind::Refused(1, Fit::RightLength), 1),
    (Kind::SpareBit(Fit::RightLength), 1),
    (Kind::Broken(Fit::RightLength), 3),
    (Kind::Refused(3, Fit::RightLength), 1),
    (Kind::Refused(4, Fit::RightLength), 1),
    (Kind::Refused(5, Fit::RightLength), 1),
    (Kind::Refused(12, Fit::RightLength), 1),
    (Kind::Refused(6, Fit::RightLength), 1),
    (Kind::Refused(1, Fit::OtherLength), 1),
    (Kind::SpareBit(Fit::OtherLength), 1),
    (Kind::Broken(Fit::OtherLength), 3),
    (Kind::Refused(3, Fit::OtherLength), 1),
    (Kind::Refused(4, Fit::OtherLength), 1),
    (Kind::Refused(5, Fit::OtherLength), 1),
    (Kind::Refused(12, Fit::OtherLength), 1),
    (Kind::Refused(6, Fit::OtherLength), 1),
    (Kind::Slight(11), 1),
    (Kind::Slight(3), 1),
    (Kind::Slight(4), 1),
    (Kind::Slight(5), 1),
    (Kind::Slight(12), 1),
    (Kind::Slight(6), 1),
];

/// A job and an answer that is offered for it.
pub struct Pair {
    pub seed: u64,
    pub index: u64,
    pub kind: Kind,
    pub job: Vec<u8>,
    pub offered: Vec<u8>,
    /// None where it is not known.
    pub expected: Option<Judgement>,
    /// The place of the bit that was flipped, if one was.
    flipped: Option<usize>,
    /// How the job's added header is broken, if it was made so.
    broken: Option<Broken>,
}

/// The pair of this number in the run of this seed.
pub fn generate(seed: u64, index: u64) -> Pair {
    let mut random = Random::new(seed, index);
    let (kind, turn) = planned(&PLAN, index);
    let mut pair = match kind {
        Kind::Right(right) => right.pair(&mut random),
        Kind::Word(word) => word.pair(&mut random),
        Kind::Bit(bit) => bit.pair(&mut random, turn),
        Kind::Vector(vector) => vector.pair(&mut random),
        Kind::TooMany(too_many) => too_many.pair(&mut random),
        Kind::Open(open) => open.pair(&mut random),
        Kind::Length(length) => length.pair(&mut random),
        Kind::CutAtOwnBound => own_bound::pair(&mut random),
        Kind::Refused(number, fit) => {
            let job = faulty::refused(&mut random, number);
            refused::pair(&mut random, job, fit)
        }
        Kind::SpareBit(fit) => {
            let job = faulty::spare_bit(&mut random);
            refused::pair(&mut random, job, fit)
        }
        Kind::Broken(fit) => {
            let broken = Broken::of_turn(turn, &OTHER_FAULTS);
            let job = faulty::broken(&mut random, broken);
            refused::pair(&mut random, job, fit)
        }
        Kind::Slight(number) => refused::slight_pair(&mut random, number),
    };
    pair.seed = seed;
    pair.index = index;
    pair.kind = kind;
    pair
}

impl Pair {
    fn new(job: Vec<u8>, offered: Vec<u8>, expected: Option<Judgement>) -> Pair {
        Pair {
            seed: 0,
            index: 0,
            kind: PLAN[0].0,
            job,
            offered,
            expected,
            flipped: None,
            broken: None,
        }
    }

    /// A pair that is judged, and how.
    fn judged(job: &Job, offered: &Answer, is_the_answer: bool) -> Pair {
        let judgement = Judgement::judged(is_the_answer);
        Pair::new(job.pack(), offered.pack(job), Some(judgement))
    }

    /// Everything needed to try the pair again.
    pub fn describe(&self) -> String {
        format!(
            "seed {} pair {} {:?} {:?}\njob {}\noffered {}",
            self.seed,
            self.index,
            self.kind,
            self.broken,
            hex::text(&self.job),
            hex::text(&self.offered)
        )
    }
}

impl Planted {
    /// The planted answer with zeros up to the bounds.
    fn full_answer(&self) -> Answer {
        Answer::unpack(&self.answer().pack(&self.job), &self.job)
    }

    /// The rows that are wrong for the planted answer, and those that are right; silent ones are neither.
    fn wrong_and_right_rows(&self) -> (Vec<usize>, Vec<usize>) {
        let rows = 0..self.job.rows.len();
        let speaking = rows.filter(|&row| !self.job.is_marked(row, Mark::Silent));
        speaking.partition(|row| self.word << row >> 31 == 1)
    }

    /// The rows that report a pole wrongly, and those that do rightly.
    fn wrong_and_right_poles(&self) -> (Vec<usize>, Vec<usize>) {
        let (mut wrong, mut right) = self.wrong_and_right_rows();
        for rows in [&mut wrong, &mut right] {
            rows.retain(|&row| self.job.is_marked(row, Mark::Pole));
        }
        (wrong, right)
    }
}
