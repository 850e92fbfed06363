//! Jobs for the check of a job's form: seeded and repeatable, labelled with what they were made to be.

mod both;
mod crowded;
mod large;
mod repeated;
mod sound;
mod tally;

use super::broken_header::Broken;
use super::false_marks::FalseMark;
pub use super::faults::{raise_bound, silence};
use super::random::Random;
use super::{faulty, planned, GeneratedJob};
use crate::layout::Job;
use hanthuvelo::{hex, Form};
pub use large::set_number;
use large::Large;
pub use repeated::rising_rows;
use repeated::Repeated;
pub use sound::{job_without_marks, most_rows, sound_job, Order};
use sound::{sound_size, Turn};
pub use tally::Tally;

/// What a job was made to be.
#[derive(Clone, Copy, Debug, PartialEq, Eq)]
pub enum Kind {
    /// One of those that the recoveries are compared on.
    AsRecovered,
    /// No test refuses it, and its points stand in this order.
    Accepted(Order),
    /// Refused with this number, often with another fault behind.
    Refused(u32),
    /// Refused with 5 for what is no mark.
    FalseMark,
    /// Too few rows speak, and nothing else is wrong.
    Silenced,
    /// One number is p or more.
    Large,
    /// Points stand in earlier rows too.
    Repeated(Repeated),
    /// More rows than p, which is 7: refused with this number.
    Crowded(u32),
    /// Two faults, with these numbers.
    Both(u32, u32),
    /// The short header with the spare bit 1, once refused with 2.
    SpareBit,
    /// The added header breaks a rule, often with another fault.
    Broken,
    /// Nothing is known of its form.
    Damaged,
    RandomBytes,
}

impl Kind {
    /// The refusal's number, 0 for none, where the kind fixes it.
    fn refusal(self) -> Option<u32> {
        match self {
            Kind::Accepted(_) => Some(0),
            Kind::Refused(number) | Kind::Crowded(number) | Kind::Both(number, _) => Some(number),
            Kind::Large | Kind::FalseMark => Some(5),
            Kind::Silenced => Some(12),
            Kind::Repeated(_) => Some(6),
            Kind::SpareBit | Kind::Broken => None,
            Kind::AsRecovered | Kind::Damaged | Kind::RandomBytes => None,
        }
    }
}

/// What else is wrong where an added header is broken.
const OTHER_FAULTS: [u32; 7] = [0, 1, 3, 4, 5, 12, 6];

/// Each kind with its share.
const PLAN: [(Kind, usize); 35] = [
    (Kind::AsRecovered, 14),
    (Kind::Accepted(Order::Rising), 4),
    (Kind::Accepted(Order::Falling), 4),
    (Kind::Accepted(Order::Shuffled), 4),
    (Kind::Refused(1), 4),
    (Kind::SpareBit, 4),
    (Kind::Broken, 6),
    (Kind::Refused(3), 4),
    (Kind::Refused(4), 4),
    (Kind::Refused(5), 4),
    (Kind::FalseMark, 6),
    (Kind::Refused(12), 2),
    (Kind::Silenced, 8),
    (Kind::Refused(6), 4),
    (Kind::Large, 14),
    (Kind::Repeated(Repeated::Neighbours), 4),
    (Kind::Repeated(Repeated::FarApart), 4),
    (Kind::Repeated(Repeated::FirstAndLast), 4),
    (Kind::Repeated(Repeated::Several), 4),
    (Kind::Repeated(Repeated::ThreeTimes), 4),
    (Kind::Crowded(5), 2),
    (Kind::Crowded(12), 2),
    (Kind::Crowded(6), 2),
    (Kind::Both(3, 4), 1),
    (Kind::Both(3, 5), 1),
    (Kind::Both(3, 6), 1),
    (Kind::Both(4, 5), 1),
    (Kind::Both(4, 6), 1),
    (Kind::Both(5, 6), 1),
    (Kind::Both(3, 12), 1),
    (Kind::Both(4, 12), 1),
    (Kind::Both(5, 12), 1),
    (Kind::Both(12, 6), 1),
    (Kind::Damaged, 2),
    (Kind::RandomBytes, 2),
];

/// A job whose form is checked.
pub struct FormJob {
    pub seed: u64,
    pub index: u64,
    pub kind: Kind,
    pub bytes: Vec<u8>,
    /// None where it is not known.
    pub expected: Option<Form>,
    /// The number that is p or more, if that is the job's only fault.
    large: Option<Large>,
    broken: Option<Broken>,
}

/// The job of this number in the run of this seed.
pub fn generate(seed: u64, index: u64) -> FormJob {
    let random = &mut Random::new(seed, index);
    let (kind, count) = planned(&PLAN, index);
    let turn = &mut Turn::new(count);
    let mut job = match kind {
        Kind::AsRecovered => FormJob::of(super::generate(seed, count as u64)),
        Kind::Accepted(order) => {
            let size = sound_size(turn, 1);
            FormJob::accepted(&sound_job(random, size, order))
        }
        Kind::Refused(number) => FormJob::of(faulty::refused(random, number)),
        Kind::FalseMark => FormJob::of(FalseMark::of_turn(count).job(random)),
        Kind::Silenced => {
            let mut job = sound_job(random, sound_size(turn, 1), Order::ALL[turn.below(3)]);
            silence(random, &mut job);
            FormJob::refused(job.pack(), 12, 0)
        }
        Kind::Large => large::job(random, turn),
        Kind::Repeated(repeated) => repeated.job(random, turn),
        Kind::Crowded(number) => crowded::job(random, turn, number),
        Kind::Both(first, second) => both::job(random, turn, first, second),
        Kind::SpareBit => FormJob::of(faulty::spare_bit(random)),
        Kind::Broken => {
            let broken = Broken::of_turn(count, &OTHER_FAULTS);
            FormJob::of(faulty::broken(random, broken))
        }
        Kind::Damaged => FormJob::of(faulty::damaged(random)),
        Kind::RandomBytes => FormJob::of(faulty::random_bytes(random)),
    };
    job.seed = seed;
    job.index = index;
    job.kind = kind;
    job
}

impl FormJob {
    fn new(bytes: Vec<u8>, expected: Option<Form>) -> FormJob {
        FormJob {
            seed: 0,
            index: 0,
            kind: PLAN[0].0,
            bytes,
            expected,
            large: None,
            broken: None,
        }
    }

    fn of(job: GeneratedJob) -> FormJob {
        let expected = job.expected.form();
        FormJob {
            broken: job.broken,
            ..FormJob::new(job.bytes, expected)
        }
    }

    fn accepted(job: &Job) -> FormJob {
        FormJob::new(job.pack(), Some(Form::ACCEPTED))
    }

    fn refused(bytes: Vec<u8>, number: u32, row: usize) -> FormJob {
        FormJob::new(bytes, Some(Form::refused(number, row as u32)))
    }

    /// Everything needed to try the job again.
    pub fn describe(&self) -> String {
        format!(
            "seed {} job {} {:?} {:?}\njob bytes {}",
            self.seed,
            self.index,
            self.kind,
            self.broken,
            hex::text(&self.bytes)
        )
    }
}
