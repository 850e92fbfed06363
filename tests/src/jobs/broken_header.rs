//! The added header with a broken rule: every way to break it, alone, with a fault that is tested later, or with too few
//! bytes.

use super::faults::{change_length, put_faults};
use super::random::Random;
use crate::layout::Job;

/// A way to break a rule of the added header.
#[derive(Clone, Copy, Debug, PartialEq, Eq)]
pub enum Breach {
    /// A bound for an output that does not exist, at this place: 1 is that of f2.
    AbsentBound(usize),
    /// df is the bound of the first output that does not exist, and above those that do.
    DfOfAbsent,
    DfAboveLargest,
    DfBelowLargest,
    /// A flag is set other than the first: 1 is the second of the twelve.
    Flag(usize),
}

impl Breach {
    pub const ALL: [Breach; 17] = [
        Breach::AbsentBound(1),
        Breach::AbsentBound(2),
        Breach::AbsentBound(3),
        Breach::DfOfAbsent,
        Breach::DfAboveLargest,
        Breach::DfBelowLargest,
        Breach::Flag(1),
        Breach::Flag(2),
        Breach::Flag(3),
        Breach::Flag(4),
        Breach::Flag(5),
        Breach::Flag(6),
        Breach::Flag(7),
        Breach::Flag(8),
        Breach::Flag(9),
        Breach::Flag(10),
        Breach::Flag(11),
    ];

    /// Whether the header of a job can be broken so.
    pub fn fits(self, job: &Job) -> bool {
        let has_place = match self {
            Breach::AbsentBound(place) => job.outputs() <= place,
            Breach::DfOfAbsent => job.outputs() < 4 && job.numerator_bound() < 31,
            _ => true,
        };
        has_place && job.header.has_own_bounds()
    }

    /// Breaks the sound header at the start of a job's bytes so, and in no other way.
    pub fn apply(self, random: &mut Random, bytes: &mut [u8]) {
        match self {
            Breach::AbsentBound(place) => {
                let any = random.between(1, 31);
                set_bound(bytes, place, random.one_of(&[1, any]));
            }
            Breach::DfOfAbsent => {
                let job = Job::unpack(bytes);
                let df = random.between(job.numerator_bound() + 1, 31);
                set_df(bytes, df);
                set_bound(bytes, job.outputs(), df);
            }
            Breach::DfAboveLargest => separate(random, bytes, true),
            Breach::DfBelowLargest => separate(random, bytes, false),
            Breach::Flag(place) => {
                let flags = u16::from_be_bytes([bytes[5], bytes[6]]) | 0x0800 >> place;
                bytes[5..7].copy_from_slice(&flags.to_be_bytes());
            }
        }
    }
}

/// Makes df larger than every bound, or smaller than one: by another df, or by other bounds.
fn separate(random: &mut Random, bytes: &mut [u8], is_above: bool) {
    let job = Job::unpack(bytes);
    let df = job.numerator_bound();
    let rises = df == 0 || df < 31 && random.once_in(2);
    let (near, far) = if rises { (df + 1, 31) } else { (df - 1, 0) };
    let any = random.between(near.min(far), near.max(far));
    let number = random.one_of(&[near, any]);
    if rises == is_above {
        set_df(bytes, number);
        return;
    }
    let chosen = random.below(job.outputs());
    for (place, &bound) in job.numerator_bounds.iter().enumerate() {
        if bound == df && is_above || place == chosen && !is_above {
            set_bound(bytes, place, number);
        }
    }
}

/// Replaces df.
fn set_df(bytes: &mut [u8], df: usize) {
    bytes[1] = bytes[1] & 0x83 | (df << 2) as u8;
}

/// Replaces one of the four bounds.
fn set_bound(bytes: &mut [u8], place: usize, bound: usize) {
    let low = 27 - 5 * place;
    let word = u32::from_be_bytes([bytes[3], bytes[4], bytes[5], bytes[6]]);
    let word = word & !(31 << low) | (bound as u32) << low;
    bytes[3..7].copy_from_slice(&word.to_be_bytes());
}

/// A broken added header, and what else is wrong.
#[derive(Clone, Copy, Debug, PartialEq, Eq)]
pub struct Broken {
    pub breach: Breach,
    /// The number of a refusal whose cause is there too, 0 where there is none.
    pub other: u32,
}

impl Broken {
    /// The combination for this number of a run: every way to break the header with each of these other numbers comes.
    pub fn of_turn(turn: usize, others: &[u32]) -> Broken {
        let ways = Breach::ALL.len();
        Broken {
            breach: Breach::ALL[turn % ways],
            other: others[turn / ways % others.len()],
        }
    }

    /// Refusal 1 is tested before 11, and all others after it.
    pub fn refusal(self) -> u32 {
        match self.other {
            1 => 1,
            _ => 11,
        }
    }

    /// Whether this can be put into a sound job.
    pub fn fits(self, job: &Job) -> bool {
        self.breach.fits(job) && job.rows.len() >= 3
    }

    /// The bytes of a sound job with this put in; an area that is too short is the caller's part.
    pub fn bytes(self, random: &mut Random, mut job: Job) -> Vec<u8> {
        put_faults(random, &mut job, &[self.other]);
        let mut bytes = job.pack();
        self.breach.apply(random, &mut bytes);
        match self.other {
            1 => bytes.truncate(random.between(3, 6)),
            3 => change_length(random, &mut bytes),
            _ => {}
        }
        bytes
    }
}
