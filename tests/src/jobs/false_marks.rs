//! Jobs that are refused for their marked rows: too few rows speak, a mark is no mark, or the flag is missing.

use super::faults::silence;
use super::faulty::{faulty, job_with_rows, sound_job};
use super::random::Random;
use super::{new_job, Expected, GeneratedJob, Kind};
use crate::layout::{HeaderForm, Job, Mark};

/// Too few rows speak, refused with 12; at times a point is repeated besides, or the area is too short.
pub fn too_few_speaking(random: &mut Random) -> GeneratedJob {
    let mut kinds = vec![Kind::Refused12];
    let mut job = job_with_rows(random, &mut kinds);
    silence(random, &mut job);
    let needed = job.answer_length();
    let area_length = match random.below(3) {
        0 => {
            kinds.push(Kind::Refused12And7);
            random.below(needed)
        }
        1 => {
            kinds.push(Kind::Refused12And6);
            job.rows[1].point = job.rows[0].point;
            random.below(300)
        }
        _ => needed + random.below(3),
    };
    let expected = Expected::Refused { number: 12, row: 0 };
    new_job(random, kinds, job.pack(), area_length, expected)
}

/// What is taken for a mark, and is none.
#[derive(Clone, Copy, Debug, PartialEq, Eq)]
pub enum FalseMark {
    /// Some values of a row are a mark, and others are residues.
    Partly,
    /// Both marks stand in one row.
    Mixed,
    /// The flag is not set: the short header, or the longer one.
    WithoutFlag,
    /// The point is 65535 or 65534, with values or with a mark.
    OfPoint,
}

impl FalseMark {
    /// Each in its turn.
    pub fn of_turn(turn: usize) -> FalseMark {
        let all = [
            FalseMark::Partly,
            FalseMark::Mixed,
            FalseMark::WithoutFlag,
            FalseMark::OfPoint,
        ];
        all[turn % all.len()]
    }

    /// A job with one such row, which is refused with 5. Often a point is repeated besides, or too few rows speak.
    pub fn job(self, random: &mut Random) -> GeneratedJob {
        let mut job = self.job_to_spoil(random);
        let row = random.below(job.rows.len());
        let two_faults = random.once_in(3);
        match random.once_in(2) {
            true if two_faults && job.header == HeaderForm::Flagged => silence(random, &mut job),
            _ if two_faults => job.rows[1].point = job.rows[0].point,
            _ => {}
        }
        self.put(random, &mut job, row);
        let kinds = vec![Kind::Refused5, self.kind(job.header)];
        faulty(random, kinds, two_faults, job.pack(), (5, row as u32))
    }

    fn kind(self, header: HeaderForm) -> Kind {
        match (self, header) {
            (FalseMark::Partly, _) => Kind::PartlyMarked,
            (FalseMark::Mixed, _) => Kind::MixedMarks,
            (FalseMark::WithoutFlag, HeaderForm::Short) => Kind::MarkUnderShortHeader,
            (FalseMark::WithoutFlag, _) => Kind::MarkWithoutFlag,
            (FalseMark::OfPoint, _) => Kind::PointWithMark,
        }
    }

    /// A well formed job that such a row can be put into, with two rows or more.
    fn job_to_spoil(self, random: &mut Random) -> Job {
        loop {
            let job = sound_job(random);
            let fits = match self {
                FalseMark::Partly | FalseMark::Mixed => {
                    job.header == HeaderForm::Flagged && job.outputs() > 1
                }
                FalseMark::WithoutFlag => job.header != HeaderForm::Flagged,
                FalseMark::OfPoint => job.header == HeaderForm::Flagged,
            };
            if fits && job.rows.len() > 1 {
                return job;
            }
        }
    }

    fn put(self, random: &mut Random, job: &mut Job, row: usize) {
        let (prime, outputs) = (job.prime(), job.outputs());
        let mark = random.one_of(&Mark::ALL);
        let row = &mut job.rows[row];
        match self {
            FalseMark::WithoutFlag => row.put(mark),
            FalseMark::OfPoint => {
                row.point = mark.number();
                if random.once_in(2) {
                    row.put(random.one_of(&Mark::ALL));
                }
            }
            FalseMark::Partly | FalseMark::Mixed => {
                row.put(mark);
                let other = random.below(outputs);
                for (output, value) in row.values.iter_mut().enumerate() {
                    // The first one that is replaced is sure to be, and one is sure to stay.
                    let is_replaced = output == other || random.once_in(3);
                    if is_replaced && output != (other + 1) % outputs {
                        *value = match self {
                            FalseMark::Mixed => Mark::ALL[usize::from(mark == Mark::Pole)].number(),
                            _ => random.residue(prime),
                        };
                    }
                }
            }
        }
    }
}
