//! Jobs of which some points stand in earlier rows too.

use super::sound::{sound_job, sound_size, Order, Turn};
use super::FormJob;
use crate::jobs::random::Random;
use crate::layout::Job;

/// Which rows have the same point.
#[derive(Clone, Copy, Debug, PartialEq, Eq)]
pub enum Repeated {
    Neighbours,
    /// With a row between them or more.
    FarApart,
    FirstAndLast,
    /// Two rows or three have the points of earlier ones.
    Several,
    /// Three rows have one point.
    ThreeTimes,
}

impl Repeated {
    pub fn job(self, random: &mut Random, turn: &mut Turn) -> FormJob {
        let least_rows = match self {
            Repeated::Neighbours | Repeated::FirstAndLast => 2,
            Repeated::FarApart | Repeated::ThreeTimes => 3,
            Repeated::Several => 4,
        };
        let size = sound_size(turn, least_rows);
        let mut job = sound_job(random, size, Order::ALL[turn.below(3)]);
        let pairs = self.pairs(random, job.rows.len());
        let (earlier, first) = pairs[0];
        if random.once_in(3) {
            let highest = job.prime() - 1;
            let point = random.one_of(&[0, highest]);
            move_point(&mut job, earlier, point);
        }
        for (earlier, later) in pairs {
            job.rows[later].point = job.rows[earlier].point;
        }
        FormJob::refused(job.pack(), 6, first)
    }

    /// Rows that get the points of earlier ones, the later rows rising.
    fn pairs(self, random: &mut Random, row_count: usize) -> Vec<(usize, usize)> {
        let last = row_count - 1;
        match self {
            Repeated::Neighbours => {
                let later = random.between(1, last);
                vec![(later - 1, later)]
            }
            Repeated::FarApart => {
                let later = random.between(2, last);
                vec![(random.below(later - 1), later)]
            }
            Repeated::FirstAndLast => vec![(0, last)],
            Repeated::Several => {
                let count = random.between(2, 3);
                let later_rows = rising_rows(random, (1..row_count).collect(), count);
                let pair = |later| (random.below(later), later);
                later_rows.into_iter().map(pair).collect()
            }
            Repeated::ThreeTimes => {
                let rows = rising_rows(random, (0..row_count).collect(), 3);
                vec![(rows[0], rows[1]), (rows[0], rows[2])]
            }
        }
    }
}

/// So many of these rows, rising.
pub fn rising_rows(random: &mut Random, mut rows: Vec<usize>, count: usize) -> Vec<usize> {
    random.shuffle(&mut rows);
    rows.truncate(count);
    rows.sort();
    rows
}

/// Gives a row this point; if another row has it, that one gets the row's.
fn move_point(job: &mut Job, row: usize, point: u32) {
    let before = job.rows[row].point;
    if let Some(other) = job.rows.iter_mut().find(|other| other.point == point) {
        other.point = before;
    }
    job.rows[row].point = point;
}
