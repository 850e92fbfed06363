//! Rows that report poles or are silent, put into jobs with a known answer.

use super::fraction::Fraction;
use super::planted::free_point;
use super::random::Random;
use crate::layout::{value_at, Job, Mark, MOST_ROWS};

/// What the marked rows of a job are.
#[derive(Clone, Copy, Debug, PartialEq, Eq)]
pub enum Marks {
    /// Rows at roots of g report them, though not always all.
    Poles,
    /// The same, and each of these roots is one of the own denominator of one output alone.
    OwnPoles,
    /// More rows report a root of g than may be wrong.
    PolesAboveErrors,
    /// Rows are silent, at roots of g too, and none reports a root.
    Silent,
    /// Some are silent, and others report roots.
    PolesAndSilent,
}

impl Marks {
    pub const ALL: [Marks; 5] = [
        Marks::Poles,
        Marks::OwnPoles,
        Marks::PolesAboveErrors,
        Marks::Silent,
        Marks::PolesAndSilent,
    ];

    /// The least bound of every f, of g, and of both together.
    pub fn least(self) -> (usize, usize, usize) {
        match self {
            Marks::Silent => (0, 0, 0),
            _ => (0, 1, 1),
        }
    }

    fn has_silent_rows(self) -> bool {
        matches!(self, Marks::Silent | Marks::PolesAndSilent)
    }

    /// The most rows that speak, so that there is room for one that is silent, if one is to be.
    pub fn most_speaking(self, prime: u32) -> usize {
        MOST_ROWS.min(prime as usize) - usize::from(self.has_silent_rows())
    }

    /// Puts silent rows at free points into a job whose rows suffice without them: before the others, or anywhere among them.
    pub fn add_silent_rows(self, random: &mut Random, job: &mut Job) {
        if !self.has_silent_rows() {
            return;
        }
        let room = MOST_ROWS.min(job.prime() as usize) - job.rows.len();
        let few = room.min(2);
        let any = random.between(1, room);
        for _ in 0..random.one_of(&[1, few, any]) {
            let point = free_point(random, job);
            job.rows.insert(0, Mark::Silent.row(point, job.outputs()));
        }
        if self == Marks::PolesAndSilent {
            random.shuffle(&mut job.rows);
        }
    }

    /// How many of the first points g is to be zero at, or `None` where the bounds leave no such number.
    pub fn poles(self, random: &mut Random, job: &Job) -> Option<usize> {
        let dg = job.denominator_bound;
        let (least, most) = match self {
            Marks::PolesAboveErrors => (job.error_bound + 1, dg),
            Marks::Silent => (0, dg.min(job.marked(Mark::Silent).len())),
            _ => (1, dg),
        };
        (least <= most).then(|| random.between(least, most))
    }

    /// Lets rows at roots of g report them: all, or, where some may be wrong, at times all but some.
    pub fn report(self, random: &mut Random, job: &mut Job, fraction: &Fraction) {
        if self == Marks::Silent {
            return;
        }
        let is_strict = matches!(self, Marks::PolesAboveErrors) || job.error_bound == 0;
        let silent = job.marked(Mark::Silent);
        let (prime, is_rare) = (job.prime(), random.once_in(3));
        for (place, row) in job.rows.iter_mut().enumerate() {
            let is_root = value_at(fraction.denominator.coefficients(), row.point, prime) == 0;
            let is_left_out = !is_strict && is_rare && random.once_in(3);
            if is_root && !is_left_out && !silent.contains(&place) {
                row.put(Mark::Pole);
            }
        }
    }
}
