//! Jobs that no test refuses, of every size, to be checked as they are or altered.

use crate::jobs::planted::header_of_size;
use crate::jobs::random::Random;
use crate::layout::{HeaderForm, Job, Mark, MOST_ROWS, PRIMES};

/// How the points of the rows stand.
#[derive(Clone, Copy, Debug, PartialEq, Eq)]
pub enum Order {
    Rising,
    Falling,
    Shuffled,
}

impl Order {
    pub const ALL: [Order; 3] = [Order::Rising, Order::Falling, Order::Shuffled];
}

/// How many jobs of the same kind come before one, taken apart into choices: in the run of a kind
/// every combination of them comes.
pub struct Turn(usize);

impl Turn {
    pub fn new(count: usize) -> Turn {
        Turn(count)
    }

    pub fn below(&mut self, bound: usize) -> usize {
        let choice = self.0 % bound;
        self.0 /= bound;
        choice
    }

    /// A prime's code and a number of outputs.
    pub fn prime_and_outputs(&mut self) -> (usize, usize) {
        let prime_code = self.below(4);
        (prime_code, 1 + self.below(4))
    }
}

/// The most rows with different points.
pub fn most_rows(prime_code: usize) -> usize {
    MOST_ROWS.min(PRIMES[prime_code] as usize)
}

/// A prime's code, a number of outputs and a number of rows, so many at least.
pub fn sound_size(turn: &mut Turn, least_rows: usize) -> (usize, usize, usize) {
    let (prime_code, outputs) = turn.prime_and_outputs();
    let further_rows = turn.below(most_rows(prime_code) - least_rows + 1);
    (prime_code, outputs, least_rows + further_rows)
}

/// A job of this size that no test refuses. Its values mean nothing, so mostly it has no answer.
pub fn sound_job(random: &mut Random, size: (usize, usize, usize), order: Order) -> Job {
    let mut job = header_of_size(random, size);
    match order {
        Order::Rising => job.rows.sort_by_key(|row| row.point),
        Order::Falling => job.rows.sort_by_key(|row| u32::MAX - row.point),
        Order::Shuffled => {}
    }
    filled(random, job)
}

/// The same without marked rows, under any header.
pub fn job_without_marks(random: &mut Random, size: (usize, usize, usize), order: Order) -> Job {
    let mut job = sound_job(random, size, order);
    (0..job.rows.len()).for_each(|row| fill_row(random, &mut job, row));
    job
}

/// The job with other values below p, often the ends of the range. Where the header has the flag, some rows are marked, at
/// times all that can be.
pub fn filled(random: &mut Random, mut job: Job) -> Job {
    let share = random.one_of(&[1, 4, 8]);
    for row in 0..job.rows.len() {
        fill_row(random, &mut job, row);
        if job.header != HeaderForm::Flagged || !random.once_in(share) {
            continue;
        }
        let mark = match job.rows_to_spare() {
            0 => Mark::Pole,
            _ => random.one_of(&Mark::ALL),
        };
        job.rows[row].put(mark);
    }
    job
}

/// Puts values below p into a row.
pub fn fill_row(random: &mut Random, job: &mut Job, row: usize) {
    let prime = job.prime();
    for value in &mut job.rows[row].values {
        let drawn = random.residue(prime);
        *value = random.one_of(&[0, prime - 1, drawn, drawn]);
    }
}
