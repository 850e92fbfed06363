//! Jobs of which one number is p or more.

use super::sound::{fill_row, job_without_marks, most_rows, sound_job, Order, Turn};
use super::FormJob;
use crate::jobs::random::Random;
use crate::layout::{HeaderForm, Job, PRIMES};

/// Which row the number stands in.
#[derive(Clone, Copy, Debug, PartialEq, Eq, PartialOrd, Ord)]
enum Place {
    First,
    Middle,
    Last,
}

/// The number that is p or more, and where it stands: column 0 has the points.
#[derive(Clone, Copy, Debug, PartialEq, Eq, PartialOrd, Ord)]
pub struct Large {
    prime_code: usize,
    outputs: usize,
    column: usize,
    place: Place,
    number: u32,
}

impl Large {
    /// The four primes, every column of one to four outputs, three places and three numbers.
    pub const COMBINATIONS: usize = 4 * (2 + 3 + 4 + 5) * 3 * 3;

    fn new(turn: &mut Turn) -> Large {
        let (prime_code, outputs) = turn.prime_and_outputs();
        let prime = PRIMES[prime_code];
        Large {
            prime_code,
            outputs,
            column: turn.below(1 + outputs),
            place: [Place::First, Place::Middle, Place::Last][turn.below(3)],
            number: [prime, prime + 1, 65535][turn.below(3)],
        }
    }

    fn row_count(self, random: &mut Random) -> usize {
        let least = match self.place {
            Place::Middle => 3,
            _ => 1,
        };
        random.between(least, most_rows(self.prime_code))
    }

    fn row(self, random: &mut Random, row_count: usize) -> usize {
        match self.place {
            Place::First => 0,
            Place::Middle => random.between(1, row_count - 2),
            Place::Last => row_count - 1,
        }
    }
}

pub fn job(random: &mut Random, turn: &mut Turn) -> FormJob {
    let large = Large::new(turn);
    let row_count = large.row_count(random);
    let order = random.one_of(&Order::ALL);
    let size = (large.prime_code, large.outputs, row_count);
    let mut job = match large.outputs {
        // A row whose only value is 65535 would be marked under the flag.
        1 => job_without_marks(random, size, order).under(HeaderForm::OwnBounds),
        _ => sound_job(random, size, order),
    };
    let row = large.row(random, row_count);
    fill_row(random, &mut job, row);
    set_number(&mut job, row, large.column, large.number);
    FormJob {
        large: Some(large),
        ..FormJob::refused(job.pack(), 5, row)
    }
}

/// Replaces the number of a row in a column; column 0 has the points.
pub fn set_number(job: &mut Job, row: usize, column: usize, number: u32) {
    match column {
        0 => job.rows[row].point = number,
        _ => job.rows[row].values[column - 1] = number,
    }
}
