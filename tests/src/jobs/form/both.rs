//! Jobs with two faults, of which the one that is tested first is named.

use super::sound::{most_rows, sound_job, Order, Turn};
use super::FormJob;
use crate::jobs::faults::{change_length, put_faults};
use crate::jobs::random::Random;

/// Numbers of 3, 4, 5, 12 and 6, which are tested in this order.
pub fn job(random: &mut Random, turn: &mut Turn, first: u32, second: u32) -> FormJob {
    let (prime_code, outputs) = turn.prime_and_outputs();
    let row_count = random.between(3, most_rows(prime_code));
    let order = random.one_of(&Order::ALL);
    let mut job = sound_job(random, (prime_code, outputs, row_count), order);
    let named = put_faults(random, &mut job, &[first, second]);
    let mut bytes = job.pack();
    if first == 3 {
        change_length(random, &mut bytes);
    }
    FormJob::refused(bytes, first, if first == 5 { named } else { 0 })
}
