//! Jobs modulo 7 with more than 7 rows: refused with 5, 12 or 6.

use super::large::set_number;
use super::sound::{filled, sound_job, Order, Turn};
use super::FormJob;
use crate::jobs::faults::{large_number, silence};
use crate::jobs::random::Random;
use crate::layout::{Row, MOST_ROWS};

/// Refused with 6; with 12 where too few rows speak besides, or with 5 where a number is 7 or more.
pub fn job(random: &mut Random, turn: &mut Turn, number: u32) -> FormJob {
    let outputs = 1 + turn.below(4);
    let different = 1 + turn.below(7);
    let mut job = sound_job(random, (0, outputs, 7), Order::Shuffled);
    job.rows.truncate(different);
    let points: Vec<u32> = job.rows.iter().map(|row| row.point).collect();
    for row in different..random.between(8, MOST_ROWS) {
        let point = match row == different {
            true => random.one_of(&points),
            false => random.residue(7),
        };
        job.rows.push(Row {
            point,
            values: vec![0; outputs],
        });
    }
    let mut job = filled(random, job);
    match number {
        6 => FormJob::refused(job.pack(), 6, different),
        12 => {
            silence(random, &mut job);
            FormJob::refused(job.pack(), 12, 0)
        }
        _ => {
            let row = random.below(job.rows.len());
            let large = large_number(random, &job);
            set_number(&mut job, row, random.below(1 + outputs), large);
            FormJob::refused(job.pack(), 5, row)
        }
    }
}
