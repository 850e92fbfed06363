//! Faults that are put into sound jobs, each the cause of one refusal.

use super::form::{rising_rows, set_number};
use super::random::Random;
use crate::layout::{HeaderForm, Job, Mark};

/// Bytes missing, bytes too many, or another number of rows in the header, which stays whole.
pub fn change_length(random: &mut Random, bytes: &mut Vec<u8>) {
    let header = HeaderForm::of(bytes).length();
    match random.below(5) {
        0 => bytes.truncate(bytes.len() - 1),
        1 => bytes.truncate(random.between(header, bytes.len() - 1)),
        2 => bytes.push(random.byte()),
        3 => {
            let surplus = random.between(1, 400);
            bytes.extend(random.bytes(surplus));
        }
        _ => bytes[1] ^= 0x80,
    }
}

/// Rows are taken away, or df is raised, until one row or more is missing.
pub fn take_rows(random: &mut Random, job: &mut Job) {
    let needed = job.needed_rows();
    match random.below(3) {
        0 => job.rows.truncate(needed - 1),
        1 => job.rows.truncate(random.below(needed)),
        _ => raise_bound(random, job),
    }
}

/// Raises df until one row or more is missing: by every bound under the short header, by one of them under the longer one.
pub fn raise_bound(random: &mut Random, job: &mut Job) {
    let least = job.rows.len() - job.denominator_bound - 2 * job.error_bound;
    let df = random.between(least, 31);
    let raised = match job.header {
        HeaderForm::Short => &mut job.numerator_bounds[..],
        HeaderForm::OwnBounds | HeaderForm::Flagged => {
            let output = random.below(job.outputs());
            &mut job.numerator_bounds[output..=output]
        }
    };
    raised.fill(df);
}

/// Makes rows silent until one or more is missing among those that speak; the header gets the flag.
pub fn silence(random: &mut Random, job: &mut Job) {
    job.header = HeaderForm::Flagged;
    let fewest = random.below(job.needed_rows());
    let wanted = random.one_of(&[job.needed_rows() - 1, fewest]);
    while job.speaking() > wanted {
        let row = random.below(job.rows.len());
        job.rows[row].put(Mark::Silent);
    }
}

/// Puts those of the faults 4, 5, 12 and 6 that are named into a job of three rows or more. Returns the row that 5 speaks of.
pub fn put_faults(random: &mut Random, job: &mut Job, faults: &[u32]) -> usize {
    if faults.contains(&4) {
        raise_bound(random, job);
    }
    if faults.contains(&12) {
        silence(random, job);
    }
    let rows = rising_rows(random, (0..job.rows.len()).collect(), 3);
    if faults.contains(&6) {
        job.rows[rows[1]].point = job.rows[rows[0]].point;
    }
    // Mostly behind the row that 6 speaks of.
    let row = random.one_of(&[rows[0], rows[1], rows[2], rows[2]]);
    if faults.contains(&5) {
        let column = random.between(1, job.outputs());
        let number = large_number(random, job);
        set_number(job, row, column, number);
    }
    row
}

/// A number of p or more, often the least one. Under a header with the flag it is no mark.
pub fn large_number(random: &mut Random, job: &Job) -> u32 {
    let prime = job.prime();
    let highest = match job.header {
        HeaderForm::Flagged => 65533,
        _ => 65535,
    };
    let drawn = random.between(prime as usize, highest as usize) as u32;
    random.one_of(&[prime, prime + 1, highest, drawn])
}
