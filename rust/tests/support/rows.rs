//! Rows by this crate's types, from jobs of the outside checks.

use hanthuvelo::Row;
use outside_checks::layout::{self, Mark};

/// The row of a job, with its mark if it has one.
pub fn row_of(job: &layout::Job, row: &layout::Row) -> Row {
    let number = |&number: &u32| u16::try_from(number).expect("16 bits");
    let point = number(&row.point);
    match job.mark(row) {
        None => Row::new(point, row.values.iter().map(number).collect()),
        Some(Mark::Pole) => Row::pole(point),
        Some(Mark::Silent) => Row::silent(point),
    }
}
