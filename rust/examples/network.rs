//! The job of `examples/lowpass.job`, made row by row, and recovered.

use hanthuvelo::{Bounds, Job, NumeratorBounds, Prime, Row};
use std::error::Error;

const FIRST: [u16; 10] = [1, 39, 40, 90, 12, 47, 41, 46, 53, 11];
const SECOND: [u16; 10] = [1, 78, 23, 61, 60, 88, 93, 93, 89, 13];

fn main() -> Result<(), Box<dyn Error>> {
    let mut job = Job::new(Bounds {
        prime: Prime::P97,
        outputs: 2,
        df: NumeratorBounds::Same(1),
        dg: 3,
        errors: 2,
    })?;
    for (point, values) in (0..).zip(FIRST.into_iter().zip(SECOND)) {
        job.push(Row::new(point, vec![values.0, values.1]))?;
    }
    let answer = job.recover()?;
    println!("f1 = {}", answer.fraction(0));
    println!("rows {:?} are wrong", answer.wrong_rows());
    Ok(())
}
