//! The second margin, from item 7 of paper 02, in signed numbers.

use super::reader::{self, Problem};

/// S − df − dg − 2W for the job and this W; 0 where the form is refused, or where that is below 1.
pub fn margin(job: &[u8], wrong: u32) -> u32 {
    match reader::read_form(job) {
        Ok(problem) => u32::try_from(difference(&problem, wrong)).unwrap_or(0),
        Err(_) => 0,
    }
}

/// S − df − dg − 2W, whatever its sign.
pub fn difference(problem: &Problem, wrong: u32) -> i64 {
    let df = problem.numerator_bounds.iter().copied().max();
    let [speaking, df, dg] = [
        problem.speaking(),
        df.expect("an output"),
        problem.denominator_bound,
    ]
    .map(|count| count as i64);
    speaking - df - dg - 2 * i64::from(wrong)
}
