//! The margin of an answer, by the plain reader.

use super::reader;

/// S − df − dg − 2W for the job and this W; 0 where the form is refused, or where that is below 1.
pub fn margin(job: &[u8], wrong: u32) -> u32 {
    let Ok(problem) = reader::read(job, usize::MAX) else {
        return 0;
    };
    let df = problem.numerator_bounds.iter().max().expect("four bounds");
    let others = df + problem.denominator_bound + 2 * wrong as usize;
    let speaking = problem.speaking();
    match others < speaking {
        true => (speaking - others) as u32,
        false => 0,
    }
}
