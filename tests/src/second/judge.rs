//! The second judge: items 3, 5 and 6 of paper 02, written from these alone. It recovers the job, which the
//! library's judge must not do, and compares.

use super::{answer_bytes, reader, solve};
use hanthuvelo::Judgement;

/// Whether the offered bytes are those of the job's answer; or the refusal, of the job first.
pub fn judge(job: &[u8], offered: &[u8]) -> Judgement {
    let problem = match reader::read_form(job) {
        Ok(problem) => problem,
        Err(refusal) => return Judgement::refused(refusal.number, refusal.row),
    };
    if offered.len() != reader::answer_length(&problem) {
        return Judgement::refused(3, 0);
    }
    let is_the_answer =
        solve(&problem).is_some_and(|solution| answer_bytes(&problem, &solution) == offered);
    Judgement::judged(is_the_answer)
}
