//! The second check of a job's form: the refusals 1, 11, 3, 4, 5, 12 and 6, by the second reader.

use super::reader;
use hanthuvelo::Form;

/// The first of the refusals 1, 11, 3, 4, 5, 12 and 6 that applies to the job, if one does.
pub fn check(job: &[u8]) -> Form {
    match reader::read_form(job) {
        Ok(_) => Form::ACCEPTED,
        Err(refusal) => Form::refused(refusal.number, refusal.row),
    }
}
