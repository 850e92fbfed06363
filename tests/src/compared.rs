//! Every check of a job's form beside a recovery, on the same bytes.

use crate::jobs::form::{job_without_marks, Order};
use crate::jobs::Random;
use crate::layout::Job;
use crate::{checkers, implementations, Checker, Implementation};
use hanthuvelo::{hex, Form, Report, LONGEST_ANSWER};

/// The checks that are compared, and a recovery.
pub struct Compared {
    pub checkers: Vec<Checker>,
    recovery: Implementation,
}

impl Default for Compared {
    fn default() -> Compared {
        Compared {
            checkers: checkers(),
            recovery: implementations()[0],
        }
    }
}

impl Compared {
    /// What every check finds, which must be the same, and as expected. A recovery without an area
    /// refuses alike, and with 7 where they find nothing.
    pub fn form(&self, job: &[u8], expected: Option<Form>, describe: &dyn Fn() -> String) -> Form {
        let agreed = expected.unwrap_or_else(|| (self.checkers[0].check)(job));
        for Checker { name, check } in &self.checkers {
            assert_eq!(check(job), agreed, "{name}\n{}", describe());
        }
        let report = (self.recovery.recover)(job, &mut []);
        let refused = match agreed {
            Form::ACCEPTED => Report::refused(7, 0),
            Form { refusal, row } => Report::refused(refusal, row),
        };
        assert_eq!(report, refused, "{}\n{}", self.recovery.name, describe());
        agreed
    }

    pub fn expect(&self, job: &[u8], form: Form) {
        self.form(job, Some(form), &|| hex::text(job));
    }

    /// A job of this size that no check refuses, without marked rows: of the prime's code, the outputs and the rows.
    pub fn sound(&self, random: &mut Random, size: (usize, usize, usize), order: Order) -> Job {
        let job = job_without_marks(random, size, order);
        self.expect(&job.pack(), Form::ACCEPTED);
        job
    }

    /// What a recovery with room for any answer reports, with the area.
    pub fn recovered(&self, job: &[u8]) -> (Report, [u8; LONGEST_ANSWER]) {
        let mut area = [0xA5; LONGEST_ANSWER];
        let report = (self.recovery.recover)(job, &mut area);
        (report, area)
    }
}
