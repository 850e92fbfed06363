//! Counts of a run of calls, with the floors below which it fails.

use super::fault::Fault;
use super::{Fields, TrialCall, OTHER_FAULTS};
use crate::jobs::header_tally::HeaderTally;
use crate::jobs::tally::{with_floors, Counts};
use crate::layout::{HeaderForm, Job};
use crate::second::TrialJob;
use hanthuvelo::Written;

/// Floors out of a thousand calls: of what they were made to be, and of what became of them.
const FLOORS: [(&str, usize); 39] = [
    ("exact area", 150),
    ("longer area", 300),
    ("common divisor of g and all f but one", 30),
    ("two faults", 80),
    ("damaged bytes", 5),
    ("damaged added header", 1),
    ("random bytes", 5),
    ("refused 1", 35),
    ("refused 11", 35),
    ("refused 3", 35),
    ("refused 4", 15),
    ("refused 5", 15),
    ("refused 7", 15),
    ("refused 9", 35),
    ("refused 10", 50),
    ("written", 650),
    ("written modulo 7", 100),
    ("written modulo 97", 100),
    ("written modulo 257", 100),
    ("written modulo 65521", 100),
    ("written with 1 output", 100),
    ("written with 2 outputs", 100),
    ("written with 3 outputs", 100),
    ("written with 4 outputs", 100),
    ("written with the flag", 150),
    ("written with the flag, poles", 60),
    ("w is 0", 60),
    ("w is L", 60),
    ("L is p", 50),
    ("poles", 300),
    ("spoiled poles", 100),
    ("a taken row is chosen", 150),
    ("from the last row to row 0", 50),
    ("poles and spoiled rows within E", 350),
    ("within E, with poles", 150),
    ("within E, with spoiled poles", 20),
    ("within E, exactly E > 0", 70),
    ("above E", 150),
    ("exactly E + 1", 30),
];

#[derive(Default)]
pub struct Tally {
    calls: usize,
    counts: Counts,
    headers: HeaderTally,
}

impl Tally {
    /// Counts a call by what it returned, and by its job if one was written.
    pub fn count(&mut self, call: &TrialCall, written: Written, job: Option<&TrialJob>) {
        self.calls += 1;
        self.headers.count(&call.header, call.broken);
        for label in &call.labels {
            self.counts.add(label, true);
        }
        match job {
            None => self
                .counts
                .add(&format!("refused {}", written.refusal), true),
            Some(job) => self.count_job(call, job),
        }
    }

    fn count_job(&mut self, call: &TrialCall, job: &TrialJob) {
        let Fields {
            form,
            prime,
            outputs,
            row_count,
            error_bound,
            ..
        } = call.fields();
        let ending = if outputs == 1 { "" } else { "s" };
        let wrong = job.wrong_rows().len();
        let spoiled_pole = !job.poles.is_disjoint(&job.spoiled);
        let within = wrong <= error_bound;
        self.headers.count_sound(&Job::unpack(&job.bytes));
        let counts = &mut self.counts;
        counts.add("written", true);
        counts.add(&format!("written modulo {prime}"), true);
        counts.add(&format!("written with {outputs} output{ending}"), true);
        let is_flagged = form == HeaderForm::Flagged;
        counts.add("written with the flag", is_flagged);
        let has_pole = is_flagged && !job.poles.is_empty();
        counts.add("written with the flag, poles", has_pole);
        counts.add("w is 0", call.spoiled == 0);
        counts.add("w is L", call.spoiled as usize == row_count);
        counts.add("L is p", row_count == prime as usize);
        counts.add("poles", !job.poles.is_empty());
        counts.add("spoiled poles", spoiled_pole);
        counts.add("a taken row is chosen", job.taken > 0);
        counts.add("from the last row to row 0", job.wrapped > 0);
        counts.add("poles and spoiled rows within E", within);
        counts.add("within E, with poles", within && !job.poles.is_empty());
        counts.add("within E, with spoiled poles", within && spoiled_pole);
        let exact = wrong == error_bound && wrong > 0;
        counts.add("within E, exactly E > 0", exact);
        counts.add("above E", !within);
        counts.add("exactly E + 1", wrong == error_bound + 1);
    }

    /// All counts as text, and whether each reaches its floor.
    pub fn summary(&self) -> (String, bool) {
        let causes = Fault::ALL.into_iter().map(|fault| (fault.refusal().1, 15));
        let line = |(name, thousandths): (&str, usize)| {
            let count = self.counts.of(name);
            (name.to_string(), count, self.calls * thousandths / 1000)
        };
        let calls = ("calls".to_string(), self.calls, 50_000);
        let lines = FLOORS.into_iter().chain(causes).map(line);
        let headers = self.headers.lines(&OTHER_FAULTS);
        with_floors(std::iter::once(calls).chain(lines).chain(headers))
    }
}
