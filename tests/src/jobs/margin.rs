//! Numbers of wrong rows that margins are asked for, and counts of a run, with the floors below which it fails.

use super::tally::{outcome, with_floors, Counts};
use crate::layout::{HeaderForm, Job, Mark, PRIMES};
use hanthuvelo::{Form, Report};

/// Numbers that are tried with every job. Twice 2^31 is 0 in 32 bits.
const EVERYWHERE: [u32; 7] = [0, 1, 31, 1 << 31, (1 << 31) + 1, u32::MAX - 1, u32::MAX];

/// Floors out of a thousand of all jobs.
const FLOORS: [(&str, usize); 27] = [
    ("answered", 200),
    ("answered, no wrong row", 50),
    ("answered, wrong rows", 150),
    ("answered, margin 1", 100),
    ("answered, margin above 1", 50),
    ("answered, silent rows", 20),
    ("answered, reported poles", 30),
    ("answered, silent rows and poles", 5),
    ("answered, bounds that differ", 50),
    ("refused 8", 60),
    ("the area alone is too short", 2),
    ("refused 1", 15),
    ("refused 11", 20),
    ("refused 3", 15),
    ("refused 4", 15),
    ("refused 5", 60),
    ("refused 12", 30),
    ("refused 6", 60),
    // There the number itself is 1 or more with no wrong row.
    ("refused 11, and would have a margin", 5),
    ("refused 3, and would have a margin", 5),
    ("refused 4, and would have a margin", 2),
    ("refused 5, and would have a margin", 50),
    ("refused 12, and would have a margin", 5),
    ("refused 6, and would have a margin", 50),
    ("asked where the number is 1", 200),
    ("asked where the number is 0", 25),
    ("asked where the number is -1", 200),
];

/// The job that bytes hold, if they have a whole header at least.
pub fn read(bytes: &[u8]) -> Option<Job> {
    let has_header = bytes.len() >= 3 && bytes.len() >= HeaderForm::of(bytes).length();
    has_header.then(|| Job::unpack(bytes))
}

/// Numbers of wrong rows to be tried with bytes: those above, E, what a recovery reports, and all around the place where the
/// margin ends, with the same 2^31 higher.
pub fn wrong_numbers(job: Option<&Job>, report: Report) -> Vec<u32> {
    let mut numbers = EVERYWHERE.to_vec();
    if let Some(job) = job {
        let last = job.margin(0).max(0) as u32 / 2;
        let around = [
            last,
            last + 1,
            last + 2,
            report.wrong,
            job.error_bound as u32,
        ];
        numbers.extend(around);
        numbers.extend(around.map(|number| number + (1 << 31)));
        numbers.extend(last.checked_sub(1));
    }
    numbers.sort_unstable();
    numbers.dedup();
    numbers
}

#[derive(Default)]
pub struct Tally {
    jobs: usize,
    calls: usize,
    counts: Counts,
}

impl Tally {
    /// Counts a job: what a check of its form finds, and what a recovery with room for any answer reports.
    pub fn count(&mut self, job: Option<&Job>, form: Form, report: Report) {
        self.jobs += 1;
        let name = outcome(report.refusal, "answered");
        self.counts.add(&name, true);
        let Some(job) = job else {
            return;
        };
        if report.is_recovered() {
            self.count_answered(job, report.wrong);
        }
        let name = format!("{name}, and would have a margin");
        let would = !form.is_accepted() && job.margin(0) >= 1;
        self.counts.add(&name, would);
    }

    fn count_answered(&mut self, job: &Job, wrong: u32) {
        let counts = &mut self.counts;
        counts.add("answered, no wrong row", wrong == 0);
        counts.add("answered, wrong rows", wrong > 0);
        counts.add("answered, margin 1", job.margin(wrong) == 1);
        counts.add("answered, margin above 1", job.margin(wrong) > 1);
        let [has_poles, is_silent] = Mark::ALL.map(|mark| !job.marked(mark).is_empty());
        counts.add("answered, silent rows", is_silent);
        counts.add("answered, reported poles", has_poles);
        counts.add("answered, silent rows and poles", is_silent && has_poles);
        counts.add("answered, bounds that differ", !job.has_equal_bounds());
        counts.add(&of_prime(job.prime()), true);
        counts.add(&of_header(job.header), true);
    }

    /// Counts a job that a recovery refuses for its area, and answers with a longer one.
    pub fn count_short_area(&mut self) {
        self.counts.add("the area alone is too short", true);
    }

    /// Counts a call for an accepted job by the number that its margin is, below 1 or not; or for a refused job.
    pub fn count_call(&mut self, number: Option<i64>) {
        self.calls += 1;
        if let Some(number @ -1..=1) = number {
            let name = format!("asked where the number is {number}");
            self.counts.add(&name, true);
        }
    }

    /// All counts as text, and whether each reaches its floor.
    pub fn summary(&self) -> (String, bool) {
        let primes = PRIMES.map(|prime| (of_prime(prime), 30));
        let headers = HeaderForm::ALL.map(|form| (of_header(form), 50));
        let named = FLOORS.map(|(name, floor)| (name.to_string(), floor));
        let all = named.into_iter().chain(primes).chain(headers);
        let lines = all.map(|(name, thousandths)| {
            let count = self.counts.of(&name);
            (name, count, self.jobs * thousandths / 1000)
        });
        let whole = [("jobs", self.jobs, 30_000), ("calls", self.calls, 300_000)];
        let whole = whole.map(|(name, count, floor)| (name.to_string(), count, floor));
        with_floors(whole.into_iter().chain(lines))
    }
}

fn of_prime(prime: u32) -> String {
    format!("answered modulo {prime}")
}

fn of_header(form: HeaderForm) -> String {
    format!("answered, header: {form:?}")
}
