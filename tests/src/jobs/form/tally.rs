//! Counts of a run, with the floors below which it fails.

use super::large::Large;
use super::{FormJob, OTHER_FAULTS, PLAN};
use crate::jobs::header_tally::HeaderTally;
use crate::jobs::tally::{least, outcome, with_floors, Counts};
use crate::layout::{HeaderForm, Job, Mark, MOST_ROWS};
use hanthuvelo::Form;
use std::collections::BTreeSet;

/// What a job is that no test of its form refuses.
const ACCEPTED: &str = "accepted";

/// Floors out of ten thousand jobs: of the kinds whose form is not known, and of what was found. Each
/// kind that fixes the outcome has its whole share as its floor.
const FLOORS: [(&str, usize); 50] = [
    ("accepted: AsRecovered", 800),
    ("refused 5: AsRecovered", 20),
    ("refused 6: AsRecovered", 10),
    ("accepted: Damaged", 12),
    ("refused 3: Damaged", 30),
    ("refused 5: Damaged", 30),
    ("refused 11: Damaged", 20),
    // By paper 01 refused with 2.
    ("refused 11: RandomBytes", 30),
    ("refused 1: SpareBit", 150),
    ("refused 11: SpareBit", 150),
    ("refused 3: RandomBytes", 30),
    ("refused 5: RandomBytes", 20),
    ("refused 1, no byte", 50),
    ("refused 1, one byte", 50),
    ("refused 1, two bytes", 50),
    ("refused 1, three bytes", 50),
    ("refused 1, four bytes", 50),
    ("refused 1, five bytes", 50),
    ("refused 1, six bytes", 50),
    ("accepted, with an answer", 800),
    ("accepted, without an answer", 800),
    ("accepted, points rising", 300),
    ("accepted, points falling", 300),
    ("accepted, points in no order", 300),
    ("accepted, the point 0", 300),
    ("accepted, the point p - 1", 300),
    ("accepted, no row too many", 800),
    ("accepted, rows to spare", 300),
    ("refused 5, row 0", 400),
    ("refused 5, a row between", 400),
    ("refused 5, the last row", 400),
    ("refused 5, a point repeated before", 100),
    ("refused 6, row 1", 200),
    ("refused 6, the last row", 400),
    ("refused 6, the point 0", 200),
    ("refused 6, the point p - 1", 200),
    ("refused 6, more rows than p", 200),
    ("refused 6, a row that reports a pole", 100),
    ("refused 6, a silent row", 30),
    ("refused 6, silent rows to spare", 30),
    ("refused 12, no row speaks", 50),
    ("refused 12, one row is missing", 150),
    ("refused 12, a point repeated", 150),
    ("refused 12, more rows than p", 100),
    ("refused 5, too few rows speak", 30),
    ("accepted, all rows report a pole", 20),
    ("accepted, poles and no silent row", 200),
    ("accepted, silent rows", 150),
    ("accepted, silent rows, none to spare", 100),
    ("accepted, the flag and no mark", 200),
];

/// Floors out of a hundred thousand jobs for each prime and for each number of rows, with each number
/// of outputs: of the accepted jobs, then of those refused with 11, 3 to 5, 12 and 6.
const EACH_FLOORS: [(u32, usize, usize); 7] = [
    (0, 500, 60),
    (11, 100, 0),
    (3, 100, 0),
    (4, 100, 0),
    (5, 500, 60),
    (12, 200, 15),
    (6, 500, 60),
];

/// Bytes that are too few for a header.
const FEW_BYTES: [&str; 7] = [
    "no byte",
    "one byte",
    "two bytes",
    "three bytes",
    "four bytes",
    "five bytes",
    "six bytes",
];

/// Jobs with one outcome and one number of outputs, by prime and by number of rows.
#[derive(Clone, Copy, Default)]
struct Sizes {
    primes: [usize; 4],
    rows: [usize; MOST_ROWS + 1],
}

#[derive(Default)]
pub struct Tally {
    jobs: usize,
    counts: Counts,
    /// By the number of the refusal, 0 for none.
    sizes: [[Sizes; 4]; 13],
    large: BTreeSet<Large>,
    headers: HeaderTally,
}

impl Tally {
    /// Counts a job by what the check of its form found, and by whether a recovery answers it.
    pub fn count(&mut self, job: &FormJob, form: Form, is_answered: bool) {
        let outcome = outcome(form.refusal, ACCEPTED);
        self.jobs += 1;
        self.large.extend(job.large);
        self.counts.add(&format!("{outcome}: {:?}", job.kind), true);
        self.headers.count(&job.bytes, job.broken);
        if form.refusal == 1 {
            let bytes = FEW_BYTES[job.bytes.len()];
            return self.counts.add(&format!("refused 1, {bytes}"), true);
        }
        let read = Job::unpack(&job.bytes);
        let sizes = &mut self.sizes[form.refusal as usize][read.outputs() - 1];
        sizes.primes[read.prime_code] += 1;
        if matches!(form.refusal, 0 | 4..=6 | 12) {
            sizes.rows[read.rows.len()] += 1;
        }
        let points: Vec<u32> = read.rows.iter().map(|row| row.point).collect();
        match form.refusal {
            0 => self.count_accepted(&read, &points, is_answered),
            5 => self.count_large(&read, &points, form.row as usize),
            12 => self.count_silent(&read, &points),
            6 => self.count_repeated(&read, &points, form.row as usize),
            _ => {}
        }
    }

    fn count_accepted(&mut self, job: &Job, points: &[u32], is_answered: bool) {
        self.headers.count_sound(job);
        let counts = &mut self.counts;
        counts.add("accepted, with an answer", is_answered);
        counts.add("accepted, without an answer", !is_answered);
        let is_rising = points.is_sorted();
        let is_falling = points.iter().rev().is_sorted();
        counts.add("accepted, points rising", is_rising);
        counts.add("accepted, points falling", is_falling);
        counts.add("accepted, points in no order", !is_rising && !is_falling);
        counts.add("accepted, the point 0", points.contains(&0));
        let highest = job.prime() - 1;
        counts.add("accepted, the point p - 1", points.contains(&highest));
        let is_least = points.len() == job.needed_rows();
        counts.add("accepted, no row too many", is_least);
        counts.add("accepted, rows to spare", !is_least);
        let [poles, silent] = Mark::ALL.map(|mark| job.marked(mark).len());
        let all = poles == points.len();
        counts.add("accepted, all rows report a pole", all);
        let poles_alone = poles > 0 && silent == 0;
        counts.add("accepted, poles and no silent row", poles_alone);
        counts.add("accepted, silent rows", silent > 0);
        let is_full = silent > 0 && job.rows_to_spare() == 0;
        counts.add("accepted, silent rows, none to spare", is_full);
        let without_mark = job.header == HeaderForm::Flagged && poles + silent == 0;
        counts.add("accepted, the flag and no mark", without_mark);
    }

    fn count_silent(&mut self, job: &Job, points: &[u32]) {
        let counts = &mut self.counts;
        let speaking = job.speaking();
        counts.add("refused 12, no row speaks", speaking == 0);
        let is_missing = speaking + 1 == job.needed_rows();
        counts.add("refused 12, one row is missing", is_missing);
        counts.add("refused 12, a point repeated", repeats(points));
        let is_crowded = points.len() > job.prime() as usize;
        counts.add("refused 12, more rows than p", is_crowded);
    }

    fn count_large(&mut self, job: &Job, points: &[u32], row: usize) {
        let counts = &mut self.counts;
        let last = points.len() - 1;
        counts.add("refused 5, row 0", row == 0);
        counts.add("refused 5, a row between", 0 < row && row < last);
        counts.add("refused 5, the last row", row == last);
        let is_repeated = repeats(&points[..row]);
        counts.add("refused 5, a point repeated before", is_repeated);
        let is_silent = job.speaking() < job.needed_rows();
        counts.add("refused 5, too few rows speak", is_silent);
    }

    fn count_repeated(&mut self, job: &Job, points: &[u32], row: usize) {
        let prime = job.prime();
        let counts = &mut self.counts;
        counts.add("refused 6, row 1", row == 1);
        counts.add("refused 6, the last row", row == points.len() - 1);
        counts.add("refused 6, the point 0", points[row] == 0);
        counts.add("refused 6, the point p - 1", points[row] == prime - 1);
        let is_crowded = points.len() > prime as usize;
        counts.add("refused 6, more rows than p", is_crowded);
        let is_pole = job.is_marked(row, Mark::Pole);
        counts.add("refused 6, a row that reports a pole", is_pole);
        let is_silent = job.is_marked(row, Mark::Silent);
        counts.add("refused 6, a silent row", is_silent);
        let has_silent = !job.marked(Mark::Silent).is_empty() && job.rows_to_spare() > 0;
        counts.add("refused 6, silent rows to spare", has_silent);
    }

    /// The least count of a prime and of a number of rows, for each outcome and number of outputs.
    fn size_lines(&self) -> Vec<(String, usize, usize)> {
        let mut lines = Vec::new();
        for (refusal, of_prime, of_rows) in EACH_FLOORS {
            let least_rows = if refusal == 6 { 2 } else { 1 };
            for (index, sizes) in self.sizes[refusal as usize].iter().enumerate() {
                let name = format!(
                    "{}, outputs: {}, least of",
                    outcome(refusal, ACCEPTED),
                    index + 1
                );
                let floor = |share: usize| self.jobs * share / 100_000;
                lines.push((
                    format!("{name} all p"),
                    least(&sizes.primes),
                    floor(of_prime),
                ));
                if of_rows > 0 {
                    let count = least(&sizes.rows[least_rows..]);
                    lines.push((format!("{name} all L"), count, floor(of_rows)));
                }
            }
        }
        lines
    }

    /// All counts as text, and whether each reaches its floor.
    pub fn summary(&self) -> (String, bool) {
        let whole: usize = PLAN.iter().map(|(_, parts)| parts).sum();
        let of_plan = PLAN.into_iter().filter_map(|(kind, parts)| {
            let name = format!("{}: {kind:?}", outcome(kind.refusal()?, ACCEPTED));
            let count = self.counts.of(&name);
            Some((name, count, self.jobs / whole * parts))
        });
        let others = FLOORS.into_iter().map(|(name, floor)| {
            let floor = self.jobs * floor / 10_000;
            (name.to_string(), self.counts.of(name), floor)
        });
        let numbers = "numbers of p or more, with places";
        let whole = [
            ("jobs".to_string(), self.jobs, 50_000),
            (numbers.to_string(), self.large.len(), Large::COMBINATIONS),
        ];
        let lines = whole.into_iter().chain(of_plan).chain(others);
        let headers = self.headers.lines(&OTHER_FAULTS);
        with_floors(lines.chain(self.size_lines()).chain(headers))
    }
}

/// Whether a point stands in an earlier row.
fn repeats(points: &[u32]) -> bool {
    (0..points.len()).any(|later| points[..later].contains(&points[later]))
}
