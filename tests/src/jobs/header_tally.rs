//! Counts of what a run has of the headers, with their floors.

use super::broken_header::{Breach, Broken};
use super::tally::{least, Counts};
use crate::layout::{HeaderForm, Job, LONGEST_JOB};

/// Floors out of a thousand of all: bytes that are too few for the added header, and headers with two flags.
const FEW_FLOORS: [(&str, usize); 5] = [
    ("the first flag and another one", 3),
    ("spare bit 1 and 3 bytes", 1),
    ("spare bit 1 and 4 bytes", 1),
    ("spare bit 1 and 5 bytes", 1),
    ("spare bit 1 and 6 bytes", 1),
];

/// Floors out of a thousand of those that are sound.
const SOUND_FLOORS: [(&str, usize); 8] = [
    ("own bounds, the flag", 200),
    ("own bounds, all equal", 200),
    ("own bounds that differ", 150),
    ("largest bound at f1 alone", 40),
    ("largest bound at f2 alone", 40),
    ("largest bound at f3 alone", 20),
    ("largest bound at f4 alone", 8),
    ("jobs of 317 bytes", 1),
];

#[derive(Default)]
pub struct HeaderTally {
    all: usize,
    own_bounds: usize,
    sound: usize,
    counts: Counts,
}

impl HeaderTally {
    /// Counts bytes that begin with a header, and how it is broken if it was made so.
    pub fn count(&mut self, bytes: &[u8], broken: Option<Broken>) {
        self.all += 1;
        if let Some(Broken { breach, other }) = broken {
            self.counts.add(&broken_name(breach, other), true);
            let is_flag = matches!(breach, Breach::Flag(_));
            let has_both = is_flag && HeaderForm::of(bytes) == HeaderForm::Flagged;
            self.counts.add("the first flag and another one", has_both);
        }
        if bytes.len() < 3 || HeaderForm::of(bytes) == HeaderForm::Short {
            return;
        }
        self.own_bounds += 1;
        let few_bytes = format!("spare bit 1 and {} bytes", bytes.len());
        self.counts.add(&few_bytes, bytes.len() < 7);
    }

    /// Counts a job that is accepted, or the job of a trial that is written.
    pub fn count_sound(&mut self, job: &Job) {
        self.sound += 1;
        if job.header == HeaderForm::Short {
            return;
        }
        let counts = &mut self.counts;
        let (is_equal, is_flagged) = (job.has_equal_bounds(), job.header == HeaderForm::Flagged);
        counts.add("own bounds, the flag", is_flagged);
        counts.add("own bounds, all equal", is_equal);
        counts.add("own bounds that differ", !is_equal);
        counts.add("jobs of 317 bytes", job.pack().len() == LONGEST_JOB);
        let df = job.numerator_bound();
        let largest: Vec<usize> = (0..job.outputs())
            .filter(|&output| job.numerator_bounds[output] == df)
            .collect();
        if let [output] = largest[..] {
            let name = format!("largest bound at f{} alone", output + 1);
            counts.add(&name, job.outputs() > 1);
        }
    }

    /// All counts with their floors; of the ways to break the added header, those with each of these other faults.
    pub fn lines(&self, others: &[u32]) -> Vec<(String, usize, usize)> {
        let name = "with a bound for each output".to_string();
        let few = FEW_FLOORS.into_iter().map(|line| (line, self.all));
        let sound = SOUND_FLOORS.into_iter().map(|line| (line, self.sound));
        let named = few.chain(sound).map(|((name, thousandths), whole)| {
            let floor = whole * thousandths / 1000;
            (name.to_string(), self.counts.of(name), floor)
        });
        let broken = others.iter().map(|&other| {
            let counts = Breach::ALL.map(|breach| self.counts.of(&broken_name(breach, other)));
            let name = format!("each broken rule, {}", besides(other));
            (name, least(&counts), self.all / 5000)
        });
        let share = (name, self.own_bounds, self.all / 2 + 1);
        std::iter::once(share).chain(named).chain(broken).collect()
    }
}

fn broken_name(breach: Breach, other: u32) -> String {
    format!("{breach:?} {}", besides(other))
}

fn besides(other: u32) -> String {
    match other {
        0 => "alone".to_string(),
        number => format!("with {number}"),
    }
}
