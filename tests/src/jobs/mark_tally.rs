//! Counts of what a run has of marked rows in jobs whose answer is known, with their floors.

use super::tally::Counts;
use crate::layout::{row_bit, value_at, Answer, HeaderForm, Job, Mark, PRIMES};

/// Floors out of a thousand of the answers that are counted.
const FLOORS: [(&str, usize); 15] = [
    ("the flag and no marked row", 100),
    ("a pole told rightly", 80),
    ("several poles told rightly", 40),
    ("a pole told wrongly", 20),
    ("poles told rightly and wrongly", 10),
    ("a value row at a root beside a pole", 3),
    ("a pole of one output alone", 20),
    ("an output without any told pole", 10),
    ("an answer thanks to the marks", 40),
    ("a silent row", 50),
    ("a silent row at a root", 20),
    ("silent rows at no root", 40),
    ("poles and silent rows", 20),
    ("poles, bounds that differ", 20),
    ("no speaking row too many, some silent", 20),
];

#[derive(Default)]
pub struct MarkTally {
    answers: usize,
    counts: Counts,
}

impl MarkTally {
    pub fn count(&mut self, job: &Job, answer: &Answer) {
        self.answers += 1;
        if job.header != HeaderForm::Flagged {
            return;
        }
        let look = Look { job, answer };
        let poles = job.marked(Mark::Pole).into_iter();
        let (told, falsely): (Vec<usize>, Vec<usize>) = poles.partition(|&row| look.is_root(row));
        let counts = &mut self.counts;
        counts.add("the flag and no marked row", !job.has_marks());
        counts.add("a pole told wrongly", !falsely.is_empty());
        look.count_silent(counts, !told.is_empty());
        if told.is_empty() {
            return;
        }
        counts.add("poles told rightly and wrongly", !falsely.is_empty());
        look.count_poles(counts, &told);
        counts.add(&of_prime(job.prime()), true);
        counts.add(&of_outputs(job.outputs()), true);
    }

    /// All counts with their floors.
    pub fn lines(&self) -> Vec<(String, usize, usize)> {
        let named = FLOORS.map(|(name, floor)| (name.to_string(), floor));
        let primes = PRIMES.map(|prime| (of_prime(prime), 10));
        let outputs = [1, 2, 3, 4].map(|outputs| (of_outputs(outputs), 10));
        let all = named.into_iter().chain(primes).chain(outputs);
        all.map(|(name, thousandths)| {
            let count = self.counts.of(&name);
            (name, count, self.answers * thousandths / 1000)
        })
        .collect()
    }
}

fn of_prime(prime: u32) -> String {
    format!("a pole told rightly, modulo {prime}")
}

fn of_outputs(outputs: usize) -> String {
    format!("a pole told rightly, outputs: {outputs}")
}

/// A job with its answer.
struct Look<'a> {
    job: &'a Job,
    answer: &'a Answer,
}

impl Look<'_> {
    /// Counts what the rows that report a pole rightly are like; there is one at least.
    fn count_poles(&self, counts: &mut Counts, told: &[usize]) {
        let (job, answer) = (self.job, self.answer);
        counts.add("a pole told rightly", true);
        counts.add("several poles told rightly", told.len() > 1);
        let is_wrong_root = |row| self.is_root(row) && answer.word & row_bit(row) != 0;
        let has_value_at_root = (0..job.rows.len()).any(is_wrong_root);
        counts.add("a value row at a root beside a pole", has_value_at_root);
        let of_one = told.iter().any(|&row| self.outputs_with_pole(row) == 1);
        counts.add("a pole of one output alone", of_one && job.outputs() > 1);
        let has_none = |output| told.iter().all(|&row| !self.has_pole(output, row));
        let without = (0..job.outputs()).any(has_none);
        counts.add("an output without any told pole", without);
        // As rows with values the reported poles would all be wrong.
        let without_marks = told.len() + answer.word.count_ones() as usize;
        let is_thanks = without_marks > job.error_bound;
        counts.add("an answer thanks to the marks", is_thanks);
        counts.add("poles, bounds that differ", !job.has_equal_bounds());
    }

    fn count_silent(&self, counts: &mut Counts, has_poles: bool) {
        let silent = self.job.marked(Mark::Silent);
        if silent.is_empty() {
            return;
        }
        let at_root = silent.iter().any(|&row| self.is_root(row));
        counts.add("a silent row", true);
        counts.add("a silent row at a root", at_root);
        counts.add("silent rows at no root", !at_root);
        counts.add("poles and silent rows", has_poles);
        let is_least = self.job.rows_to_spare() == 0;
        counts.add("no speaking row too many, some silent", is_least);
    }

    fn value(&self, polynomial: &[u32], row: usize) -> u32 {
        value_at(polynomial, self.job.rows[row].point, self.job.prime())
    }

    /// Whether g is 0 at a row's point.
    fn is_root(&self, row: usize) -> bool {
        self.value(&self.answer.denominator, row) == 0
    }

    /// Whether a root of g is one of an output's own denominator, for sure: its f is not 0 there.
    fn has_pole(&self, output: usize, row: usize) -> bool {
        self.value(&self.answer.numerators[output], row) != 0
    }

    fn outputs_with_pole(&self, row: usize) -> usize {
        let outputs = 0..self.job.outputs();
        outputs.filter(|&output| self.has_pole(output, row)).count()
    }
}
