//! Counts of a run of pairs, with the floors below which it fails.

use super::{Pair, Verdict, OTHER_FAULTS, PLAN};
use crate::definition::Fault;
use crate::jobs::header_tally::HeaderTally;
use crate::jobs::mark_tally::MarkTally;
use crate::jobs::tally::{with_floors, Counts};
use crate::layout::{has_pole, value_at, Answer, Job, Row};
use crate::second::polynomial::Polynomial;
use crate::second::Field;
use hanthuvelo::Judgement;
use std::collections::BTreeSet;

/// Floors out of ten thousand pairs: of the open kinds, and of what was judged. Each kind that fixes
/// its verdict has its whole share as its floor.
const FLOORS: [(&str, usize); 37] = [
    ("Yes: Open(RandomVector)", 8),
    ("No: Open(RandomVector)", 250),
    ("Yes: Open(DamagedJob)", 10),
    ("No: Open(DamagedJob)", 50),
    ("Refused: Open(DamagedJob)", 20),
    ("Refused: Open(RandomBytes)", 50),
    ("Yes", 1800),
    ("No", 5000),
    ("Refused", 2000),
    ("Yes, modulo 7", 300),
    ("Yes, modulo 97", 300),
    ("Yes, modulo 257", 300),
    ("Yes, modulo 65521", 300),
    ("No, modulo 7", 1000),
    ("No, modulo 97", 1000),
    ("No, modulo 257", 1000),
    ("No, modulo 65521", 1000),
    ("Yes, outputs: 1", 300),
    ("Yes, outputs: 2", 300),
    ("Yes, outputs: 3", 300),
    ("Yes, outputs: 4", 300),
    ("No, outputs: 1", 1000),
    ("No, outputs: 2", 1000),
    ("No, outputs: 3", 1000),
    ("No, outputs: 4", 1000),
    ("No, and the job has no answer", 500),
    ("No, and the job has another answer", 3000),
    ("No, for LargeCoefficient alone", 150),
    ("No, for ZeroDenominator alone", 50),
    ("No, for LeadingCoefficient alone", 150),
    ("No, for CommonDivisor alone", 200),
    ("No, for WrongMark alone", 500),
    ("No, for SilentRow alone", 150),
    ("No, for NoSuchRow alone", 150),
    ("No, for TooManyWrong alone", 300),
    ("Yes, with exactly E > 0 wrong rows", 800),
    ("Yes, with a pole among the points", 300),
];

/// Floors of answers that are right although something less than the definition would deny it.
const RIGHT_FLOORS: [(&str, usize); 4] = [
    ("Yes, zero values at a pole", 100),
    ("Yes, with more wrong values than E", 300),
    ("Yes, with a wrong row right for f1", 300),
    ("Yes, f1 and g have a common divisor", 200),
];

#[derive(Default)]
pub struct Tally {
    pairs: usize,
    counts: Counts,
    flipped: BTreeSet<usize>,
    headers: HeaderTally,
    marks: MarkTally,
}

impl Tally {
    /// Counts a pair by how it was judged, by what the offered answer lacks and by whether the job
    /// has an answer.
    pub fn count(&mut self, pair: &Pair, judgement: Judgement, faults: &[Fault], has_answer: bool) {
        let verdict = Verdict::of(judgement);
        self.pairs += 1;
        self.flipped.extend(pair.flipped);
        self.headers.count(&pair.job, pair.broken);
        let counts = &mut self.counts;
        counts.add(&format!("{verdict:?}"), true);
        counts.add(&format!("{verdict:?}: {:?}", pair.kind), true);
        if verdict == Verdict::Refused {
            return;
        }
        let job = Job::unpack(&pair.job);
        self.headers.count_sound(&job);
        counts.add(&format!("{verdict:?}, modulo {}", job.prime()), true);
        counts.add(&format!("{verdict:?}, outputs: {}", job.outputs()), true);
        if verdict == Verdict::Yes {
            return self.count_right(&job, &Answer::unpack(&pair.offered, &job));
        }
        counts.add("No, and the job has no answer", !has_answer);
        counts.add("No, and the job has another answer", has_answer);
        if let [fault] = faults {
            counts.add(&format!("No, for {fault:?} alone"), true);
        }
    }

    fn count_right(&mut self, job: &Job, answer: &Answer) {
        self.marks.count(job, answer);
        let (g, prime) = (&answer.denominator, job.prime());
        let rows = right_values(job, answer);
        let wrong_values = rows.iter().flatten().filter(|is_right| !**is_right).count();
        let right_for_f1 = rows.iter().any(|row| row[0] && row.contains(&false));
        let is_zero_at_pole = |row: &Row| {
            value_at(g, row.point, prime) == 0 && row.values.iter().all(|&value| value == 0)
        };
        let [g_as_such, f1] = [g, &answer.numerators[0]].map(|f| Polynomial::new(f.clone()));
        let divisor = g_as_such.common_divisor(&f1, Field::new(prime));
        let (wrong, bound) = (answer.word.count_ones() as usize, job.error_bound);
        let is_exact = wrong == bound && wrong > 0;
        let counts = &mut self.counts;
        counts.add("Yes, with exactly E > 0 wrong rows", is_exact);
        counts.add("Yes, with a pole among the points", has_pole(job, g));
        counts.add(
            "Yes, zero values at a pole",
            job.rows.iter().any(is_zero_at_pole),
        );
        counts.add("Yes, with more wrong values than E", wrong_values > bound);
        counts.add("Yes, with a wrong row right for f1", right_for_f1);
        counts.add(
            "Yes, f1 and g have a common divisor",
            divisor.degree() > Some(0),
        );
    }

    /// All counts as text, and whether each reaches its floor.
    pub fn summary(&self) -> (String, bool) {
        let whole: usize = PLAN.iter().map(|(_, parts)| parts).sum();
        let of_plan = PLAN.into_iter().filter_map(|(kind, parts)| {
            let name = format!("{:?}: {kind:?}", kind.verdict()?);
            let count = self.counts.of(&name);
            Some((name, count, self.pairs / whole * parts))
        });
        let others = FLOORS.into_iter().chain(RIGHT_FLOORS);
        let others = others.map(|(name, floor)| {
            let floor = self.pairs * floor / 10_000;
            (name.to_string(), self.counts.of(name), floor)
        });
        let whole = [
            ("pairs".to_string(), self.pairs, 50_000),
            (
                "places of a flipped bit".to_string(),
                self.flipped.len(),
                8 * 254,
            ),
        ];
        let lines = whole.into_iter().chain(of_plan).chain(others);
        let headers = self.headers.lines(&OTHER_FAULTS);
        with_floors(lines.chain(headers).chain(self.marks.lines()))
    }
}

/// Of each row with values, whether each of them is right.
fn right_values(job: &Job, answer: &Answer) -> Vec<Vec<bool>> {
    let prime = job.prime();
    let of_row = |row: &Row| -> Vec<bool> {
        let below = value_at(&answer.denominator, row.point, prime);
        let is_right =
            |(f, value): (&Vec<u32>, &u32)| value_at(f, row.point, prime) == below * value % prime;
        let values = answer.numerators.iter().zip(&row.values);
        values.map(is_right).collect()
    };
    let rows = job.rows.iter().filter(|row| job.mark(row).is_none());
    rows.map(of_row).collect()
}

impl Verdict {
    fn of(judgement: Judgement) -> Verdict {
        match (judgement.refusal, judgement.is_yes()) {
            (0, true) => Verdict::Yes,
            (0, false) => Verdict::No,
            _ => Verdict::Refused,
        }
    }
}
