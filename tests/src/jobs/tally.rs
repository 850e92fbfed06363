//! Counts of a run, with the floors below which it fails.

use super::header_tally::HeaderTally;
use super::mark_tally::MarkTally;
use super::planted_marks::Marks;
use super::{Expected, GeneratedJob, OTHER_FAULTS};
use crate::layout::{trimmed, Answer, Job, MOST_ROWS, PRIMES};
use hanthuvelo::Report;
use std::collections::BTreeMap;

/// What a job was made to be.
#[derive(Clone, Copy, Debug, PartialEq, Eq)]
pub enum Kind {
    NoErrors,
    FewerErrors,
    ExactErrors,
    OneErrorTooMany,
    Pole,
    CommonFactor,
    AllZero,
    WholeField,
    LooseBounds,
    ExactArea,
    LongArea,
    AreaShortByOne,
    TwoFaults,
    MoreRowsThanPrime,
    RandomValues,
    DamagedBytes,
    DamagedAddedHeader,
    RandomBytes,
    BeyondOwnBound,
    ReportedPoles,
    ReportedOwnPoles,
    ReportedPolesAboveErrors,
    SilentRows,
    ReportedPolesAndSilentRows,
    PartlyMarked,
    MixedMarks,
    MarkUnderShortHeader,
    MarkWithoutFlag,
    PointWithMark,
    Refused12,
    Refused12And6,
    Refused12And7,
    Refused1,
    /// By paper 01 refused with 2; now with 1 or 11.
    SpareBit,
    Refused3,
    Refused4,
    Refused5,
    Refused6,
    Refused7,
}

impl Kind {
    pub fn of_marks(marks: Marks) -> Kind {
        match marks {
            Marks::Poles => Kind::ReportedPoles,
            Marks::OwnPoles => Kind::ReportedOwnPoles,
            Marks::PolesAboveErrors => Kind::ReportedPolesAboveErrors,
            Marks::Silent => Kind::SilentRows,
            Marks::PolesAndSilent => Kind::ReportedPolesAndSilentRows,
        }
    }
}

/// Each kind with its floor, in jobs out of a thousand.
const KIND_FLOORS: [(Kind, usize); 39] = [
    (Kind::NoErrors, 30),
    (Kind::FewerErrors, 150),
    (Kind::ExactErrors, 250),
    (Kind::OneErrorTooMany, 70),
    (Kind::Pole, 100),
    (Kind::CommonFactor, 27),
    (Kind::AllZero, 20),
    (Kind::WholeField, 27),
    (Kind::LooseBounds, 20),
    (Kind::ExactArea, 200),
    (Kind::LongArea, 200),
    (Kind::AreaShortByOne, 5),
    (Kind::TwoFaults, 20),
    (Kind::MoreRowsThanPrime, 5),
    (Kind::RandomValues, 10),
    (Kind::DamagedBytes, 10),
    (Kind::DamagedAddedHeader, 4),
    (Kind::RandomBytes, 10),
    (Kind::BeyondOwnBound, 20),
    (Kind::ReportedPoles, 40),
    (Kind::ReportedOwnPoles, 50),
    (Kind::ReportedPolesAboveErrors, 30),
    (Kind::SilentRows, 30),
    (Kind::ReportedPolesAndSilentRows, 50),
    (Kind::PartlyMarked, 7),
    (Kind::MixedMarks, 7),
    (Kind::MarkUnderShortHeader, 2),
    (Kind::MarkWithoutFlag, 2),
    (Kind::PointWithMark, 7),
    (Kind::Refused12, 20),
    (Kind::Refused12And6, 5),
    (Kind::Refused12And7, 5),
    (Kind::Refused1, 10),
    (Kind::SpareBit, 10),
    (Kind::Refused3, 10),
    (Kind::Refused4, 10),
    (Kind::Refused5, 40),
    (Kind::Refused6, 10),
    (Kind::Refused7, 10),
];

/// Floors of the outcomes, out of a thousand: answered, then each refusal of a job.
const OUTCOME_FLOORS: [(u32, usize); 10] = [
    (0, 500),
    (1, 15),
    (11, 35),
    (3, 10),
    (4, 10),
    (5, 40),
    (12, 20),
    (6, 10),
    (7, 10),
    (8, 100),
];

#[derive(Default)]
pub struct Tally {
    jobs: usize,
    kinds: Counts,
    /// By the number of the refusal, 0 for none.
    outcomes: [usize; 13],
    headers: HeaderTally,
    marks: MarkTally,
    /// Answered, with a bound of the longer header above the degree of its f.
    loose_own_bound: usize,
    /// Answered with exactly E wrong rows, E not 0.
    all_errors_used: usize,
    /// Answered, with a root of g among the points.
    answered_with_pole: usize,
    /// Answered by other polynomials than those with E + 1 wrong rows.
    answered_otherwise: usize,
    /// Answered, by the prime.
    primes: [usize; 4],
    /// Answered, by the number of outputs and by the number of rows.
    sizes: [[usize; MOST_ROWS + 1]; 4],
}

impl Tally {
    pub fn count(&mut self, job: &GeneratedJob, report: Report) {
        self.jobs += 1;
        for kind in &job.kinds {
            self.kinds.add(&format!("{kind:?}"), true);
        }
        self.outcomes[report.refusal as usize] += 1;
        self.headers.count(&job.bytes, job.broken);
        if !report.is_recovered() {
            return;
        }
        let read = Job::unpack(&job.bytes);
        self.headers.count_sound(&read);
        if let Expected::Answered { bytes, .. } = &job.expected {
            self.loose_own_bound += usize::from(has_loose_bound(&read, bytes));
            self.marks.count(&read, &Answer::unpack(bytes, &read));
        }
        let wrong = report.wrong as usize;
        self.primes[read.prime_code] += 1;
        self.sizes[read.outputs() - 1][read.rows.len()] += 1;
        self.all_errors_used += usize::from(wrong > 0 && wrong == read.error_bound);
        self.answered_with_pole += usize::from(job.kinds.contains(&Kind::Pole));
        self.answered_otherwise += usize::from(job.kinds.contains(&Kind::OneErrorTooMany));
    }

    /// So many jobs out of a thousand.
    fn floor(&self, thousandths: usize) -> usize {
        (self.jobs * thousandths).div_ceil(1000)
    }

    /// Counts of outcomes as (name, count, floor).
    fn outcome_lines(&self) -> Vec<(String, usize, usize)> {
        let (exact, pole) = (self.all_errors_used, self.answered_with_pole);
        let (otherwise, loose) = (self.answered_otherwise, self.loose_own_bound);
        let line =
            |name: &str, count, thousandths| (name.to_string(), count, self.floor(thousandths));
        let mut lines = vec![
            ("jobs".to_string(), self.jobs, 50_000),
            line("answered, exactly E > 0 wrong", exact, 250),
            line("answered, pole among points", pole, 100),
            line("E + 1 wrong, answered otherwise", otherwise, 5),
            line("answered, a bound above its degree", loose, 100),
        ];
        for (number, thousandths) in OUTCOME_FLOORS {
            let count = self.outcomes[number as usize];
            lines.push((outcome(number, "answered"), count, self.floor(thousandths)));
        }
        lines
    }

    /// Counts of what jobs were made to be, of primes and of outputs.
    fn input_lines(&self) -> Vec<(String, usize, usize)> {
        let mut lines = Vec::new();
        for (kind, thousandths) in KIND_FLOORS {
            let count = self.kinds.of(&format!("{kind:?}"));
            lines.push((format!("made as {kind:?}"), count, self.floor(thousandths)));
        }
        for (prime, &count) in PRIMES.iter().zip(&self.primes) {
            lines.push((format!("answered modulo {prime}"), count, self.floor(80)));
        }
        for (index, row_counts) in self.sizes.iter().enumerate() {
            let name = format!("answered with {} outputs", index + 1);
            let of_any_size = row_counts.iter().sum();
            lines.push((name.clone(), of_any_size, self.floor(80)));
            let least = least(&row_counts[1..]);
            lines.push((format!("{name}, least of all L"), least, self.jobs / 2000));
        }
        lines
    }

    /// All counts as text, and whether each reaches its floor.
    pub fn summary(&self) -> (String, bool) {
        let lines = self.outcome_lines().into_iter().chain(self.input_lines());
        let headers = self.headers.lines(&OTHER_FAULTS);
        with_floors(lines.chain(headers).chain(self.marks.lines()))
    }
}

/// Whether a bound of the longer header is above the degree of its f in the answer of these bytes.
fn has_loose_bound(job: &Job, answer: &[u8]) -> bool {
    let numerators = Answer::unpack(answer, job).numerators;
    let mut lists = numerators.iter();
    job.header.has_own_bounds() && lists.any(|list| trimmed(list).len() < list.len())
}

/// What became of a job, by the number of its refusal; with 0 what is said here.
pub fn outcome(refusal: u32, not_refused: &str) -> String {
    match refusal {
        0 => not_refused.to_string(),
        number => format!("refused {number}"),
    }
}

/// The least of these counts, one for each prime or one for each number of rows.
pub fn least(counts: &[usize]) -> usize {
    counts.iter().copied().min().unwrap_or(0)
}

/// Counts by name.
#[derive(Default)]
pub struct Counts(BTreeMap<String, usize>);

impl Counts {
    pub fn add(&mut self, name: &str, applies: bool) {
        if applies {
            self.add_number(name, 1);
        }
    }

    /// Adds so many at once.
    pub fn add_number(&mut self, name: &str, number: usize) {
        *self.0.entry(name.to_string()).or_default() += number;
    }

    pub fn of(&self, name: &str) -> usize {
        self.0.get(name).copied().unwrap_or(0)
    }

    /// All counts as text, each with its floor, and whether it reaches it. What was counted has a floor.
    pub fn against(&self, floors: &[(&str, usize)]) -> (String, bool) {
        for name in self.0.keys() {
            let has_floor = floors.iter().any(|(known, _)| known == name);
            assert!(has_floor, "`{name}` was counted and has no floor");
        }
        let line = |&(name, floor): &(&str, usize)| (name.to_string(), self.of(name), floor);
        with_floors(floors.iter().map(line))
    }
}

/// Names with their counts and floors as text, and whether each count reaches its floor.
pub fn with_floors(lines: impl Iterator<Item = (String, usize, usize)>) -> (String, bool) {
    let mut text = String::new();
    let mut enough = true;
    for (name, count, floor) in lines {
        let mark = if count < floor {
            "  BELOW ITS FLOOR"
        } else {
            ""
        };
        enough &= count >= floor;
        text += &format!("{name:<38}{count:>8}  floor {floor:>6}{mark}\n");
    }
    (text, enough)
}

#[cfg(test)]
mod tests {
    use super::Counts;

    fn counts() -> Counts {
        let mut counts = Counts::default();
        counts.add("rows", true);
        counts.add("rows", false);
        counts.add_number("rows", 2);
        counts
    }

    #[test]
    fn a_count_reaches_its_floor_or_not() {
        let counts = counts();
        assert!(counts.against(&[("rows", 3)]).1);
        let (text, enough) = counts.against(&[("rows", 4)]);
        assert!(!enough && text.contains("BELOW"), "{text}");
        assert!(!counts.against(&[("rows", 3), ("columns", 1)]).1);
    }

    #[test]
    #[should_panic(expected = "`rows` was counted and has no floor")]
    fn a_count_has_a_floor() {
        counts().against(&[("columns", 0)]);
    }
}
