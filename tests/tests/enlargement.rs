//! The enlargement rule of paper 01 (point 5), with item 6 of paper 02, on pairs of jobs, each handed to a call of its own.

use hanthuvelo::hex;
use hanthuvelo::Report;
use outside_checks::jobs::enlargement::{generate, Pair};
use outside_checks::jobs::{Counts, Random};
use outside_checks::layout::{packed_row, row_bit, value_at, Answer, HeaderForm, Job, Mark, Row};
use outside_checks::{conclude, implementations, Implementation};

const SEED: u64 = 5;
const PAIRS: u64 = 16_000;

/// How often each side of the rule is met, at least. T is the smaller job and T' the larger one.
const FLOORS: [(&str, usize); 29] = [
    ("neither has a bound for each output", 500),
    ("T' alone has a bound for each output", 1000),
    ("T alone has a bound for each output", 1000),
    ("both have a bound for each output", 2000),
    ("same fraction, a bound of f below T's", 1000),
    ("same fraction, a bound of f above T's", 500),
    ("same fraction, bounds of T' differ", 1000),
    ("pairs", 10_000),
    ("k + w within E', same fraction", 4000),
    ("k + w equal to E'", 1000),
    ("k + w equal to E' + 1", 500),
    ("larger job refused", 1500),
    ("larger job answered otherwise", 20),
    ("no further rows", 500),
    ("E' below E", 500),
    ("df' below df or dg' below dg", 500),
    ("same fraction, wrong further rows", 500),
    ("the flag of T alone", 300),
    ("the flag of T' alone", 300),
    ("both flags, same fraction", 1000),
    ("same, T has reported poles", 500),
    ("same, T' holds silent rows of T", 300),
    ("same, T' lacks silent rows of T", 200),
    ("same, silent rows of T speak in T'", 200),
    ("same, silent further rows", 500),
    ("same, one of them at a root", 50),
    ("same, further poles told rightly", 100),
    ("same, further poles told wrongly", 100),
    ("same, T' has fewer rows than T", 50),
];

/// What more than half of the pairs have.
const MORE_THAN_HALF: [&str; 2] = [
    "T has a bound for each output",
    "T' has a bound for each output",
];

/// What a call returns and what its area holds afterwards.
struct Call {
    report: Report,
    area: Vec<u8>,
}

fn call(implementation: Implementation, job: &Job, random: &mut Random) -> Call {
    let mut area = random.bytes(job.answer_length());
    area.extend([0x5A; 4]);
    let report = (implementation.recover)(&job.pack(), &mut area);
    Call { report, area }
}

/// The place of a row with the same bytes in a job.
fn place_in(job: &Job, row: &Row) -> Option<usize> {
    let bytes = packed_row(row);
    job.rows.iter().position(|other| packed_row(other) == bytes)
}

/// The rule's word for the larger job: a row of the smaller job keeps its mark, a further row is
/// marked where it is wrong for the fraction. Also returns how many further rows are.
fn word_by_the_rule(pair: &Pair, answer: &Answer) -> (u32, usize) {
    let is_wrong = |row: &Row| {
        let numerators = answer.numerators.iter().map(Vec::as_slice);
        pair.larger.is_wrong(row, &answer.denominator, numerators)
    };
    let (mut word, mut further_wrong) = (0, 0);
    for (place, row) in pair.larger.rows.iter().enumerate() {
        let marked = match place_in(&pair.smaller, row) {
            Some(earlier) => answer.word & row_bit(earlier) != 0,
            None => {
                further_wrong += usize::from(is_wrong(row));
                is_wrong(row)
            }
        };
        if marked {
            word |= row_bit(place);
        }
    }
    (word, further_wrong)
}

/// Whether the polynomials meet the larger job's bounds.
fn meets_bounds(answer: &Answer, job: &Job) -> bool {
    let (denominator, numerators) = answer.trimmed();
    denominator.len() <= job.denominator_bound + 1
        && numerators
            .iter()
            .zip(&job.numerator_bounds)
            .all(|(numerator, bound)| numerator.len() <= bound + 1)
}

/// Whether the larger job holds every row of the smaller one that speaks.
fn holds_speaking_rows(pair: &Pair) -> bool {
    let speaks = |row: &&Row| pair.smaller.mark(row) != Some(Mark::Silent);
    let mut speaking = pair.smaller.rows.iter().filter(speaks);
    speaking.all(|row| place_in(&pair.larger, row).is_some())
}

fn try_pair(implementation: Implementation, pair: &Pair, random: &mut Random, counts: &mut Counts) {
    let describe = || {
        let name = implementation.name;
        let (smaller, larger) = (pair.smaller.pack(), pair.larger.pack());
        let (smaller, larger) = (hex::text(&smaller), hex::text(&larger));
        format!("{name}, seed {SEED}\nsmaller {smaller}\nlarger {larger}")
    };
    assert!(holds_speaking_rows(pair), "{}", describe());
    let first = call(implementation, &pair.smaller, random);
    if !first.report.is_recovered() {
        return;
    }
    let answer = Answer::unpack(&first.area, &pair.smaller);
    if !meets_bounds(&answer, &pair.larger) {
        return;
    }
    let second = call(implementation, &pair.larger, random);
    let (word, further_wrong) = word_by_the_rule(pair, &answer);
    let wrong = first.report.wrong as usize + further_wrong;
    let again = Answer::unpack(&second.area, &pair.larger);
    let same = second.report.is_recovered() && again.trimmed() == answer.trimmed();
    assert_eq!(same, wrong <= pair.larger.error_bound, "{}", describe());
    if same {
        assert_eq!(again.word, word, "{}", describe());
        assert_eq!(second.report.wrong as usize, wrong, "{}", describe());
    } else if !second.report.is_recovered() {
        assert_eq!(second.report, Report::refused(8, 0), "{}", describe());
    }
    let outcome = Outcome {
        smaller: &pair.smaller,
        larger: &pair.larger,
        denominator: &answer.denominator,
        is_answered: second.report.is_recovered(),
        is_same: same,
        wrong,
        further_wrong,
    };
    outcome.count(counts);
}

/// What became of a pair whose smaller job is answered within the larger one's bounds.
struct Outcome<'a> {
    smaller: &'a Job,
    larger: &'a Job,
    /// g of the smaller job's answer.
    denominator: &'a [u32],
    is_answered: bool,
    /// Whether the larger job is answered with the same fraction.
    is_same: bool,
    /// k + w, and w.
    wrong: usize,
    further_wrong: usize,
}

impl Outcome<'_> {
    fn count(&self, counts: &mut Counts) {
        let (smaller, larger, is_same) = (self.smaller, self.larger, self.is_same);
        let errors = larger.error_bound;
        counts.add("pairs", true);
        counts.add("k + w within E', same fraction", is_same);
        counts.add("k + w equal to E'", is_same && self.wrong == errors);
        counts.add("k + w equal to E' + 1", self.wrong == errors + 1);
        counts.add("larger job refused", !self.is_answered);
        let is_other = self.is_answered && !is_same;
        counts.add("larger job answered otherwise", is_other);
        let is_full = larger.rows.len() == smaller.rows.len();
        counts.add("no further rows", is_full);
        counts.add("E' below E", errors < smaller.error_bound);
        let is_below = larger.numerator_bound() < smaller.numerator_bound()
            || larger.denominator_bound < smaller.denominator_bound;
        counts.add("df' below df or dg' below dg", is_below);
        let has_wrong = is_same && self.further_wrong > 0;
        counts.add("same fraction, wrong further rows", has_wrong);
        self.count_bounds(counts);
        self.count_flags(counts);
        if is_same {
            self.count_silent_rows(counts);
            self.count_further_marks(counts);
        }
    }

    /// Which of the jobs has a bound for each output, and how these compare.
    fn count_bounds(&self, counts: &mut Counts) {
        let (smaller, larger) = (self.smaller, self.larger);
        let have = [smaller, larger].map(|job| job.header.has_own_bounds());
        for (name, has) in MORE_THAN_HALF.into_iter().zip(have) {
            counts.add(name, has);
        }
        let which = match have {
            [false, false] => "neither has a bound for each output",
            [false, true] => "T' alone has a bound for each output",
            [true, false] => "T alone has a bound for each output",
            [true, true] => "both have a bound for each output",
        };
        counts.add(which, true);
        let bounds = larger.numerator_bounds.iter();
        let bounds: Vec<_> = bounds.zip(&smaller.numerator_bounds).collect();
        let is_below = bounds.iter().any(|(own, other)| own < other);
        let is_above = bounds.iter().any(|(own, other)| own > other);
        let name = "same fraction, a bound of f below T's";
        counts.add(name, self.is_same && is_below);
        let name = "same fraction, a bound of f above T's";
        counts.add(name, self.is_same && is_above);
        let differ = self.is_same && !larger.has_equal_bounds();
        counts.add("same fraction, bounds of T' differ", differ);
    }

    fn count_flags(&self, counts: &mut Counts) {
        let jobs = [self.smaller, self.larger];
        let flags = jobs.map(|job| job.header == HeaderForm::Flagged);
        counts.add("the flag of T alone", flags == [true, false]);
        counts.add("the flag of T' alone", flags == [false, true]);
        let both = self.is_same && flags == [true, true];
        counts.add("both flags, same fraction", both);
    }

    /// What T reports and is silent of, and whether T' holds it, where the fraction is the same.
    fn count_silent_rows(&self, counts: &mut Counts) {
        let (smaller, larger) = (self.smaller, self.larger);
        let is_shorter = larger.rows.len() < smaller.rows.len();
        counts.add("same, T' has fewer rows than T", is_shorter);
        let has_poles = !smaller.marked(Mark::Pole).is_empty();
        counts.add("same, T has reported poles", has_poles);
        let silent = smaller.marked(Mark::Silent).into_iter();
        let (held, gone): (Vec<usize>, Vec<usize>) =
            silent.partition(|&row| place_in(larger, &smaller.rows[row]).is_some());
        let has_point = |&row: &usize| {
            let point = smaller.rows[row].point;
            larger.rows.iter().any(|other| other.point == point)
        };
        counts.add("same, T' holds silent rows of T", !held.is_empty());
        let is_replaced = gone.iter().any(has_point);
        counts.add("same, silent rows of T speak in T'", is_replaced);
        let is_lacking = !gone.iter().all(has_point);
        counts.add("same, T' lacks silent rows of T", is_lacking);
    }

    /// What the further rows report and are silent of, where the fraction is the same.
    fn count_further_marks(&self, counts: &mut Counts) {
        for (name, mark, is_root) in [
            ("same, silent further rows", Mark::Silent, false),
            ("same, one of them at a root", Mark::Silent, true),
            ("same, further poles told rightly", Mark::Pole, true),
            ("same, further poles told wrongly", Mark::Pole, false),
        ] {
            let mut rows = self.larger.marked(mark).into_iter();
            let is_there = rows.any(|row| {
                let row = &self.larger.rows[row];
                let value = value_at(self.denominator, row.point, self.larger.prime());
                place_in(self.smaller, row).is_none() && (value == 0) == is_root
            });
            counts.add(name, is_there);
        }
    }
}

#[test]
fn the_larger_job_follows_the_rule() {
    for implementation in implementations() {
        let mut counts = Counts::default();
        let mut random = Random::new(SEED, PAIRS);
        for index in 0..PAIRS {
            try_pair(
                implementation,
                &generate(SEED, index),
                &mut random,
                &mut counts,
            );
        }
        let half = counts.of("pairs") / 2 + 1;
        let most = MORE_THAN_HALF.map(|name| (name, half));
        let floors = [&most[..], &FLOORS].concat();
        let title = format!("enlargement rule, {}", implementation.name);
        conclude(&title, counts.against(&floors));
    }
}
