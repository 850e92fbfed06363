//! Every way to find margins on the same jobs and numbers of wrong rows; and, for small jobs modulo 7, the margin against
//! every other reduced vector within the bounds, tried one by one.
//!
//! `SEED` and `JOBS` in the environment take another run.

use hanthuvelo::{hex, Report};
use outside_checks::compared::Compared;
use outside_checks::definition::{
    for_each_smallest_job, for_each_smallest_job_with_marks, Nearest, Vectors, SMALLEST,
    SMALLEST_WITH_MARKS,
};
use outside_checks::jobs::margin::{read, wrong_numbers, Tally};
use outside_checks::jobs::small::{small_job, small_job_with_marks, small_jobs};
use outside_checks::jobs::{form, generate, with_floors, Counts, Random};
use outside_checks::layout::{Answer, Job, Mark};
use outside_checks::{conclude, implementations, margins, setting, Margin};
use std::collections::BTreeMap;

const SEED: u64 = 7_202_607;
const JOBS: u64 = 30_000;

/// What is compared on generated jobs, and what a run has had.
struct Comparison {
    ways: Vec<Margin>,
    compared: Compared,
    tally: Tally,
}

impl Comparison {
    /// Asks for the margin of a job with many numbers of wrong rows: S − df − dg − 2W where its form is accepted and that is 1
    /// or more, else 0. For an answer it is 1 or more. Returns what a recovery reports.
    fn try_job(&mut self, bytes: &[u8], describe: &dyn Fn() -> String) -> Report {
        let form = self.compared.form(bytes, None, describe);
        let (report, _) = self.compared.recovered(bytes);
        let job = read(bytes);
        for wrong in wrong_numbers(job.as_ref(), report) {
            let accepted = job.as_ref().filter(|_| form.is_accepted());
            let number = accepted.map(|job| job.margin(wrong));
            let margin = number.map_or(0, |number| u32::try_from(number).unwrap_or(0));
            for Margin { name, find } in &self.ways {
                let found = find(bytes, wrong);
                assert_eq!(found, margin, "{name}: {wrong} wrong\n{}", describe());
                let is_answer = report.is_recovered() && wrong == report.wrong;
                assert!(found >= 1 || !is_answer, "{name}\n{}", describe());
            }
            self.tally.count_call(number);
        }
        self.tally.count(job.as_ref(), form, report);
        report
    }
}

/// On jobs of all kinds, and on those that the check of the form is tried on. A job that a recovery refuses for its area alone
/// has its margin all the same.
#[test]
fn all_margins_agree_on_generated_jobs() {
    let seed = setting("SEED", SEED);
    let mut comparison = Comparison {
        ways: margins(),
        compared: Compared::default(),
        tally: Tally::default(),
    };
    for index in 0..setting("JOBS", JOBS) {
        let job = generate(seed, index);
        let report = comparison.try_job(&job.bytes, &|| job.describe());
        let in_its_area = (implementations()[0].recover)(&job.bytes, &mut job.area.clone());
        if in_its_area.refusal == 7 && report.is_recovered() {
            comparison.tally.count_short_area();
        }
        let job = form::generate(seed, index);
        comparison.try_job(&job.bytes, &|| job.describe());
    }
    let names: Vec<&str> = comparison.ways.iter().map(|each| each.name).collect();
    let title = format!("seed {seed}, margins found by: {}", names.join(", "));
    conclude(&title, comparison.tally.summary());
}

/// What the job of an answer with so many wrong rows is like; more than E are no answer's.
fn kinds(job: &Job, wrong: usize) -> Vec<(&'static str, bool)> {
    if wrong > job.error_bound {
        return vec![("more than E wrong rows", true)];
    }
    let [has_poles, is_silent] = Mark::ALL.map(|mark| !job.marked(mark).is_empty());
    let has_all = is_silent && has_poles && wrong > 0;
    vec![
        ("answers", true),
        ("silent rows", is_silent),
        ("reported poles", has_poles),
        ("wrong rows", wrong > 0),
        ("silent, pole and wrong row", has_all),
        ("several outputs", job.outputs() > 1),
        ("bounds that differ", !job.has_equal_bounds()),
        ("more rows than needed", job.rows.len() > job.needed_rows()),
    ]
}

/// A kind with the least number of its jobs, and of those where the bound is attained.
type Floor = (&'static str, usize, usize);

/// Which random jobs are wanted, and the largest number of pairs that the definition tries for each.
type Wanted = (fn(&Job) -> bool, u64);

const WANTED: [Wanted; 3] = [
    (|_| true, 3000),
    (|job| job.rows.len() > job.needed_rows(), 20_000),
    (|job| !job.has_equal_bounds(), 20_000),
];

/// How far off the next vector is, over many jobs.
#[derive(Default)]
struct Distances {
    /// By the bounds of f1, f2, .. and of g.
    vectors: BTreeMap<(Vec<usize>, usize), Vectors>,
    counts: Counts,
    /// Jobs by how many rows more than the bound says are wrong for the next vector.
    beyond: BTreeMap<usize, usize>,
    without_margin: usize,
}

impl Distances {
    /// The answer of a job leaves W rows wrong, and every other vector at least S − df − dg − W, which is W plus the margin. So
    /// it is of a vector with more than E wrong rows too, where that has a margin.
    fn compare(&mut self, job: &Job) {
        let bounds = (job.numerator_bounds.clone(), job.denominator_bound);
        let vectors = self.vectors.entry(bounds);
        let vectors = vectors.or_insert_with(|| Vectors::within(job));
        let nearest = vectors.nearest(job);
        expect_recovery(job, &nearest);
        let Nearest { wrong, least, .. } = nearest;
        let bounds = job.numerator_bound() + job.denominator_bound;
        if wrong > job.error_bound && job.speaking() <= bounds + 2 * wrong {
            self.without_margin += 1;
            return;
        }
        let reached = bounds + wrong + least;
        assert!(job.speaking() <= reached, "{least} {job:?}");
        for &header in job.headers() {
            let bytes = job.under(header).pack();
            for Margin { name, find } in margins() {
                let margin = find(&bytes, wrong as u32) as usize;
                let is_the_number = margin + bounds + 2 * wrong == job.speaking();
                let holds = is_the_number && margin >= 1 && wrong + margin <= least;
                assert!(holds, "{name}: {margin}, but {least}\n{job:?}");
            }
        }
        self.count(job, wrong, reached - job.speaking());
    }

    fn count(&mut self, job: &Job, wrong: usize, beyond: usize) {
        *self.beyond.entry(beyond).or_default() += 1;
        for (kind, applies) in kinds(job, wrong) {
            self.counts.add(kind, applies);
            self.counts.add(&attained(kind), applies && beyond == 0);
        }
    }

    /// Shows the counts, and fails below a floor. The bound is attained where the next vector leaves exactly as many rows wrong
    /// as it says.
    fn conclude(&self, title: &str, floors: &[Floor]) {
        let lines = floors.iter().flat_map(|&(kind, answers, exact)| {
            [(kind.to_string(), answers), (attained(kind), exact)]
        });
        let lines = lines.map(|(name, floor)| {
            let count = self.counts.of(&name);
            (name, count, floor)
        });
        let (text, enough) = with_floors(lines);
        let beyond = format!("by rows beyond the bound: {:?}", self.beyond);
        let others = format!("without an answer and a margin: {}", self.without_margin);
        conclude(title, (format!("{text}{beyond}\n{others}\n"), enough));
    }
}

fn attained(kind: &str) -> String {
    format!("{kind}, attained")
}

/// What a recovery reports of a job, and its area.
fn recovered(job: &Job) -> (Report, Vec<u8>) {
    let mut area = vec![0; job.answer_length()];
    let report = (implementations()[0].recover)(&job.pack(), &mut area);
    (report, area)
}

/// The recovery gives the vector that is taken for the answer, with as many wrong rows; or none, where these are too many.
fn expect_recovery(job: &Job, nearest: &Nearest) {
    let (report, area) = recovered(job);
    if nearest.wrong > job.error_bound {
        return assert_eq!(report, Report::refused(8, 0), "{job:?}");
    }
    let length = job.answer_length() as u32;
    assert_eq!(report, Report::recovered(length, nearest.wrong as u32));
    let found = Answer::unpack(&area, job);
    let answer = Answer {
        word: found.word,
        denominator: nearest.vector.denominator.clone(),
        numerators: nearest.vector.numerators.clone(),
    };
    assert_eq!(found.trimmed(), answer.trimmed(), "{job:?}");
}

/// All values of the smallest jobs.
#[test]
fn no_other_vector_is_nearer_for_the_smallest_jobs() {
    let mut distances = Distances::default();
    for bounds in SMALLEST {
        for_each_smallest_job(bounds, &mut |job| distances.compare(job));
    }
    let floors = [
        ("answers", 25_000, 20_000),
        ("wrong rows", 15_000, 12_000),
        ("several outputs", 12_000, 12_000),
        ("bounds that differ", 600, 600),
    ];
    distances.conclude("the smallest jobs", &floors);
}

/// All values and marks of smallest jobs, and of those with a row more.
#[test]
fn no_other_vector_is_nearer_for_the_smallest_jobs_with_poles_and_silent_rows() {
    let mut distances = Distances::default();
    for (bounds, dg, errors, surplus) in SMALLEST_WITH_MARKS {
        for_each_smallest_job_with_marks((bounds, dg, errors), surplus, &mut |job| {
            distances.compare(job);
        });
    }
    let floors = [
        ("answers", 14_000, 12_000),
        ("silent rows", 11_000, 10_000),
        ("reported poles", 7000, 6500),
        ("wrong rows", 8000, 6500),
        ("silent, pole and wrong row", 2800, 2400),
        ("several outputs", 2800, 2800),
        ("bounds that differ", 900, 900),
        ("more rows than needed", 12_000, 11_000),
    ];
    distances.conclude("the smallest jobs with poles and silent rows", &floors);
}

#[test]
fn no_other_vector_is_nearer_for_random_small_jobs() {
    let seed = setting("SEED", SEED);
    let mut distances = Distances::default();
    for draw in [small_job, small_job_with_marks] {
        for (number, (is_wanted, most)) in WANTED.into_iter().enumerate() {
            let random = Random::new(seed, number as u64);
            for job in small_jobs(random, (3000, most), draw, is_wanted) {
                distances.compare(&job);
            }
        }
    }
    let floors = [
        ("answers", 7500, 6000),
        ("more than E wrong rows", 600, 250),
        ("silent rows", 1700, 1300),
        ("reported poles", 900, 400),
        ("wrong rows", 2200, 900),
        ("silent, pole and wrong row", 250, 60),
        ("several outputs", 5000, 4000),
        ("bounds that differ", 2000, 1200),
        ("more rows than needed", 3500, 2800),
    ];
    distances.conclude("random small jobs", &floors);
}

/// Jobs for which a vector is as near as the bound allows: the job, W, and how many rows the next vector leaves wrong.
const ATTAINED: [(&str, usize, usize); 4] = [
    // H1: the constant is 5, S is 3. The constant 2 is right at row 2 alone.
    ("01 80 02 0000 0005 0001 0005 0002 0002", 1, 2),
    // Seven readings of it are 00 00 00111 00000 00000 0001 0. The constant 2 is right at row 2 alone again, so the margin is 5.
    (
        "03 80 02 0000 0005 0001 0005 0002 0002 0003 0005 0004 0005 0005 0005 0006 0005",
        1,
        6,
    ),
    // L 5, dg 1, E 1 are 00 00 00101 00000 00001 0001 1. 1/u with its pole, row 3 wrong and row 4 silent: S is 4. 3/u is right
    // at the pole and at row 3.
    (
        "02 80 23 00000800 0000 FFFF 0001 0001 0002 0004 0003 0001 0004 FFFE",
        1,
        2,
    ),
    // n 2, L 4, df 1, E 1 are 00 01 00100 00001 00000 0001 1; the bounds 0, 1 are 00000 00001. f1 = 4 and f2 = 2 + 3u, and row 1
    // has 6 in place of 5. 2 + 4u is 2 at 0 and 6 at 1, so that with f1 = 4 it is right at two rows.
    (
        "12 04 03 00400000 0000 0004 0002 0001 0004 0006 0002 0004 0001 0003 0004 0004",
        1,
        2,
    ),
];

#[test]
fn the_bound_is_attained() {
    let mut distances = Distances::default();
    for (job, wrong, least) in ATTAINED {
        let job = Job::unpack(&hex::bytes(job).expect("bytes"));
        let mut vectors = Vectors::within(&job);
        let nearest = vectors.nearest(&job);
        assert_eq!((nearest.wrong, nearest.least), (wrong, least), "{job:?}");
        let bounds = job.numerator_bound() + job.denominator_bound;
        assert_eq!(job.speaking(), bounds + wrong + least, "{job:?}");
        distances.compare(&job);
    }
    assert_eq!(distances.beyond, BTreeMap::from([(0, ATTAINED.len())]));
}
