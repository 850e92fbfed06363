//! Every implementation against the definition itself: all (f, g) modulo 7, tried one by one.

use hanthuvelo::hex;
use hanthuvelo::Report;
use outside_checks::definition::{
    answers, candidates, for_each_smallest_job, for_each_smallest_job_with_marks, SMALLEST,
    SMALLEST_WITH_MARKS,
};
use outside_checks::jobs::small::{small_job, small_job_with_marks, small_jobs};
use outside_checks::jobs::{Counts, Random};
use outside_checks::layout::{HeaderForm, Job, Mark};
use outside_checks::{conclude, implementations, Implementation};

const SEED: u64 = 31;
const SURPLUS: usize = 3;

/// Every implementation with the job's bytes under each header.
fn calls(job: &Job) -> Vec<(Implementation, Vec<u8>)> {
    let under = |form: &HeaderForm| job.under(*form).pack();
    let packed: Vec<Vec<u8>> = job.headers().iter().map(under).collect();
    let of_bytes = |bytes: Vec<u8>| {
        let all = implementations().into_iter();
        all.map(move |each| (each, bytes.clone()))
    };
    packed.into_iter().flat_map(of_bytes).collect()
}

/// The definition's report and area, which every implementation must return.
fn compare(job: &Job, counts: &mut Counts) {
    let found = answers(job);
    assert!(found.len() <= 1, "two answers: {job:?}");
    let before: Vec<u8> = (0..job.answer_length() + SURPLUS)
        .map(|place| !place as u8)
        .collect();
    let mut expected_area = before.clone();
    let expected_report = match found.first() {
        Some(answer) => {
            let bytes = answer.pack(job);
            expected_area[..bytes.len()].copy_from_slice(&bytes);
            Report::recovered(bytes.len() as u32, answer.word.count_ones())
        }
        None => Report::refused(8, 0),
    };
    for (implementation, bytes) in calls(job) {
        let mut area = before.clone();
        let report = (implementation.recover)(&bytes, &mut area);
        assert!(
            report == expected_report && area == expected_area,
            "{}: {report:?} and {}\nexpected {expected_report:?} and {}\nseed {SEED}, job {}",
            implementation.name,
            hex::text(&area),
            hex::text(&expected_area),
            hex::text(&bytes)
        );
    }
    let is_answered = expected_report.is_recovered();
    counts.add("answered", is_answered);
    counts.add("refused", !is_answered);
    counts.add_number("pairs tried", candidates(job) as usize);
}

/// Shows the counts, and fails where too few jobs are answered, too few are refused, or too few pairs were tried for them.
fn expect_enough(name: &str, counts: &Counts, [answered, refused, pairs]: [usize; 3]) {
    let floors = [
        ("answered", answered),
        ("refused", refused),
        ("pairs tried", pairs),
    ];
    conclude(name, counts.against(&floors));
}

#[test]
fn all_values_of_the_smallest_jobs() {
    let mut counts = Counts::default();
    for bounds in SMALLEST {
        for_each_smallest_job(bounds, &mut |job| compare(job, &mut counts));
    }
    let name = "all values of the smallest jobs";
    expect_enough(name, &counts, [27_000, 147_000, 40_000_000]);
}

/// Compares so many random jobs that are wanted and not too large; at least so many are answered, and refused.
fn compare_random(
    name: &str,
    count: usize,
    draw: fn(&mut Random) -> Job,
    is_wanted: fn(&Job) -> bool,
    floors: [usize; 3],
) {
    let mut counts = Counts::default();
    let random = Random::new(SEED, count as u64);
    for job in small_jobs(random, (count, 20_000), draw, is_wanted) {
        compare(&job, &mut counts);
    }
    assert_eq!(counts.of("answered") + counts.of("refused"), count);
    expect_enough(name, &counts, floors);
}

#[test]
fn random_small_jobs() {
    let name = "random small jobs";
    compare_random(name, 6000, small_job, |_| true, [2000, 1000, 10_000_000]);
}

#[test]
fn random_small_jobs_with_bounds_that_differ() {
    let name = "random small jobs with bounds that differ";
    let is_wanted = |job: &Job| !job.has_equal_bounds();
    compare_random(name, 3000, small_job, is_wanted, [600, 1000, 20_000_000]);
}

#[test]
fn random_small_jobs_with_poles() {
    let name = "random small jobs with rows that report a pole";
    let has_pole = |job: &Job| !job.marked(Mark::Pole).is_empty();
    let draw = small_job_with_marks;
    compare_random(name, 6000, draw, has_pole, [1500, 1500, 15_000_000]);
    let name = "the same with several outputs";
    let has_poles = |job: &Job| job.outputs() > 1 && job.marked(Mark::Pole).len() > 1;
    compare_random(name, 3001, draw, has_poles, [300, 1000, 10_000_000]);
}

#[test]
fn random_small_jobs_with_silent_rows() {
    let name = "random small jobs with silent rows";
    let is_silent = |job: &Job| !job.marked(Mark::Silent).is_empty();
    compare_random(
        name,
        3002,
        small_job_with_marks,
        is_silent,
        [600, 600, 7_000_000],
    );
}

/// Every way to mark the rows of the smallest jobs, and of those with a row more, with every value of the others.
#[test]
fn all_poles_and_silent_rows_of_the_smallest_jobs() {
    let mut counts = Counts::default();
    for (numerator_bounds, dg, errors, surplus) in SMALLEST_WITH_MARKS {
        let bounds = (numerator_bounds, dg, errors);
        for_each_smallest_job_with_marks(bounds, surplus, &mut |job| compare(job, &mut counts));
    }
    let name = "all poles, silent rows and values of the smallest jobs";
    expect_enough(name, &counts, [15_000, 56_000, 30_000_000]);
}
