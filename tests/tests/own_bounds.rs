//! A bound for each output: where the bounds differ, the answer within them is that within df for every output, if it meets
//! them, and there is none if it does not.

use hanthuvelo::hex;
use outside_checks::jobs::{generate, Counts, Kind};
use outside_checks::layout::{trimmed, Answer, Job};
use outside_checks::{checkers, conclude, implementations, setting, Implementation};

const SEED: u64 = 318;
const JOBS: u64 = 40_000;

/// How the answer within each output's own bound compares with that within df for every output.
const SAME: &str = "the same answer";
const BEYOND: &str = "an answer within df alone";
const NONE: &str = "no answer within df";

fn answer(implementation: Implementation, job: &Job) -> Option<Answer> {
    let bytes = implementation.answer(job)?;
    Some(Answer::unpack(&bytes, job))
}

/// Compares the two answers, and says how they do.
fn compare(implementation: Implementation, job: &Job) -> &'static str {
    let mut with_df = job.clone();
    with_df.numerator_bounds.fill(job.numerator_bound());
    let within_df = answer(implementation, &with_df);
    let has_room = |(f, bound): (&Vec<u32>, &usize)| trimmed(f).len() <= bound + 1;
    let meets = |answer: &Answer| {
        let bounds = job.numerator_bounds.iter();
        answer.numerators.iter().zip(bounds).all(has_room)
    };
    let expected = within_df.clone().filter(meets);
    let found = match (&within_df, &expected) {
        (None, _) => NONE,
        (Some(_), None) => BEYOND,
        (Some(_), Some(_)) => SAME,
    };
    let compared = |answer: Option<Answer>| answer.map(|each| (each.word, each.trimmed()));
    let own = compared(answer(implementation, job));
    let describe = || format!("{}: {}", implementation.name, hex::text(&job.pack()));
    assert_eq!(own, compared(expected), "{}", describe());
    found
}

#[test]
fn the_answer_within_own_bounds_is_that_within_df() {
    for implementation in implementations() {
        let mut counts = Counts::default();
        for index in 0..setting("JOBS", JOBS) {
            let generated = generate(SEED, index);
            if !(checkers()[0].check)(&generated.bytes).is_accepted() {
                continue;
            }
            let job = Job::unpack(&generated.bytes);
            if job.has_equal_bounds() {
                continue;
            }
            let found = compare(implementation, &job);
            let is_made_so = generated.kinds.contains(&Kind::BeyondOwnBound);
            assert!(!is_made_so || found == BEYOND, "{}", generated.describe());
            counts.add(found, true);
            counts.add("made to be within df alone", is_made_so);
        }
        let floors = [
            (SAME, 3000),
            (BEYOND, 800),
            (NONE, 500),
            ("made to be within df alone", 600),
        ];
        let title = format!("bounds that differ, {}", implementation.name);
        conclude(&title, counts.against(&floors));
    }
}
