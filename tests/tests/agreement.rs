//! Every implementation on the same generated jobs: the report and every byte of the area.
//!
//! `SEED` and `JOBS` in the environment take another run.

use hanthuvelo::hex;
use hanthuvelo::Report;
use outside_checks::jobs::{generate, GeneratedJob, Tally};
use outside_checks::{
    agreed, conclude, expect_repeatable, implementations, run_title, setting, Area, Implementation,
};

const SEED: u64 = 20_140_601;
const JOBS: u64 = 150_000;

/// Every implementation's report, which must be the same, and so must the areas.
fn agreed_report(job: &GeneratedJob) -> Report {
    let outcome = |implementation: Implementation| {
        let mut area = job.area.clone();
        let report = (implementation.recover)(&job.bytes, &mut area);
        let outcome = || format!("{}: {report:?}\n{}", implementation.name, hex::text(&area));
        if let Some(complaint) = job.complaint(report, &area) {
            panic!("{complaint}\n{}\n{}", outcome(), job.describe());
        }
        let kept = report.written as usize;
        assert!(
            area[kept..] == job.area[kept..],
            "altered behind\n{}\n{}",
            outcome(),
            job.describe()
        );
        (implementation.name, (report, Area(area)))
    };
    let outcomes = implementations().into_iter().map(outcome);
    agreed(outcomes, &|| job.describe()).0
}

#[test]
fn all_implementations_agree_on_generated_jobs() {
    let seed = setting("SEED", SEED);
    let mut tally = Tally::default();
    for index in 0..setting("JOBS", JOBS) {
        let job = generate(seed, index);
        let report = agreed_report(&job);
        tally.count(&job, report);
    }
    let names = implementations().into_iter().map(|each| each.name);
    conclude(&run_title(seed, "compared", names), tally.summary());
}

#[test]
fn the_generator_repeats_itself() {
    expect_repeatable(SEED, |seed, index| generate(seed, index).describe());
}
