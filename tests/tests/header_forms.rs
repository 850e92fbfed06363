//! The headers of the same job: where every f has the same bound, all calls say the same of the header with one bound and of
//! that with a bound for each output, and also of that with the flag, if no row has the numbers of a mark.

use hanthuvelo::{hex, Form, Judgement, Report, Written};
use outside_checks::jobs::form::{self, FormJob};
use outside_checks::jobs::judged::{self, Pair};
use outside_checks::jobs::trial::{self, TrialCall};
use outside_checks::jobs::{self, outcome, Counts, GeneratedJob};
use outside_checks::layout::{HeaderForm, Job};
use outside_checks::{checkers, conclude, implementations, judges, setting, writers, Area, Writer};
use std::fmt::Debug;

const SEED: u64 = 317;
const COUNT: u64 = 40_000;

/// The bytes of a short header, and what follows it, with each other header in its place; every f has the bound df. That with
/// the flag is left out where it would give a row another meaning.
fn under_other_headers(bytes: &[u8]) -> Vec<Vec<u8>> {
    if bytes.len() < 3 || HeaderForm::of(bytes).has_own_bounds() {
        return Vec::new();
    }
    let df = u32::from(bytes[1] >> 2 & 31);
    let outputs = u32::from(bytes[0] >> 4 & 3) + 1;
    let bounds: u32 = (0..outputs).map(|output| df << (27 - 5 * output)).sum();
    let first = [bytes[0], bytes[1], bytes[2] | 1];
    let with = |flags: u32| [&first[..], &(bounds | flags).to_be_bytes(), &bytes[3..]].concat();
    let mut others = vec![with(0), with(0x800)];
    others.retain(|bytes| !Job::unpack(bytes).has_marks());
    others
}

/// A call on the bytes of a job.
trait Call {
    /// What is returned, and the area that is left if there is one.
    type Outcome: PartialEq + Debug;

    fn job(&self) -> &[u8];

    fn describe(&self) -> String;

    /// The outcome by each implementation, after its name, where these are the job's bytes.
    fn outcomes(&self, job: &[u8]) -> Vec<(&'static str, Self::Outcome)>;

    /// What an outcome is counted as.
    fn kind(outcome: &Self::Outcome) -> String;
}

/// A recovery.
impl Call for GeneratedJob {
    type Outcome = (Report, Area);

    fn job(&self) -> &[u8] {
        &self.bytes
    }

    fn describe(&self) -> String {
        self.describe()
    }

    fn outcomes(&self, job: &[u8]) -> Vec<(&'static str, (Report, Area))> {
        let all = implementations().into_iter();
        all.map(|each| {
            let mut area = self.area.clone();
            let report = (each.recover)(job, &mut area);
            (each.name, (report, Area(area)))
        })
        .collect()
    }

    fn kind((report, _): &(Report, Area)) -> String {
        outcome(report.refusal, "answered")
    }
}

/// A judgement.
impl Call for Pair {
    type Outcome = Judgement;

    fn job(&self) -> &[u8] {
        &self.job
    }

    fn describe(&self) -> String {
        self.describe()
    }

    fn outcomes(&self, job: &[u8]) -> Vec<(&'static str, Judgement)> {
        let all = judges().into_iter();
        all.map(|each| (each.name, (each.judge)(job, &self.offered)))
            .collect()
    }

    fn kind(judgement: &Judgement) -> String {
        let word = if judgement.is_yes() { "yes" } else { "no" };
        outcome(judgement.refusal, word)
    }
}

/// A check of the form.
impl Call for FormJob {
    type Outcome = Form;

    fn job(&self) -> &[u8] {
        &self.bytes
    }

    fn describe(&self) -> String {
        self.describe()
    }

    fn outcomes(&self, job: &[u8]) -> Vec<(&'static str, Form)> {
        let all = checkers().into_iter();
        all.map(|each| (each.name, (each.check)(job))).collect()
    }

    fn kind(form: &Form) -> String {
        outcome(form.refusal, "accepted")
    }
}

/// Every implementation has the same outcome under every header.
fn expect_alike<C: Call>(
    title: &str,
    calls: impl Iterator<Item = C>,
    floors: &[(&'static str, usize)],
) {
    let mut counts = Counts::default();
    for call in calls {
        for other in under_other_headers(call.job()) {
            let pairs = call.outcomes(call.job()).into_iter();
            for (short, again) in pairs.zip(call.outcomes(&other)) {
                assert_eq!(short, again, "{}\n{}", hex::text(&other), call.describe());
                counts.add(&C::kind(&short.1), true);
            }
        }
    }
    conclude(title, counts.against(floors));
}

#[test]
fn a_job_is_recovered_alike_under_all_headers() {
    let calls = (0..setting("JOBS", COUNT)).map(|index| jobs::generate(SEED, index));
    let floors = [
        ("answered", 5000),
        ("refused 3", 100),
        ("refused 4", 100),
        ("refused 5", 100),
        ("refused 6", 100),
        ("refused 7", 100),
        ("refused 8", 500),
    ];
    expect_alike("recovered under all headers", calls, &floors);
}

#[test]
fn an_answer_is_judged_alike_under_all_headers() {
    let calls = (0..setting("PAIRS", COUNT)).map(|index| judged::generate(SEED, index));
    let floors = [
        ("no", 1000),
        ("yes", 500),
        ("refused 3", 100),
        ("refused 4", 50),
        ("refused 5", 50),
        ("refused 6", 50),
    ];
    expect_alike("judged under all headers", calls, &floors);
}

#[test]
fn a_form_is_checked_alike_under_all_headers() {
    let calls = (0..setting("JOBS", COUNT)).map(|index| form::generate(SEED, index));
    let floors = [
        ("accepted", 2000),
        ("refused 3", 500),
        ("refused 4", 500),
        ("refused 5", 2000),
        ("refused 6", 2000),
    ];
    expect_alike("forms checked under all headers", calls, &floors);
}

/// What a writer returns for both headers, and the areas: the jobs differ in the header alone, and the area of that with a
/// bound for each output has four bytes more.
fn compare_trials(writer: Writer, call: &TrialCall, with_bounds: &[u8]) -> Written {
    let write = |header: &[u8], area: &mut [u8]| {
        (writer.trial)(header, &call.coefficients, call.start, call.spoiled, area)
    };
    let (mut area, mut other) = (call.area.clone(), vec![0x5A; 4 + call.area.len()]);
    let short = write(&call.header, &mut area);
    let again = write(with_bounds, &mut other);
    let length = short.written as usize;
    let mut expected = vec![0x5A; other.len()];
    if short.is_written() {
        expected[..7].copy_from_slice(with_bounds);
        expected[7..4 + length].copy_from_slice(&area[3..length]);
        assert_eq!(again, Written::bytes(short.written + 4));
    }
    let fits = other == expected && again.refusal == short.refusal;
    assert!(fits, "{again:?}\n{}\n{}", writer.name, call.describe());
    short
}

#[test]
fn a_trial_is_written_alike_under_all_headers() {
    let mut counts = Counts::default();
    for index in 0..setting("CALLS", COUNT) {
        let call = trial::generate(SEED, index);
        for other in under_other_headers(&call.header) {
            for writer in writers() {
                let written = compare_trials(writer, &call, &other);
                counts.add(&outcome(written.refusal, "written"), true);
            }
        }
    }
    let floors = [
        ("written", 5000),
        ("refused 3", 100),
        ("refused 4", 100),
        ("refused 5", 100),
        ("refused 7", 100),
        ("refused 9", 200),
        ("refused 10", 200),
    ];
    conclude("trials under all headers", counts.against(&floors));
}
