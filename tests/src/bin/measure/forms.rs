//! How long the check of a job's form takes, beside a recovery that comes no further than the form.

use super::{best_of, microseconds, sorted, Times, JOBS, SEED};
use hanthuvelo::{Form, Report};
use outside_checks::jobs::measured::{generate, Size};
use outside_checks::jobs::Random;
use outside_checks::layout::Job;
use outside_checks::{checkers, implementations};
use std::hint::black_box;

const ROUNDS: usize = 301;

/// What the measured jobs are like. The points of those that are generated rise from 0.
#[derive(Clone, Copy)]
enum Sort {
    Rising,
    Shuffled,
    /// The last number of the last row is p.
    Large,
    /// The last row has the point of the row before it.
    Repeated,
}

const SORTS: [(Sort, &str); 4] = [
    (Sort::Rising, "accepted, points rising"),
    (Sort::Shuffled, "accepted, rows shuffled"),
    (Sort::Large, "refused 5 for the last number of the last row"),
    (Sort::Repeated, "refused 6 for the last row"),
];

impl Sort {
    /// Makes a job one of this sort, and returns what is to be found of its form.
    fn apply(self, random: &mut Random, job: &mut Job) -> Form {
        let last = job.rows.len() - 1;
        match self {
            Sort::Rising => Form::ACCEPTED,
            Sort::Shuffled => {
                random.shuffle(&mut job.rows);
                Form::ACCEPTED
            }
            Sort::Large => {
                let prime = job.prime();
                let value = job.rows[last].values.last_mut();
                *value.expect("an output") = prime;
                Form::refused(5, last as u32)
            }
            Sort::Repeated => {
                job.rows[last].point = job.rows[last - 1].point;
                Form::refused(6, last as u32)
            }
        }
    }
}

/// A function that is measured.
#[derive(Clone, Copy)]
enum Call {
    Check(fn(&[u8]) -> Form),
    /// Without an area: refused with 7 where no test before refuses the job.
    Recover(fn(&[u8], &mut [u8]) -> Report),
}

/// The checks but for the second one, and the first recovery, which is the library's where it is
/// linked.
fn calls() -> Vec<(&'static str, Call)> {
    let mut all: Vec<(&str, Call)> = checkers()
        .into_iter()
        .filter(|each| each.name != "second")
        .map(|each| (each.name, Call::Check(each.check)))
        .collect();
    let recovery = implementations()[0];
    all.insert(1, (recovery.name, Call::Recover(recovery.recover)));
    all
}

impl Call {
    fn text(self) -> &'static str {
        match self {
            Call::Check(_) => "checks",
            Call::Recover(_) => "recovers without an area",
        }
    }

    fn round(self, jobs: &[Vec<u8>]) -> f64 {
        match self {
            Call::Check(check) => microseconds(jobs, |job| {
                black_box(check(black_box(job)));
            }),
            Call::Recover(recover) => microseconds(jobs, |job| {
                black_box(recover(black_box(job), &mut []));
            }),
        }
    }

    fn expect(self, job: &[u8], form: Form) {
        let found = match self {
            Call::Check(check) => check(job),
            Call::Recover(recover) => match recover(job, &mut []) {
                Report { refusal: 7, .. } => Form::ACCEPTED,
                Report { refusal, row, .. } => Form::refused(refusal, row),
            },
        };
        assert_eq!(found, form, "{}: {job:02X?}", self.text());
    }
}

/// Measures every call on jobs of each size and sort.
pub fn show(sizes: [(&str, Size); 3]) {
    println!("\nthe form of a job: {JOBS} jobs, nanoseconds for a call, best and middle of {ROUNDS} rounds that take turns");
    for (label, size) in sizes {
        for (sort, name) in SORTS {
            println!("\n{label}: {name}");
            let times = measure_all(size, sort);
            let plain = best_of(&times, "plain");
            for (each, (_, call)) in times.iter().zip(calls()) {
                let (best, middle) = (1e3 * each.best(), 1e3 * each.middle());
                let (name, ratio) = (
                    format!("{} {}", each.name, call.text()),
                    each.best() / plain,
                );
                println!(
                    "{name:<36} best {best:>9.1}  middle {middle:>9.1}  {ratio:>7.2} times plain"
                );
            }
        }
    }
}

fn measure_all(size: Size, sort: Sort) -> Vec<Times> {
    let mut random = Random::new(SEED, JOBS);
    let calls = calls();
    let mut jobs = Vec::new();
    for index in 0..JOBS {
        let mut job = generate(SEED, index, size);
        let form = sort.apply(&mut random, &mut job);
        let bytes = job.pack();
        for (_, call) in &calls {
            call.expect(&bytes, form);
        }
        jobs.push(bytes);
    }
    let mut times: Vec<Times> = calls.iter().map(|(name, _)| Times::new(name)).collect();
    for _ in 0..ROUNDS {
        for ((_, call), times) in calls.iter().zip(&mut times) {
            times.rounds.push(call.round(&jobs));
        }
    }
    sorted(times)
}
