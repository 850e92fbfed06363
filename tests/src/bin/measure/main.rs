//! Measures every implementation on the same jobs, in one run:
//! `cargo run --offline --release --bin measure`.

mod forms;
mod judging;

use outside_checks::jobs::measured::{generate, Size};
use outside_checks::layout::HeaderForm;
use outside_checks::{implementations, Implementation};
use std::hint::black_box;
use std::time::Instant;

const SEED: u64 = 10;
const JOBS: u64 = 1000;
const GROWTH_JOBS: u64 = 200;
const ROUNDS: usize = 41;
/// An elimination takes some twenty times as long as the others: fewer rounds of it.
const SLOW_ROUNDS: usize = 3;
/// df, dg and E of the jobs whose number of rows grows.
const GROWTH: [(usize, usize, usize); 6] = [
    (1, 0, 1),
    (2, 2, 1),
    (3, 3, 2),
    (6, 4, 4),
    (8, 6, 5),
    (10, 8, 6),
];

const FULL: &str = "df 10, dg 8, E 6, 31 rows, 4 outputs";
const OWN_BOUNDS: &str = "df 10, dg 8, E 6, 31 rows, 4 outputs, the longer header";
const SMALL: &str = "df 1, dg 0, E 1, 4 rows, 4 outputs";

/// Microseconds for a job, one entry for each round; the least comes first.
struct Times {
    name: &'static str,
    rounds: Vec<f64>,
}

impl Times {
    fn new(name: &'static str) -> Times {
        Times {
            name,
            rounds: Vec::new(),
        }
    }

    fn best(&self) -> f64 {
        self.rounds[0]
    }

    fn middle(&self) -> f64 {
        self.rounds[self.rounds.len() / 2]
    }
}

fn main() {
    if cfg!(debug_assertions) {
        println!("NOT OPTIMISED: run with --release");
    }
    let own_bounds = Size {
        header: HeaderForm::OwnBounds,
        ..Size::FULL
    };
    let sizes = [
        (FULL, Size::FULL),
        (OWN_BOUNDS, own_bounds),
        (SMALL, sized(GROWTH[0])),
    ];
    let [full, own_bounds, small] = sizes.map(|(_, size)| measure_all(size, JOBS));
    println!(
        "library against plain Rust: full job {}, 4 rows {}",
        headline(&full),
        headline(&small)
    );
    println!("\n{JOBS} jobs modulo 65521, full degrees, no pole, exactly E wrong rows; rounds take turns");
    println!("microseconds for a job: best and middle of {ROUNDS} rounds ({SLOW_ROUNDS} of the second solver)");
    println!("one area of the answer's length for all calls of a round, not cleared between them");
    show(FULL, &full);
    show(OWN_BOUNDS, &own_bounds);
    show(SMALL, &small);
    show_all_growth();
    println!("\nall implementations answered alike on every job");
    judging::show(sizes);
    forms::show(sizes);
}

/// How the times grow with the rows and with the outputs.
fn show_all_growth() {
    println!("\ngrowth with the rows, 4 outputs, {GROWTH_JOBS} jobs each, best");
    for bounds in GROWTH {
        let size = sized(bounds);
        show_growth(&format!("{} rows", size.row_count()), size);
    }
    println!("\ngrowth with the outputs, 31 rows, {GROWTH_JOBS} jobs each, best");
    for outputs in 1..=4 {
        show_growth(
            &format!("{outputs} outputs"),
            Size {
                outputs,
                ..Size::FULL
            },
        );
    }
}

fn sized((numerator_bound, denominator_bound, error_bound): (usize, usize, usize)) -> Size {
    Size {
        numerator_bound,
        denominator_bound,
        error_bound,
        ..Size::FULL
    }
}

/// The best time of one implementation; not a number where it is not linked.
fn best_of(times: &[Times], name: &str) -> f64 {
    let found = times.iter().find(|each| each.name == name);
    found.map_or(f64::NAN, Times::best)
}

fn headline(times: &[Times]) -> String {
    let (library, plain) = (best_of(times, "library"), best_of(times, "plain"));
    format!("{:.2} ({library:.2} against {plain:.2})", library / plain)
}

fn show(label: &str, times: &[Times]) {
    println!("\n{label}");
    let plain = best_of(times, "plain");
    for each in times {
        let (name, best, middle) = (each.name, each.best(), each.middle());
        let ratio = best / plain;
        println!("{name:<10} best {best:>9.2}  middle {middle:>9.2}  {ratio:>7.2} times plain");
    }
}

fn show_growth(label: &str, size: Size) {
    print!("{label:<10}");
    for each in measure_all(size, GROWTH_JOBS) {
        print!("  {} {:>9.2}", each.name, each.best());
    }
    println!();
}

/// The times of each implementation, after a look whether all answer alike. The rounds of the
/// implementations take turns, so that other load on the machine meets them alike.
fn measure_all(size: Size, count: u64) -> Vec<Times> {
    let jobs: Vec<Vec<u8>> = (0..count)
        .map(|index| generate(SEED, index, size).pack())
        .collect();
    compare(&jobs, size);
    let all = implementations();
    let mut times: Vec<Times> = all.iter().map(|each| Times::new(each.name)).collect();
    for round in 0..ROUNDS {
        for (implementation, times) in all.iter().zip(&mut times) {
            if implementation.name != "second" || round < SLOW_ROUNDS {
                times.rounds.push(measure(*implementation, &jobs, size));
            }
        }
    }
    sorted(times)
}

/// The same times, of each the least first.
fn sorted(mut times: Vec<Times>) -> Vec<Times> {
    for each in &mut times {
        each.rounds.sort_by(f64::total_cmp);
    }
    times
}

fn compare(jobs: &[Vec<u8>], size: Size) {
    for job in jobs {
        let outcomes: Vec<_> = implementations()
            .iter()
            .map(|each| {
                let mut area = vec![0xA5; size.answer_length()];
                ((each.recover)(job, &mut area), area)
            })
            .collect();
        let alike = outcomes.iter().all(|outcome| *outcome == outcomes[0]);
        assert!(alike, "the answers differ: {job:02X?}");
        let report = outcomes[0].0;
        let answered = report.is_recovered() && report.wrong as usize == size.error_bound;
        assert!(
            answered,
            "not answered with E wrong rows: {report:?} {job:02X?}"
        );
    }
}

fn measure(implementation: Implementation, jobs: &[Vec<u8>], size: Size) -> f64 {
    let mut area = vec![0; size.answer_length()];
    microseconds(jobs, |job| {
        black_box((implementation.recover)(black_box(job), &mut area));
    })
}

/// Microseconds for a call in one round over all that it is called with.
fn microseconds<T>(all: &[T], call: impl FnMut(&T)) -> f64 {
    let start = Instant::now();
    all.iter().for_each(call);
    start.elapsed().as_secs_f64() * 1e6 / all.len() as f64
}
