//! How long a judgement takes, beside the recovery of the same job.

use super::{microseconds, sorted, Times, JOBS, ROUNDS, SEED, SLOW_ROUNDS};
use outside_checks::jobs::measured::{generate, Size};
use outside_checks::layout::{row_bit, Answer, Job};
use outside_checks::{implementations, judges, Implementation, Judge};
use std::hint::black_box;

/// What is offered for each job.
const OFFERED: [&str; 3] = ["the answer", "a row more marked", "the answer times 2"];

/// A job, and the bytes that are offered for it.
struct Pair {
    job: Vec<u8>,
    offered: [Vec<u8>; OFFERED.len()],
}

/// Measures the first recovery and the first judge, which are the library's where it is linked.
pub fn show(sizes: [(&str, Size); 3]) {
    let (recovery, judge) = (implementations()[0], judges()[0]);
    let rounds = match judge.name {
        "second" => SLOW_ROUNDS,
        _ => ROUNDS,
    };
    println!("\njudging an answer: {JOBS} jobs, microseconds for a call, best and middle of {rounds} rounds that take turns");
    for (label, size) in sizes {
        println!("\n{label}");
        let times = measure_all(recovery, judge, size, rounds);
        let recovered = times[0].best();
        for (place, each) in times.iter().enumerate() {
            let what = match place {
                0 => "recovers".to_string(),
                _ => format!("judges {}", OFFERED[place - 1]),
            };
            let (best, middle) = (each.best(), each.middle());
            let (name, ratio) = (format!("{} {what}", each.name), best / recovered);
            println!("{name:<36} best {best:>9.2}  middle {middle:>9.2}  {ratio:>7.2} times the recovery");
        }
    }
}

/// The times of the recovery, then of the judge on each that is offered.
fn measure_all(recovery: Implementation, judge: Judge, size: Size, rounds: usize) -> Vec<Times> {
    let pairs: Vec<Pair> = (0..JOBS)
        .map(|index| pair(recovery, &generate(SEED, index, size)))
        .collect();
    let mut times = vec![Times::new(recovery.name)];
    times.extend(OFFERED.map(|_| Times::new(judge.name)));
    let mut area = vec![0; size.answer_length()];
    for _ in 0..rounds {
        let recover = |pair: &Pair| {
            black_box((recovery.recover)(black_box(&pair.job), &mut area));
        };
        times[0].rounds.push(microseconds(&pairs, recover));
        for (place, times) in times[1..].iter_mut().enumerate() {
            let is_yes = place == 0;
            let judge = |pair: &Pair| {
                let judgement =
                    (judge.judge)(black_box(&pair.job), black_box(&pair.offered[place]));
                assert!(judgement.refusal == 0 && judgement.is_yes() == is_yes);
            };
            times.rounds.push(microseconds(&pairs, judge));
        }
    }
    sorted(times)
}

fn pair(recovery: Implementation, job: &Job) -> Pair {
    let bytes = job.pack();
    let mut area = vec![0; job.answer_length()];
    let report = (recovery.recover)(&bytes, &mut area);
    assert!(report.is_recovered(), "{report:?} {bytes:02X?}");
    let answer = Answer::unpack(&area, job);
    let right_row = (0..job.rows.len()).find(|&row| answer.word & row_bit(row) == 0);
    let marked = Answer {
        word: answer.word | row_bit(right_row.expect("a right row")),
        ..answer.clone()
    };
    let doubled = doubled(&answer, job.prime());
    let offered = [&answer, &marked, &doubled].map(|each| each.pack(job));
    Pair {
        job: bytes,
        offered,
    }
}

/// The same fractions, g with another leading coefficient.
fn doubled(answer: &Answer, prime: u32) -> Answer {
    let twice = |polynomial: &Vec<u32>| polynomial.iter().map(|&each| 2 * each % prime).collect();
    Answer {
        word: answer.word,
        denominator: twice(&answer.denominator),
        numerators: answer.numerators.iter().map(twice).collect(),
    }
}
