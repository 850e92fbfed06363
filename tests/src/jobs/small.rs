//! Random small jobs modulo 7, for comparing with the definition.

use super::random::Random;
use crate::definition::candidates;
use crate::layout::{value_at, HeaderForm, Job, Mark, Row};

/// So many random jobs that are wanted and for which the definition tries no more pairs than this.
pub fn small_jobs(
    mut random: Random,
    (count, most_candidates): (usize, u64),
    draw: fn(&mut Random) -> Job,
    is_wanted: fn(&Job) -> bool,
) -> impl Iterator<Item = Job> {
    let drawn = std::iter::repeat_with(move || draw(&mut random));
    let wanted = drawn.filter(move |job| candidates(job) <= most_candidates && is_wanted(job));
    wanted.take(count)
}

/// Small bounds, 7 rows at most, and random values.
fn random_values(random: &mut Random) -> Job {
    let row_count = random.between(1, 7);
    let errors = random.between(0, (row_count - 1) / 2);
    let room = row_count - 1 - 2 * errors;
    let df = random.between(0, room);
    let dg = random.between(0, room - df);
    let outputs = random.between(1, 4);
    let numerator_bounds = random_bounds(random, outputs, df);
    let mut points: Vec<u32> = (0..7).collect();
    random.shuffle(&mut points);
    let rows = points[..row_count].iter().map(|&point| Row {
        point,
        values: (0..outputs).map(|_| random.residue(7)).collect(),
    });
    Job {
        header: HeaderForm::OwnBounds,
        prime_code: 0,
        numerator_bounds,
        denominator_bound: dg,
        error_bound: errors,
        rows: rows.collect(),
    }
}

/// The same, or values of a random fraction with a number of random rows.
pub fn small_job(random: &mut Random) -> Job {
    let mut job = random_values(random);
    // At times the fraction passes the bound of an output, though not df.
    let bounds = match random.once_in(5) {
        true => vec![job.numerator_bound(); job.outputs()],
        false => job.numerator_bounds.clone(),
    };
    let mut draw = |bound: usize| (0..=bound).map(|_| random.residue(7)).collect::<Vec<u32>>();
    let denominator = draw(job.denominator_bound);
    let numerators: Vec<Vec<u32>> = bounds.into_iter().map(&mut draw).collect();
    let row_count = job.rows.len();
    let spoilt = random.between(0, job.error_bound + 1);
    let fitted = if random.once_in(6) {
        row_count
    } else {
        spoilt.min(row_count)
    };
    fit_rows(&mut job.rows[fitted..], &denominator, &numerators);
    random.shuffle(&mut job.rows);
    job
}

/// The same with marks: rows at roots of the denominator report them, mostly, and others at times; rows to spare are silent at
/// times.
pub fn small_job_with_marks(random: &mut Random) -> Job {
    let mut job = random_values(random);
    job.header = HeaderForm::Flagged;
    let mut draw = |bound: usize| (0..=bound).map(|_| random.residue(7)).collect::<Vec<u32>>();
    let denominator = draw(job.denominator_bound);
    let bounds = job.numerator_bounds.clone();
    let numerators: Vec<Vec<u32>> = bounds.into_iter().map(&mut draw).collect();
    let spoilt = random.between(0, job.error_bound + 1);
    fit_rows(&mut job.rows[spoilt..], &denominator, &numerators);
    for row in 0..job.rows.len() {
        let is_root = value_at(&denominator, job.rows[row].point, 7) == 0;
        if is_root && !random.once_in(4) || random.once_in(8) {
            job.rows[row].put(Mark::Pole);
        }
        if job.rows_to_spare() > 0 && random.once_in(3) {
            job.rows[row].put(Mark::Silent);
        }
    }
    random.shuffle(&mut job.rows);
    job
}

/// df for every f, or for one of them and for each other one its own bound.
fn random_bounds(random: &mut Random, outputs: usize, df: usize) -> Vec<usize> {
    let mut bounds = vec![df; outputs];
    if random.once_in(2) {
        bounds.fill_with(|| random.between(0, df));
        bounds[random.below(outputs)] = df;
    }
    bounds
}

/// The values of a fraction modulo 7, found by search; rows where it has none stay as they are.
fn fit_rows(rows: &mut [Row], denominator: &[u32], numerators: &[Vec<u32>]) {
    let value = |polynomial: &[u32], point| value_at(polynomial, point, 7);
    for row in rows {
        let below = value(denominator, row.point);
        for (entry, numerator) in row.values.iter_mut().zip(numerators) {
            let above = value(numerator, row.point);
            *entry = (0..7)
                .find(|&quotient| quotient * below % 7 == above)
                .unwrap_or(*entry);
        }
    }
}
