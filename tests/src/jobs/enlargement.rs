//! Pairs of jobs for the enlargement rule of paper 01, with item 6 of paper 02: the larger one holds every row of the
//! smaller one that speaks, in another order, with further rows, bounds of its own, and any header.

use super::planted::{free_point, planted, Planted, Shape, WrongRows};
use super::planted_marks::Marks;
use super::random::Random;
use crate::layout::{value_at, wrong_rows, HeaderForm, Job, Mark, Row, MOST_ROWS};
use crate::second::Field;

pub struct Pair {
    pub smaller: Job,
    pub larger: Job,
}

/// The pair of this number in the run of this seed.
pub fn generate(seed: u64, index: u64) -> Pair {
    let mut random = Random::new(seed, index);
    let shapes = [
        Shape::Any,
        Shape::Poles,
        Shape::AllZero,
        Shape::LooseBounds,
        Shape::Any,
        Shape::Marked(random.one_of(&Marks::ALL)),
        Shape::Marked(Marks::Silent),
        Shape::Marked(Marks::PolesAndSilent),
    ];
    let shape = random.one_of(&shapes);
    let wrong = match random.below(8) {
        0 if shape != Shape::Poles => WrongRows::None,
        1 => WrongRows::OneTooMany,
        2..=4 => WrongRows::Fewer,
        _ => WrongRows::Exact,
    };
    let planted = planted(&mut random, shape, wrong);
    let mut larger = planted.job.clone();
    replace_silent_rows(&mut random, &planted, &mut larger);
    larger.header = match larger.has_marks() {
        true => HeaderForm::Flagged,
        false => random.one_of(&[
            HeaderForm::Short,
            HeaderForm::OwnBounds,
            HeaderForm::OwnBounds,
            HeaderForm::Flagged,
        ]),
    };
    add_rows(&mut random, &planted, &mut larger);
    draw_bounds(&mut random, &planted, &mut larger);
    random.shuffle(&mut larger.rows);
    Pair {
        smaller: planted.job,
        larger,
    }
}

/// Takes silent rows away, or puts rows that speak in their places: none of them, some, or all.
fn replace_silent_rows(random: &mut Random, planted: &Planted, larger: &mut Job) {
    let share = random.between(0, 2);
    for row in planted.job.marked(Mark::Silent).into_iter().rev() {
        let point = larger.rows[row].point;
        if random.below(2) >= share {
            continue;
        }
        match random.once_in(2) {
            true => drop(larger.rows.remove(row)),
            false => {
                let is_wrong = random.once_in(3);
                larger.rows[row] = row_at(random, planted, point, is_wrong);
            }
        }
    }
}

/// Further rows at free points: mostly right ones, or none at all, or some wrong ones; where the flag allows it, silent ones
/// too, and reports of poles, true or false.
fn add_rows(random: &mut Random, planted: &Planted, larger: &mut Job) {
    let prime = larger.prime();
    let space = MOST_ROWS.min(prime as usize) - larger.rows.len();
    let count = if random.once_in(6) {
        0
    } else {
        random.between(0, space)
    };
    let wrong_share = random.between(1, 6);
    let pole = free_pole(planted);
    for added in 0..count {
        let point = match pole {
            Some(pole) if added == 0 => pole,
            _ => free_point(random, larger),
        };
        let wrong = random.once_in(wrong_share);
        let mut row = row_at(random, planted, point, wrong);
        if larger.header == HeaderForm::Flagged {
            mark(random, planted, &mut row, wrong);
        }
        larger.rows.push(row);
    }
}

/// Makes a row silent at times, and lets a row at a root of g report it, mostly, and a row that may be wrong at times.
fn mark(random: &mut Random, planted: &Planted, row: &mut Row, is_wrong: bool) {
    let is_root = value_at(&planted.denominator, row.point, planted.job.prime()) == 0;
    match random.below(4) {
        0 => row.put(Mark::Silent),
        1 | 2 if is_root || is_wrong => row.put(Mark::Pole),
        _ => {}
    }
}

/// A root of g that is no point yet; only looked for in the smaller fields.
fn free_pole(planted: &Planted) -> Option<u32> {
    let prime = planted.job.prime();
    let is_free = |point: &u32| planted.job.rows.iter().all(|row| row.point != *point);
    let mut points = 0..if prime < 1000 { prime } else { 0 };
    points.find(|point| value_at(&planted.denominator, *point, prime) == 0 && is_free(point))
}

/// The row that is right at a point, or random values where there is none or a wrong one is wanted.
fn row_at(random: &mut Random, planted: &Planted, point: u32, wrong: bool) -> Row {
    let prime = planted.job.prime();
    let field = Field::new(prime);
    let below = value_at(&planted.denominator, point, prime);
    let values = if wrong || below == 0 {
        let numerators = planted.numerators.iter();
        numerators.map(|_| random.residue(prime)).collect()
    } else {
        let unit = field.reciprocal(below);
        let value = |f: &Vec<u32>| field.multiply(value_at(f, point, prime), unit);
        planted.numerators.iter().map(value).collect()
    };
    Row { point, values }
}

/// Bounds that the fraction meets and that the rows suffice for; E is often the number of wrong
/// rows, or one less. Under a longer header each f has a bound of its own, which may be its degree.
fn draw_bounds(random: &mut Random, planted: &Planted, larger: &mut Job) {
    let degree = |f: &Vec<u32>| f.len().saturating_sub(1);
    let degrees: Vec<usize> = planted.numerators.iter().map(degree).collect();
    let numerator_degree = degrees.iter().copied().max().unwrap_or(0);
    let denominator_degree = planted.denominator.len() - 1;
    let room = larger.speaking() - 1 - numerator_degree - denominator_degree;
    let wrong = wrong_rows(larger, &planted.denominator, &planted.numerators).count_ones() as usize;
    let most_errors = 15.min(room / 2);
    let errors = match random.below(5) {
        0 | 1 => wrong,
        2 => wrong.saturating_sub(1),
        _ => random.between(0, most_errors),
    };
    larger.error_bound = errors.min(most_errors);
    let room = room - 2 * larger.error_bound;
    let sum = random.between(0, room);
    let part = random.between(0, sum);
    let df = numerator_degree + part;
    larger.denominator_bound = denominator_degree + sum - part;
    larger.numerator_bounds.fill(df);
    if larger.header.has_own_bounds() {
        let bounds = degrees.into_iter().map(|degree| {
            let any = random.between(degree, df);
            random.one_of(&[any, any, degree, df])
        });
        larger.numerator_bounds = bounds.collect();
    }
}
