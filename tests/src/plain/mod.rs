//! The library's own method in ordinary Rust without proofs: a third opinion, and the measure of
//! speed. Fixed arrays, and the prime as a constant of each instance.

mod check;
mod field;
mod interpolate;
mod margin;
mod polynomial;
mod reader;

pub use check::check;
use hanthuvelo::Report;
use interpolate::{interpolate, Conditions};
pub use margin::margin;
use polynomial::Polynomial;
use reader::{Problem, Said};

/// A common denominator and the numerators found so far, all within their bounds.
struct Fraction {
    denominator: Polynomial,
    numerators: [Polynomial; 4],
}

/// Recovers `job` into `area`; on refusal the area keeps its contents.
pub fn recover(job: &[u8], area: &mut [u8]) -> Report {
    let problem = match reader::read(job, area.len()) {
        Ok(problem) => problem,
        Err(refusal) => return Report::refused(refusal.number, refusal.row),
    };
    match problem.prime {
        7 => recover_modulo::<7>(&problem, area),
        97 => recover_modulo::<97>(&problem, area),
        257 => recover_modulo::<257>(&problem, area),
        _ => recover_modulo::<65521>(&problem, area),
    }
}

fn recover_modulo<const PRIME: u32>(problem: &Problem, area: &mut [u8]) -> Report {
    let Some(fraction) = solve::<PRIME>(problem) else {
        return Report::refused(8, 0);
    };
    let word = wrong_rows::<PRIME>(problem, &fraction);
    if word.count_ones() as usize > problem.error_bound {
        return Report::refused(8, 0);
    }
    let written = write_answer(problem, &fraction, word, area);
    Report::recovered(written as u32, word.count_ones())
}

/// One output after the other; `None` where an output already shows that there is no answer.
fn solve<const PRIME: u32>(problem: &Problem) -> Option<Fraction> {
    let mut fraction = Fraction {
        denominator: Polynomial::one(),
        numerators: [Polynomial::zero(); 4],
    };
    let others = problem.denominator_bound + problem.error_bound;
    let numerator_bound = problem.speaking() - 1 - others;
    for output in 0..problem.outputs {
        let conditions = conditions::<PRIME>(problem, &fraction.denominator, output);
        let (numerator, denominator) = interpolate::<PRIME>(&conditions, numerator_bound);
        let (numerator, factor) = lowest_terms::<PRIME>(numerator, denominator)?;
        extend::<PRIME>(problem, &mut fraction, output, numerator, factor)?;
    }
    Some(fraction)
}

/// What the rows ask of an output's quotient over the denominator so far. A pole that is a root of it asks for nothing more.
fn conditions<const PRIME: u32>(
    problem: &Problem,
    denominator: &Polynomial,
    output: usize,
) -> Conditions {
    let mut conditions = Conditions::default();
    for (row, &point) in problem.points[..problem.row_count].iter().enumerate() {
        let factor = denominator.value_at::<PRIME>(point);
        match problem.said[row] {
            Said::Values => {
                let target = field::multiply::<PRIME>(factor, problem.values[row][output]);
                conditions.points[conditions.values] = point;
                conditions.targets[conditions.values] = target;
                conditions.values += 1;
            }
            Said::Pole if factor != 0 => {
                conditions.pole_points[conditions.poles] = point;
                conditions.poles += 1;
            }
            Said::Pole | Said::Nothing => {}
        }
    }
    conditions
}

/// Divides by the greatest common divisor and makes the denominator monic; `None` where it is zero.
fn lowest_terms<const PRIME: u32>(
    numerator: Polynomial,
    denominator: Polynomial,
) -> Option<(Polynomial, Polynomial)> {
    if denominator.is_zero() {
        return None;
    }
    let divisor = numerator.common_divisor::<PRIME>(denominator);
    let numerator = numerator.quotient::<PRIME>(&divisor);
    let denominator = denominator.quotient::<PRIME>(&divisor);
    let scale = field::reciprocal::<PRIME>(denominator.leading());
    Some((
        numerator.scaled::<PRIME>(scale),
        denominator.scaled::<PRIME>(scale),
    ))
}

/// Takes in one more output: its numerator over the denominator so far times `factor`.
fn extend<const PRIME: u32>(
    problem: &Problem,
    fraction: &mut Fraction,
    output: usize,
    numerator: Polynomial,
    factor: Polynomial,
) -> Option<()> {
    if !numerator.has_degree_at_most(problem.numerator_bounds[output]) {
        return None;
    }
    let product = fraction
        .denominator
        .times::<PRIME>(&factor, problem.denominator_bound)?;
    fraction.denominator = product;
    let earlier = fraction.numerators[..output].iter_mut();
    for (numerator, &bound) in earlier.zip(&problem.numerator_bounds) {
        *numerator = numerator.times::<PRIME>(&factor, bound)?;
    }
    fraction.numerators[output] = numerator;
    Some(())
}

/// The word of wrong rows, row 0 at the top bit.
fn wrong_rows<const PRIME: u32>(problem: &Problem, fraction: &Fraction) -> u32 {
    let mut word = 0;
    for row in 0..problem.row_count {
        if is_wrong::<PRIME>(problem, fraction, row) {
            word |= 0x8000_0000 >> row;
        }
    }
    word
}

fn is_wrong<const PRIME: u32>(problem: &Problem, fraction: &Fraction, row: usize) -> bool {
    let point = problem.points[row];
    let denominator = fraction.denominator.value_at::<PRIME>(point);
    match problem.said[row] {
        Said::Nothing => false,
        Said::Pole => denominator != 0,
        Said::Values => (0..problem.outputs).any(|output| {
            let numerator = fraction.numerators[output].value_at::<PRIME>(point);
            numerator != field::multiply::<PRIME>(denominator, problem.values[row][output])
        }),
    }
}

fn write_answer(problem: &Problem, fraction: &Fraction, word: u32, area: &mut [u8]) -> usize {
    area[..4].copy_from_slice(&word.to_be_bytes());
    let mut place = 4;
    let mut write = |polynomial: &Polynomial, bound: usize| {
        for coefficient in polynomial.padded(bound) {
            area[place..place + 2].copy_from_slice(&(*coefficient as u16).to_be_bytes());
            place += 2;
        }
    };
    write(&fraction.denominator, problem.denominator_bound);
    let numerators = fraction.numerators[..problem.outputs].iter();
    for (numerator, &bound) in numerators.zip(&problem.numerator_bounds) {
        write(numerator, bound);
    }
    place
}
