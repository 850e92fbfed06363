//! The second solver: the linear equations of source document 001, (14), for all outputs at once.
//!
//! It shares no code with the library or with `plain`, and its method is another one. It reads the
//! job bytes, tests the refusals, solves by Gaussian elimination and writes the answer by itself.
//! Beside it the second margin, the second writer of trial jobs, the second reciprocal, the second
//! judge and the second check of a job's form, as separate.

mod check;
mod equations;
mod field;
mod judge;
mod margin;
pub mod polynomial;
mod reader;
mod reciprocal;
pub mod reduced;
mod text;
mod trial;

pub use check::check;
pub use field::Field;
use hanthuvelo::Report;
pub use judge::judge;
pub use margin::margin;
use polynomial::Polynomial;
use reader::{Problem, Row, Said};
pub use reciprocal::reciprocal;
pub use text::printed;
pub use trial::{next_word, trial, trial_job, TrialJob};

/// A reduced answer: g with leading coefficient 1, and one numerator for each output.
struct Candidate {
    denominator: Polynomial,
    numerators: Vec<Polynomial>,
}

/// An answer that passed every test, with the rows that are wrong for it, rising.
struct Solution {
    candidate: Candidate,
    wrong_rows: Vec<usize>,
}

/// Recovers `job` into `area`; on refusal the area keeps its contents.
pub fn recover(job: &[u8], area: &mut [u8]) -> Report {
    let problem = match reader::read(job, area.len()) {
        Ok(problem) => problem,
        Err(refusal) => return Report::refused(refusal.number, refusal.row),
    };
    let Some(solution) = solve(&problem) else {
        return Report::refused(8, 0);
    };
    let bytes = answer_bytes(&problem, &solution);
    area[..bytes.len()].copy_from_slice(&bytes);
    Report::recovered(bytes.len() as u32, solution.wrong_rows.len() as u32)
}

/// The answer of a well formed job, or `None` where there is none.
///
/// One kernel vector (Φ, Ψ) decides. Suppose (f, g) is an answer. At each right row x with values,
/// g(x) Φi(x) = g(x) yi Ψ(x) = fi(x) Ψ(x), and at each right row that reports a pole g(x) = Ψ(x) = 0. So
/// g Φi − fi Ψ vanishes at S − E ≥ df + dg + E + 1 points at least, S being the number of rows that
/// speak. Its degree is at most dfi + dg + E with the bound dfi of fi, and df is the
/// largest of these, so it is zero: g Φi = fi Ψ for every i.
/// Ψ = 0 would make every Φi zero too, and the vector is not zero. So Φ/Ψ = f/g, and both have the
/// same reduced form, which is (f, g). A reduced form that fails a test below therefore shows that
/// no answer exists. So does Ψ = 0, and so do equations that only zero solves: with Λ, the product
/// of u − x over the wrong rows of an answer, (Λf, Λg) solves them.
fn solve(problem: &Problem) -> Option<Solution> {
    let field = Field::new(problem.prime);
    let (numerators, denominator) = equations::kernel_vector(field, problem)?;
    let candidate = reduce(field, numerators, denominator)?;
    if !within_bounds(problem, &candidate) {
        return None;
    }
    let is_wrong = |row: &Row| is_wrong(field, &candidate, row);
    let wrong_rows: Vec<usize> = (0..problem.rows.len())
        .filter(|&index| is_wrong(&problem.rows[index]))
        .collect();
    (wrong_rows.len() <= problem.error_bound).then_some(Solution {
        candidate,
        wrong_rows,
    })
}

/// Divides out the greatest common divisor and makes the denominator monic.
fn reduce(field: Field, numerators: Vec<Polynomial>, denominator: Polynomial) -> Option<Candidate> {
    let leading = denominator.leading()?;
    let divisor = numerators
        .iter()
        .fold(denominator.clone(), |divisor, numerator| {
            divisor.common_divisor(numerator, field)
        });
    let scale = field.reciprocal(leading);
    let reduced = |polynomial: &Polynomial| {
        let (quotient, remainder) = polynomial.divide(&divisor, field);
        debug_assert!(remainder.is_zero());
        quotient
    };
    // The divisor is monic, so the quotient keeps the denominator's leading coefficient.
    Some(Candidate {
        numerators: numerators
            .iter()
            .map(|f| reduced(f).scaled(scale, field))
            .collect(),
        denominator: reduced(&denominator).scaled(scale, field),
    })
}

fn within_bounds(problem: &Problem, candidate: &Candidate) -> bool {
    candidate
        .denominator
        .has_degree_at_most(problem.denominator_bound)
        && candidate
            .numerators
            .iter()
            .zip(&problem.numerator_bounds)
            .all(|(numerator, &bound)| numerator.has_degree_at_most(bound))
}

/// Not paper 01's "right", fi(x) = g(x) yi for every output; of a row that reports a pole, g(x) is not 0. A row that says
/// nothing is never wrong.
fn is_wrong(field: Field, candidate: &Candidate, row: &Row) -> bool {
    let denominator = candidate.denominator.value_at(row.point, field);
    match &row.said {
        Said::Nothing => false,
        Said::Pole => denominator != 0,
        Said::Values(values) => {
            candidate.numerators.iter().zip(values).any(|(f, &value)| {
                f.value_at(row.point, field) != field.multiply(denominator, value)
            })
        }
    }
}

fn answer_bytes(problem: &Problem, solution: &Solution) -> Vec<u8> {
    let word: u32 = solution.wrong_rows.iter().map(|row| 1 << (31 - row)).sum();
    let mut bytes = word.to_be_bytes().to_vec();
    let mut push = |polynomial: &Polynomial, bound: usize| {
        for power in 0..=bound {
            bytes.extend((polynomial.coefficient(power) as u16).to_be_bytes());
        }
    };
    push(&solution.candidate.denominator, problem.denominator_bound);
    let numerators = solution.candidate.numerators.iter();
    for (numerator, &bound) in numerators.zip(&problem.numerator_bounds) {
        push(numerator, bound);
    }
    bytes
}
