//! Jobs for measuring speed: full degrees, no pole, exactly E wrong rows, points 0 to L − 1.

use super::random::Random;
use crate::layout::{has_pole, HeaderForm, Job, Row};
use crate::second::polynomial::Polynomial;
use crate::second::Field;

/// The sizes of a measured job, with L = df + dg + 2E + 1.
#[derive(Clone, Copy)]
pub struct Size {
    pub header: HeaderForm,
    pub outputs: usize,
    pub numerator_bound: usize,
    pub denominator_bound: usize,
    pub error_bound: usize,
}

impl Size {
    /// 31 rows, four outputs, the short header.
    pub const FULL: Size = Size {
        header: HeaderForm::Short,
        outputs: 4,
        numerator_bound: 10,
        denominator_bound: 8,
        error_bound: 6,
    };

    pub fn row_count(&self) -> usize {
        self.numerator_bound + self.denominator_bound + 2 * self.error_bound + 1
    }

    pub fn answer_length(&self) -> usize {
        4 + 2 * (self.denominator_bound + 1 + self.outputs * (self.numerator_bound + 1))
    }
}

/// A job modulo 65521 of this size.
pub fn generate(seed: u64, index: u64, size: Size) -> Job {
    let mut random = Random::new(seed, index);
    let points = 0..size.row_count() as u32;
    let mut job = Job {
        header: size.header,
        prime_code: 3,
        numerator_bounds: vec![size.numerator_bound; size.outputs],
        denominator_bound: size.denominator_bound,
        error_bound: size.error_bound,
        rows: points
            .map(|point| Row {
                point,
                values: Vec::new(),
            })
            .collect(),
    };
    let (denominator, numerators) = full_fraction(&mut random, &job);
    let field = Field::new(job.prime());
    for row in &mut job.rows {
        let unit = field.reciprocal(denominator.value_at(row.point, field));
        let value = |f: &Polynomial| field.multiply(f.value_at(row.point, field), unit);
        row.values = numerators.iter().map(value).collect();
    }
    let mut order: Vec<usize> = (0..job.rows.len()).collect();
    random.shuffle(&mut order);
    for &row in &order[..size.error_bound] {
        let added = random.between(1, job.prime() as usize - 1) as u32;
        let value = &mut job.rows[row].values[0];
        *value = field.add(*value, added);
    }
    job
}

/// A reduced fraction whose polynomials all have the highest degree, without a pole at a point.
fn full_fraction(random: &mut Random, job: &Job) -> (Polynomial, Vec<Polynomial>) {
    let field = Field::new(job.prime());
    loop {
        let mut draw = |degree: usize, leading: u32| {
            let mut coefficients: Vec<u32> =
                (0..degree).map(|_| random.residue(field.prime())).collect();
            coefficients.push(leading);
            Polynomial::new(coefficients)
        };
        let denominator = draw(job.denominator_bound, 1);
        let numerators: Vec<Polynomial> = (2..)
            .zip(&job.numerator_bounds)
            .map(|(leading, &bound)| draw(bound, leading))
            .collect();
        let divisor = numerators
            .iter()
            .fold(denominator.clone(), |d, f| d.common_divisor(f, field));
        if divisor == Polynomial::one() && !has_pole(job, denominator.coefficients()) {
            return (denominator, numerators);
        }
    }
}
