//! Random reduced fractions within a job's bounds.

use super::planted::Shape;
use super::planted_marks::Marks;
use super::random::Random;
use crate::layout::Job;
use crate::second::polynomial::Polynomial;
use crate::second::Field;

/// A reduced fraction, and the factor by which it was enlarged before its values were taken.
pub struct Fraction {
    pub denominator: Polynomial,
    pub numerators: Vec<Polynomial>,
    pub common_factor: Polynomial,
}

impl Fraction {
    /// A fraction of this shape, or `None` where the draw does not serve.
    pub fn draw(
        random: &mut Random,
        job: &Job,
        shape: Shape,
        wrong_count: usize,
    ) -> Option<Fraction> {
        match shape {
            Shape::AllZero => Some(Fraction {
                denominator: Polynomial::one(),
                numerators: vec![Polynomial::zero(); job.outputs()],
                common_factor: Polynomial::one(),
            }),
            Shape::LooseBounds => {
                let bounds = job.numerator_bounds.iter().map(|&bound| bound.min(1));
                let dg = job.denominator_bound.min(1);
                Fraction::reduced(random, job, (bounds.collect(), dg), 0)
            }
            Shape::Poles => {
                let poles = random.between(1, job.denominator_bound.min(wrong_count));
                Fraction::within(random, job, poles)
            }
            Shape::CommonFactor => Fraction::enlarged(random, job, wrong_count),
            Shape::PartlyCommon => Fraction::partly_common(random, job, wrong_count),
            Shape::Marked(Marks::OwnPoles) => {
                let poles = random.between(1, job.denominator_bound);
                Fraction::with_own_poles(random, job, poles)
            }
            Shape::Marked(marks) => {
                let poles = marks.poles(random, job)?;
                Fraction::within(random, job, poles)
            }
            Shape::Any | Shape::WholeField | Shape::LongestAnswer => {
                Fraction::within(random, job, 0)
            }
        }
    }

    /// The same where each of these roots of g is a root of the own denominator of one output alone: it is a root of every
    /// other f too. An f whose bound leaves no room for that is zero.
    fn with_own_poles(random: &mut Random, job: &Job, poles: usize) -> Option<Fraction> {
        let field = Field::new(job.prime());
        let degree = drawn_degree(random, job.denominator_bound - poles);
        let denominator = with_roots(random, job, degree, poles);
        let owners: Vec<usize> = (0..poles).map(|_| random.below(job.outputs())).collect();
        let own_numerator = |(output, &bound): (usize, &usize)| {
            let others = owners.iter().zip(&job.rows);
            let others = others.filter(|(owner, _)| **owner != output);
            let roots: Vec<u32> = others.map(|(_, row)| row.point).collect();
            let Some(room) = bound.checked_sub(roots.len()) else {
                return Polynomial::zero();
            };
            let start = numerator(random, room, job.prime());
            roots.into_iter().fold(start, |product, root| {
                product.times(&linear(root, field), field)
            })
        };
        let bounds = job.numerator_bounds.iter().enumerate();
        let numerators = bounds.map(own_numerator).collect();
        Fraction::if_reduced(denominator, numerators, job)
    }

    /// A fraction within the job's bounds whose denominator is zero at the first `poles` points.
    fn within(random: &mut Random, job: &Job, poles: usize) -> Option<Fraction> {
        let bounds = (job.numerator_bounds.clone(), job.denominator_bound);
        Fraction::reduced(random, job, bounds, poles)
    }

    /// The same with these bounds of each f and of g.
    fn reduced(
        random: &mut Random,
        job: &Job,
        (numerator_bounds, denominator_bound): (Vec<usize>, usize),
        poles: usize,
    ) -> Option<Fraction> {
        let degree = drawn_degree(random, denominator_bound - poles);
        let denominator = with_roots(random, job, degree, poles);
        let numerators = numerators_within(random, &numerator_bounds, job.prime());
        Fraction::if_reduced(denominator, numerators, job)
    }

    /// The fraction of these polynomials, or `None` where they have a common divisor.
    fn if_reduced(
        denominator: Polynomial,
        numerators: Vec<Polynomial>,
        job: &Job,
    ) -> Option<Fraction> {
        let field = Field::new(job.prime());
        let divisor = numerators
            .iter()
            .fold(denominator.clone(), |d, f| d.common_divisor(f, field));
        let common_factor = Polynomial::one();
        (divisor == common_factor).then_some(Fraction {
            denominator,
            numerators,
            common_factor,
        })
    }

    /// A fraction that still meets the bounds after multiplication by its common factor, which has
    /// at most `wrong_count` roots planted among the points.
    fn enlarged(random: &mut Random, job: &Job, wrong_count: usize) -> Option<Fraction> {
        let bounds = job.numerator_bounds.iter();
        let least = bounds.clone().fold(job.denominator_bound, |a, &b| a.min(b));
        let degree = random.between(1, 3.min(least));
        let bounds = bounds.map(|bound| bound - degree).collect();
        let dg = job.denominator_bound - degree;
        let roots = random.between(0, degree.min(wrong_count));
        let common_factor = with_roots(random, job, degree - roots, roots);
        let fraction = Fraction::reduced(random, job, (bounds, dg), 0)?;
        Some(Fraction {
            common_factor,
            ..fraction
        })
    }

    /// A reduced fraction although g and all f but one have a common divisor.
    fn partly_common(random: &mut Random, job: &Job, wrong_count: usize) -> Option<Fraction> {
        let fraction = Fraction::enlarged(random, job, wrong_count)?;
        let other = random.below(job.outputs());
        let enlarged = |polynomial: &Polynomial| {
            polynomial.times(&fraction.common_factor, Field::new(job.prime()))
        };
        let mut numerators: Vec<Polynomial> = fraction.numerators.iter().map(enlarged).collect();
        numerators[other] = fraction.numerators[other].clone();
        Fraction::if_reduced(enlarged(&fraction.denominator), numerators, job)
    }
}

/// A monic polynomial of degree `degree` + `roots` that is zero at the first `roots` points.
fn with_roots(random: &mut Random, job: &Job, degree: usize, roots: usize) -> Polynomial {
    let field = Field::new(job.prime());
    let mut coefficients: Vec<u32> = (0..degree).map(|_| random.residue(job.prime())).collect();
    coefficients.push(1);
    job.rows[..roots]
        .iter()
        .fold(Polynomial::new(coefficients), |product, row| {
            product.times(&linear(row.point, field), field)
        })
}

/// u − x.
fn linear(point: u32, field: Field) -> Polynomial {
    Polynomial::new(vec![field.subtract(0, point), 1])
}

/// Mostly the highest degree allowed.
fn drawn_degree(random: &mut Random, bound: usize) -> usize {
    if random.once_in(4) {
        random.between(0, bound)
    } else {
        bound
    }
}

/// Random numerators within these bounds.
pub fn numerators_within(random: &mut Random, bounds: &[usize], prime: u32) -> Vec<Polynomial> {
    let bounds = bounds.iter();
    bounds
        .map(|&bound| numerator(random, bound, prime))
        .collect()
}

/// A random numerator, zero at times.
fn numerator(random: &mut Random, bound: usize, prime: u32) -> Polynomial {
    if random.once_in(8) {
        return Polynomial::zero();
    }
    let degree = drawn_degree(random, bound);
    Polynomial::new((0..=degree).map(|_| random.residue(prime)).collect())
}
