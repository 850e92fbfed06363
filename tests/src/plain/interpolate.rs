//! One output: two pairs of polynomials, taken through the rows one at a time.

use super::field::{multiply, multiply_add, subtract};
use super::polynomial::{Polynomial, CAPACITY};

/// The rows that ask something of an output.
#[derive(Default)]
pub struct Conditions {
    /// How many rows ask for Φ(x) = z Ψ(x), with their points x and numbers z.
    pub values: usize,
    pub points: [u32; 31],
    pub targets: [u32; 31],
    /// How many ask for Ψ(x) = 0, with their points.
    pub poles: usize,
    pub pole_points: [u32; 31],
}

/// A numerator and a denominator that satisfy the rows so far, with the weight that bounds their
/// degrees.
#[derive(Clone, Copy)]
struct Pair {
    numerator: [u32; CAPACITY],
    denominator: [u32; CAPACITY],
    weight: usize,
}

/// Both pairs, with how many coefficients of each polynomial can differ from zero: the loops follow the longest one, as the
/// library's do.
struct Pairs {
    first: Pair,
    second: Pair,
    length: usize,
}

/// (Φ, Ψ), not both zero, as the conditions ask, with deg Φ ≤ `numerator_bound`; the bounds of the two and 1 add up to the
/// number of conditions.
pub fn interpolate<const PRIME: u32>(
    conditions: &Conditions,
    numerator_bound: usize,
) -> (Polynomial, Polynomial) {
    let count = conditions.values + conditions.poles;
    let mut pairs = Pairs::new(numerator_bound, count - 1 - numerator_bound);
    for row in 0..conditions.values {
        let (point, target) = (conditions.points[row], conditions.targets[row]);
        pairs.take_row::<PRIME, false>(point, target);
    }
    for &point in &conditions.pole_points[..conditions.poles] {
        pairs.take_row::<PRIME, true>(point, 0);
    }
    let Pairs { first, second, .. } = pairs;
    let chosen = if first.weight <= second.weight {
        first
    } else {
        second
    };
    (
        Polynomial::new(chosen.numerator, count + 1),
        Polynomial::new(chosen.denominator, count + 1),
    )
}

impl Pairs {
    fn new(numerator_bound: usize, denominator_bound: usize) -> Pairs {
        let zero = [0; CAPACITY];
        let mut one = zero;
        one[0] = 1;
        Pairs {
            first: Pair {
                numerator: one,
                denominator: zero,
                weight: denominator_bound,
            },
            second: Pair {
                numerator: zero,
                denominator: one,
                weight: numerator_bound,
            },
            length: 1,
        }
    }

    /// One row more, which asks for Φ(x) = z Ψ(x), or for Ψ(x) = 0 where it is a pole.
    fn take_row<const PRIME: u32, const IS_POLE: bool>(&mut self, point: u32, target: u32) {
        let (first, second, length) = (&mut self.first, &mut self.second, self.length);
        let first_defect = first.defect::<PRIME, IS_POLE>(point, target, length);
        let second_defect = second.defect::<PRIME, IS_POLE>(point, target, length);
        if first_defect != 0 && second_defect != 0 {
            if first.weight <= second.weight {
                second.combine::<PRIME>(first_defect, first, second_defect, length);
                first.raise::<PRIME>(point, length);
            } else {
                first.combine::<PRIME>(second_defect, second, first_defect, length);
                second.raise::<PRIME>(point, length);
            }
        } else if first_defect != 0 {
            first.raise::<PRIME>(point, length);
        } else if second_defect != 0 {
            second.raise::<PRIME>(point, length);
        }
        self.length += 1;
        while self.first.is_zero_at(self.length - 1) && self.second.is_zero_at(self.length - 1) {
            self.length -= 1;
        }
    }
}

impl Pair {
    fn is_zero_at(&self, power: usize) -> bool {
        self.numerator[power] == 0 && self.denominator[power] == 0
    }

    /// a(x) − z b(x), or b(x) for a pole: zero where the pair satisfies the row.
    fn defect<const PRIME: u32, const IS_POLE: bool>(
        &self,
        point: u32,
        target: u32,
        length: usize,
    ) -> u32 {
        let mut numerator = 0;
        let mut denominator = 0;
        for power in (0..length).rev() {
            numerator = multiply_add::<PRIME>(numerator, point, self.numerator[power]);
            denominator = multiply_add::<PRIME>(denominator, point, self.denominator[power]);
        }
        match IS_POLE {
            true => denominator,
            false => subtract::<PRIME>(numerator, multiply::<PRIME>(target, denominator)),
        }
    }

    /// Times (u − x).
    fn raise<const PRIME: u32>(&mut self, point: u32, length: usize) {
        raise::<PRIME>(&mut self.numerator, point, length);
        raise::<PRIME>(&mut self.denominator, point, length);
        self.weight += 1;
    }

    /// own_factor · self − other_factor · other.
    fn combine<const PRIME: u32>(
        &mut self,
        own_factor: u32,
        other: &Pair,
        other_factor: u32,
        length: usize,
    ) {
        let negated = PRIME - other_factor;
        let sum = |own: u32, other: u32| {
            multiply_add::<PRIME>(negated, other, multiply::<PRIME>(own_factor, own))
        };
        for power in 0..length {
            self.numerator[power] = sum(self.numerator[power], other.numerator[power]);
            self.denominator[power] = sum(self.denominator[power], other.denominator[power]);
        }
    }
}

fn raise<const PRIME: u32>(coefficients: &mut [u32; CAPACITY], point: u32, length: usize) {
    let negated = (PRIME - point) % PRIME;
    let mut lower = 0;
    for coefficient in &mut coefficients[..=length] {
        let here = *coefficient;
        *coefficient = multiply_add::<PRIME>(here, negated, lower);
        lower = here;
    }
}
