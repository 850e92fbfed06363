//! Polynomials over a prime field, as coefficients from the constant term upward.

use super::Field;

/// Holds no zero above the degree; the zero polynomial has no coefficients.
#[derive(Clone, Debug, PartialEq, Eq)]
pub struct Polynomial {
    coefficients: Vec<u32>,
}

impl Polynomial {
    pub fn new(mut coefficients: Vec<u32>) -> Polynomial {
        while coefficients.last() == Some(&0) {
            coefficients.pop();
        }
        Polynomial { coefficients }
    }

    pub fn one() -> Polynomial {
        Polynomial::new(vec![1])
    }

    pub fn zero() -> Polynomial {
        Polynomial::new(Vec::new())
    }

    pub fn is_zero(&self) -> bool {
        self.coefficients.is_empty()
    }

    pub fn coefficients(&self) -> &[u32] {
        &self.coefficients
    }

    pub fn coefficient(&self, power: usize) -> u32 {
        self.coefficients.get(power).copied().unwrap_or(0)
    }

    pub fn leading(&self) -> Option<u32> {
        self.coefficients.last().copied()
    }

    pub fn degree(&self) -> Option<usize> {
        self.coefficients.len().checked_sub(1)
    }

    /// The zero polynomial meets every bound.
    pub fn has_degree_at_most(&self, bound: usize) -> bool {
        self.coefficients.len() <= bound + 1
    }

    pub fn value_at(&self, point: u32, field: Field) -> u32 {
        let step = |sum, &coefficient| field.add(field.multiply(sum, point), coefficient);
        self.coefficients.iter().rev().fold(0, step)
    }

    pub fn scaled(&self, factor: u32, field: Field) -> Polynomial {
        Polynomial::new(
            self.coefficients
                .iter()
                .map(|&c| field.multiply(c, factor))
                .collect(),
        )
    }

    pub fn minus(&self, other: &Polynomial, field: Field) -> Polynomial {
        let length = self.coefficients.len().max(other.coefficients.len());
        let difference = |power| field.subtract(self.coefficient(power), other.coefficient(power));
        Polynomial::new((0..length).map(difference).collect())
    }

    pub fn times(&self, other: &Polynomial, field: Field) -> Polynomial {
        let mut product = vec![0; self.coefficients.len() + other.coefficients.len()];
        for (i, &left) in self.coefficients.iter().enumerate() {
            for (j, &right) in other.coefficients.iter().enumerate() {
                product[i + j] = field.add(product[i + j], field.multiply(left, right));
            }
        }
        Polynomial::new(product)
    }

    /// Quotient and remainder by a divisor that is not zero.
    pub fn divide(&self, divisor: &Polynomial, field: Field) -> (Polynomial, Polynomial) {
        let length = divisor.coefficients.len();
        let unit = field.reciprocal(divisor.coefficients[length - 1]);
        let mut rest = self.coefficients.clone();
        let mut quotient = vec![0; (rest.len() + 1).saturating_sub(length)];
        for place in (0..quotient.len()).rev() {
            let factor = field.multiply(rest[place + length - 1], unit);
            quotient[place] = factor;
            for (offset, &coefficient) in divisor.coefficients.iter().enumerate() {
                let product = field.multiply(factor, coefficient);
                rest[place + offset] = field.subtract(rest[place + offset], product);
            }
        }
        (Polynomial::new(quotient), Polynomial::new(rest))
    }

    /// The monic greatest common divisor; zero where both are zero.
    pub fn common_divisor(&self, other: &Polynomial, field: Field) -> Polynomial {
        let (mut larger, mut smaller) = (self.clone(), other.clone());
        while !smaller.is_zero() {
            let (_, remainder) = larger.divide(&smaller, field);
            larger = smaller;
            smaller = remainder;
        }
        match larger.leading() {
            Some(leading) => larger.scaled(field.reciprocal(leading), field),
            None => larger,
        }
    }
}
