//! Polynomials in fixed arrays with their lengths.

use super::field::{multiply, multiply_add, reciprocal, subtract};

/// 31 rows lead to degree 31 at most.
pub const CAPACITY: usize = 32;

/// `coefficients[length - 1]` is not zero, and everything from `length` on is; zero has length 0.
#[derive(Clone, Copy)]
pub struct Polynomial {
    coefficients: [u32; CAPACITY],
    length: usize,
}

impl Polynomial {
    pub fn zero() -> Polynomial {
        Polynomial {
            coefficients: [0; CAPACITY],
            length: 0,
        }
    }

    pub fn one() -> Polynomial {
        let mut one = Polynomial::zero();
        one.coefficients[0] = 1;
        one.length = 1;
        one
    }

    /// The polynomial of these coefficients, of which those from `bound` on are zero.
    pub fn new(coefficients: [u32; CAPACITY], bound: usize) -> Polynomial {
        let mut length = bound;
        while length > 0 && coefficients[length - 1] == 0 {
            length -= 1;
        }
        Polynomial {
            coefficients,
            length,
        }
    }

    pub fn is_zero(&self) -> bool {
        self.length == 0
    }

    pub fn leading(&self) -> u32 {
        self.coefficients[self.length - 1]
    }

    pub fn has_degree_at_most(&self, bound: usize) -> bool {
        self.length <= bound + 1
    }

    /// The coefficients up to the power `bound`.
    pub fn padded(&self, bound: usize) -> &[u32] {
        &self.coefficients[..=bound]
    }

    pub fn value_at<const PRIME: u32>(&self, point: u32) -> u32 {
        let mut value = 0;
        for &coefficient in self.coefficients[..self.length].iter().rev() {
            value = multiply_add::<PRIME>(value, point, coefficient);
        }
        value
    }

    pub fn scaled<const PRIME: u32>(mut self, factor: u32) -> Polynomial {
        for coefficient in &mut self.coefficients[..self.length] {
            *coefficient = multiply::<PRIME>(*coefficient, factor);
        }
        self
    }

    /// The product, or `None` where its degree passes `bound`.
    pub fn times<const PRIME: u32>(&self, other: &Polynomial, bound: usize) -> Option<Polynomial> {
        if self.is_zero() || other.is_zero() {
            return Some(Polynomial::zero());
        }
        let length = self.length + other.length - 1;
        if length > bound + 1 {
            return None;
        }
        let mut coefficients = [0; CAPACITY];
        for i in 0..self.length {
            let left = self.coefficients[i];
            let row = &mut coefficients[i..i + other.length];
            for (sum, &right) in row.iter_mut().zip(&other.coefficients[..other.length]) {
                *sum = multiply_add::<PRIME>(left, right, *sum);
            }
        }
        Some(Polynomial {
            coefficients,
            length,
        })
    }

    /// Divides in place: what stays below the divisor's degree is the remainder, above it the
    /// quotient times the power of the divisor's degree.
    fn divided<const PRIME: u32>(&self, divisor: &Polynomial) -> [u32; CAPACITY] {
        let mut rest = self.coefficients;
        let degree = divisor.length - 1;
        let unit = reciprocal::<PRIME>(divisor.leading());
        for top in (degree..self.length).rev() {
            let factor = multiply::<PRIME>(rest[top], unit);
            rest[top] = factor;
            let part = &mut rest[top - degree..top];
            for (entry, &coefficient) in part.iter_mut().zip(&divisor.coefficients[..degree]) {
                *entry = subtract::<PRIME>(*entry, multiply::<PRIME>(factor, coefficient));
            }
        }
        rest
    }

    /// The quotient by a polynomial that divides this one.
    pub fn quotient<const PRIME: u32>(&self, divisor: &Polynomial) -> Polynomial {
        let degree = divisor.length - 1;
        let mut coefficients = [0; CAPACITY];
        if self.length > degree {
            let rest = self.divided::<PRIME>(divisor);
            coefficients[..self.length - degree].copy_from_slice(&rest[degree..self.length]);
        }
        Polynomial::new(coefficients, self.length.saturating_sub(degree))
    }

    fn remainder<const PRIME: u32>(&self, divisor: &Polynomial) -> Polynomial {
        let degree = divisor.length - 1;
        if self.length <= degree {
            return *self;
        }
        let mut rest = self.divided::<PRIME>(divisor);
        rest[degree..].fill(0);
        Polynomial::new(rest, degree)
    }

    /// A greatest common divisor by Euclid's rule; one of the two is not zero.
    pub fn common_divisor<const PRIME: u32>(self, other: Polynomial) -> Polynomial {
        let (mut larger, mut smaller) = (self, other);
        while !smaller.is_zero() {
            let remainder = larger.remainder::<PRIME>(&smaller);
            larger = smaller;
            smaller = remainder;
        }
        larger
    }
}
