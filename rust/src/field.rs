//! Numbers and polynomials modulo a prime, as far as a look at an offered answer needs them.
//!
//! Polynomials are coefficients below the prime, from the constant term upward; one that is returned ends in its leading
//! coefficient, and zero has none.

use crate::{trimmed, Prime};

#[derive(Clone, Copy)]
pub(crate) struct Field {
    prime: u32,
}

impl Field {
    pub fn of(prime: Prime) -> Field {
        let prime = prime.value();
        Field { prime }
    }

    /// Two numbers below 2^16 have a product below 2^32.
    pub fn product(self, one: u16, other: u16) -> u16 {
        (u32::from(one) * u32::from(other) % self.prime) as u16
    }

    fn difference(self, one: u16, other: u16) -> u16 {
        ((u32::from(one) + self.prime - u32::from(other)) % self.prime) as u16
    }

    /// The reciprocal of a number below the prime, by Fermat's theorem its power p - 2; none of zero.
    pub fn reciprocal(self, number: u16) -> Option<u16> {
        let (mut power, mut square, mut rest) = (1, number, self.prime - 2);
        while rest > 0 {
            if rest % 2 == 1 {
                power = self.product(power, square);
            }
            square = self.product(square, square);
            rest /= 2;
        }
        (number != 0).then_some(power)
    }

    /// The value at a point, by Horner's rule.
    pub fn value_at(self, polynomial: &[u16], point: u16) -> u16 {
        let step = |sum: u16, coefficient: &u16| {
            let sum = u32::from(self.product(sum, point)) + u32::from(*coefficient);
            (sum % self.prime) as u16
        };
        polynomial.iter().rev().fold(0, step)
    }

    /// The greatest common divisor with leading coefficient 1, by Euclid's rule; zero if both are zero.
    pub fn common_divisor(self, one: &[u16], other: &[u16]) -> Vec<u16> {
        let (mut larger, mut smaller) = (self.monic(one), self.monic(other));
        while !smaller.is_empty() {
            let rest = self.remainder(larger, &smaller);
            (larger, smaller) = (smaller, self.monic(&rest));
        }
        larger
    }

    /// What is left of a polynomial after division by one with leading coefficient 1; zeros may stand at its end.
    fn remainder(self, mut rest: Vec<u16>, divisor: &[u16]) -> Vec<u16> {
        while rest.len() >= divisor.len() {
            let (leading, start) = (rest[rest.len() - 1], rest.len() - divisor.len());
            for (entry, &coefficient) in rest[start..].iter_mut().zip(divisor) {
                *entry = self.difference(*entry, self.product(leading, coefficient));
            }
            rest.pop();
        }
        rest
    }

    /// The multiple whose leading coefficient is 1, or zero.
    fn monic(self, polynomial: &[u16]) -> Vec<u16> {
        let polynomial = trimmed(polynomial);
        let leading = polynomial.last().copied().unwrap_or(0);
        let Some(factor) = self.reciprocal(leading) else {
            return Vec::new();
        };
        let multiple = polynomial.iter().map(|&each| self.product(each, factor));
        multiple.collect()
    }
}

#[cfg(test)]
mod tests {
    use super::Field;
    use crate::Prime;

    #[test]
    fn every_number_but_zero_has_its_reciprocal() {
        for prime in Prime::ALL {
            let field = Field::of(prime);
            assert_eq!(field.reciprocal(0), None);
            for number in 1..prime.value() as u16 {
                let found = field.reciprocal(number).expect("a reciprocal");
                assert_eq!(field.product(number, found), 1, "{number}");
            }
        }
    }

    #[test]
    fn polynomials_by_hand() {
        let field = Field::of(Prime::P7);
        // 3 + 2 u + u^2 at 5 is 38, and 38 is 3 modulo 7.
        assert_eq!(field.value_at(&[3, 2, 1], 5), 3);
        assert_eq!(field.value_at(&[], 5), 0);
        // 2 (u + 1) (u + 2) and 3 (u + 1) (u + 3).
        assert_eq!(field.common_divisor(&[4, 6, 2, 0], &[2, 5, 3]), [1, 1]);
        assert_eq!(field.common_divisor(&[4, 6, 2], &[5]), [1]);
        assert_eq!(field.common_divisor(&[0, 0], &[3, 5]), [2, 1]);
        assert_eq!(field.common_divisor(&[3, 5], &[]), [2, 1]);
        assert_eq!(field.common_divisor(&[0], &[]), [0; 0]);
        let high = Field::of(Prime::P65521);
        assert_eq!(high.value_at(&[65520, 65520], 65520), 0);
    }
}
