//! Arithmetic modulo a prime below 2^16, by the remainder of each product.

#[derive(Clone, Copy, Debug, PartialEq, Eq)]
pub struct Field {
    prime: u32,
}

impl Field {
    pub fn new(prime: u32) -> Field {
        Field { prime }
    }

    pub fn prime(self) -> u32 {
        self.prime
    }

    pub fn add(self, left: u32, right: u32) -> u32 {
        (left + right) % self.prime
    }

    pub fn subtract(self, left: u32, right: u32) -> u32 {
        (left + self.prime - right) % self.prime
    }

    /// The product of two residues stays below 2^32, since the prime is below 2^16.
    pub fn multiply(self, left: u32, right: u32) -> u32 {
        left * right % self.prime
    }

    pub fn power(self, base: u32, exponent: u32) -> u32 {
        let mut result = 1;
        let mut square = base;
        let mut rest = exponent;
        while rest > 0 {
            if rest % 2 == 1 {
                result = self.multiply(result, square);
            }
            square = self.multiply(square, square);
            rest /= 2;
        }
        result
    }

    /// The reciprocal of a nonzero residue by Fermat's theorem: a^(p − 2). Zero has none and ends in a
    /// panic, as its power would be 0.
    pub fn reciprocal(self, residue: u32) -> u32 {
        assert!(
            !residue.is_multiple_of(self.prime),
            "zero has no reciprocal"
        );
        self.power(residue, self.prime - 2)
    }
}
