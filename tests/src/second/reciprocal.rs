//! The second reciprocal: item 2 of paper 02, written from that alone.

use super::reader::PRIMES;
use super::Field;

/// The reciprocal of a number modulo the prime of this code, by Fermat's theorem. What is zero modulo
/// the prime is a case of its own, and so is a code without a prime.
pub fn reciprocal(prime_code: u32, number: u32) -> Option<u32> {
    let field = Field::new(*PRIMES.get(prime_code as usize)?);
    match number % field.prime() {
        0 => None,
        residue => Some(field.reciprocal(residue)),
    }
}
