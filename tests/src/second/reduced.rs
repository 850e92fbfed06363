//! Whether polynomials are reduced, without Euclid's rule.

use super::Field;

/// Whether g is not zero, its leading coefficient is 1, and no polynomial of positive degree divides
/// g and every f. Zeros above the degrees do not matter.
///
/// Modulo a g of degree d the polynomials are a space of dimension d. The multiples of the f's in it
/// are those of the greatest common divisor of g and the f's, a space of dimension d less its
/// degree. They are spanned by u^j fi, j below d; so there is no divisor of positive degree exactly
/// if these have rank d.
pub fn is_reduced(denominator: &[u32], numerators: &[Vec<u32>], field: Field) -> bool {
    let Some(degree) = denominator.iter().rposition(|&c| c != 0) else {
        return false;
    };
    if denominator[degree] != 1 {
        return false;
    }
    let lower = &denominator[..degree];
    let mut span = Span::new(field, degree);
    for numerator in numerators {
        let mut residue = remainder(numerator, lower, field);
        for _ in 0..degree {
            span.add(residue.clone());
            residue = times_u(&residue, lower, field);
        }
    }
    span.rank() == degree
}

/// A polynomial modulo u^d + `lower`, by Horner's rule.
fn remainder(polynomial: &[u32], lower: &[u32], field: Field) -> Vec<u32> {
    let mut rest = vec![0; lower.len()];
    for &coefficient in polynomial.iter().rev() {
        rest = times_u(&rest, lower, field);
        if let Some(constant) = rest.first_mut() {
            *constant = field.add(*constant, coefficient);
        }
    }
    rest
}

/// u times a residue modulo u^d + `lower`.
fn times_u(residue: &[u32], lower: &[u32], field: Field) -> Vec<u32> {
    let Some((&top, rest)) = residue.split_last() else {
        return Vec::new();
    };
    let shifted = std::iter::once(&0).chain(rest);
    let reduced = |(&entry, &below)| field.subtract(entry, field.multiply(top, below));
    shifted.zip(lower).map(reduced).collect()
}

/// What some vectors span, as one vector for each place where a vector begins, with 1 there.
struct Span {
    field: Field,
    begins: Vec<Option<Vec<u32>>>,
}

impl Span {
    fn new(field: Field, width: usize) -> Span {
        let begins = vec![None; width];
        Span { field, begins }
    }

    fn rank(&self) -> usize {
        self.begins.iter().flatten().count()
    }

    fn add(&mut self, mut vector: Vec<u32>) {
        let field = self.field;
        while let Some(place) = vector.iter().position(|&entry| entry != 0) {
            let first = vector[place];
            let Some(known) = &self.begins[place] else {
                let unit = field.reciprocal(first);
                let scaled = vector.iter().map(|&entry| field.multiply(entry, unit));
                self.begins[place] = Some(scaled.collect());
                return;
            };
            for (entry, &other) in vector.iter_mut().zip(known) {
                *entry = field.subtract(*entry, field.multiply(first, other));
            }
        }
    }
}
