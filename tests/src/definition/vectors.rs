//! All reduced vectors within degree bounds, and how many rows of a job each of them leaves wrong.

use super::{
    divisors, for_each_list, have_one_in_common, monic_polynomials, numerator_length,
    numerator_lists,
};
use crate::layout::{HeaderForm, Job, Row};
use std::collections::BTreeMap;

/// A reduced vector: g with leading coefficient 1, and f1, f2, .., each up to its bound.
pub struct Vector {
    pub denominator: Vec<u32>,
    pub numerators: Vec<Vec<u32>>,
}

/// Every reduced vector within the degree bounds of a job, which must be tiny.
pub struct Vectors {
    list: Vec<Vector>,
    /// Of the rows met so far, 1 for each vector that the row is wrong for and 0 for the others.
    wrong: BTreeMap<(HeaderForm, Row), Vec<u8>>,
}

/// The vector for which the fewest rows of a job are wrong, its answer if these are E at most, and how near the others are.
pub struct Nearest<'a> {
    pub vector: &'a Vector,
    /// W, how many rows are wrong for it.
    pub wrong: usize,
    /// The least number of rows that are wrong for another reduced vector within the bounds.
    pub least: usize,
}

impl Vectors {
    pub fn within(job: &Job) -> Vectors {
        let (prime, mut list) = (job.prime(), Vec::new());
        for denominator in monic_polynomials(job.denominator_bound, prime) {
            let divisors = divisors(&denominator, prime);
            for_each_list(numerator_length(job), prime, &mut |coefficients| {
                let numerators = numerator_lists(job, coefficients);
                if !have_one_in_common(&divisors, &numerators, prime) {
                    list.push(Vector {
                        denominator: denominator.clone(),
                        numerators,
                    });
                }
            });
        }
        Vectors {
            list,
            wrong: BTreeMap::new(),
        }
    }

    /// The vector with the fewest wrong rows for a job with these bounds, and the next one.
    pub fn nearest(&mut self, job: &Job) -> Nearest<'_> {
        let counts = self.wrong_counts(job);
        let fewest = counts.iter().enumerate().min_by_key(|(_, count)| **count);
        // Every constant vector over g = 1 is reduced and within the bounds, so there are several.
        let (place, &wrong) = fewest.expect("a vector");
        let others = counts[..place].iter().chain(&counts[place + 1..]);
        let least = others.min().expect("another vector");
        Nearest {
            vector: &self.list[place],
            wrong: usize::from(wrong),
            least: usize::from(*least),
        }
    }

    /// How many rows of the job are wrong for each vector.
    fn wrong_counts(&mut self, job: &Job) -> Vec<u8> {
        let mut counts = vec![0; self.list.len()];
        for row in &job.rows {
            let key = (job.header, row.clone());
            let list = &self.list;
            let wrong = self.wrong.entry(key).or_insert_with(|| {
                let vectors = list.iter();
                vectors.map(|each| each.leaves_wrong(job, row)).collect()
            });
            for (count, &is_wrong) in counts.iter_mut().zip(&*wrong) {
                *count += is_wrong;
            }
        }
        counts
    }
}

impl Vector {
    /// 1 if the row is wrong for this vector, else 0.
    fn leaves_wrong(&self, job: &Job, row: &Row) -> u8 {
        let numerators = self.numerators.iter().map(Vec::as_slice);
        u8::from(job.is_wrong(row, &self.denominator, numerators))
    }
}
