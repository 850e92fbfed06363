//! Trials by this crate's types, from calls of the outside checks.
#![allow(dead_code)] // Each test file has a copy of its own and uses a part.

use super::own_bounds::Added;
use hanthuvelo::{trimmed, Bounds, Header, NumeratorBounds, Trial};
use outside_checks::jobs::trial::TrialCall;
use outside_checks::jobs::Random;

/// The trial whose bytes a call has; none where they are not as many as the header asks for.
pub fn trial_of(call: &TrialCall) -> Option<Trial> {
    let header = Header::read(&call.header)?;
    let bounds = header.bounds;
    let is_whole = call.header.len() == header.length()
        && header.broken_rule().is_none()
        && call.coefficients.len() == bounds.coefficients_length();
    if !is_whole {
        return None;
    }
    let number = |pair: &[u8]| u16::from_be_bytes([pair[0], pair[1]]);
    let numbers: Vec<u16> = call.coefficients.chunks(2).map(number).collect();
    let (denominator, mut rest) = numbers.split_at(bounds.dg + 1);
    let mut numerators = Vec::new();
    for output in 0..bounds.outputs {
        let (own, others) = rest.split_at(bounds.df.of(output) + 1);
        numerators.push(own.to_vec());
        rest = others;
    }
    let mut trial = Trial::new(bounds, header.rows, denominator, &numerators).expect("a trial");
    (trial.start, trial.spoiled) = (call.start, call.spoiled);
    if header.allows_marks() {
        trial.allow_marks();
    }
    Some(trial)
}

/// The same fractions and rows with the longer header, each f within a bound of its own that it meets.
pub fn within_own_bounds(short: &Trial, random: &mut Random) -> (Trial, Added) {
    let degree = |f: &Vec<u16>| trimmed(f).len().saturating_sub(1);
    let degrees: Vec<usize> = short.numerators().iter().map(degree).collect();
    let added = Added::meeting(random, &short.header(), &degrees);
    let df = NumeratorBounds::Each(added.bounds);
    let bounds = Bounds {
        df,
        ..*short.bounds()
    };
    let (rows, g, f) = (short.rows(), short.denominator(), short.numerators());
    let mut longer = Trial::new(bounds, rows, g, f).expect("bounds that each f meets");
    (longer.start, longer.spoiled) = (short.start, short.spoiled);
    (longer, added)
}
