//! Calls for a reciprocal, each a prime's code and a number: listed or seeded, labelled with what they
//! were made to be.

use super::random::Random;
use super::tally::with_floors;
use crate::layout::PRIMES;

/// What a call was made to be.
#[derive(Clone, Copy, Debug, PartialEq, Eq)]
pub enum Kind {
    /// 0.
    Zero,
    /// p, 2 p, 3 p, ..
    Multiple,
    /// A number from 1 to p − 1.
    Residue,
    /// Such a number with a multiple of p added.
    Higher,
    /// A power of two, a number beside one, or a random number.
    Any,
    /// Any number, with a code above 3.
    NoPrime,
}

#[derive(Clone, Copy, Debug, PartialEq, Eq)]
pub struct ReciprocalCall {
    pub kind: Kind,
    pub prime_code: u32,
    pub number: u32,
}

impl ReciprocalCall {
    /// Whether there is a reciprocal; none where the generator does not know.
    pub fn expected(&self) -> Option<bool> {
        match self.kind {
            Kind::Zero | Kind::Multiple | Kind::NoPrime => Some(false),
            Kind::Residue | Kind::Higher => Some(true),
            Kind::Any => None,
        }
    }
}

/// Every so many multiples of each prime are taken: all of 257 and of 65521.
const STRIDES: [usize; 4] = [1009, 101, 1, 1];
/// How many of the first multiples, and of the last ones below 2^32, are taken besides.
const ENDS: u32 = 5000;
const RANDOM_NUMBERS: usize = 100_000;
const RANDOM_CODES: usize = 20_000;

/// All calls of the run of this seed.
pub fn calls(seed: u64) -> impl Iterator<Item = ReciprocalCall> {
    let of_prime = move |(prime_code, prime)| {
        let numbers = residues(prime)
            .chain(multiples(prime, STRIDES[prime_code as usize]))
            .chain(higher(seed, prime))
            .chain(any_numbers(seed, prime).map(|number| (Kind::Any, number)));
        numbers.map(move |(kind, number)| ReciprocalCall {
            kind,
            prime_code,
            number,
        })
    };
    (0..).zip(PRIMES).flat_map(of_prime).chain(codes(seed))
}

/// Every number below the prime.
fn residues(prime: u32) -> impl Iterator<Item = (Kind, u32)> {
    let others = (1..prime).map(|number| (Kind::Residue, number));
    std::iter::once((Kind::Zero, 0)).chain(others)
}

/// The first multiples, the last ones, and those between by the stride; without 0.
fn multiples(prime: u32, stride: usize) -> impl Iterator<Item = (Kind, u32)> {
    let last = u32::MAX / prime;
    let ends = (1..=ENDS).chain(last - ENDS + 1..=last);
    let factors = ends.chain((1..=last).step_by(stride));
    factors.map(move |factor| (Kind::Multiple, factor * prime))
}

/// Each residue with multiples added: p itself, the highest one, and random ones.
fn higher(seed: u64, prime: u32) -> impl Iterator<Item = (Kind, u32)> {
    let mut random = Random::new(seed, u64::from(prime));
    let numbers = (0..prime).flat_map(move |residue| {
        let most = (u32::MAX - residue) / prime;
        let count = 65_536 / prime + 1;
        let drawn: Vec<u32> = (0..count)
            .map(|_| random.between(1, most as usize) as u32)
            .collect();
        let factors = [1, most].into_iter().chain(drawn);
        factors.map(move |factor| (residue, residue + factor * prime))
    });
    numbers.map(|(residue, number)| match residue {
        0 => (Kind::Multiple, number),
        _ => (Kind::Higher, number),
    })
}

fn any_numbers(seed: u64, prime: u32) -> impl Iterator<Item = u32> {
    let mut random = Random::new(seed + 1, u64::from(prime));
    let powers = (0..32).map(|exponent| 1u32 << exponent);
    let beside = powers.flat_map(|power| [power.wrapping_neg(), power - 1, power, power + 1]);
    beside.chain((0..RANDOM_NUMBERS).map(move |_| random.draw() as u32))
}

/// Codes above 3: all of one byte, those around powers of two, and random ones.
fn codes(seed: u64) -> impl Iterator<Item = ReciprocalCall> {
    let mut random = Random::new(seed, 4);
    let powers = (8..32).flat_map(|exponent| (0..4).map(move |low| (1 << exponent) + low));
    let listed = (4..=255).chain(powers).chain(u32::MAX - 3..=u32::MAX);
    let numbers = PRIMES.map(|prime| [prime - 1, prime, prime + 1]).concat();
    let numbers: Vec<u32> = [&numbers[..], &[0, 1, 2, 3, u32::MAX]].concat();
    let listed = listed.flat_map(move |code| {
        let numbers = numbers.clone();
        numbers.into_iter().map(move |number| (code, number))
    });
    let drawn = (0..RANDOM_CODES).map(move |_| {
        let code = random.between(4, u32::MAX as usize) as u32;
        (code, random.draw() as u32)
    });
    listed
        .chain(drawn)
        .map(|(prime_code, number)| ReciprocalCall {
            kind: Kind::NoPrime,
            prime_code,
            number,
        })
}

/// The codes that are counted together.
const GROUPS: [&str; 6] = [
    "modulo 7",
    "modulo 97",
    "modulo 257",
    "modulo 65521",
    "code 4 to 255",
    "code of 256 or more",
];

/// Floors of each kind, without a reciprocal or with one, in each group of codes.
const FLOORS: [(Kind, bool, [usize; 6]); 7] = [
    (Kind::Zero, false, [1, 1, 1, 1, 0, 0]),
    (
        Kind::Multiple,
        false,
        [600_000, 400_000, 16_000_000, 65_000, 0, 0],
    ),
    (Kind::NoPrime, false, [0, 0, 0, 0, 4000, 20_000]),
    (Kind::Residue, true, [6, 96, 256, 65_520, 0, 0]),
    (Kind::Higher, true, [50_000, 60_000, 60_000, 200_000, 0, 0]),
    (Kind::Any, false, [10_000, 700, 250, 0, 0, 0]),
    (Kind::Any, true, [80_000, 90_000, 90_000, 90_000, 0, 0]),
];

/// Counts of a run: by kind, by group of codes, and by whether there is a reciprocal.
#[derive(Default)]
pub struct Tally {
    counts: [[[usize; 2]; GROUPS.len()]; 6],
}

impl Tally {
    pub fn count(&mut self, call: &ReciprocalCall, exists: bool) {
        let group = match call.prime_code {
            code @ 0..=3 => code as usize,
            4..=255 => 4,
            _ => 5,
        };
        self.counts[call.kind as usize][group][usize::from(exists)] += 1;
    }

    /// All counts that have a floor as text, and whether each reaches it.
    pub fn summary(&self) -> (String, bool) {
        let lines = FLOORS.into_iter().flat_map(|(kind, exists, floors)| {
            let word = if exists { "exists" } else { "none" };
            let counts = self.counts[kind as usize].map(|count| count[usize::from(exists)]);
            let named = GROUPS.into_iter().zip(counts).zip(floors);
            named
                .filter(|(_, floor)| *floor > 0)
                .map(move |((group, count), floor)| {
                    (format!("{word}: {kind:?}, {group}"), count, floor)
                })
        });
        with_floors(lines)
    }
}
