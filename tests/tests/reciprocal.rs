//! Every way to find reciprocals on the same calls: compared with each other, and with the definition.
//!
//! `SEED` in the environment takes another run.

use outside_checks::jobs::reciprocal::{calls, Tally};
use outside_checks::layout::PRIMES;
use outside_checks::second::Field;
use outside_checks::{conclude, reciprocals, setting, show, Reciprocal};
use std::panic::catch_unwind;

const SEED: u64 = 2_147_483_647;

/// Paper 02's "no reciprocal" for zero and for no other number, and below p a number whose product
/// leaves 1; none where no prime has the code.
fn is_reciprocal(prime_code: u32, number: u32, found: Option<u32>) -> bool {
    let Some(&prime) = PRIMES.get(prime_code as usize) else {
        return found.is_none();
    };
    match found {
        None => number.is_multiple_of(prime),
        Some(value) => {
            let product = u64::from(value) * u64::from(number);
            0 < value && value < prime && product % u64::from(prime) == 1
        }
    }
}

/// What every way finds.
fn describe(ways: &[Reciprocal], found: impl Fn(&Reciprocal) -> Option<u32>) -> String {
    let line = |way: &Reciprocal| format!("{}: {:?}\n", way.name, found(way));
    ways.iter().map(line).collect()
}

#[test]
fn all_ways_agree_with_the_definition() {
    let seed = setting("SEED", SEED);
    let ways = reciprocals();
    let mut tally = Tally::default();
    for call in calls(seed) {
        let found = |way: &Reciprocal| (way.find)(call.prime_code, call.number);
        let agreed = found(&ways[0]);
        let fits = ways.iter().all(|way| found(way) == agreed)
            && is_reciprocal(call.prime_code, call.number, agreed)
            && call
                .expected()
                .is_none_or(|exists| agreed.is_some() == exists);
        assert!(fits, "seed {seed} {call:?}\n{}", describe(&ways, found));
        tally.count(&call, agreed.is_some());
    }
    let names: Vec<&str> = ways.iter().map(|each| each.name).collect();
    let title = format!("seed {seed}, reciprocals by: {}", names.join(", "));
    conclude(&title, tally.summary());
}

/// For the small primes all numbers below p are tried as reciprocals: there is one exactly if one of
/// them leaves 1, and it is the only one that does.
#[test]
fn the_small_primes_by_trying_all_numbers() {
    let (mut exist, mut none) = (0, 0);
    for (prime_code, prime) in (0..).zip(PRIMES).take(3) {
        for number in 0..prime {
            let leaves_one = |value: &u32| value * number % prime == 1;
            let tried: Vec<u32> = (0..prime).filter(leaves_one).collect();
            assert!(tried.len() <= 1, "{number} modulo {prime}: {tried:?}");
            let expected = tried.first().copied();
            for way in reciprocals() {
                for same in [number, number + prime, number + 1000 * prime] {
                    let found = (way.find)(prime_code, same);
                    assert_eq!(found, expected, "{}: {same} modulo {prime}", way.name);
                }
            }
            match expected {
                Some(_) => exist += 1,
                None => none += 1,
            }
        }
    }
    show(&format!(
        "all residues modulo 7, 97 and 257 by trial: {exist} with a reciprocal, {none} without\n"
    ));
    assert_eq!((exist, none), (6 + 96 + 256, 3));
}

#[cfg(feature = "library")]
#[test]
fn each_typed_prime_is_the_one_of_its_code() {
    for ((prime_code, value), prime) in (0..).zip(PRIMES).zip(hanthuvelo::Prime::ALL) {
        assert_eq!(prime.value(), value);
        for number in (0..2 * value).chain(u32::MAX - value..=u32::MAX) {
            let found = prime.reciprocal(number);
            assert_eq!(found, hanthuvelo::reciprocal(prime_code, number));
        }
    }
}

/// Zero ends in a panic there, so that nothing of the second solver divides by it unseen.
#[test]
fn the_second_field_has_no_reciprocal_of_zero() {
    for prime in PRIMES {
        let field = Field::new(prime);
        for zero in [0, prime, 2 * prime] {
            assert!(catch_unwind(|| field.reciprocal(zero)).is_err(), "{zero}");
        }
        assert_eq!(field.reciprocal(prime - 1), prime - 1);
    }
}
