//! `hanthuvelo reciprocal`: what it prints, its exit status, and bad words.

mod support;

use outside_checks::jobs::Random;
use outside_checks::layout::PRIMES;
use outside_checks::second::reciprocal;
use support::{assert_bad_use, assert_fails, assert_prints, run, run_redirected};

#[test]
fn a_number_has_a_line() {
    let all = "1: 1\n2: 4\n3: 5\n4: 2\n5: 3\n6: 6\n";
    let words = ["reciprocal", "7", "1", "2", "3", "4", "5", "6"];
    assert_prints(&run(&words), all, 0);
    let one = run(&["reciprocal", "65521", "2"]);
    assert_prints(&one, "2: 32761\n", 0);
    let high = run(&["reciprocal", "--", "7", "4294967295", "08"]);
    assert_prints(&high, "4294967295: 5\n8: 1\n", 0);
}

/// Zero has no reciprocal, nor has any multiple of the prime; the other numbers have theirs all the same.
#[test]
fn zero_has_none() {
    for prime in PRIMES {
        let (prime, double) = (prime.to_string(), (2 * prime).to_string());
        for zero in ["0", &prime, &double] {
            let alone = run(&["reciprocal", &prime, zero]);
            assert_prints(&alone, &format!("{zero}: none\n"), 1);
        }
        let among = run(&["reciprocal", &prime, "1", "0", "1", &prime, "1"]);
        let expected = format!("1: 1\n0: none\n1: 1\n{prime}: none\n1: 1\n");
        assert_prints(&among, &expected, 1);
    }
    // 2^32 - 1 is 257 times 16711935.
    let high = run(&["reciprocal", "257", "4294967295"]);
    assert_prints(&high, "4294967295: none\n", 1);
}

/// Words behind `hanthuvelo reciprocal`, and what is said of them.
const BAD_WORDS: [(&str, &str); 13] = [
    ("", "expected a prime and a number"),
    ("7", "expected a number behind the prime"),
    ("11 1", "expected a prime of 7, 97, 257, 65521, found 11"),
    ("0 1", "expected a prime of 7, 97, 257, 65521, found 0"),
    ("4", "expected a prime of 7, 97, 257, 65521, found 4"),
    ("p 1", "expected a number from 0 to 4294967295, found `p`"),
    (
        "7 1 one",
        "expected a number from 0 to 4294967295, found `one`",
    ),
    (
        "7 4294967296",
        "expected a number from 0 to 4294967295, found `4294967296`",
    ),
    (
        "7 1.5",
        "expected a number from 0 to 4294967295, found `1.5`",
    ),
    ("7 -1", "expected a number from 0 to 4294967295, found `-1`"),
    (
        "7 -- -1",
        "expected a number from 0 to 4294967295, found `-1`",
    ),
    ("7 -", "expected a number from 0 to 4294967295, found `-`"),
    (
        "7 --json 1",
        "expected a number from 0 to 4294967295, found `--json`",
    ),
];

#[test]
fn bad_words_are_named() {
    for (words, message) in BAD_WORDS {
        assert_bad_use("reciprocal", words, message);
    }
    let full = run_redirected("reciprocal 7 1", "> /dev/full");
    let message = "standard output: No space left on device (os error 28)";
    assert_fails(&full, message);
}

/// The command on random numbers, against the second reciprocal.
#[test]
fn random_numbers_have_their_lines() {
    let (mut exist, mut none) = (0, 0);
    for (prime_code, prime) in (0..).zip(PRIMES) {
        let mut random = Random::new(2, u64::from(prime));
        let mut numbers: Vec<u32> = (0..500).map(|_| random.draw() as u32).collect();
        numbers.extend((0..500).map(|_| random.residue(u32::MAX / prime) * prime));
        let line = |&number: &u32| match reciprocal(prime_code, number) {
            Some(value) => format!("{number}: {value}\n"),
            None => format!("{number}: none\n"),
        };
        let expected: String = numbers.iter().map(line).collect();
        none += expected.matches(": none\n").count();
        exist += expected.lines().count() - expected.matches(": none\n").count();
        let mut words = vec!["reciprocal".to_string(), prime.to_string()];
        words.extend(numbers.iter().map(u32::to_string));
        let words: Vec<&str> = words.iter().map(String::as_str).collect();
        assert_prints(&run(&words), &expected, 1);
    }
    assert!(exist > 1800 && none >= 2000, "{exist}, {none}");
}
