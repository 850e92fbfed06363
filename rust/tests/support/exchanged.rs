//! Readable texts with some characters exchanged.

use hanthuvelo::readable::TextError;
use outside_checks::jobs::Random;
use std::fmt::{Debug, Display};
use std::str::FromStr;

/// How many of 20,000 such texts are read, and how many are named as bad ones at one of their lines. What is read is written and
/// read again.
pub fn read_and_named<T: FromStr<Err = TextError> + Display + PartialEq + Debug>(
    seed: u64,
    text: &str,
    characters: &[u8],
    parse: fn(&[u8]) -> Result<T, TextError>,
) -> (usize, usize) {
    let (mut read, mut named) = (0, 0);
    for index in 0..20_000 {
        let mut random = Random::new(seed, index);
        let mut text = text.as_bytes().to_vec();
        for _ in 0..random.between(1, 3) {
            let place = random.below(text.len());
            text[place] = characters[random.below(characters.len())];
        }
        match parse(&text) {
            Ok(found) => {
                assert_eq!(found.to_string().parse(), Ok(found));
                read += 1;
            }
            Err(error) => {
                assert!(error.line >= 1 && error.line <= 1 + text.len());
                named += 1;
            }
        }
    }
    (read, named)
}
