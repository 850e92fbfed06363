//! `hanthuvelo reciprocal`: reciprocals modulo a prime, and which numbers have none.

use crate::arguments::number_within;
use crate::output::{self, Failure};
use crate::Status;
use hanthuvelo::Prime;
use std::ffi::{OsStr, OsString};

pub const HELP: &str = "\
usage: hanthuvelo reciprocal PRIME NUMBER..

Prints a line for each number, `NUMBER: VALUE`: the only VALUE below the prime whose product with NUMBER is 1 modulo the
prime. What is 0 modulo the prime, as 0 and the prime itself, has no reciprocal, and the line is `NUMBER: none`.
PRIME is 7, 97, 257 or 65521, and NUMBER from 0 to 4294967295.

Exit status: 0 all numbers have a reciprocal; 1 a number has none; 2 bad use.
";

pub fn run(words: &[OsString]) -> Result<Status, Failure> {
    let (prime, numbers) = asked(words)?;
    let (mut text, mut status) = (String::new(), Status::Done);
    for number in numbers {
        match prime.reciprocal(number) {
            Some(value) => text += &format!("{number}: {value}\n"),
            None => {
                text += &format!("{number}: none\n");
                status = Status::Refused;
            }
        }
    }
    output::print(text.as_bytes())?;
    Ok(status)
}

/// The prime, and the numbers behind it. There are no options, so that a `--` says nothing.
fn asked(words: &[OsString]) -> Result<(Prime, Vec<u32>), Failure> {
    let mut words = words.iter().filter(|word| *word != "--");
    let Some(first) = words.next() else {
        return Err(Failure::bad_use("expected a prime and a number"));
    };
    let prime = Prime::try_from(number(first)?);
    let prime = prime.map_err(|error| Failure::bad_use(error.to_string()))?;
    let numbers: Result<Vec<u32>, Failure> = words.map(|word| number(word)).collect();
    let numbers = numbers?;
    if numbers.is_empty() {
        return Err(Failure::bad_use("expected a number behind the prime"));
    }
    Ok((prime, numbers))
}

fn number(word: &OsStr) -> Result<u32, Failure> {
    number_within(0..=u32::MAX, &word.to_string_lossy(), "")
}
