//! What the formats share: their error, numbers as bytes, and numbers with their nouns.

use std::error::Error;
use std::fmt::{Display, Formatter};

/// What a number or a row of a job should be, and is not.
#[derive(Clone, Debug, PartialEq, Eq)]
pub struct FormatError(pub(crate) String);

impl Display for FormatError {
    fn fmt(&self, formatter: &mut Formatter<'_>) -> std::fmt::Result {
        formatter.write_str(&self.0)
    }
}

impl Error for FormatError {}

pub(crate) fn within(what: &str, low: usize, high: usize, found: usize) -> Result<(), FormatError> {
    if (low..=high).contains(&found) {
        return Ok(());
    }
    Err(FormatError(format!(
        "expected {what} from {low} to {high}, found {found}"
    )))
}

/// The 16-bit numbers in a stretch of bytes, high byte first.
pub(crate) fn numbers(bytes: &[u8]) -> Vec<u16> {
    let number = |pair: &[u8]| u16::from_be_bytes([pair[0], pair[1]]);
    bytes.chunks_exact(2).map(number).collect()
}

/// Numbers as bytes, 16 bits each, high byte first.
pub(crate) fn number_bytes(numbers: &[u16]) -> Vec<u8> {
    let bytes = numbers.iter().flat_map(|number| number.to_be_bytes());
    bytes.collect()
}

/// A number with its noun, as `1 row`, `2 rows`.
pub(crate) fn counted(number: usize, noun: &str) -> String {
    let ending = if number == 1 { "" } else { "s" };
    format!("{number} {noun}{ending}")
}

/// Outputs count from 0, and f1 is the first.
pub(crate) fn output_name(output: usize) -> String {
    format!("f{}", output + 1)
}
