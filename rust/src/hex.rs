//! Bytes as hexadecimal text.

use crate::readable::TextError;

/// The bytes that `text` lists; blanks between digits are skipped.
pub fn bytes(text: &str) -> Result<Vec<u8>, TextError> {
    let mut digits = Vec::new();
    for (index, line) in text.lines().enumerate() {
        for character in line.chars().filter(|character| !character.is_whitespace()) {
            let digit = character.to_digit(16).ok_or_else(|| TextError {
                line: index + 1,
                message: format!("expected hexadecimal digits, found {character:?}"),
            })?;
            digits.push(digit as u8);
        }
    }
    if digits.len() % 2 == 1 {
        return Err(TextError {
            line: text.lines().count(),
            message: "expected two hexadecimal digits for each byte, found one".to_string(),
        });
    }
    Ok(digits
        .chunks(2)
        .map(|pair| pair[0] << 4 | pair[1])
        .collect())
}

/// Two capital digits for each byte, without blanks.
pub fn text(bytes: &[u8]) -> String {
    let digit = |value: u8| char::from(b"0123456789ABCDEF"[usize::from(value)]);
    let digits = |byte: &u8| [digit(byte >> 4), digit(byte & 15)];
    bytes.iter().flat_map(digits).collect()
}
