//! An answer: the wrong rows and the polynomials, and the bytes that hold them.

use crate::format::{counted, numbers, output_name};
use crate::{Bounds, FormatError};

/// A recovered answer: the word of wrong rows, and coefficients up to the degree bounds.
#[derive(Clone, Debug, PartialEq, Eq)]
pub struct Answer {
    /// Row r, counted from 0, has the bit r places below the top, 1 if the row is wrong.
    pub word: u32,
    /// The coefficients of g from the constant term upward, dg + 1 of them.
    pub denominator: Vec<u16>,
    /// Those of each f, its bound plus 1 of them.
    pub numerators: Vec<Vec<u16>>,
}

impl Answer {
    /// The answer that these bytes hold for a job of `rows` rows with these bounds, if they can be one at all: as many
    /// bytes as the bounds ask for, no mark at a row that does not exist, and coefficients below the prime.
    pub fn unpack(bytes: &[u8], bounds: &Bounds, rows: usize) -> Result<Answer, FormatError> {
        let (needed, found) = (bounds.answer_length(), bytes.len());
        if found != needed {
            return Err(FormatError(format!(
                "expected {needed} bytes for this job's answer, found {found}"
            )));
        }
        let answer = Answer::read(bytes, bounds);
        if let Some(row) = answer.mark_beyond(rows) {
            let rows = counted(rows, "row");
            return Err(FormatError(format!(
                "expected marks at the job's {rows}, found one at row {row}"
            )));
        }
        let prime = bounds.prime.value();
        match answer.large_coefficient(prime) {
            Some((_, _, large)) => Err(FormatError(format!(
                "expected coefficients below {prime}, found {large}"
            ))),
            None => Ok(answer),
        }
    }

    /// The answer that an area begins with; what is missing at its end is read as 0.
    pub(crate) fn read(area: &[u8], bounds: &Bounds) -> Answer {
        let mut bytes = area.to_vec();
        bytes.resize(bounds.answer_length(), 0);
        let mut rest = numbers(&bytes);
        let mut take = |count: usize| rest.drain(..count).collect::<Vec<u16>>();
        let word = take(2);
        Answer {
            word: u32::from(word[0]) << 16 | u32::from(word[1]),
            denominator: take(bounds.dg + 1),
            numerators: bounds.numerator_lengths().map(take).collect(),
        }
    }

    /// The first marked row that does not exist where there are so many.
    pub(crate) fn mark_beyond(&self, rows: usize) -> Option<usize> {
        self.wrong_rows().into_iter().find(|&row| row >= rows)
    }

    /// The first coefficient that is not below the prime: its polynomial's name, its power of u, and itself.
    pub(crate) fn large_coefficient(&self, prime: u32) -> Option<(String, usize, u16)> {
        let numerators = self.numerators.iter().enumerate();
        let numerators = numerators.map(|(output, f)| (output_name(output), f));
        let mut all = std::iter::once(("g".to_string(), &self.denominator)).chain(numerators);
        all.find_map(|(name, polynomial)| {
            let is_large = |&coefficient: &u16| u32::from(coefficient) >= prime;
            let power = polynomial.iter().position(is_large)?;
            Some((name, power, polynomial[power]))
        })
    }

    /// The wrong rows, counted from 0, rising.
    pub fn wrong_rows(&self) -> Vec<usize> {
        let is_wrong = |row: &usize| self.word << row >> 31 == 1;
        (0..32).filter(is_wrong).collect()
    }

    /// An output as people write it: `(1 + 2 u) / (15 + 89 u + u^2)`, without a denominator where that is 1.
    ///
    /// Outputs count from 0; one that does not exist is a panic, as for any index.
    pub fn fraction(&self, output: usize) -> String {
        let above = &self.numerators[output];
        match (trimmed(above), trimmed(&self.denominator)) {
            (&[], _) | (_, &[1]) => polynomial_text(above),
            _ => format!(
                "{} / {}",
                factor_text(above),
                factor_text(&self.denominator)
            ),
        }
    }
}

/// The coefficients up to the last one that is not zero.
pub fn trimmed(coefficients: &[u16]) -> &[u16] {
    let last = coefficients
        .iter()
        .rposition(|&coefficient| coefficient != 0);
    &coefficients[..last.map_or(0, |place| place + 1)]
}

/// A polynomial in u, from the constant term upward: `15 + 89 u + u^2`.
pub fn polynomial_text(coefficients: &[u16]) -> String {
    let terms: Vec<String> = coefficients
        .iter()
        .enumerate()
        .filter(|(_, &coefficient)| coefficient != 0)
        .map(|(power, &coefficient)| term_text(power, coefficient))
        .collect();
    if terms.is_empty() {
        return "0".to_string();
    }
    terms.join(" + ")
}

fn term_text(power: usize, coefficient: u16) -> String {
    let variable = match power {
        0 => return coefficient.to_string(),
        1 => "u".to_string(),
        _ => format!("u^{power}"),
    };
    match coefficient {
        1 => variable,
        _ => format!("{coefficient} {variable}"),
    }
}

/// A polynomial above or below a stroke: a sum stands in parentheses.
fn factor_text(coefficients: &[u16]) -> String {
    let text = polynomial_text(coefficients);
    if text.contains('+') {
        format!("({text})")
    } else {
        text
    }
}
