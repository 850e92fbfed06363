//! Readable trials.

use super::first_line::{header_text, parse_header, Said, HEADER};
use super::{excerpt, labelled, number, number_up_to, parse_bytes, Lines, TextError};
use crate::format::{output_name, within};
use crate::trial::too_high;
use crate::{polynomial_text, FormatError, Job, Trial};
use std::fmt::{Display, Formatter};
use std::str::FromStr;

const SPOILED: &str = "rows L start S spoiled W";

/// The trial that a file's bytes describe.
pub fn parse_trial(bytes: &[u8]) -> Result<Trial, TextError> {
    parse_bytes(bytes)
}

impl FromStr for Trial {
    type Err = TextError;

    fn from_str(text: &str) -> Result<Trial, TextError> {
        let mut lines = Lines::new(text);
        let (bounds, allows_marks) = lines.take(HEADER, parse_header)?;
        let (rows, start, spoiled) = lines.take(SPOILED, parse_spoiled)?;
        let mut take = |name: &str, bound: usize| {
            let parse = |content: &str| parse_polynomial(content, name, bound);
            lines.take(&format!("{name} = POLYNOMIAL"), parse)
        };
        let denominator = take("g", bounds.dg)?;
        let outputs = 0..bounds.outputs;
        let numerators = outputs.map(|output| take(&output_name(output), bounds.df.of(output)));
        let numerators = numerators.collect::<Result<Vec<_>, _>>()?;
        if let Some(content) = lines.next() {
            let message = format!("expected no further line, found {}", excerpt(content));
            return Err(lines.error(FormatError(message)));
        }
        let trial = Trial::new(bounds, rows, &denominator, &numerators);
        let mut trial = trial.map_err(|error| lines.error(error))?;
        (trial.start, trial.spoiled) = (start, spoiled);
        if allows_marks {
            trial.allow_marks();
        }
        Ok(trial)
    }
}

fn parse_spoiled(content: &str) -> Result<(usize, u32, u32), FormatError> {
    let words = labelled(content, SPOILED)?;
    let rows = number(words[0][0], "rows")?.into();
    within("rows", 0, Job::MOST_ROWS, rows)?;
    let field = |place: usize, name: &str| number_up_to(u32::MAX, words[place][0], name);
    Ok((rows, field(1, "start")?, field(2, "spoiled")?))
}

/// The coefficients up to the bound, from `f1 = 4 + 2 u + u^3`; each power stands there once at most.
fn parse_polynomial(content: &str, name: &str, bound: usize) -> Result<Vec<u16>, FormatError> {
    let named = content.split_once('=');
    let Some((_, sum)) = named.filter(|(before, _)| before.trim() == name) else {
        let found = excerpt(content);
        let form = format!("`{name} = POLYNOMIAL`");
        return Err(FormatError(format!("expected {form}, found {found}")));
    };
    let mut coefficients = vec![None; bound + 1];
    for term in sum.split('+').map(str::trim) {
        let (coefficient, power) = parse_term(term)?;
        let place = coefficients.get_mut(power);
        let place = place.ok_or_else(|| too_high(name, bound, power))?;
        if place.replace(coefficient).is_some() {
            let found = excerpt(term);
            return Err(FormatError(format!(
                "expected each power of u once, found {found} as well"
            )));
        }
    }
    let known = coefficients.into_iter().map(Option::unwrap_or_default);
    Ok(known.collect())
}

/// Coefficient and power of `5`, `u`, `5 u` or `5 u^2`.
fn parse_term(term: &str) -> Result<(u16, usize), FormatError> {
    let Some((before, behind)) = term.split_once('u') else {
        return Ok((number(term, "a coefficient")?, 0));
    };
    let coefficient = match before.trim() {
        "" => 1,
        word => number(word, "a coefficient")?,
    };
    match behind.strip_prefix('^') {
        Some(power) => Ok((coefficient, number(power, "a power of u")?.into())),
        None if behind.is_empty() => Ok((coefficient, 1)),
        None => {
            let found = excerpt(term);
            Err(FormatError(format!(
                "expected a term as `5`, `u`, `5 u` or `5 u^2`, found {found}"
            )))
        }
    }
}

impl Display for Trial {
    fn fmt(&self, formatter: &mut Formatter<'_>) -> std::fmt::Result {
        let said = match self.allows_marks() {
            true => Said::Flag,
            false => Said::Length,
        };
        writeln!(formatter, "{}", header_text(self.bounds(), said))?;
        let (rows, start, spoiled) = (self.rows(), self.start, self.spoiled);
        writeln!(formatter, "rows {rows} start {start} spoiled {spoiled}")?;
        writeln!(formatter, "g = {}", polynomial_text(self.denominator()))?;
        for (output, numerator) in self.numerators().iter().enumerate() {
            let (name, sum) = (output_name(output), polynomial_text(numerator));
            writeln!(formatter, "{name} = {sum}")?;
        }
        Ok(())
    }
}
