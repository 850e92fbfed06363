//! The first line of a readable job or trial: the prime, the number of outputs, and the bounds.

use super::{excerpt, labelled, number};
use crate::bounds::df_name;
use crate::format::within;
use crate::{Bounds, FormatError, NumeratorBounds, Prime};

pub const HEADER: &str = "prime P outputs N df D.. dg D errors E";

/// The word behind the only bound of a job with one output whose header is the longer one.
const LONG: &str = "long";

/// The word behind the bounds of a job whose header is the longer one with the flag for marks.
const MARKS: &str = "marks";

/// The bounds, and whether rows can be marked although none is yet.
pub fn parse_header(content: &str) -> Result<(Bounds, bool), FormatError> {
    let words = labelled(content, HEADER)?;
    let prime = Prime::try_from(u32::from(number(words[0][0], "prime")?))?;
    let field = |place: usize, name: &str| number(words[place][0], name).map(usize::from);
    let outputs = field(1, "outputs")?;
    within("outputs", 1, 4, outputs)?;
    let (df, allows_marks) = match words[2].split_last() {
        Some((&MARKS, df)) if !df.is_empty() => (df, true),
        _ => (&words[2][..], false),
    };
    let bounds = Bounds {
        prime,
        outputs,
        df: parse_df(df, outputs)?,
        dg: field(3, "dg")?,
        errors: field(4, "errors")?,
    };
    bounds.check().map(|()| (bounds, allows_marks))
}

/// The words behind `df`, `marks` left out: one bound for every f; one for each; or, where there is one output, its bound and
/// `long`.
fn parse_df(words: &[&str], outputs: usize) -> Result<NumeratorBounds, FormatError> {
    let bound = |word: &str, name: &str| number(word, name).map(usize::from);
    match words {
        [word] => Ok(NumeratorBounds::Same(bound(word, "df")?)),
        [word, LONG] if outputs == 1 => {
            let first = bound(word, "df")?;
            Ok(NumeratorBounds::Each([first, 0, 0, 0]))
        }
        _ if outputs > 1 && words.len() == outputs => {
            let mut each = [0; 4];
            for (output, word) in words.iter().enumerate() {
                each[output] = bound(word, &df_name(output))?;
            }
            Ok(NumeratorBounds::Each(each))
        }
        _ => {
            let longer = match outputs {
                1 => format!("a number and `{LONG}`"),
                _ => format!("{outputs} numbers"),
            };
            let found = excerpt(&words.join(" "));
            Err(FormatError(format!(
                "expected a number or {longer} behind df, found {found}"
            )))
        }
    }
}

/// How much of the header the first line has to say.
#[derive(Clone, Copy, PartialEq, Eq)]
pub enum Said {
    /// That the header is the longer one, where it is.
    Length,
    /// That it has the flag for marks.
    Flag,
    /// Neither, as a marked row says both.
    Nothing,
}

pub fn header_text(bounds: &Bounds, said: Said) -> String {
    let (prime, outputs) = (bounds.prime.value(), bounds.outputs);
    let (df, dg, errors) = (bounds.df_text(), bounds.dg, bounds.errors);
    let word = match (said, bounds.df, outputs) {
        (Said::Flag, ..) => format!(" {MARKS}"),
        (Said::Length, NumeratorBounds::Each(_), 1) => format!(" {LONG}"),
        _ => String::new(),
    };
    format!("prime {prime} outputs {outputs} df {df}{word} dg {dg} errors {errors}")
}
