//! Prime, number of outputs, and bounds of a job.

use crate::format::{output_name, within};
use crate::{FormatError, Header, Prime};

/// The degree bounds of f1, f2, .., which also say which header a job has.
///
/// ```
/// use hanthuvelo::NumeratorBounds;
///
/// // Of f1, f2 and f3.
/// let bounds = NumeratorBounds::Each([1, 4, 2, 0]);
/// assert_eq!((bounds.of(0), bounds.of(1), bounds.of(2)), (1, 4, 2));
/// assert_eq!(bounds.largest(), 4);
/// ```
#[derive(Clone, Copy, Debug, PartialEq, Eq)]
pub enum NumeratorBounds {
    /// One bound for every f: the short header, of 3 bytes.
    Same(usize),
    /// A bound for each of f1 to f4, 0 for those that do not exist: the longer header, of 7 bytes.
    Each([usize; 4]),
}

impl NumeratorBounds {
    /// The bound of an output's f; outputs count from 0.
    pub fn of(&self, output: usize) -> usize {
        match self {
            NumeratorBounds::Same(bound) => *bound,
            NumeratorBounds::Each(bounds) => bounds.get(output).copied().unwrap_or(0),
        }
    }

    /// df, the largest bound.
    pub fn largest(&self) -> usize {
        match self {
            NumeratorBounds::Same(bound) => *bound,
            NumeratorBounds::Each(bounds) => bounds.iter().copied().max().unwrap_or(0),
        }
    }
}

/// Prime, number of outputs, and bounds of a job.
#[derive(Clone, Copy, Debug, PartialEq, Eq)]
pub struct Bounds {
    /// The modulus p of all values and coefficients.
    pub prime: Prime,
    /// n, from 1 to 4.
    pub outputs: usize,
    /// The degree bound of every f, or one for each, 31 at most.
    pub df: NumeratorBounds,
    /// The degree bound of g, 31 at most.
    pub dg: usize,
    /// E, how many rows may be wrong, 15 at most.
    pub errors: usize,
}

impl Bounds {
    /// df + dg + 2 E + 1, the number of rows that these bounds ask for; df is the largest bound of an f.
    pub fn needed_rows(&self) -> usize {
        self.df.largest() + self.dg + 2 * self.errors + 1
    }

    /// How many bytes an answer within these bounds has.
    pub fn answer_length(&self) -> usize {
        4 + self.coefficients_length()
    }

    /// How many bytes the coefficients within these bounds have, as an answer lists them behind its word.
    pub fn coefficients_length(&self) -> usize {
        let numerators: usize = self.numerator_lengths().sum();
        2 * (self.dg + 1 + numerators)
    }

    /// How many coefficients an answer has of each f: its bound plus 1.
    pub(crate) fn numerator_lengths(&self) -> impl Iterator<Item = usize> {
        let df = self.df;
        (0..self.outputs).map(move |output| df.of(output) + 1)
    }

    /// How many bytes the header of a job with these bounds has.
    pub(crate) fn header_length(&self) -> usize {
        match self.df {
            NumeratorBounds::Same(_) => Header::SHORT,
            NumeratorBounds::Each(_) => Header::LONGER,
        }
    }

    /// The same with a bound for each f, as the longer header has it.
    pub(crate) fn with_bound_for_each(self) -> Bounds {
        let NumeratorBounds::Same(bound) = self.df else {
            return self;
        };
        let mut each = [0; 4];
        each[..self.outputs].fill(bound);
        let df = NumeratorBounds::Each(each);
        Bounds { df, ..self }
    }

    /// How many bytes a row has: the point and the values, 16 bits each.
    pub(crate) fn row_length(&self) -> usize {
        2 * (1 + self.outputs)
    }

    /// The bounds of the f as a readable job has them behind `df`, one or one for each output: `4`, or `4 1 2`.
    pub(crate) fn df_text(&self) -> String {
        match self.df {
            NumeratorBounds::Same(bound) => bound.to_string(),
            NumeratorBounds::Each(bounds) => {
                let known = bounds.iter().take(self.outputs);
                known.map(usize::to_string).collect::<Vec<_>>().join(" ")
            }
        }
    }

    pub(crate) fn check(&self) -> Result<(), FormatError> {
        within("outputs", 1, 4, self.outputs)?;
        match self.df {
            NumeratorBounds::Same(bound) => within("df", 0, 31, bound)?,
            NumeratorBounds::Each(bounds) => self.check_each(bounds)?,
        }
        within("dg", 0, 31, self.dg)?;
        within("errors", 0, 15, self.errors)
    }

    fn check_each(&self, bounds: [usize; 4]) -> Result<(), FormatError> {
        let check = |(output, bound): (usize, usize)| {
            if output >= self.outputs && bound != 0 {
                let name = output_name(output);
                return Err(FormatError(format!(
                    "expected 0 as the bound of {name}, which does not exist, found {bound}"
                )));
            }
            within(&df_name(output), 0, 31, bound)
        };
        bounds.into_iter().enumerate().try_for_each(check)
    }
}

/// What the bound of an output's f is called.
pub(crate) fn df_name(output: usize) -> String {
    format!("df of {}", output_name(output))
}
