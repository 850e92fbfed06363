//! A trial: fractions that are known, and how a job is to be written from them.

use crate::format::{counted, number_bytes, output_name, within};
use crate::{trimmed, Bounds, FormatError, Header, Job};

/// What a trial job is written from. Whether the library refuses it is not tested here.
///
/// The job has rows at the points 0, 1, 2, .. with the values of the fractions, zeros where g is 0. Then some rows, which
/// the word [`start`](Trial::start) determines, are spoiled: their first value is another one. If no more rows than E are
/// spoiled or stand at a root of g, recovery gives the fractions back, and exactly those rows.
///
/// ```
/// # #[cfg(feature = "library")] {
/// use hanthuvelo::{Bounds, NumeratorBounds, Prime, Trial};
///
/// // 5 / (1 + u) and 1 / (1 + u) modulo 7 at the points 0 to 6, the last of which is a pole.
/// let df = NumeratorBounds::Same(0);
/// let bounds = Bounds { prime: Prime::P7, outputs: 2, df, dg: 1, errors: 2 };
/// let mut trial = Trial::new(bounds, 7, &[1, 1], &[vec![5], vec![1]]).expect("fractions within the bounds");
/// assert_eq!(trial.write().expect("a job").rows()[1].values(), Some(&[6, 4][..]));
///
/// // From the word 14 the pole is spoiled, and then row 0.
/// (trial.start, trial.spoiled) = (14, 2);
/// let answer = trial.write().expect("a job").recover().expect("an answer");
/// assert_eq!(answer.denominator, trial.denominator());
/// assert_eq!(answer.numerators, trial.numerators());
/// assert_eq!(answer.wrong_rows(), [0, 6]);
///
/// // More rows than there are cannot be spoiled.
/// trial.spoiled = 8;
/// let refusal = trial.write().expect_err("no job");
/// assert_eq!(refusal.to_string(), "refused 9: 8 rows are to be spoiled, the job has 7 rows");
/// # }
/// ```
#[derive(Clone, Debug, PartialEq, Eq)]
pub struct Trial {
    bounds: Bounds,
    allows_marks: bool,
    rows: usize,
    denominator: Vec<u16>,
    numerators: Vec<Vec<u16>>,
    /// The word before the first draw.
    pub start: u32,
    /// w, how many rows are spoiled.
    pub spoiled: u32,
}

impl Trial {
    /// A trial of so many rows from g and f1, f2, .., of which no row is spoiled.
    ///
    /// Coefficients stand from the constant term upward, as many as there are: zeros up to the bounds are added. Those of
    /// an [`Answer`](crate::Answer) have this form.
    pub fn new(
        bounds: Bounds,
        rows: usize,
        denominator: &[u16],
        numerators: &[Vec<u16>],
    ) -> Result<Trial, FormatError> {
        bounds.check()?;
        within("rows", 0, Job::MOST_ROWS, rows)?;
        let (expected, found) = (bounds.outputs, numerators.len());
        if found != expected {
            let expected = counted(expected, "numerator");
            return Err(FormatError(format!("expected {expected}, found {found}")));
        }
        let numerator =
            |(output, f): (usize, &Vec<u16>)| filled(&output_name(output), f, bounds.df.of(output));
        let numerators: Result<_, _> = numerators.iter().enumerate().map(numerator).collect();
        Ok(Trial {
            bounds,
            allows_marks: false,
            rows,
            denominator: filled("g", denominator, bounds.dg)?,
            numerators: numerators?,
            start: 0,
            spoiled: 0,
        })
    }

    /// Takes the longer header with the flag by which rows can be marked. The job has no marked row all the same: a pole
    /// has zeros, and is wrong.
    pub fn allow_marks(&mut self) {
        self.allows_marks = true;
        self.bounds = self.bounds.with_bound_for_each();
    }

    /// Whether the header has the flag by which rows can be marked.
    pub fn allows_marks(&self) -> bool {
        self.allows_marks
    }

    /// Prime, number of outputs, and bounds.
    pub fn bounds(&self) -> &Bounds {
        &self.bounds
    }

    /// L, the number of rows.
    pub fn rows(&self) -> usize {
        self.rows
    }

    /// The coefficients of g from the constant term upward, dg + 1 of them.
    pub fn denominator(&self) -> &[u16] {
        &self.denominator
    }

    /// Those of each f, its bound plus 1 of them.
    pub fn numerators(&self) -> &[Vec<u16>] {
        &self.numerators
    }

    /// The header's bytes, which the job begins with.
    pub fn header(&self) -> Vec<u8> {
        Header::new(self.bounds, self.rows, self.allows_marks).pack()
    }

    /// The bytes of the coefficients, as an answer lists them behind its word.
    pub fn coefficients(&self) -> Vec<u8> {
        let mut bytes = number_bytes(&self.denominator);
        for numerator in &self.numerators {
            bytes.extend(number_bytes(numerator));
        }
        bytes
    }
}

/// All coefficients up to the bound of a polynomial that meets it.
fn filled(name: &str, coefficients: &[u16], bound: usize) -> Result<Vec<u16>, FormatError> {
    let mut filled = trimmed(coefficients).to_vec();
    if filled.len() > bound + 1 {
        return Err(too_high(name, bound, filled.len() - 1));
    }
    filled.resize(bound + 1, 0);
    Ok(filled)
}

/// A degree that does not fit.
pub(crate) fn too_high(name: &str, bound: usize, degree: usize) -> FormatError {
    FormatError(format!(
        "expected {name} of degree {bound} at most, found degree {degree}"
    ))
}
