//! A row of a job: a point with values, with the report of a pole, or with nothing.

use crate::format::number_bytes;

/// A point, and what is said there.
///
/// ```
/// use hanthuvelo::{Reading, Row};
///
/// let row = Row::new(3, vec![3, 5]);
/// assert_eq!(row.values(), Some(&[3, 5][..]));
/// assert_eq!(Row::pole(4).reading, Reading::Pole);
/// assert_eq!(Row::silent(5).values(), None);
/// ```
#[derive(Clone, Debug, PartialEq, Eq)]
pub struct Row {
    /// The point.
    pub point: u16,
    /// What the row says there.
    pub reading: Reading,
}

/// What a row says at its point.
#[derive(Clone, Debug, PartialEq, Eq)]
pub enum Reading {
    /// The values of f1/g, f2/g, .. at the point, or what was taken for them.
    Values(Vec<u16>),
    /// That g is 0 at the point: the row is right exactly if it is.
    Pole,
    /// Nothing: the row is neither right nor wrong.
    Silent,
}

impl Row {
    /// A row with values, one for each output.
    pub fn new(point: u16, values: Vec<u16>) -> Row {
        let reading = Reading::Values(values);
        Row { point, reading }
    }

    /// A row that reports a pole.
    pub fn pole(point: u16) -> Row {
        let reading = Reading::Pole;
        Row { point, reading }
    }

    /// A row that is silent.
    pub fn silent(point: u16) -> Row {
        let reading = Reading::Silent;
        Row { point, reading }
    }

    /// The values, if it has any.
    pub fn values(&self) -> Option<&[u16]> {
        match &self.reading {
            Reading::Values(values) => Some(values),
            Reading::Pole | Reading::Silent => None,
        }
    }

    /// The row's bytes for so many outputs.
    pub(crate) fn bytes(&self, outputs: usize) -> Vec<u8> {
        let mut bytes = number_bytes(&[self.point]);
        bytes.extend(match (&self.reading, self.reading.mark()) {
            (Reading::Values(values), _) => number_bytes(values),
            (_, mark) => number_bytes(&vec![mark.unwrap_or(0); outputs]),
        });
        bytes
    }
}

impl Reading {
    /// What every value of a row is that reports a pole, under a header with the flag for marks.
    pub const POLE: u16 = 65535;
    /// What every value of a silent row is.
    pub const SILENT: u16 = 65534;

    /// The number that stands for all values of a marked row.
    fn mark(&self) -> Option<u16> {
        match self {
            Reading::Values(_) => None,
            Reading::Pole => Some(Reading::POLE),
            Reading::Silent => Some(Reading::SILENT),
        }
    }

    /// Whether it stands in a row under a header with the flag alone.
    pub(crate) fn is_mark(&self) -> bool {
        self.mark().is_some()
    }

    /// What it says under a header with the flag for marks: values that are all the number of a mark are that mark.
    pub(crate) fn under_the_flag(self) -> Reading {
        let are_all = |mark: u16| match &self {
            Reading::Values(values) => values.iter().all(|&value| value == mark),
            _ => false,
        };
        if are_all(Reading::POLE) {
            return Reading::Pole;
        }
        match are_all(Reading::SILENT) {
            true => Reading::Silent,
            false => self,
        }
    }
}
