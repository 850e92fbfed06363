//! Rows that report a pole or are silent: item 6 of paper 02.

use super::{is_right, value_at, HeaderForm, Job, Row};

/// What a row says in place of values.
#[derive(Clone, Copy, Debug, PartialEq, Eq)]
pub enum Mark {
    /// g is 0 at its point.
    Pole,
    /// Nothing.
    Silent,
}

impl Mark {
    pub const ALL: [Mark; 2] = [Mark::Pole, Mark::Silent];

    /// The number that every value of a marked row is.
    pub fn number(self) -> u32 {
        match self {
            Mark::Pole => 65535,
            Mark::Silent => 65534,
        }
    }

    /// The row at a point that is marked so, for this number of outputs.
    pub fn row(self, point: u32, outputs: usize) -> Row {
        Row {
            point,
            values: vec![self.number(); outputs],
        }
    }
}

impl Row {
    /// Puts a mark in the place of the values.
    pub fn put(&mut self, mark: Mark) {
        self.values.fill(mark.number());
    }
}

impl Job {
    /// The mark of a row, where the flag gives its numbers that meaning.
    pub fn mark(&self, row: &Row) -> Option<Mark> {
        let is_all = |mark: &Mark| row.values.iter().all(|&value| value == mark.number());
        let mark = Mark::ALL.into_iter().find(is_all);
        mark.filter(|_| self.header == HeaderForm::Flagged)
    }

    pub fn is_marked(&self, row: usize, mark: Mark) -> bool {
        self.mark(&self.rows[row]) == Some(mark)
    }

    /// The rows with this mark, rising.
    pub fn marked(&self, mark: Mark) -> Vec<usize> {
        let rows = 0..self.rows.len();
        rows.filter(|&row| self.is_marked(row, mark)).collect()
    }

    pub fn has_marks(&self) -> bool {
        self.rows.iter().any(|row| self.mark(row).is_some())
    }

    /// The rows that are not silent.
    pub fn speaking(&self) -> usize {
        self.rows.len() - self.marked(Mark::Silent).len()
    }

    /// How many rows can become silent before too few speak.
    pub fn rows_to_spare(&self) -> usize {
        self.speaking().saturating_sub(self.needed_rows())
    }

    /// S − df − dg − 2W, where S rows speak and W of them are wrong: the margin, or a number below 1.
    pub fn margin(&self, wrong: u32) -> i64 {
        let bounds = self.numerator_bound() + self.denominator_bound;
        self.speaking() as i64 - bounds as i64 - 2 * i64::from(wrong)
    }

    /// Whether a row has a point of p or more, or such a value that is no part of a mark.
    pub fn is_out_of_range(&self, row: &Row) -> bool {
        let is_large = |number: &u32| *number >= self.prime();
        is_large(&row.point) || self.mark(row).is_none() && row.values.iter().any(is_large)
    }

    /// Whether a row speaks and is not right.
    pub fn is_wrong<'a>(
        &self,
        row: &Row,
        denominator: &[u32],
        numerators: impl Iterator<Item = &'a [u32]>,
    ) -> bool {
        match self.mark(row) {
            None => !is_right(denominator, numerators, row, self.prime()),
            Some(Mark::Pole) => value_at(denominator, row.point, self.prime()) != 0,
            Some(Mark::Silent) => false,
        }
    }
}
