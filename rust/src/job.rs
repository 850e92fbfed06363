//! A job: the bounds and the rows, and the bytes that hold them.

use crate::format::{counted, numbers};
use crate::{Bounds, FormatError, Header, Reading, Row};

/// A job that can be written as bytes. Whether the library refuses it is not tested here.
///
/// A row that reports a pole or is silent gives the job the longer header, with the flag for marks.
///
/// ```
/// # #[cfg(feature = "library")] {
/// use hanthuvelo::{Bounds, Job, NumeratorBounds, Prime, Row};
///
/// // Two outputs modulo 7, and no wrong row: values at the point 3, and a pole at 4.
/// let df = NumeratorBounds::Same(0);
/// let bounds = Bounds { prime: Prime::P7, outputs: 2, df, dg: 1, errors: 0 };
/// let mut job = Job::new(bounds).expect("bounds");
/// job.push(Row::new(3, vec![3, 5])).expect("a row");
/// job.push(Row::pole(4)).expect("a row");
/// let answer = job.recover().expect("an answer");
/// assert_eq!((answer.fraction(0), answer.fraction(1)), ("4 / (3 + u)".to_string(), "2 / (3 + u)".to_string()));
/// assert!(answer.wrong_rows().is_empty());
///
/// // Without that row too few are left that speak.
/// let job: Job = "prime 7 outputs 2 df 0 dg 1 errors 0\n3: 3 5\n4: silent".parse().expect("a readable job");
/// let refusal = job.recover().expect_err("too few rows");
/// assert_eq!(refusal.to_string(), "refused 12: df + dg + 2 E + 1 is 2, the number of rows that speak is 1");
/// # }
/// ```
#[derive(Clone, Debug, PartialEq, Eq)]
pub struct Job {
    bounds: Bounds,
    allows_marks: bool,
    rows: Vec<Row>,
}

impl Job {
    /// The most rows that a header can name.
    pub const MOST_ROWS: usize = 31;

    /// A job without rows.
    pub fn new(bounds: Bounds) -> Result<Job, FormatError> {
        bounds.check()?;
        Ok(Job {
            bounds,
            allows_marks: false,
            rows: Vec::new(),
        })
    }

    /// One row more. A marked one gives the job the flag, as [`allow_marks`](Job::allow_marks) does.
    pub fn push(&mut self, row: Row) -> Result<(), FormatError> {
        if self.rows.len() == Job::MOST_ROWS {
            let most = Job::MOST_ROWS;
            return Err(FormatError(format!("expected at most {most} rows")));
        }
        let (expected, found) = (self.bounds.outputs, row.values().map(<[u16]>::len));
        if let Some(found) = found.filter(|&found| found != expected) {
            let values = counted(expected, "value");
            return Err(FormatError(format!("expected {values}, found {found}")));
        }
        let needs_flag = self.allows_marks || row.reading.is_mark();
        self.rows.push(row);
        if needs_flag {
            self.allow_marks();
        }
        Ok(())
    }

    /// Takes the longer header with the flag by which rows can be marked. A row whose values all are 65535 then reports a
    /// pole, and one whose values all are 65534 is silent.
    pub fn allow_marks(&mut self) {
        self.allows_marks = true;
        self.bounds = self.bounds.with_bound_for_each();
        for row in &mut self.rows {
            let reading = std::mem::replace(&mut row.reading, Reading::Silent);
            row.reading = reading.under_the_flag();
        }
    }

    /// Whether the header has the flag by which rows can be marked.
    pub fn allows_marks(&self) -> bool {
        self.allows_marks
    }

    /// Prime, number of outputs, and bounds.
    pub fn bounds(&self) -> &Bounds {
        &self.bounds
    }

    /// The rows, in their order.
    pub fn rows(&self) -> &[Row] {
        &self.rows
    }

    /// The job's bytes.
    pub fn pack(&self) -> Vec<u8> {
        let mut bytes = Header::new(self.bounds, self.rows.len(), self.allows_marks).pack();
        for row in &self.rows {
            bytes.extend(row.bytes(self.bounds.outputs));
        }
        bytes
    }

    /// The job that these bytes are, if they are as many as their header asks for.
    pub fn unpack(bytes: &[u8]) -> Result<Job, FormatError> {
        let Some(header) = Header::read(bytes) else {
            let (needed, why) = (Header::length_at(bytes), Header::why_longer(bytes));
            let found = bytes.len();
            return Err(FormatError(format!(
                "expected a header of {needed} bytes{why}, found {found}"
            )));
        };
        if let Some(broken) = header.broken_rule() {
            return Err(FormatError(format!(
                "expected an added header that breaks no rule: {broken}"
            )));
        }
        let (needed, found) = (header.job_length(), bytes.len());
        if found != needed {
            return Err(FormatError(format!(
                "expected {needed} bytes, as the header says, found {found}"
            )));
        }
        Ok(Job::read(bytes, header))
    }

    /// The job in bytes that begin with this header; its rows are those that are whole.
    pub(crate) fn read(bytes: &[u8], header: Header) -> Job {
        let bounds = header.bounds;
        let rows = bytes.get(header.length()..).unwrap_or_default();
        let row = |bytes: &[u8]| {
            let mut numbers = numbers(bytes);
            let point = numbers.remove(0);
            Row::new(point, numbers)
        };
        let mut job = Job {
            bounds,
            allows_marks: false,
            rows: rows.chunks_exact(bounds.row_length()).map(row).collect(),
        };
        if header.allows_marks() {
            job.allow_marks();
        }
        job
    }
}
