//! Hanthuvelo: exact fractions f1/g .. fn/g over one denominator, from values modulo a prime of which some are wrong.
//!
//! A [`Job`] has rows, each a point and n values, and bounds: for the degrees of the f, one for all or one for each, for that
//! of g, and for how many rows may be wrong. The library returns **the** reduced fractions within the bounds and exactly the
//! wrong rows ([`Answer`]), or a numbered [`Refusal`]. What it returns is proved to be that, for every input; this crate is
//! the boundary to it, with the formats of a job and of an answer, and is tested.
//!
//! ```
//! # #[cfg(feature = "library")] {
//! use hanthuvelo::Job;
//!
//! // Three readings of a constant modulo 7, of which one may be wrong.
//! let job: Job = "prime 7 outputs 1 df 0 dg 0 errors 1
//!     0: 5
//!     1: 5
//!     2: 2"
//!     .parse()
//!     .expect("a readable job");
//! let answer = job.recover().expect("an answer");
//! assert_eq!(answer.fraction(0), "5");
//! assert_eq!(answer.wrong_rows(), [2]);
//!
//! // With the readings 5, 4, 2 no constant is wrong at one row only.
//! let job: Job = "prime 7 outputs 1 df 0 dg 0 errors 1\n0: 5\n1: 4\n2: 2".parse().expect("a readable job");
//! let refusal = job.recover().expect_err("no answer");
//! assert_eq!((refusal.number, refusal.row), (8, 0));
//! assert_eq!(refusal.to_string(), "refused 8: no reduced answer within df 0 and dg 0 has at most 1 wrong row");
//! # }
//! ```
//!
//! Each f can have a bound of its own, [`NumeratorBounds::Each`]; an answer has as many coefficients of it as that asks for.
//!
//! ```
//! # #[cfg(feature = "library")] {
//! use hanthuvelo::Job;
//!
//! // 1 / (1 + u) and u / (1 + u) modulo 7.
//! let job: Job = "prime 7 outputs 2 df 0 1 dg 1 errors 0\n0: 1 0\n1: 4 4\n2: 5 3".parse().expect("a readable job");
//! let answer = job.recover().expect("an answer");
//! assert_eq!(answer.numerators, [vec![1], vec![0, 1]]);
//! # }
//! ```
//!
//! A row can report a pole, [`Row::pole`], and is right then exactly if g is 0 at its point; or it can be silent,
//! [`Row::silent`], and is neither right nor wrong.
//!
//! ```
//! # #[cfg(feature = "library")] {
//! use hanthuvelo::Job;
//!
//! // 1 / u modulo 7, which has a pole at 0. Row 3 is silent.
//! let job: Job = "prime 7 outputs 1 df 0 dg 1 errors 0\n0: pole\n1: 1\n2: 4\n3: silent".parse().expect("a readable job");
//! let answer = job.recover().expect("an answer");
//! assert_eq!(answer.fraction(0), "1 / u");
//! assert!(answer.wrong_rows().is_empty());
//! # }
//! ```
//!
//! [`Job::margin`] says how sure an answer is: every other one within the bounds leaves at least that many rows more wrong.
//!
//! [`Job::check`] says whether a job meets one of the refusals 1, 11, 3 to 5, 12 and 6, those of its form, without
//! recovering it.
//!
//! A [`Trial`] is the way back: a job whose result is known, written from fractions, with rows spoiled on purpose.
//!
//! [`Job::judge`] says yes or no to the bytes that another solver offers as a job's answer, without recovering the job. Why
//! it is a no is said by [`objection`](fn@objection).
//!
//! [`Prime::reciprocal`] is the reciprocal of a number modulo a prime, and `None` for zero, which has none: so a curve 1/g
//! has no value at a pole.
//!
//! [`recover`], [`margin`], [`check`], [`judge`], [`trial`](fn@trial) and [`reciprocal`] are the calls themselves, on any
//! bytes, areas and numbers, as the C header declares them.

#![deny(unsafe_code)]
#![warn(missing_docs)]

mod answer;
mod bounds;
#[cfg(feature = "library")]
mod call;
mod field;
mod format;
mod header;
pub mod hex;
mod job;
mod objection;
mod prime;
pub mod readable;
mod refusal;
mod row;
mod trial;

pub use answer::{polynomial_text, trimmed, Answer};
pub use bounds::{Bounds, NumeratorBounds};
#[cfg(feature = "library")]
pub use call::{check, judge, margin, reciprocal, recover, trial};
pub use format::FormatError;
pub use header::{BrokenRule, Header};
pub use job::Job;
pub use objection::{objection, Fault, Objection};
pub use prime::Prime;
pub use refusal::Refusal;
pub use row::{Reading, Row};
pub use trial::Trial;

/// The most bytes that a job can have: the longer header, 31 rows, four outputs.
pub const LONGEST_JOB: usize = 317;
/// The most bytes that an answer can have; an area of this length is never refused as too short.
pub const LONGEST_ANSWER: usize = 254;

/// What a call of the recovery returns.
///
/// A recovered job has `refusal` 0 and `row` 0; a refused one has `written` 0 and `wrong` 0.
#[repr(C)]
#[derive(Clone, Copy, Debug, PartialEq, Eq)]
pub struct Report {
    /// The refusal's number, 1, 11, 12 or 3 to 8; 0 where the job is recovered.
    pub refusal: u32,
    /// The row that refusal 5 or 6 speaks of, counted from 0; else 0.
    pub row: u32,
    /// The number of bytes written to the area.
    pub written: u32,
    /// The number of wrong rows.
    pub wrong: u32,
}

impl Report {
    /// The report of a job that is refused with this number, speaking of this row.
    pub const fn refused(number: u32, row: u32) -> Report {
        Report {
            refusal: number,
            row,
            written: 0,
            wrong: 0,
        }
    }

    /// The report of a job that is recovered: so many bytes, so many wrong rows.
    pub const fn recovered(written: u32, wrong: u32) -> Report {
        Report {
            refusal: 0,
            row: 0,
            written,
            wrong,
        }
    }

    /// Whether the area begins with an answer.
    pub fn is_recovered(&self) -> bool {
        self.refusal == 0
    }
}

/// What a call that writes a trial job returns.
///
/// A job that is written has `refusal` 0; a refused call has `written` 0. `row` is 0 always.
#[repr(C)]
#[derive(Clone, Copy, Debug, PartialEq, Eq)]
pub struct Written {
    /// The refusal's number, 1, 11, 3, 4, 9, 5, 10 or 7; 0 where the job is written.
    pub refusal: u32,
    /// 0: no refusal of a trial names a row.
    pub row: u32,
    /// The number of bytes written to the area.
    pub written: u32,
}

impl Written {
    /// What a call returns that is refused with this number.
    pub const fn refused(number: u32) -> Written {
        Written {
            refusal: number,
            row: 0,
            written: 0,
        }
    }

    /// What a call returns that writes a job of so many bytes.
    pub const fn bytes(written: u32) -> Written {
        Written {
            refusal: 0,
            row: 0,
            written,
        }
    }

    /// Whether the area begins with a job.
    pub fn is_written(&self) -> bool {
        self.refusal == 0
    }
}

/// What a call that judges an offered answer returns.
///
/// A refused call has `yes` 0; a judgement has `refusal` 0 and `row` 0.
#[repr(C)]
#[derive(Clone, Copy, Debug, PartialEq, Eq)]
pub struct Judgement {
    /// The refusal's number, 1, 11, 12 or 3 to 6; 0 where the answer is judged.
    pub refusal: u32,
    /// The row of the job that refusal 5 or 6 speaks of, counted from 0; else 0.
    pub row: u32,
    /// 1 if the offered answer is the job's; else 0.
    pub yes: u32,
}

impl Judgement {
    /// What a call returns that is refused with this number, speaking of this row.
    pub const fn refused(number: u32, row: u32) -> Judgement {
        Judgement {
            refusal: number,
            row,
            yes: 0,
        }
    }

    /// What a call returns that judges the offered answer.
    pub const fn judged(is_the_answer: bool) -> Judgement {
        Judgement {
            refusal: 0,
            row: 0,
            yes: is_the_answer as u32,
        }
    }

    /// Whether the offered answer is judged, and the call not refused.
    pub fn is_judged(&self) -> bool {
        self.refusal == 0
    }

    /// Whether the offered answer is the job's.
    pub fn is_yes(&self) -> bool {
        self.yes == 1
    }
}

/// What a call that checks a job's form returns.
///
/// An accepted job has `refusal` 0 and `row` 0. Whether it has an answer is not said by that.
#[repr(C)]
#[derive(Clone, Copy, Debug, PartialEq, Eq)]
pub struct Form {
    /// The refusal's number, 1, 11, 12 or 3 to 6; 0 where none of these tests refuses the job.
    pub refusal: u32,
    /// The row that refusal 5 or 6 speaks of, counted from 0; else 0.
    pub row: u32,
}

impl Form {
    /// What a call returns for a job that none of the tests 1, 11, 3 to 5, 12 and 6 refuses.
    pub const ACCEPTED: Form = Form { refusal: 0, row: 0 };

    /// What a call returns for a job that is refused with this number, speaking of this row.
    pub const fn refused(number: u32, row: u32) -> Form {
        Form {
            refusal: number,
            row,
        }
    }

    /// Whether none of the tests 1, 11, 3 to 5, 12 and 6 refuses the job.
    pub fn is_accepted(&self) -> bool {
        self.refusal == 0
    }
}
