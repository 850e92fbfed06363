//! Why an offered answer is not the job's, in words.

use crate::field::Field;
use crate::format::{counted, output_name};
use crate::{polynomial_text, trimmed, Answer, Bounds, Job, Reading, Row};
use std::fmt::{Display, Formatter};

/// A reason why an offered answer is not the job's. Shown as `the leading coefficient of g is 3, not 1`.
#[derive(Clone, Debug, PartialEq, Eq)]
pub enum Objection {
    /// It has not as many bytes as the job's answer. A judgement refuses it with 3.
    ByteCount {
        /// How many the job's answer has.
        needed: usize,
        /// How many the offered one has.
        found: usize,
    },
    /// A coefficient is p or more.
    LargeCoefficient {
        /// `g`, or `f1`, `f2`, ..
        polynomial: String,
        /// The power of u that it belongs to.
        power: usize,
        /// The coefficient.
        coefficient: u16,
        /// p.
        prime: u32,
    },
    /// g is zero.
    ZeroDenominator,
    /// The leading coefficient of g is this one, and not 1.
    LeadingCoefficient(u16),
    /// This polynomial of positive degree divides g and every f; it is their greatest common divisor.
    CommonDivisor(Vec<u16>),
    /// The word marks a row that does not exist.
    MarkBeyond {
        /// The row, counted from 0.
        row: usize,
        /// How many rows there are.
        rows: usize,
    },
    /// The word marks a row that is right.
    RightMarked {
        /// The row, counted from 0.
        row: usize,
        /// Its point.
        point: u16,
    },
    /// The word marks a row that is silent, and neither right nor wrong.
    SilentMarked {
        /// The row, counted from 0.
        row: usize,
        /// Its point.
        point: u16,
    },
    /// A row is wrong, and the word does not mark it.
    WrongUnmarked {
        /// The row, counted from 0.
        row: usize,
        /// Its point.
        point: u16,
        /// Why it is wrong.
        fault: Fault,
    },
    /// The word marks the wrong rows, and these are more than E.
    TooManyWrong {
        /// How many rows are wrong.
        wrong: usize,
        /// E.
        errors: usize,
    },
}

/// Why a row is wrong.
#[derive(Clone, Copy, Debug, PartialEq, Eq)]
pub enum Fault {
    /// It has values, and g is 0 at its point: there some f is not 0, so that no values make a row right.
    Pole,
    /// It reports a pole, and g has this value at its point, which is not 0.
    NoPole(u16),
    /// A value is another one.
    Value {
        /// The first output of which that holds, counted from 0.
        output: usize,
        /// The row's value.
        found: u16,
        /// The value of f/g at the point.
        needed: u16,
    },
}

/// The first reason why the offered bytes are not the answer of a job that is not refused; none exactly if they are.
///
/// The reasons are looked for in this order: the number of bytes; a coefficient of p or more, in the order of the bytes;
/// g is zero; its leading coefficient is not 1; a polynomial of positive degree divides g and every f; the word marks a row
/// that does not exist; a row is right or silent and marked, or wrong and not marked; more rows are wrong than E. Of several
/// rows the first by its number is named.
///
/// This look is written beside the proved library and is tested. Whether an answer is the job's is decided by
/// [`Job::judge`], and this says why not.
///
/// ```
/// use hanthuvelo::{hex, objection, Job};
///
/// let job: Job = "prime 7 outputs 1 df 0 dg 0 errors 1\n0: 5\n1: 5\n2: 2".parse().expect("a readable job");
/// let said = |offered: &str| objection(&job, &hex::bytes(offered).expect("bytes")).map(|found| found.to_string());
///
/// // Row 2 is wrong, g is 1 and f1 is 5.
/// assert_eq!(said("20000000 0001 0005"), None);
/// // Twice both is the same fraction, and no answer.
/// assert_eq!(said("20000000 0002 0003").as_deref(), Some("the leading coefficient of g is 2, not 1"));
/// assert_eq!(said("60000000 0001 0005").as_deref(), Some("the word marks row 1, at the point 1, and it is right"));
/// ```
pub fn objection(job: &Job, offered: &[u8]) -> Option<Objection> {
    let bounds = job.bounds();
    let look = Look {
        job,
        answer: Answer::read(offered, bounds),
        field: Field::of(bounds.prime),
    };
    of_length(bounds, offered)
        .or_else(|| look.large_coefficient())
        .or_else(|| of_denominator(&look.answer.denominator))
        .or_else(|| look.common_divisor())
        .or_else(|| look.mark_beyond())
        .or_else(|| look.mark())
        .or_else(|| look.too_many_wrong())
}

/// What is wrong with the number of bytes, if anything.
pub(crate) fn of_length(bounds: &Bounds, offered: &[u8]) -> Option<Objection> {
    let (needed, found) = (bounds.answer_length(), offered.len());
    (found != needed).then_some(Objection::ByteCount { needed, found })
}

/// What is wrong with g alone, if anything.
pub(crate) fn of_denominator(denominator: &[u16]) -> Option<Objection> {
    match trimmed(denominator).last() {
        None => Some(Objection::ZeroDenominator),
        Some(1) => None,
        Some(&leading) => Some(Objection::LeadingCoefficient(leading)),
    }
}

/// A job with what is offered as its answer. Each test stands behind those before it in the order.
struct Look<'a> {
    job: &'a Job,
    answer: Answer,
    field: Field,
}

impl Look<'_> {
    fn large_coefficient(&self) -> Option<Objection> {
        let prime = self.job.bounds().prime.value();
        let (polynomial, power, coefficient) = self.answer.large_coefficient(prime)?;
        Some(Objection::LargeCoefficient {
            polynomial,
            power,
            coefficient,
            prime,
        })
    }

    fn common_divisor(&self) -> Option<Objection> {
        let start = self.answer.denominator.clone();
        let numerators = self.answer.numerators.iter();
        let divisor = numerators.fold(start, |divisor, numerator| {
            self.field.common_divisor(&divisor, numerator)
        });
        (divisor.len() > 1).then_some(Objection::CommonDivisor(divisor))
    }

    fn mark_beyond(&self) -> Option<Objection> {
        let rows = self.job.rows().len();
        let row = self.answer.mark_beyond(rows)?;
        Some(Objection::MarkBeyond { row, rows })
    }

    /// The first row that is marked and right or silent, or wrong and not marked.
    fn mark(&self) -> Option<Objection> {
        let marked = self.answer.wrong_rows();
        let objection = |(row, found): (usize, &Row)| {
            let point = found.point;
            match (self.fault(found), marked.contains(&row)) {
                (None, true) if found.reading == Reading::Silent => {
                    Some(Objection::SilentMarked { row, point })
                }
                (None, true) => Some(Objection::RightMarked { row, point }),
                (Some(fault), false) => Some(Objection::WrongUnmarked { row, point, fault }),
                _ => None,
            }
        };
        self.job.rows().iter().enumerate().find_map(objection)
    }

    /// Why a row is wrong, if it is.
    fn fault(&self, row: &Row) -> Option<Fault> {
        let value_at = |polynomial: &[u16]| self.field.value_at(polynomial, row.point);
        let below = value_at(&self.answer.denominator);
        let values = match &row.reading {
            Reading::Silent => return None,
            Reading::Pole => return (below != 0).then_some(Fault::NoPole(below)),
            Reading::Values(values) => values,
        };
        let Some(factor) = self.field.reciprocal(below) else {
            return Some(Fault::Pole);
        };
        let numerators = self.answer.numerators.iter().enumerate();
        let values = numerators.zip(values);
        let mut faults = values.filter_map(|((output, numerator), &found)| {
            let needed = self.field.product(value_at(numerator), factor);
            let fault = Fault::Value {
                output,
                found,
                needed,
            };
            (found != needed).then_some(fault)
        });
        faults.next()
    }

    /// The marks are those of the wrong rows.
    fn too_many_wrong(&self) -> Option<Objection> {
        let (wrong, errors) = (self.answer.wrong_rows().len(), self.job.bounds().errors);
        (wrong > errors).then_some(Objection::TooManyWrong { wrong, errors })
    }
}

impl Display for Objection {
    fn fmt(&self, formatter: &mut Formatter<'_>) -> std::fmt::Result {
        formatter.write_str(&match self {
            Objection::ByteCount { needed, found } => {
                format!("the job's answer has {needed} bytes, the offered one has {found}")
            }
            Objection::LargeCoefficient {
                polynomial,
                power,
                coefficient,
                prime,
            } => {
                let place = place_text(polynomial, *power);
                format!("{place} is {coefficient}, not below {prime}")
            }
            Objection::ZeroDenominator => "g is zero".to_string(),
            Objection::LeadingCoefficient(leading) => {
                format!("the leading coefficient of g is {leading}, not 1")
            }
            Objection::CommonDivisor(divisor) => {
                format!("{} divides g and every f", polynomial_text(divisor))
            }
            Objection::MarkBeyond { row, rows } => {
                let rows = counted(*rows, "row");
                format!("the word marks row {row}, the job has {rows}")
            }
            Objection::RightMarked { row, point } => marked_text(*row, *point, "right"),
            Objection::SilentMarked { row, point } => marked_text(*row, *point, "silent"),
            Objection::WrongUnmarked { row, point, fault } => {
                let place = format!("row {row}, at the point {point}");
                format!("the word does not mark {place}, and it is wrong: {fault}")
            }
            Objection::TooManyWrong { wrong, errors } => {
                format!("the number of wrong rows is {wrong}, and E is {errors}")
            }
        })
    }
}

/// That a row is marked, and what it is instead of wrong.
fn marked_text(row: usize, point: u16, what: &str) -> String {
    format!("the word marks row {row}, at the point {point}, and it is {what}")
}

/// Which coefficient of which polynomial it is.
fn place_text(polynomial: &str, power: usize) -> String {
    match power {
        0 => format!("the constant term of {polynomial}"),
        1 => format!("the coefficient of u in {polynomial}"),
        _ => format!("the coefficient of u^{power} in {polynomial}"),
    }
}

impl Display for Fault {
    fn fmt(&self, formatter: &mut Formatter<'_>) -> std::fmt::Result {
        match *self {
            Fault::Pole => {
                formatter.write_str("g is 0 there, and a row with values at a root of g is wrong")
            }
            Fault::NoPole(value) => {
                write!(formatter, "it reports a pole, and g is {value} there")
            }
            Fault::Value {
                output,
                found,
                needed,
            } => {
                let name = output_name(output);
                write!(formatter, "{name}/g is {needed} there, the row has {found}")
            }
        }
    }
}
