//! A refusal in words.

use crate::format::{counted, numbers};
use crate::objection::{of_denominator, of_length};
use crate::{Bounds, Form, Header, Job, Judgement, Reading, Report, Row, Written};
use std::error::Error;
use std::fmt::{Display, Formatter};

/// Why a job is refused, a trial job not written, or an offered answer not judged. Shown as
/// `refused 5, row 2: a point or a value is 7 or more`.
#[derive(Clone, Debug, PartialEq, Eq)]
pub struct Refusal {
    /// The number: 1, 11, 12 or 3 to 8 of a job; 1, 11, 3, 4, 9, 5, 10 or 7 of a trial; 1, 11, 12 or 3 to 6 of a judgement or
    /// a check.
    pub number: u32,
    /// The row that refusal 5 or 6 of a job speaks of, counted from 0; else 0.
    pub row: u32,
    /// What the number means for this job, trial or offered answer.
    pub reason: String,
    names_a_row: bool,
}

impl Refusal {
    /// The refusal that a call of [`recover`](crate::recover) on these bytes reported, if it did.
    pub fn of(report: Report, job: &[u8]) -> Option<Refusal> {
        if report.is_recovered() {
            return None;
        }
        let Report { refusal, row, .. } = report;
        Some(Refusal {
            number: refusal,
            row,
            reason: match Header::read(job) {
                Some(header) => reason(refusal, row as usize, header, job),
                None => reason_without_header(refusal, job),
            },
            names_a_row: matches!(refusal, 5 | 6),
        })
    }

    /// The refusal that a call of [`check`](crate::check) on these bytes reported, if it did. The words are those of
    /// [`Refusal::of`], since a recovery of the job reports the same.
    pub fn of_check(form: Form, job: &[u8]) -> Option<Refusal> {
        if form.is_accepted() {
            return None;
        }
        let Form { refusal, row } = form;
        Refusal::of(Report::refused(refusal, row), job)
    }

    /// The refusal that a call of [`trial`](crate::trial) with these bytes and so many rows to be spoiled reported, if it did.
    pub fn of_trial(
        written: Written,
        header: &[u8],
        coefficients: &[u8],
        spoiled: u32,
    ) -> Option<Refusal> {
        if written.is_written() {
            return None;
        }
        let Written { refusal, row, .. } = written;
        Some(Refusal {
            number: refusal,
            row,
            reason: match Header::read(header) {
                Some(read) if refusal == 3 => byte_counts(read.bounds, header, coefficients),
                Some(read) => trial_reason(refusal, read, coefficients, spoiled),
                None => reason_without_header(refusal, header),
            },
            names_a_row: false,
        })
    }

    /// The refusal that a call of [`judge`](crate::judge) on these bytes reported, if it did: what the job is refused for,
    /// and 3 also where the offered answer has not the number of bytes that the job's has.
    pub fn of_judgement(judgement: Judgement, job: &[u8], offered: &[u8]) -> Option<Refusal> {
        if judgement.is_judged() {
            return None;
        }
        let Judgement { refusal, row, .. } = judgement;
        let mut found = Refusal::of(Report::refused(refusal, row), job)?;
        let header = Header::read(job).filter(|header| header.job_length() == job.len());
        let of_offered = header.and_then(|header| of_length(&header.bounds, offered));
        if let (3, Some(objection)) = (refusal, of_offered) {
            found.reason = objection.to_string();
        }
        Some(found)
    }

    /// Whether the refusal speaks of one row.
    pub fn names_a_row(&self) -> bool {
        self.names_a_row
    }
}

impl Display for Refusal {
    fn fmt(&self, formatter: &mut Formatter<'_>) -> std::fmt::Result {
        write!(formatter, "refused {}", self.number)?;
        if self.names_a_row() {
            write!(formatter, ", row {}", self.row)?;
        }
        write!(formatter, ": {}", self.reason)
    }
}

impl Error for Refusal {}

fn reason(number: u32, row: usize, header: Header, job: &[u8]) -> String {
    let bounds = header.bounds;
    match number {
        3 => {
            let (needed, found) = (header.job_length(), job.len());
            format!("the header asks for {needed} bytes, the job has {found}")
        }
        5 => format!("a point or a value is {} or more", bounds.prime.value()),
        6 => {
            let rows = numbers(&job[header.length()..]);
            let point = rows.get(row * (1 + bounds.outputs)).copied();
            let point = point.unwrap_or(0);
            format!("its point {point} stands in an earlier row")
        }
        12 => {
            let (needed, job) = (bounds.needed_rows(), Job::read(job, header));
            let speaks = |row: &&Row| row.reading != Reading::Silent;
            let speaking = job.rows().iter().filter(speaks).count();
            format!("df + dg + 2 E + 1 is {needed}, the number of rows that speak is {speaking}")
        }
        7 => format!("the answer needs {} bytes", bounds.answer_length()),
        8 => {
            let (df, dg) = (bounds.df_text(), bounds.dg);
            let rows = counted(bounds.errors, "wrong row");
            format!("no reduced answer within df {df} and dg {dg} has at most {rows}")
        }
        _ => header_reason(number, header),
    }
}

fn trial_reason(number: u32, header: Header, coefficients: &[u8], spoiled: u32) -> String {
    let prime = header.bounds.prime.value();
    let rows = counted(header.rows, "row");
    match number {
        5 => format!("a coefficient is {prime} or more"),
        7 => format!("the job needs {} bytes", header.job_length()),
        9 if header.rows > prime as usize => {
            format!("there are {prime} points, the job has {rows}")
        }
        9 => format!("{spoiled} rows are to be spoiled, the job has {rows}"),
        10 => not_reduced(&numbers(coefficients), header.bounds),
        _ => header_reason(number, header),
    }
}

/// What a job's header and a trial's are refused for alike.
fn header_reason(number: u32, header: Header) -> String {
    match number {
        4 => {
            let (needed, found) = (header.bounds.needed_rows(), counted(header.rows, "row"));
            format!("df + dg + 2 E + 1 is {needed}, the job has {found}")
        }
        11 => match header.broken_rule() {
            Some(broken) => broken.to_string(),
            None => "the added header breaks a rule".to_string(),
        },
        _ => known_reason(number),
    }
}

/// What bytes are refused for that are too few for a header.
fn reason_without_header(number: u32, bytes: &[u8]) -> String {
    match number {
        1 => {
            let (needed, why) = (Header::length_at(bytes), Header::why_longer(bytes));
            let found = bytes.len();
            format!("expected {needed} bytes or more{why}, found {found}")
        }
        _ => known_reason(number),
    }
}

/// What is known of a number alone. No job meets 2, as its header is longer then.
fn known_reason(number: u32) -> String {
    match number {
        2 => "the header's last bit is 1".to_string(),
        _ => "a number that this version does not know".to_string(),
    }
}

fn byte_counts(bounds: Bounds, header: &[u8], coefficients: &[u8]) -> String {
    let (needed, found) = (bounds.header_length(), header.len());
    if found > needed {
        let why = Header::why_longer(header);
        return format!("expected a header of {needed} bytes{why}, found {found}");
    }
    let (needed, found) = (bounds.coefficients_length(), coefficients.len());
    format!("the header asks for coefficients of {needed} bytes, they have {found}")
}

/// The first cause that applies, g standing before every f.
fn not_reduced(coefficients: &[u16], bounds: Bounds) -> String {
    let denominator = coefficients.get(..=bounds.dg).unwrap_or_default();
    match of_denominator(denominator) {
        Some(objection) => objection.to_string(),
        None => "a polynomial of positive degree divides g and every f".to_string(),
    }
}
