//! Jobs and trials for people to read.
//!
//! A job has a line for the prime and the bounds, and a line for each row:
//!
//! ```text
//! # everything behind a number sign is a remark
//! prime 7 outputs 2 df 1 dg 1 errors 0
//! 0: 1 0
//! 1: 4 4
//! 2: 5 3
//! ```
//!
//! Here `df` bounds the degree of every f, and the job's bytes begin with the short header, of 3 bytes. With a number for
//! each output, as in `outputs 3 df 4 1 2`, each f has a bound of its own, and the bytes begin with the longer header, of 7.
//! Where there is one output, `df 4 long` is that bound with the longer header.
//!
//! A row that reports a pole has the word `pole` in place of its values, and a silent one `silent`:
//!
//! ```text
//! prime 7 outputs 2 df 0 dg 1 errors 0
//! 3: 3 5
//! 4: pole
//! ```
//!
//! Such a row gives the job the longer header, with the flag for marks. Where no row is marked, the word `marks` behind the
//! bounds, as in `df 0 marks` or `df 4 1 2 marks`, asks for that header.
//!
//! A trial has the same first line, then one for the number of rows and for what is spoiled, and a line for each polynomial:
//!
//! ```text
//! prime 7 outputs 2 df 0 dg 1 errors 2
//! rows 7 start 14 spoiled 2
//! g = 1 + u
//! f1 = 5
//! f2 = 1
//! ```
//!
//! A [`Job`] and a [`Trial`](crate::Trial) are read by `parse` and written by `to_string`.

mod first_line;
mod trial;

use crate::{FormatError, Job, Reading, Row};
use first_line::{header_text, parse_header, Said, HEADER};
use std::error::Error;
use std::fmt::{Display, Formatter};
use std::str::FromStr;
pub use trial::parse_trial;

/// What is wrong with a readable job or trial, and in which line, counted from 1.
#[derive(Clone, Debug, PartialEq, Eq)]
pub struct TextError {
    /// The line, counted from 1.
    pub line: usize,
    /// What was expected there, and what was found.
    pub message: String,
}

impl Display for TextError {
    fn fmt(&self, formatter: &mut Formatter<'_>) -> std::fmt::Result {
        write!(formatter, "line {}: {}", self.line, self.message)
    }
}

impl Error for TextError {}

/// Whether bytes are meant as a readable job: they begin with a character of ASCII and have no control character but blanks.
///
/// The bytes of a job that the library does not refuse as malformed never do. Their first one has the prime's code on
/// top: 257 and 65521 give one beyond ASCII; modulo 7 and 97 every point of a row has the high byte 0.
pub fn is_readable(bytes: &[u8]) -> bool {
    let is_text = |byte: &u8| !byte.is_ascii_control() || b"\t\n\r".contains(byte);
    bytes.first().is_some_and(u8::is_ascii) && bytes.iter().all(is_text)
}

/// The job that a file's bytes describe.
pub fn parse(bytes: &[u8]) -> Result<Job, TextError> {
    parse_bytes(bytes)
}

fn parse_bytes<T: FromStr<Err = TextError>>(bytes: &[u8]) -> Result<T, TextError> {
    match std::str::from_utf8(bytes) {
        Ok(text) => text.parse(),
        Err(error) => {
            let before = &bytes[..error.valid_up_to()];
            let line = 1 + before.iter().filter(|&&byte| byte == b'\n').count();
            let message = "expected text in UTF-8".to_string();
            Err(TextError { line, message })
        }
    }
}

impl FromStr for Job {
    type Err = TextError;

    fn from_str(text: &str) -> Result<Job, TextError> {
        let mut lines = Lines::new(text);
        let (bounds, allows_marks) = lines.take(HEADER, parse_header)?;
        let mut job = Job::new(bounds).map_err(|error| lines.error(error))?;
        if allows_marks {
            job.allow_marks();
        }
        while let Some(content) = lines.next() {
            parse_row(content, &mut job).map_err(|error| lines.error(error))?;
        }
        Ok(job)
    }
}

/// The lines that say something, remarks left out.
struct Lines<'a> {
    rest: std::iter::Enumerate<std::str::Lines<'a>>,
    /// The number of the line that was read last.
    line: usize,
}

impl<'a> Lines<'a> {
    fn new(text: &'a str) -> Lines<'a> {
        let rest = text.lines().enumerate();
        Lines { rest, line: 0 }
    }

    fn next(&mut self) -> Option<&'a str> {
        for (index, line) in self.rest.by_ref() {
            self.line = index + 1;
            let content = line.split('#').next().unwrap_or("").trim();
            if !content.is_empty() {
                return Some(content);
            }
        }
        self.line += 1;
        None
    }

    /// What the next line says, which must be there and have a form.
    fn take<T>(
        &mut self,
        form: &str,
        parse: impl FnOnce(&str) -> Result<T, FormatError>,
    ) -> Result<T, TextError> {
        let parsed = match self.next() {
            Some(content) => parse(content),
            None => Err(FormatError(format!("expected `{form}`"))),
        };
        parsed.map_err(|error| self.error(error))
    }

    /// An error in the line that was read last.
    fn error(&self, FormatError(message): FormatError) -> TextError {
        let line = self.line;
        TextError { line, message }
    }
}

/// The words behind each label of a line that has this form, as `df D.. dg D`: one, or some where the form has `..`.
fn labelled<'a>(content: &'a str, form: &'a str) -> Result<Vec<Vec<&'a str>>, FormatError> {
    let words: Vec<&str> = content.split_whitespace().collect();
    let form_words: Vec<&str> = form.split_whitespace().collect();
    groups(&words, &form_words).ok_or_else(|| {
        let found = excerpt(content);
        FormatError(format!("expected `{form}`, found {found}"))
    })
}

fn groups<'a>(words: &[&'a str], form: &[&'a str]) -> Option<Vec<Vec<&'a str>>> {
    let further = words.len().checked_sub(form.len())?;
    let (mut rest, mut groups) = (words, Vec::new());
    for pair in form.chunks_exact(2) {
        let (label, placeholder) = (pair[0], pair[1]);
        let count = match placeholder.ends_with("..") {
            true => 1 + further,
            false => 1,
        };
        let (group, behind) = rest.strip_prefix(&[label])?.split_at_checked(count)?;
        groups.push(group.to_vec());
        rest = behind;
    }
    rest.is_empty().then_some(groups)
}

/// The words in place of the values of a row that reports a pole, and of a silent one.
const POLE: &str = "pole";
const SILENT: &str = "silent";

fn parse_row(content: &str, job: &mut Job) -> Result<(), FormatError> {
    let Some((point, values)) = content.split_once(':') else {
        let found = excerpt(content);
        return Err(FormatError(format!(
            "expected `point: values`, found {found}"
        )));
    };
    let point = number(point.trim(), "point")?;
    let reading = match values.trim() {
        POLE => Reading::Pole,
        SILENT => Reading::Silent,
        words => {
            let words = words.split_whitespace();
            let values: Result<_, _> = words.map(|word| number(word, "value")).collect();
            Reading::Values(values?)
        }
    };
    job.push(Row { point, reading })
}

/// A decimal number. Numbers of p or more are let through, so that a refused job can be written.
fn number(word: &str, what: &str) -> Result<u16, FormatError> {
    number_up_to(u16::MAX.into(), word, what).map(|number| number as u16)
}

fn number_up_to(most: u32, word: &str, what: &str) -> Result<u32, FormatError> {
    let is_number = !word.is_empty() && word.bytes().all(|byte| byte.is_ascii_digit());
    let parsed = word.parse().ok();
    parsed
        .filter(|&number| is_number && number <= most)
        .ok_or_else(|| {
            let found = excerpt(word);
            FormatError(format!(
                "expected {what} as a number from 0 to {most}, found {found}"
            ))
        })
}

/// What was found, in quotes; a long text is cut, and characters that would spoil a terminal are escaped.
fn excerpt(found: &str) -> String {
    const LONGEST: usize = 60;
    let shown: String = found.chars().take(LONGEST).collect();
    let rest = if shown.len() < found.len() { ".." } else { "" };
    format!("`{}{rest}`", shown.escape_debug())
}

impl Display for Job {
    fn fmt(&self, formatter: &mut Formatter<'_>) -> std::fmt::Result {
        let has_mark = self.rows().iter().any(|row| row.reading.is_mark());
        let said = match self.allows_marks() {
            true if has_mark => Said::Nothing,
            true => Said::Flag,
            false => Said::Length,
        };
        writeln!(formatter, "{}", header_text(self.bounds(), said))?;
        for Row { point, reading } in self.rows() {
            let words: Vec<String> = match reading {
                Reading::Values(values) => values.iter().map(u16::to_string).collect(),
                Reading::Pole => vec![POLE.to_string()],
                Reading::Silent => vec![SILENT.to_string()],
            };
            writeln!(formatter, "{point}: {}", words.join(" "))?;
        }
        Ok(())
    }
}
