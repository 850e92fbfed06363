//! Jobs from files, readable or binary, the bytes of answers, and readable trials.

use crate::arguments::Arguments;
use crate::output::Failure;
use hanthuvelo::readable::{self, TextError};
use hanthuvelo::{hex, FormatError, Job, Trial};
use std::ffi::OsStr;
use std::fmt::{Display, Formatter};
use std::fs::File;
use std::io::{self, ErrorKind, Read};
use std::os::fd::AsFd;

/// A job has 317 bytes at most, a readable one some lines: what is far longer is something else.
const MOST_BYTES: u64 = 1 << 20;

/// How a file's bytes are taken.
#[derive(Clone, Copy, PartialEq, Eq)]
pub enum Form {
    ByItsBytes,
    Readable,
    Binary,
}

impl Form {
    pub fn from(arguments: &Arguments) -> Result<Form, Failure> {
        arguments.exclude("--readable", "--binary")?;
        if arguments.has("--readable") {
            Ok(Form::Readable)
        } else if arguments.has("--binary") {
            Ok(Form::Binary)
        } else {
            Ok(Form::ByItsBytes)
        }
    }
}

/// What is wrong with an input, and where.
pub struct InputError {
    pub file: String,
    /// Counted from 1; none in a file that has no lines.
    pub line: Option<usize>,
    /// The job of a stream that breaks off, and the byte where it begins.
    pub in_stream: Option<(u64, u64)>,
    pub message: String,
}

impl Display for InputError {
    fn fmt(&self, formatter: &mut Formatter<'_>) -> std::fmt::Result {
        formatter.write_str(&self.file)?;
        if let Some(line) = self.line {
            write!(formatter, ", line {line}")?;
        }
        write!(formatter, ": {}", self.message)
    }
}

impl From<InputError> for Failure {
    fn from(error: InputError) -> Failure {
        Failure::Input(error.to_string())
    }
}

pub fn name_of(file: &OsStr) -> String {
    if file == "-" {
        return "standard input".to_string();
    }
    file.to_string_lossy().into_owned()
}

/// An error of a whole file.
pub fn error_of(file: &OsStr, message: impl Into<String>) -> InputError {
    InputError {
        file: name_of(file),
        line: None,
        in_stream: None,
        message: message.into(),
    }
}

/// An error in a line of a file.
pub fn error_in(file: &OsStr, error: TextError) -> InputError {
    InputError {
        line: Some(error.line),
        ..error_of(file, error.message)
    }
}

/// What the system says of a file that should be there and be read.
pub fn unreadable(file: &OsStr, expected: &str, error: &io::Error) -> InputError {
    let found = match error.kind() {
        ErrorKind::IsADirectory => "found a directory".to_string(),
        _ => error.to_string(),
    };
    error_of(file, format!("expected {expected}: {found}"))
}

/// The file, or standard input, without a buffer.
pub fn open(file: &OsStr) -> io::Result<File> {
    if file == "-" {
        return io::stdin().as_fd().try_clone_to_owned().map(File::from);
    }
    File::open(file)
}

/// All bytes of a file that is to be `expected`.
pub fn read(file: &OsStr, expected: &str) -> Result<Vec<u8>, InputError> {
    let mut bytes = Vec::new();
    let opened = open(file);
    let all = opened.and_then(|opened| opened.take(MOST_BYTES + 1).read_to_end(&mut bytes));
    match all {
        Err(error) => Err(unreadable(file, expected, &error)),
        Ok(_) if bytes.len() as u64 > MOST_BYTES => Err(error_of(
            file,
            format!("expected {expected}, found more than {MOST_BYTES} bytes"),
        )),
        Ok(_) => Ok(bytes),
    }
}

/// A file's bytes, and the job in them where they are readable.
enum Content {
    Readable(Job),
    Binary(Vec<u8>),
}

fn content(file: &OsStr, form: Form) -> Result<Content, InputError> {
    let bytes = read(file, "a job")?;
    let is_readable = match form {
        Form::ByItsBytes => readable::is_readable(&bytes),
        _ => form == Form::Readable,
    };
    if !is_readable {
        return Ok(Content::Binary(bytes));
    }
    let job = readable::parse(&bytes).map_err(|error| error_in(file, error))?;
    Ok(Content::Readable(job))
}

/// The bytes to be recovered: a binary job's as they are, whatever they are.
pub fn job_bytes(file: &OsStr, form: Form) -> Result<Vec<u8>, InputError> {
    Ok(match content(file, form)? {
        Content::Readable(job) => job.pack(),
        Content::Binary(bytes) => bytes,
    })
}

/// The job in a file.
pub fn job(file: &OsStr, form: Form) -> Result<Job, InputError> {
    match content(file, form)? {
        Content::Readable(job) => Ok(job),
        Content::Binary(bytes) => {
            let wrong = |error: FormatError| error_of(file, error.to_string());
            Job::unpack(&bytes).map_err(wrong)
        }
    }
}

/// The bytes that a file has for an answer, or lists as hexadecimal text.
pub fn answer_bytes(file: &OsStr, is_hex: bool) -> Result<Vec<u8>, InputError> {
    let bytes = read(file, "an answer")?;
    if !is_hex {
        return Ok(bytes);
    }
    let text = String::from_utf8_lossy(&bytes);
    hex::bytes(&text).map_err(|error| error_in(file, error))
}

/// The trial in a file, which is readable.
pub fn trial(file: &OsStr) -> Result<Trial, InputError> {
    let bytes = read(file, "a trial")?;
    readable::parse_trial(&bytes).map_err(|error| error_in(file, error))
}
