//! Binary streams of jobs, back to back; each job's length follows from its header.

use crate::input::{error_of, name_of, open, unreadable, InputError};
use hanthuvelo::{Header, LONGEST_JOB};
use std::collections::VecDeque;
use std::ffi::OsString;
use std::fs::File;
use std::io::{ErrorKind, Read};

/// How many bytes are read at once, some two hundred of the longest jobs.
const PART: usize = 1 << 16;

/// Whole jobs from one place of a stream.
pub struct Part {
    pub file: String,
    /// The number of the first of these jobs in its stream, counted from 0.
    pub job: u64,
    /// The byte where it begins, counted from 0.
    pub byte: u64,
    pub bytes: Vec<u8>,
}

/// The length of the job that `bytes` begin with, if its header is there.
pub fn job_length(bytes: &[u8]) -> Option<usize> {
    Header::read(bytes).map(|header| header.job_length())
}

/// How many of these bytes are whole jobs, and how many jobs they are.
fn whole_jobs(bytes: &[u8]) -> (usize, u64) {
    let (mut end, mut jobs) = (0, 0);
    while let Some(length) = job_length(&bytes[end..]) {
        if end + length > bytes.len() {
            break;
        }
        end += length;
        jobs += 1;
    }
    (end, jobs)
}

/// A stream that is being read.
struct Open {
    file: OsString,
    reader: File,
    /// Bytes that were read and belong to a job that is not whole yet.
    rest: Vec<u8>,
    job: u64,
    byte: u64,
}

impl Open {
    /// The next whole jobs, none at the end.
    fn next(&mut self) -> Result<Option<Part>, InputError> {
        loop {
            let mut bytes = std::mem::take(&mut self.rest);
            let known = bytes.len();
            bytes.resize(PART.max(known + LONGEST_JOB), 0);
            let count = match self.reader.read(&mut bytes[known..]) {
                Err(error) if error.kind() == ErrorKind::Interrupted => 0,
                Err(error) => return Err(unreadable(&self.file, "a stream of jobs", &error)),
                Ok(0) => return self.end(&bytes[..known]),
                Ok(count) => count,
            };
            bytes.truncate(known + count);
            let (end, jobs) = whole_jobs(&bytes);
            self.rest = bytes.split_off(end);
            if jobs > 0 {
                let part = Part {
                    file: name_of(&self.file),
                    job: self.job,
                    byte: self.byte,
                    bytes,
                };
                self.job += jobs;
                self.byte += end as u64;
                return Ok(Some(part));
            }
        }
    }

    /// What the stream's end means, with these bytes left.
    fn end(&self, rest: &[u8]) -> Result<Option<Part>, InputError> {
        let (job, byte, found) = (self.job, self.byte, rest.len());
        if rest.is_empty() && job > 0 {
            return Ok(None);
        }
        if rest.is_empty() {
            let message = "expected jobs, found an empty stream";
            return Err(error_of(&self.file, message));
        }
        let needed = match job_length(rest) {
            Some(length) => length.to_string(),
            None => format!("at least {}", Header::length_at(rest)),
        };
        let place = format!("inside job {job}, which begins at byte {byte}");
        let message =
            format!("the stream breaks off {place}: expected {needed} bytes, found {found}");
        Err(InputError {
            in_stream: Some((job, byte)),
            ..error_of(&self.file, message)
        })
    }
}

/// Several streams, one after the other.
pub struct Streams {
    files: VecDeque<OsString>,
    open: Option<Open>,
}

impl Streams {
    pub fn new(files: &[OsString]) -> Streams {
        Streams {
            files: files.iter().cloned().collect(),
            open: None,
        }
    }

    /// The next whole jobs, or what is wrong with a stream, which ends it.
    pub fn next(&mut self) -> Option<Result<Part, InputError>> {
        loop {
            let Some(stream) = &mut self.open else {
                let file = self.files.pop_front()?;
                match open(&file) {
                    Err(error) => return Some(Err(unreadable(&file, "a stream of jobs", &error))),
                    Ok(reader) => {
                        self.open = Some(Open {
                            file,
                            reader,
                            rest: Vec::new(),
                            job: 0,
                            byte: 0,
                        });
                    }
                }
                continue;
            };
            let next = stream.next().transpose();
            if !matches!(next, Some(Ok(_))) {
                self.open = None;
            }
            if next.is_some() {
                return next;
            }
        }
    }
}
