//! `hanthuvelo recover`: the library on one job or on many.

use crate::arguments::{Arguments, Known};
use crate::many::{files_help, options_help};
use crate::output::Failure;
use crate::render::{Place, Recovered};
use crate::results::{Results, Target, Work};
use crate::{many, Status};
use hanthuvelo::{hex, Refusal, LONGEST_ANSWER};
use std::ffi::OsString;

pub const HELP: &str = concat!(
    "\
usage: hanthuvelo recover [OPTION].. FILE..

Prints for each job the outputs as fractions and the wrong rows with their points, or the refusal in words. Rows that
report a pole and silent rows are listed too, where there are any. The margin says how sure an answer is: every other one
within the bounds leaves at least that many rows more wrong.
",
    files_help!(),
    "
  --json         one object of JSON a line, for programs
  --bytes        the recovered bytes alone, back to back; refusals go to standard error
  --hex          with --bytes: hexadecimal text, a line for each job
",
    options_help!(),
    "
Exit status: 0 all jobs are recovered; 1 a job was refused; 2 bad use, or an input that cannot be read.
"
);

const OWN: [Known; 2] = [Known::Flag("--bytes"), Known::Flag("--hex")];

pub fn run(words: &[OsString]) -> Result<Status, Failure> {
    let arguments = many::arguments(words, &OWN)?;
    arguments.exclude("--json", "--bytes")?;
    arguments.exclude("--stream", "--readable")?;
    arguments.need_beside("--hex", "--bytes")?;
    many::run(&arguments, &Format::from(&arguments))
}

/// What is wanted of the recovered jobs.
#[derive(Clone, Copy)]
enum Format {
    Text,
    Json,
    Bytes,
    Hex,
}

impl Format {
    fn from(arguments: &Arguments) -> Format {
        match (arguments.has("--json"), arguments.has("--bytes")) {
            (true, _) => Format::Json,
            (_, true) if arguments.has("--hex") => Format::Hex,
            (_, true) => Format::Bytes,
            _ => Format::Text,
        }
    }

    /// Adds the bytes that were written for a job, of which so many rows are wrong.
    fn add_answer(self, place: &Place, job: &[u8], found: (&[u8], u32), results: &mut Results) {
        let (written, wrong) = found;
        let read = || Recovered::read(job, written, wrong);
        let text = match self {
            Format::Bytes => return results.add_passed_bytes(written),
            Format::Hex => Ok(hex::text(written) + "\n"),
            Format::Text => read().map(|read| read.text(place)),
            Format::Json => read().map(|read| read.json(place)),
        };
        match text {
            Ok(text) => results.add_passed(text),
            Err(error) => results.add_unreadable(&place.error(&error)),
        }
    }

    /// Where refusals go.
    fn refusals(self) -> Target {
        match self {
            Format::Text | Format::Json => Target::Output,
            Format::Bytes | Format::Hex => Target::Error,
        }
    }
}

impl Work for Format {
    fn passed(&self) -> &'static str {
        "recovered"
    }

    fn is_json(&self) -> bool {
        matches!(self, Format::Json)
    }

    fn add_job(&self, place: &Place, job: &[u8], results: &mut Results) {
        let mut area = [0; LONGEST_ANSWER];
        let report = hanthuvelo::recover(job, &mut area);
        match Refusal::of(report, job) {
            Some(refusal) => results.add_refusal(self.refusals(), place, &refusal),
            None => {
                let written = &area[..report.written as usize];
                self.add_answer(place, job, (written, report.wrong), results);
            }
        }
    }
}
