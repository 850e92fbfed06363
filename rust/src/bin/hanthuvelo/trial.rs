//! `hanthuvelo trial`: jobs whose result is known.

use crate::arguments::{Arguments, Known};
use crate::output::{self, Failure};
use crate::render::{refused_text, Place};
use crate::{input, Status};
use hanthuvelo::{hex, Job, Trial};
use std::ffi::OsString;

pub const HELP: &str = "\
usage: hanthuvelo trial [OPTION].. FILE..

Writes for each trial its job, a readable one: at the points 0, 1, 2, .. the values of its fractions, zeros at the poles,
and then some rows spoiled. Where spoiled rows and poles are E rows at most, recovery gives back the fractions and those rows.
FILE is a readable trial: a line for the prime and the bounds, a line `rows L start S spoiled W`, and g and each f as
polynomials in u; - is standard input. The same file gives the same job; another start spoils other rows.

  --start N      draw the spoiled rows from this 32-bit number, whatever FILE says
  --spoiled N    spoil so many rows, whatever FILE says
  --bytes        the bytes of the jobs alone, back to back
  --hex          with --bytes: hexadecimal text, a line for each job

A refused trial writes nothing, and its refusal goes to standard error.
Exit status: 0 all jobs are written; 1 a trial was refused; 2 bad use, or an input that cannot be read.
";

const KNOWN: [Known; 4] = [
    Known::Value("--start"),
    Known::Value("--spoiled"),
    Known::Flag("--bytes"),
    Known::Flag("--hex"),
];

pub fn run(words: &[OsString]) -> Result<Status, Failure> {
    let arguments = Arguments::parse(words, &KNOWN)?;
    arguments.at_least_one_file()?;
    arguments.need_beside("--hex", "--bytes")?;
    let trials = trials(&arguments)?;
    let (mut written, mut status) = (Vec::new(), Status::Done);
    for (name, trial) in &trials {
        match trial.write() {
            Ok(job) if arguments.has("--bytes") => {
                written.extend(bytes_of(&job, arguments.has("--hex")));
            }
            Ok(job) => {
                if trials.len() > 1 {
                    written.extend(format!("# {name}\n").into_bytes());
                }
                written.extend(job.to_string().into_bytes());
            }
            Err(refusal) => {
                output::say(&refused_text(&Place::of(name), &refusal));
                status = Status::Refused;
            }
        }
    }
    output::print(&written)?;
    Ok(status)
}

/// Each trial with its file's name, changed as the options ask.
fn trials(arguments: &Arguments) -> Result<Vec<(String, Trial)>, Failure> {
    let start = arguments.number("--start", 0..=u32::MAX)?;
    let spoiled = arguments.number("--spoiled", 0..=u32::MAX)?;
    let mut trials = Vec::new();
    for file in &arguments.files {
        let mut trial = input::trial(file)?;
        trial.start = start.unwrap_or(trial.start);
        trial.spoiled = spoiled.unwrap_or(trial.spoiled);
        trials.push((input::name_of(file), trial));
    }
    Ok(trials)
}

fn bytes_of(job: &Job, is_hex: bool) -> Vec<u8> {
    let bytes = job.pack();
    match is_hex {
        true => (hex::text(&bytes) + "\n").into_bytes(),
        false => bytes,
    }
}
