//! `hanthuvelo check`: whether jobs meet the refusals of their form, without recovering them.

use crate::arguments::Known;
use crate::many::{files_help, options_help};
use crate::output::Failure;
use crate::render::{accepted_json, Place};
use crate::results::{Results, Target, Work};
use crate::{many, Status};
use hanthuvelo::Refusal;
use std::ffi::OsString;

pub const HELP: &str = concat!(
    "\
usage: hanthuvelo check [OPTION].. FILE..

Prints for each job `accepted`, or the first of the refusals 1, 11, 3, 4, 5, 12 and 6 that applies, in the words of
`recover`.
It recovers nothing: an accepted job is one that `recover` recovers, or refuses with 8, as it has no answer.
",
    files_help!(),
    "
  --refused      the refused jobs alone; the accepted ones are counted in the summary
  --json         one object of JSON a line, for programs
",
    options_help!(),
    "
Exit status: 0 all jobs are accepted; 1 a job was refused; 2 bad use, or an input that cannot be read.
"
);

pub fn run(words: &[OsString]) -> Result<Status, Failure> {
    let arguments = many::arguments(words, &[Known::Flag("--refused")])?;
    arguments.exclude("--stream", "--readable")?;
    let check = Check {
        is_json: arguments.has("--json"),
        only_refused: arguments.has("--refused"),
    };
    many::run(&arguments, &check)
}

/// What is wanted of the checked jobs.
struct Check {
    is_json: bool,
    only_refused: bool,
}

impl Work for Check {
    fn passed(&self) -> &'static str {
        "accepted"
    }

    fn is_json(&self) -> bool {
        self.is_json
    }

    fn add_job(&self, place: &Place, job: &[u8], results: &mut Results) {
        match Refusal::of_check(hanthuvelo::check(job), job) {
            Some(refusal) => results.add_refusal(Target::Output, place, &refusal),
            None if self.only_refused => results.tally.passed += 1,
            None if self.is_json => results.add_passed(accepted_json(place)),
            None => results.add_passed(format_args!("{place}: accepted\n")),
        }
    }
}
