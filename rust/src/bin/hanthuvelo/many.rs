//! What `recover` and `check` share: one job or many, on all cores, with the results in order.

use crate::arguments::{Arguments, Known};
use crate::input::Form;
use crate::output::{self, Failure};
use crate::pieces::Pieces;
use crate::progress::{Progress, Tally};
use crate::results::{work_off, Results, Target, Work};
use crate::{pool, Status};
use std::ffi::OsString;
use std::fs::File;
use std::io::{self, Write};
use std::thread;

const KNOWN: [Known; 6] = [
    Known::Flag("--json"),
    Known::Flag("--stream"),
    Known::Flag("--readable"),
    Known::Flag("--binary"),
    Known::Value("--threads"),
    Known::Flag("--quiet"),
];

/// What the help of both verbs says of their files.
macro_rules! files_help {
    () => {
        "\
FILE is a job as bytes, or a readable one, told apart by its bytes; - is standard input; of a folder all files
that end in .job are taken, by their names.
"
    };
}

/// What it says of the shared options but `--json`, which each verb has beside its own.
macro_rules! options_help {
    () => {
        "\
\x20 --stream       each FILE is a binary stream of jobs, back to back
  --readable     each FILE is a readable job
  --binary       each FILE is a job as bytes
  --threads N    work on N cores; without this, on all
  --quiet        no progress and no summary on standard error
"
    };
}

pub(crate) use {files_help, options_help};

/// The words behind a verb that knows these options besides the shared ones.
pub fn arguments(words: &[OsString], own: &[Known]) -> Result<Arguments, Failure> {
    let arguments = Arguments::parse(words, &[own, &KNOWN].concat())?;
    arguments.at_least_one_file()?;
    Ok(arguments)
}

/// Works off all jobs that the words name.
pub fn run(arguments: &Arguments, work: &impl Work) -> Result<Status, Failure> {
    let form = Form::from(arguments)?;
    let threads = threads(arguments)?;
    let mut pieces = Pieces::new(&arguments.files, arguments.has("--stream"));
    let is_many = pieces.are_many();
    let is_told = is_many && !arguments.has("--quiet");
    let mut sink = Sink {
        output: output::standard()?,
        tally: Tally::default(),
        progress: Progress::new(pieces.extent(), is_told),
        failure: None,
    };
    pool::in_order(
        if is_many { threads } else { 1 },
        || pieces.next(),
        |piece| work_off(piece, form, work),
        |results| sink.take(results),
    );
    sink.progress.clear();
    match sink.failure {
        Some(error) => Err(Failure::Output(error)),
        None => {
            if is_told {
                output::say(&sink.progress.summary(&sink.tally, work.passed()));
            }
            Ok(sink.tally.status())
        }
    }
}

fn threads(arguments: &Arguments) -> Result<usize, Failure> {
    const MOST: u32 = 1024;
    Ok(match arguments.number("--threads", 1..=MOST)? {
        Some(threads) => threads as usize,
        None => thread::available_parallelism().map_or(1, usize::from),
    })
}

/// Where the results go, in order.
struct Sink {
    output: File,
    tally: Tally,
    progress: Progress,
    failure: Option<io::Error>,
}

impl Sink {
    /// Whether more can be taken.
    fn take(&mut self, results: Results) -> bool {
        self.progress.make_room();
        for (target, bytes) in results.stretches {
            if target == Target::Error {
                self.progress.clear();
                let _ = io::stderr().write_all(&bytes);
            } else if let Err(error) = self.output.write_all(&bytes) {
                self.failure = Some(error);
                return false;
            }
        }
        self.tally.add(results.tally);
        self.progress.update(&self.tally);
        true
    }
}
