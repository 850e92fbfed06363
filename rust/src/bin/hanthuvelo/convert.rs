//! `hanthuvelo pack`, `show` and `unpack`: jobs and answers from one form to another.

use crate::arguments::{Arguments, Known};
use crate::input::{self, error_of, Form};
use crate::output::{self, Failure};
use crate::render::listed;
use crate::Status;
use hanthuvelo::{hex, polynomial_text, Answer};
use std::ffi::OsString;

pub const PACK_HELP: &str = "\
usage: hanthuvelo pack [OPTION].. FILE..

Writes the bytes of each job to standard output, back to back, as `hanthuvelo recover --stream` and `check --stream`
take them. They begin with the short header, of 3 bytes, where a readable job has one number behind `df`, and with the
longer one, of 7, where it has one for each output, `long` behind the only one, `marks` behind them, or a row that is
`pole` or `silent`.
FILE is a job as bytes, or a readable one, told apart by its bytes; - is standard input.

  --hex          hexadecimal text, a line for each job
  --readable     each FILE is a readable job
  --binary       each FILE is a job as bytes
";

pub const SHOW_HELP: &str = "\
usage: hanthuvelo show [OPTION].. FILE..

Prints each job as a readable one: a line for the prime and the bounds, a line for each row, the point and its values, or
`pole` or `silent` in their place.
FILE is a job as bytes, or a readable one, told apart by its bytes; - is standard input.

  --readable     each FILE is a readable job
  --binary       each FILE is a job as bytes
";

pub const UNPACK_HELP: &str = "\
usage: hanthuvelo unpack [OPTION].. FILE [ANSWER]

Prints the bytes of an answer to the job in FILE as text: the wrong rows, g and each f. ANSWER is a file with these
bytes; without it, or as -, they are read from standard input. Whether the answer is right is not tested; `judge` does that.
FILE is a job as bytes, or a readable one, told apart by its bytes; - is standard input.

  --hex          the answer is hexadecimal text
  --readable     FILE is a readable job
  --binary       FILE is a job as bytes
";

const HEX: Known = Known::Flag("--hex");
const READABLE: Known = Known::Flag("--readable");
const BINARY: Known = Known::Flag("--binary");

pub fn pack(words: &[OsString]) -> Result<Status, Failure> {
    let arguments = Arguments::parse(words, &[HEX, READABLE, BINARY])?;
    arguments.at_least_one_file()?;
    let form = Form::from(&arguments)?;
    let mut packed = Vec::new();
    for file in &arguments.files {
        let bytes = input::job(file, form)?.pack();
        if arguments.has("--hex") {
            packed.extend((hex::text(&bytes) + "\n").into_bytes());
        } else {
            packed.extend(bytes);
        }
    }
    output::print(&packed)
}

pub fn show(words: &[OsString]) -> Result<Status, Failure> {
    let arguments = Arguments::parse(words, &[READABLE, BINARY])?;
    arguments.at_least_one_file()?;
    let form = Form::from(&arguments)?;
    let mut text = String::new();
    for file in &arguments.files {
        if arguments.files.len() > 1 {
            text += &format!("# {}\n", input::name_of(file));
        }
        text += &input::job(file, form)?.to_string();
    }
    output::print(text.as_bytes())
}

pub fn unpack(words: &[OsString]) -> Result<Status, Failure> {
    let arguments = Arguments::parse(words, &[HEX, READABLE, BINARY])?;
    let (file, answer) = arguments.job_and_answer()?;
    let job = input::job(file, Form::from(&arguments)?)?;
    let bytes = input::answer_bytes(answer, arguments.has("--hex"))?;
    let read = Answer::unpack(&bytes, job.bounds(), job.rows().len());
    let read = read.map_err(|error| error_of(answer, error.to_string()))?;
    output::print(answer_text(&read).as_bytes())
}

fn answer_text(answer: &Answer) -> String {
    let rows: Vec<String> = answer.wrong_rows().iter().map(usize::to_string).collect();
    let rows = listed(&rows, " ");
    let denominator = polynomial_text(&answer.denominator);
    let mut text = format!("wrong rows: {rows}\ng = {denominator}\n");
    for (index, numerator) in answer.numerators.iter().enumerate() {
        text += &format!("f{} = {}\n", index + 1, polynomial_text(numerator));
    }
    text
}
