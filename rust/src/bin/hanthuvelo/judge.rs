//! `hanthuvelo judge`: whether the bytes that somebody offers are a job's answer.

use crate::arguments::{Arguments, Known};
use crate::input::{self, Form};
use crate::output::{self, Failure};
use crate::render::{judged_json, refused_json, unreadable_json, Place};
use crate::Status;
use hanthuvelo::{objection, Job, Refusal};
use std::ffi::OsString;

pub const HELP: &str = "\
usage: hanthuvelo judge [OPTION].. FILE [ANSWER]

Prints one line: `yes` if the bytes in ANSWER are the answer of the job in FILE, every one of them; else `no`, and why not;
or `refused`, with the refusal's number, and why they are not judged. ANSWER is a file with these bytes; without it, or
as -, they are read from standard input. The verdict is the proved library's, which does not recover the job. The reason of
a no is the first that a look of the command's own finds.
FILE is a job as bytes, or a readable one, told apart by its bytes; - is standard input.

  --hex          the answer is hexadecimal text
  --json         one object of JSON, for programs
  --readable     FILE is a readable job
  --binary       FILE is a job as bytes

Exit status: 0 yes; 1 no, or refused, told apart by the line's first word; 2 bad use, or an input that cannot be read.
";

const KNOWN: [Known; 4] = [
    Known::Flag("--hex"),
    Known::Flag("--json"),
    Known::Flag("--readable"),
    Known::Flag("--binary"),
];

pub fn run(words: &[OsString]) -> Result<Status, Failure> {
    let arguments = Arguments::parse(words, &KNOWN)?;
    let (file, answer) = arguments.job_and_answer()?;
    let form = Form::from(&arguments)?;
    let is_json = arguments.has("--json");
    let read = input::job_bytes(file, form).and_then(|job| {
        let offered = input::answer_bytes(answer, arguments.has("--hex"))?;
        Ok((job, offered))
    });
    let (job, offered) = match read {
        Ok(both) => both,
        Err(error) => {
            if is_json {
                output::print(unreadable_json(&error).as_bytes())?;
            }
            return Err(error.into());
        }
    };
    let verdict = Verdict::on(&job, &offered);
    let line = match is_json {
        true => verdict.json(&Place::of(&input::name_of(file))),
        false => verdict.text(),
    };
    output::print(line.as_bytes())?;
    Ok(verdict.status())
}

/// What the library makes of an offered answer.
enum Verdict {
    Yes,
    /// With the reason.
    No(String),
    Refused(Refusal),
}

impl Verdict {
    fn on(job: &[u8], offered: &[u8]) -> Verdict {
        let judgement = hanthuvelo::judge(job, offered);
        match Refusal::of_judgement(judgement, job, offered) {
            Some(refusal) => Verdict::Refused(refusal),
            None if judgement.is_yes() => Verdict::Yes,
            None => Verdict::No(reason(job, offered)),
        }
    }

    fn status(&self) -> Status {
        match self {
            Verdict::Yes => Status::Done,
            Verdict::No(_) | Verdict::Refused(_) => Status::Refused,
        }
    }

    fn text(&self) -> String {
        match self {
            Verdict::Yes => "yes\n".to_string(),
            Verdict::No(reason) => format!("no: {reason}\n"),
            Verdict::Refused(refusal) => format!("{refusal}\n"),
        }
    }

    fn json(&self, place: &Place) -> String {
        match self {
            Verdict::Yes => judged_json(place, None),
            Verdict::No(reason) => judged_json(place, Some(reason)),
            Verdict::Refused(refusal) => refused_json(place, refusal),
        }
    }
}

/// Why an answer that the library says no to is not the job's. A no stays one where nothing is found.
fn reason(job: &[u8], offered: &[u8]) -> String {
    let job = Job::unpack(job).ok();
    match job.and_then(|job| objection(&job, offered)) {
        Some(objection) => objection.to_string(),
        None => "the command's own look finds no reason".to_string(),
    }
}

#[cfg(test)]
mod tests {
    use super::{reason, Verdict};
    use hanthuvelo::hex;

    /// The look at an answer that is right, or at a job that cannot be read, finds no reason; a no is printed all the same.
    #[test]
    fn a_no_without_a_reason_is_a_no() {
        let job = hex::bytes("01 80 02 0000 0005 0001 0005 0002 0002").expect("H1");
        let answer = hex::bytes("20000000 0001 0005").expect("its answer");
        for job in [&job[..], &job[..2]] {
            let no = Verdict::No(reason(job, &answer));
            assert_eq!(no.text(), "no: the command's own look finds no reason\n");
            assert_eq!(no.status() as u8, 1);
        }
    }
}
