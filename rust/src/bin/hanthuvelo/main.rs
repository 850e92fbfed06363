//! The command `hanthuvelo`: jobs recovered, checked, packed and shown for people, offered answers judged, trial jobs
//! written, and reciprocals.

mod arguments;
mod check;
mod convert;
mod input;
mod job_stream;
mod judge;
mod many;
mod output;
mod pieces;
mod pool;
mod progress;
mod reciprocal;
mod recover;
mod render;
mod results;
mod trial;

use output::Failure;
use std::ffi::OsString;
use std::process::ExitCode;

/// What a verb came to, by its exit status.
#[derive(Clone, Copy, PartialEq, Eq)]
enum Status {
    Done = 0,
    Refused = 1,
    Failed = 2,
}

struct Verb {
    name: &'static str,
    summary: &'static str,
    help: &'static str,
    run: fn(&[OsString]) -> Result<Status, Failure>,
}

const VERBS: [Verb; 8] = [
    Verb {
        name: "recover",
        summary: "the fractions, the wrong rows and the margin of jobs",
        help: recover::HELP,
        run: recover::run,
    },
    Verb {
        name: "check",
        summary: "whether jobs are accepted by their form, or why not",
        help: check::HELP,
        run: check::run,
    },
    Verb {
        name: "pack",
        summary: "jobs as bytes, back to back",
        help: convert::PACK_HELP,
        run: convert::pack,
    },
    Verb {
        name: "show",
        summary: "jobs as readable text",
        help: convert::SHOW_HELP,
        run: convert::show,
    },
    Verb {
        name: "unpack",
        summary: "the bytes of an answer as text",
        help: convert::UNPACK_HELP,
        run: convert::unpack,
    },
    Verb {
        name: "judge",
        summary: "whether the bytes of an answer are the job's, and why not",
        help: judge::HELP,
        run: judge::run,
    },
    Verb {
        name: "trial",
        summary: "jobs whose result is known, from fractions",
        help: trial::HELP,
        run: trial::run,
    },
    Verb {
        name: "reciprocal",
        summary: "reciprocals modulo a prime, and which numbers have none",
        help: reciprocal::HELP,
        run: reciprocal::run,
    },
];

const ABOUT: &str = "\
hanthuvelo: exact fractions over one denominator, from values modulo a prime of which some are wrong

usage: hanthuvelo VERB [OPTION].. FILE..
       hanthuvelo unpack|judge [OPTION].. FILE [ANSWER]
       hanthuvelo reciprocal PRIME NUMBER..
       hanthuvelo VERB --help
       hanthuvelo --version
";

const STATUS: &str = "
FILE is a job as bytes, or a readable one, told apart by its bytes; of trial a readable trial; - is standard input.
Exit status: 0 done; 1 a job was refused, an answer is not the job's, or a number has no reciprocal; 2 bad use, or an input
that cannot be read.
";

fn main() -> ExitCode {
    let words: Vec<OsString> = std::env::args_os().skip(1).collect();
    let status = run(&words).unwrap_or_else(|failure| {
        if let Some(message) = failure.message() {
            output::say(&message);
        }
        Status::Failed
    });
    ExitCode::from(status as u8)
}

fn run(words: &[OsString]) -> Result<Status, Failure> {
    let Some((first, rest)) = words.split_first() else {
        return Err(Failure::bad_use(help()));
    };
    let first = first.to_string_lossy();
    if let Some(verb) = VERBS.iter().find(|verb| verb.name == first) {
        let mut options = rest.iter().take_while(|word| *word != "--");
        if options.any(|word| word == "--help" || word == "-h") {
            return output::print(verb.help.as_bytes());
        }
        return (verb.run)(rest).map_err(|failure| failure.of_verb(verb.name));
    }
    match &*first {
        "--help" | "-h" | "help" => output::print(help().as_bytes()),
        "--version" => {
            output::print(concat!("hanthuvelo ", env!("CARGO_PKG_VERSION"), "\n").as_bytes())
        }
        _ => {
            let names: Vec<&str> = VERBS.iter().map(|verb| verb.name).collect();
            let expected = format!("expected a verb of {}", names.join(", "));
            Err(Failure::bad_use(format!(
                "hanthuvelo: {expected}, found `{first}`"
            )))
        }
    }
}

fn help() -> String {
    let line = |verb: &Verb| format!("  {:<12}{}\n", verb.name, verb.summary);
    let verbs: String = VERBS.iter().map(line).collect();
    format!("{ABOUT}\n{verbs}{STATUS}")
}
