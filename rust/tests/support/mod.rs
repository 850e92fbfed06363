//! Runs the command from the repository's root.
#![allow(dead_code)] // Each test file has a copy of its own and uses a part.

pub mod own_bounds;

use outside_checks::jobs::{generate, Random};
use outside_checks::layout;
use own_bounds::{
    break_rules, has_own_bounds, header_length, with_one_bound, with_own_bounds, Added,
};
use std::fs;
use std::io::Write;
use std::path::{Path, PathBuf};
use std::process::{Child, Command, Output, Stdio};
use std::thread;

pub const ROOT: &str = concat!(env!("CARGO_MANIFEST_DIR"), "/..");
pub const COMMAND: &str = env!("CARGO_BIN_EXE_hanthuvelo");

/// What `recover` prints of the trial job that docs/TRIAL.md works out by hand.
pub const PAGE_RECOVERED: &str = "\
standard input: recovered modulo 7
  f1 = 5 / (1 + u)
  f2 = 1 / (1 + u)
  wrong rows: 0 (u = 0), 6 (u = 6)
  margin: 2
";

/// What a run came to.
pub struct Run {
    pub status: i32,
    pub out: Vec<u8>,
    pub text: String,
    pub said: String,
}

impl Run {
    pub fn of(output: Output) -> Run {
        let said = String::from_utf8_lossy(&output.stderr).into_owned();
        // 101 is what a panic ends with, also where nobody can read of it.
        let status = output.status.code().expect("no signal ends the command");
        assert!(status != 101 && !said.contains("panicked"), "{said}");
        Run {
            status,
            text: String::from_utf8_lossy(&output.stdout).into_owned(),
            out: output.stdout,
            said,
        }
    }
}

/// A run that says nothing on standard error, prints this and ends with this status.
pub fn assert_prints(run: &Run, expected: &str, status: i32) {
    assert_eq!(run.text, expected);
    assert_eq!((run.said.as_str(), run.status), ("", status));
}

/// A run that ends well, says nothing on standard error and prints this.
pub fn assert_done(run: &Run, expected: &str) {
    assert_prints(run, expected, 0);
}

/// A run that fails before it prints anything, with this one line.
pub fn assert_fails(run: &Run, expected: &str) {
    assert_eq!(run.said, format!("{expected}\n"));
    assert_eq!((run.text.as_str(), run.status), ("", 2));
}

/// A verb with words that it does not take, and what is said of them.
pub fn assert_bad_use(verb: &str, words: &str, message: &str) {
    let words: Vec<&str> = words.split_whitespace().collect();
    let expected = format!("hanthuvelo {verb}: {message}; see `hanthuvelo {verb} --help`");
    assert_fails(&run(&[&[verb], &words[..]].concat()), &expected);
}

/// The command with these words; its input and outputs are pipes.
pub fn command(words: &[&str]) -> Command {
    let mut command = Command::new(COMMAND);
    command
        .args(words)
        .current_dir(ROOT)
        .stdin(Stdio::piped())
        .stdout(Stdio::piped())
        .stderr(Stdio::piped());
    command
}

/// Runs the command on an input.
pub fn run_on(words: &[&str], input: &[u8]) -> Run {
    let mut child = command(words).spawn().expect("the command starts");
    feed(&mut child, input.to_vec());
    Run::of(child.wait_with_output().expect("the command ends"))
}

pub fn run(words: &[&str]) -> Run {
    run_on(words, &[])
}

/// Writes an input beside whatever else goes on, and closes it; the command may close it first.
pub fn feed(child: &mut Child, input: Vec<u8>) {
    let mut pipe = child.stdin.take().expect("a pipe");
    thread::spawn(move || {
        let _ = pipe.write_all(&input);
    });
}

/// Runs the command with a redirection in the shell's words.
pub fn run_redirected(words: &str, redirection: &str) -> Run {
    let output = Command::new("sh")
        .arg("-c")
        .arg(format!("exec \"$0\" {words} {redirection}"))
        .arg(COMMAND)
        .current_dir(ROOT)
        .output();
    Run::of(output.expect("a shell"))
}

/// An empty folder of a test's own.
pub fn folder(name: &str) -> PathBuf {
    outside_checks::empty_folder(env!("CARGO_TARGET_TMPDIR"), name)
}

/// A file in it.
pub fn file(folder: &Path, name: &str, bytes: &[u8]) -> String {
    let path = folder.join(name);
    fs::write(&path, bytes).expect("a file");
    path.to_str().expect("a plain name").to_string()
}

/// The names of the example jobs, as a folder's files are taken.
pub fn example_names() -> Vec<String> {
    let entries = fs::read_dir(format!("{ROOT}/examples")).expect("the examples");
    let names = entries.map(|entry| entry.expect("an example").file_name());
    let names = names.map(|name| name.into_string().expect("a name"));
    let mut names: Vec<String> = names.filter(|name| name.ends_with(".job")).collect();
    names.sort();
    names
}

/// The length of the job that bytes begin with, counted from the formulas of papers 01 and 02.
pub fn length_by_header(bytes: &[u8]) -> Option<usize> {
    let (first, second) = (*bytes.first()?, *bytes.get(1)?);
    bytes.get(2)?;
    let rows = usize::from(first % 16) * 2 + usize::from(second / 128);
    let outputs = usize::from(first / 16 % 4) + 1;
    Some(header_length(bytes) + 2 * rows * (1 + outputs))
}

/// Generated jobs that can stand in a stream, with either header, many of them refused for what is in them.
pub fn stream_jobs(seed: u64, count: usize) -> Vec<Vec<u8>> {
    let jobs = (0..).filter_map(|index| stream_job(seed, index));
    jobs.take(count).collect()
}

/// A generated job as it is, or with the other header; a longer one that takes the short one's place breaks a rule at times.
fn stream_job(seed: u64, index: u64) -> Option<Vec<u8>> {
    let job = generate(seed, index).bytes;
    if length_by_header(&job) != Some(job.len()) {
        return None;
    }
    let mut random = Random::new(seed, index);
    if random.once_in(2) {
        return Some(job);
    }
    if has_own_bounds(&job) {
        // Without the flag a mark would be a number.
        return Some(match layout::Job::unpack(&job).has_marks() {
            true => job,
            false => with_one_bound(&job),
        });
    }
    let mut added = Added::equal(&job);
    if random.once_in(8) {
        break_rules(&mut random, &job, &mut added);
    }
    Some(with_own_bounds(&job, &added))
}
