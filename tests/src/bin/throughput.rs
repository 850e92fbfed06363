//! Measures `hanthuvelo recover --stream --bytes` and `hanthuvelo check --stream --refused` over many
//! full jobs, to a file, on one core and on two, beside the bare calls of the library on one:
//! `cargo build --offline --release`, then `build/release/throughput`.

use outside_checks::jobs::measured::{generate, Size};
use std::fs::{self, File};
use std::hint::black_box;
use std::path::{Path, PathBuf};
use std::process::Command;
use std::time::Instant;

const SEED: u64 = 11;
const JOBS: u64 = 100_000;
const ROUNDS: usize = 7;

/// What the command does with all jobs, beside bare calls that do the same.
struct Work {
    words: [&'static str; 3],
    bare: fn(&[Vec<u8>]) -> f64,
    /// What the command writes.
    output: Vec<u8>,
}

/// A folder that is removed in the end.
struct Folder(PathBuf);

impl Drop for Folder {
    fn drop(&mut self) {
        let _ = fs::remove_dir_all(&self.0);
    }
}

fn main() -> Result<(), String> {
    if cfg!(debug_assertions) {
        println!("NOT OPTIMISED: run with --release");
    }
    let own = std::env::current_exe().map_err(|error| error.to_string())?;
    let command = own.with_file_name("hanthuvelo");
    if !command.is_file() {
        return Err("build the command first: cargo build --offline --release".to_string());
    }
    let name = format!("hanthuvelo-throughput-{}", std::process::id());
    let folder = Folder(std::env::temp_dir().join(name));
    let error = |error: std::io::Error| format!("{}: {error}", folder.0.display());
    fs::create_dir(&folder.0).map_err(error)?;
    let jobs: Vec<Vec<u8>> = (0..JOBS)
        .map(|index| generate(SEED, index, Size::FULL).pack())
        .collect();
    fs::write(folder.0.join("jobs"), jobs.concat()).map_err(error)?;
    println!("{JOBS} full jobs (31 rows, four outputs, 65521), best and middle of {ROUNDS} rounds that take turns");
    let recover = Work {
        words: ["recover", "--stream", "--bytes"],
        bare: recover_seconds,
        output: bare_answers(&jobs),
    };
    let check = Work {
        words: ["check", "--stream", "--refused"],
        bare: check_seconds,
        output: Vec::new(),
    };
    for work in [recover, check] {
        show(&work, &mut measure(&work, &jobs, &command, &folder.0)?);
    }
    Ok(())
}

/// The seconds of the bare calls, and of the command on one core and on two.
fn measure(
    work: &Work,
    jobs: &[Vec<u8>],
    command: &Path,
    folder: &Path,
) -> Result<[Vec<f64>; 3], String> {
    let mut times = [const { Vec::new() }; 3];
    for _ in 0..ROUNDS {
        times[0].push((work.bare)(jobs));
        for (threads, times) in times.iter_mut().enumerate().skip(1) {
            times.push(command_seconds(command, work.words, folder, threads)?);
            let written = fs::read(folder.join("output")).map_err(|error| error.to_string())?;
            if written != work.output {
                return Err(format!(
                    "{threads} threads: other bytes than the bare calls"
                ));
            }
        }
    }
    Ok(times)
}

fn show(work: &Work, times: &mut [Vec<f64>; 3]) {
    let [bare, one, two] = times.each_mut().map(|rounds| {
        rounds.sort_by(f64::total_cmp);
        (rounds[0], rounds[ROUNDS / 2])
    });
    let line = |name: &str, (best, middle): (f64, f64)| {
        let rate = JOBS as f64 / best;
        println!("{name:<42} best {best:.4} s  middle {middle:.4} s  {rate:>9.0} jobs a second");
    };
    let words = work.words.join(" ");
    println!();
    line("bare calls, one core", bare);
    line(&format!("{words}, one core"), one);
    line(&format!("{words}, two cores"), two);
    println!(
        "one core against the bare calls: {:.2} times their time",
        one.0 / bare.0
    );
    println!(
        "two cores against one: {:.2} times the throughput",
        one.0 / two.0
    );
}

/// What the library writes for all jobs, back to back.
fn bare_answers(jobs: &[Vec<u8>]) -> Vec<u8> {
    let mut answers = Vec::new();
    for job in jobs {
        let mut area = vec![0; Size::FULL.answer_length()];
        let report = hanthuvelo::recover(job, &mut area);
        assert!(report.is_recovered(), "{report:?} {job:02X?}");
        answers.extend(area);
    }
    answers
}

fn recover_seconds(jobs: &[Vec<u8>]) -> f64 {
    let mut area = vec![0; Size::FULL.answer_length()];
    let start = Instant::now();
    for job in jobs {
        black_box(hanthuvelo::recover(black_box(job), &mut area));
    }
    start.elapsed().as_secs_f64()
}

fn check_seconds(jobs: &[Vec<u8>]) -> f64 {
    let start = Instant::now();
    for job in jobs {
        assert!(hanthuvelo::check(black_box(job)).is_accepted());
    }
    start.elapsed().as_secs_f64()
}

/// From the start of the process to its end.
fn command_seconds(
    command: &Path,
    words: [&str; 3],
    folder: &Path,
    threads: usize,
) -> Result<f64, String> {
    let error = |error: std::io::Error| error.to_string();
    let output = File::create(folder.join("output")).map_err(error)?;
    let start = Instant::now();
    let status = Command::new(command)
        .args(words)
        .args(["--quiet", "--threads"])
        .arg(threads.to_string())
        .arg(folder.join("jobs"))
        .stdout(output)
        .status()
        .map_err(error)?;
    let seconds = start.elapsed().as_secs_f64();
    match status.success() {
        true => Ok(seconds),
        false => Err(format!("the command failed: {status}")),
    }
}
