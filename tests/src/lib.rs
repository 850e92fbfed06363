//! Checks of the recovery library from outside: solvers written separately, generated jobs, and the
//! paper's examples. The boundary to the library itself is the package `hanthuvelo`.

#![forbid(unsafe_code)]

pub mod compared;
pub mod crate_table;
pub mod crates;
pub mod definition;
pub mod jobs;
pub mod ladder;
pub mod layout;
pub mod pages;
pub mod paper;
pub mod plain;
pub mod program;
pub mod second;
pub mod statements;

use hanthuvelo::{hex, Form, Judgement, Report, Written};
use layout::Job;
use std::fmt::{Debug, Formatter};
use std::fs;
use std::io::Write;
use std::os::unix::fs::PermissionsExt;
use std::path::{Path, PathBuf};
use std::str::FromStr;

/// One way to recover a job into an area.
#[derive(Clone, Copy)]
pub struct Implementation {
    pub name: &'static str,
    pub recover: fn(&[u8], &mut [u8]) -> Report,
}

impl Implementation {
    /// The answer of a well formed job in an area of its length; none where the job is refused with 8.
    pub fn answer(&self, job: &Job) -> Option<Vec<u8>> {
        let mut area = vec![0; job.answer_length()];
        let report = (self.recover)(&job.pack(), &mut area);
        assert!(matches!(report.refusal, 0 | 8), "{report:?} {job:?}");
        report.is_recovered().then_some(area)
    }
}

/// Every implementation to be compared; the library only where its feature is on.
pub fn implementations() -> Vec<Implementation> {
    vec![
        #[cfg(feature = "library")]
        Implementation {
            name: "library",
            recover: hanthuvelo::recover,
        },
        Implementation {
            name: "plain",
            recover: plain::recover,
        },
        Implementation {
            name: "second",
            recover: second::recover,
        },
    ]
}

/// Writes to an area the trial job of a header, coefficients, a start and a number of spoiled rows.
pub type WriteTrial = fn(&[u8], &[u8], u32, u32, &mut [u8]) -> Written;

/// One way to write trial jobs.
#[derive(Clone, Copy)]
pub struct Writer {
    pub name: &'static str,
    pub trial: WriteTrial,
}

/// Every writer of trial jobs to be compared; the library's only where its feature is on.
pub fn writers() -> Vec<Writer> {
    vec![
        #[cfg(feature = "library")]
        Writer {
            name: "library",
            trial: hanthuvelo::trial,
        },
        Writer {
            name: "second",
            trial: second::trial,
        },
    ]
}

/// One way to find the reciprocal of a number modulo the prime of a code.
#[derive(Clone, Copy)]
pub struct Reciprocal {
    pub name: &'static str,
    pub find: fn(u32, u32) -> Option<u32>,
}

/// Every way to find reciprocals to be compared; the library's only where its feature is on.
pub fn reciprocals() -> Vec<Reciprocal> {
    vec![
        #[cfg(feature = "library")]
        Reciprocal {
            name: "library",
            find: hanthuvelo::reciprocal,
        },
        Reciprocal {
            name: "second",
            find: second::reciprocal,
        },
    ]
}

/// One way to judge an answer that is offered for a job.
#[derive(Clone, Copy)]
pub struct Judge {
    pub name: &'static str,
    pub judge: fn(&[u8], &[u8]) -> Judgement,
}

/// Every judge to be compared; the library's only where its feature is on.
pub fn judges() -> Vec<Judge> {
    vec![
        #[cfg(feature = "library")]
        Judge {
            name: "library",
            judge: hanthuvelo::judge,
        },
        Judge {
            name: "second",
            judge: second::judge,
        },
    ]
}

/// One way to check the form of a job.
#[derive(Clone, Copy)]
pub struct Checker {
    pub name: &'static str,
    pub check: fn(&[u8]) -> Form,
}

/// Every check of the form to be compared; the library's only where its feature is on.
pub fn checkers() -> Vec<Checker> {
    vec![
        #[cfg(feature = "library")]
        Checker {
            name: "library",
            check: hanthuvelo::check,
        },
        Checker {
            name: "plain",
            check: plain::check,
        },
        Checker {
            name: "second",
            check: second::check,
        },
    ]
}

/// One way to find the margin of a job's answer with so many wrong rows.
#[derive(Clone, Copy)]
pub struct Margin {
    pub name: &'static str,
    pub find: fn(&[u8], u32) -> u32,
}

/// Every way to find margins to be compared; the library's only where its feature is on.
pub fn margins() -> Vec<Margin> {
    vec![
        #[cfg(feature = "library")]
        Margin {
            name: "library",
            find: hanthuvelo::margin,
        },
        Margin {
            name: "plain",
            find: plain::margin,
        },
        Margin {
            name: "second",
            find: second::margin,
        },
    ]
}

/// A number of the environment by which a run is changed, or the usual one.
pub fn setting<T: FromStr>(name: &str, usual: T) -> T {
    match std::env::var(name) {
        Ok(text) => text
            .parse()
            .unwrap_or_else(|_| panic!("{name} must be a number: {text}")),
        Err(_) => usual,
    }
}

/// The title of a run: its seed, and what is compared in it by which names.
pub fn run_title<'a>(seed: u64, what: &str, names: impl Iterator<Item = &'a str>) -> String {
    let names: Vec<&str> = names.collect();
    format!("seed {seed}, {what}: {}", names.join(", "))
}

/// An empty folder of a test's own, by this name within another one.
pub fn empty_folder(within: &str, name: &str) -> PathBuf {
    let folder = Path::new(within).join(name);
    let _ = fs::remove_dir_all(&folder);
    fs::create_dir_all(&folder).expect("a folder");
    folder
}

/// An empty folder outside the repository, in which rt allows one `crates.txt` alone. It goes with this value.
pub struct Outside(pub PathBuf);

impl Outside {
    pub fn new(name: &str) -> Outside {
        let place = std::env::temp_dir().join(format!("hanthuvelo-{}", std::process::id()));
        Outside(empty_folder(place.to_str().expect("a plain name"), name))
    }
}

impl Drop for Outside {
    fn drop(&mut self) {
        // What cannot be removed stays among the temporary files. The folder of all of them goes with the last one.
        let _ = fs::remove_dir_all(&self.0);
        let _ = self.0.parent().map(fs::remove_dir);
    }
}

/// Puts a script of shell, by these lines, into a folder.
pub fn put_script(folder: &Path, name: &str, lines: &str) {
    let path = folder.join(name);
    fs::write(&path, format!("#!/bin/sh\n{lines}")).expect("a script");
    fs::set_permissions(&path, fs::Permissions::from_mode(0o755)).expect("a script that runs");
}

/// Writes past a test's capture, so that every run shows its counts.
pub fn show(text: &str) {
    std::io::stderr()
        .write_all(text.as_bytes())
        .expect("standard error takes text");
}

/// Shows what a run has counted, and fails where it has too few of a kind.
pub fn conclude(title: &str, (summary, enough): (String, bool)) {
    show(&format!("\n{title}\n{summary}"));
    assert!(enough, "too few of a kind");
}

/// An area after a call, shown in hexadecimal.
#[derive(PartialEq, Eq)]
pub struct Area(pub Vec<u8>);

impl Debug for Area {
    fn fmt(&self, formatter: &mut Formatter<'_>) -> std::fmt::Result {
        formatter.write_str(&hex::text(&self.0))
    }
}

/// What all come to, each after its name, which must be the same.
pub fn agreed<T: PartialEq + Debug>(
    outcomes: impl Iterator<Item = (&'static str, T)>,
    describe: &dyn Fn() -> String,
) -> T {
    let mut outcomes = outcomes;
    let (first, agreed) = outcomes.next().expect("one at least");
    for (name, outcome) in outcomes {
        assert_eq!(outcome, agreed, "{name} and {first}\n{}", describe());
    }
    agreed
}

/// Fails where what is generated does not follow from seed and number, or not from the seed.
pub fn expect_repeatable(seed: u64, describe: impl Fn(u64, u64) -> String) {
    for index in 0..200 {
        assert_eq!(describe(seed, index), describe(seed, index));
        assert_ne!(describe(seed, index), describe(seed + 1, index));
    }
}
