//! The words behind a verb: options, and files.

use crate::output::Failure;
use std::ffi::{OsStr, OsString};
use std::ops::RangeInclusive;

/// An option that a verb knows.
#[derive(Clone, Copy)]
pub enum Known {
    Flag(&'static str),
    /// Takes the word behind it.
    Value(&'static str),
}

pub struct Arguments {
    options: Vec<(&'static str, String)>,
    pub files: Vec<OsString>,
}

impl Arguments {
    /// Takes options wherever they stand, up to a `--`; every other word is a file.
    pub fn parse(words: &[OsString], known: &[Known]) -> Result<Arguments, Failure> {
        let mut arguments = Arguments {
            options: Vec::new(),
            files: Vec::new(),
        };
        let mut words = words.iter();
        while let Some(word) = words.next() {
            if word == "--" {
                arguments.files.extend(words.cloned());
                break;
            }
            if !is_option(word) {
                arguments.files.push(word.clone());
                continue;
            }
            arguments.take_option(word, &mut words, known)?;
        }
        arguments.refuse_second_standard_input()?;
        Ok(arguments)
    }

    fn take_option<'a>(
        &mut self,
        word: &OsStr,
        rest: &mut impl Iterator<Item = &'a OsString>,
        known: &[Known],
    ) -> Result<(), Failure> {
        let word = word.to_string_lossy();
        for option in known {
            match *option {
                Known::Flag(name) if name == word => {
                    self.options.push((name, String::new()));
                    return Ok(());
                }
                Known::Value(name) if name == word => {
                    let value = rest.next().map(|value| value.to_string_lossy());
                    let value = value.ok_or_else(|| {
                        Failure::bad_use(format!("expected a value behind {name}"))
                    })?;
                    self.options.push((name, value.into_owned()));
                    return Ok(());
                }
                _ => {}
            }
        }
        Err(Failure::bad_use(format!("unknown option `{word}`")))
    }

    fn refuse_second_standard_input(&self) -> Result<(), Failure> {
        match self.files.iter().filter(|file| *file == "-").count() {
            0 | 1 => Ok(()),
            _ => Err(Failure::bad_use("expected - once at most")),
        }
    }

    pub fn has(&self, name: &str) -> bool {
        self.value(name).is_some()
    }

    /// The value of an option, the last one if it stands there several times.
    pub fn value(&self, name: &str) -> Option<&str> {
        let found = self.options.iter().rfind(|(option, _)| *option == name);
        found.map(|(_, value)| value.as_str())
    }

    /// Refuses two options that exclude each other.
    pub fn exclude(&self, one: &str, other: &str) -> Result<(), Failure> {
        if self.has(one) && self.has(other) {
            return Err(Failure::bad_use(format!(
                "{one} and {other} exclude each other"
            )));
        }
        Ok(())
    }

    /// Refuses an option without the one that it belongs to.
    pub fn need_beside(&self, name: &str, other: &str) -> Result<(), Failure> {
        if self.has(name) && !self.has(other) {
            return Err(Failure::bad_use(format!("expected {other} beside {name}")));
        }
        Ok(())
    }

    /// The value of an option as a number in a range.
    pub fn number(&self, name: &str, range: RangeInclusive<u32>) -> Result<Option<u32>, Failure> {
        let Some(value) = self.value(name) else {
            return Ok(None);
        };
        number_within(range, value, &format!(" behind {name}")).map(Some)
    }

    /// A job and an answer; without the second word the answer is standard input.
    pub fn job_and_answer(&self) -> Result<(&OsStr, &OsStr), Failure> {
        match &self.files[..] {
            [file] if *file != "-" => Ok((file, OsStr::new("-"))),
            [file, answer] => Ok((file, answer)),
            _ => Err(Failure::bad_use("expected a job and an answer")),
        }
    }

    pub fn at_least_one_file(&self) -> Result<(), Failure> {
        if self.files.is_empty() {
            return Err(Failure::bad_use("expected a file"));
        }
        Ok(())
    }
}

/// A word as a number in a range; `place` says behind what it stands, where that is to be said.
pub fn number_within(range: RangeInclusive<u32>, word: &str, place: &str) -> Result<u32, Failure> {
    let (low, high) = (range.start(), range.end());
    match word.parse() {
        Ok(number) if range.contains(&number) => Ok(number),
        _ => Err(Failure::bad_use(format!(
            "expected a number from {low} to {high}{place}, found `{word}`"
        ))),
    }
}

/// A single `-` is standard input.
fn is_option(word: &OsStr) -> bool {
    let word = word.as_encoded_bytes();
    word.len() > 1 && word[0] == b'-'
}
