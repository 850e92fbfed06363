//! What is written for the jobs of a piece.

use crate::input::{self, Form, InputError};
use crate::job_stream::{job_length, Part};
use crate::pieces::Piece;
use crate::progress::Tally;
use crate::render::{self, Place};
use hanthuvelo::Refusal;
use std::fmt::Display;
use std::io::Write;

/// What a verb does with each job.
pub trait Work: Sync {
    /// What became of a job that is not refused, as `recovered`.
    fn passed(&self) -> &'static str;

    /// Whether an object of JSON is wanted for each job.
    fn is_json(&self) -> bool;

    /// Works off one job.
    fn add_job(&self, place: &Place, job: &[u8], results: &mut Results);
}

#[derive(Clone, Copy, PartialEq, Eq)]
pub enum Target {
    Output,
    Error,
}

/// What is written for a piece, in order, with what became of its jobs.
#[derive(Default)]
pub struct Results {
    pub stretches: Vec<(Target, Vec<u8>)>,
    pub tally: Tally,
    is_json: bool,
}

impl Results {
    /// Where the next bytes for a target are put.
    fn stretch(&mut self, target: Target) -> &mut Vec<u8> {
        if self.stretches.last().map(|(last, _)| *last) != Some(target) {
            self.stretches.push((target, Vec::new()));
        }
        let last = self.stretches.len() - 1;
        &mut self.stretches[last].1
    }

    fn add(&mut self, target: Target, text: impl Display) {
        // Memory takes all that is written to it.
        let _ = write!(self.stretch(target), "{text}");
    }

    /// A job that is not refused, with what is written for it.
    pub fn add_passed(&mut self, text: impl Display) {
        self.tally.passed += 1;
        self.add(Target::Output, text);
    }

    /// The same, with bytes of any kind.
    pub fn add_passed_bytes(&mut self, bytes: &[u8]) {
        self.tally.passed += 1;
        self.stretch(Target::Output).extend(bytes);
    }

    pub fn add_refusal(&mut self, target: Target, place: &Place, refusal: &Refusal) {
        self.tally.refused += 1;
        match self.is_json {
            true => self.add(target, render::refused_json(place, refusal)),
            false => self.add(target, render::refused_text(place, refusal)),
        }
    }

    pub fn add_unreadable(&mut self, error: &InputError) {
        self.tally.unreadable += 1;
        self.add(Target::Error, format_args!("{error}\n"));
        if self.is_json {
            self.add(Target::Output, render::unreadable_json(error));
        }
    }
}

/// Works off all jobs of a piece.
pub fn work_off(piece: Piece, form: Form, work: &impl Work) -> Results {
    let mut results = Results {
        is_json: work.is_json(),
        ..Results::default()
    };
    match piece {
        Piece::Failed(error) => results.add_unreadable(&error),
        Piece::Jobs(part) => work_off_part(&part, work, &mut results),
        Piece::Files(files) => {
            for file in files {
                let read = file.and_then(|file| {
                    let bytes = input::job_bytes(&file, form)?;
                    Ok((input::name_of(&file), bytes))
                });
                match read {
                    Err(error) => results.add_unreadable(&error),
                    Ok((name, bytes)) => work.add_job(&Place::of(&name), &bytes, &mut results),
                }
            }
        }
    }
    results
}

fn work_off_part(part: &Part, work: &impl Work, results: &mut Results) {
    let (mut job, mut start) = (part.job, 0);
    while let Some(length) = job_length(&part.bytes[start..]) {
        let place = Place {
            file: &part.file,
            in_stream: Some((job, part.byte + start as u64)),
        };
        work.add_job(&place, &part.bytes[start..start + length], results);
        start += length;
        job += 1;
    }
    results.tally.bytes += start as u64;
}
