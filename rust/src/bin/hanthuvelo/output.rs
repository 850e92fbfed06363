//! Standard output and standard error, without a panic where either is gone.

use crate::Status;
use std::fs::File;
use std::io::{self, ErrorKind, Write};
use std::os::fd::AsFd;

/// Why a verb could not go on.
pub enum Failure {
    /// Words that do not fit the verb.
    Use(String),
    /// An input that cannot be read, with its name.
    Input(String),
    /// An output that takes nothing.
    Output(io::Error),
}

impl Failure {
    pub fn bad_use(message: impl Into<String>) -> Failure {
        Failure::Use(message.into())
    }

    /// The same, with the verb before a message about its words.
    pub fn of_verb(self, name: &str) -> Failure {
        match self {
            Failure::Use(message) => Failure::Use(format!(
                "hanthuvelo {name}: {message}; see `hanthuvelo {name} --help`"
            )),
            other => other,
        }
    }

    /// What is said of it; nothing where the output's reader has simply gone.
    pub fn message(&self) -> Option<String> {
        match self {
            Failure::Use(message) | Failure::Input(message) => Some(message.clone()),
            Failure::Output(error) if error.kind() == ErrorKind::BrokenPipe => None,
            Failure::Output(error) => Some(format!("standard output: {error}")),
        }
    }
}

/// Standard output without a buffer: what is written in one piece leaves in one piece.
pub fn standard() -> Result<File, Failure> {
    let owned = io::stdout().as_fd().try_clone_to_owned();
    owned.map(File::from).map_err(Failure::Output)
}

/// Writes all of a verb's output.
pub fn print(bytes: &[u8]) -> Result<Status, Failure> {
    standard()?.write_all(bytes).map_err(Failure::Output)?;
    Ok(Status::Done)
}

/// A line on standard error; if that is gone too, nobody is there to be told.
pub fn say(message: &str) {
    let _ = writeln!(io::stderr(), "{}", message.trim_end());
}
