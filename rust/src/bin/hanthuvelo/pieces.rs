//! What there is to do, in pieces for a thread each: files, or whole jobs of a stream.

use crate::input::{error_of, unreadable, InputError};
use crate::job_stream::{Part, Streams};
use crate::progress::Extent;
use std::ffi::{OsStr, OsString};
use std::path::{Path, PathBuf};
use std::{fs, io};

/// How many files are worked off as one piece.
const FILES_IN_A_PIECE: usize = 16;

/// A piece of work for one thread.
pub enum Piece {
    Files(Vec<Result<OsString, InputError>>),
    Jobs(Part),
    Failed(InputError),
}

/// All there is to do.
pub enum Pieces {
    Files {
        rest: std::vec::IntoIter<Result<OsString, InputError>>,
        are_many: bool,
    },
    Streams {
        streams: Streams,
        extent: Extent,
    },
}

impl Pieces {
    pub fn new(files: &[OsString], is_stream: bool) -> Pieces {
        if is_stream {
            let lengths: Option<Vec<u64>> = files.iter().map(|file| length_of(file)).collect();
            return Pieces::Streams {
                streams: Streams::new(files),
                extent: lengths.map_or(Extent::Unknown, |all| Extent::Bytes(all.iter().sum())),
            };
        }
        let all: Vec<_> = files.iter().flat_map(|file| with_folders(file)).collect();
        let are_many = all.len() > 1 || files.iter().any(|file| is_folder(file));
        Pieces::Files {
            rest: all.into_iter(),
            are_many,
        }
    }

    pub fn are_many(&self) -> bool {
        match self {
            Pieces::Files { are_many, .. } => *are_many,
            Pieces::Streams { .. } => true,
        }
    }

    pub fn extent(&self) -> Extent {
        match self {
            Pieces::Files { rest, .. } => Extent::Files(rest.len() as u64),
            Pieces::Streams { extent, .. } => *extent,
        }
    }

    pub fn next(&mut self) -> Option<Piece> {
        match self {
            Pieces::Files { rest, .. } => {
                let files: Vec<_> = rest.take(FILES_IN_A_PIECE).collect();
                (!files.is_empty()).then_some(Piece::Files(files))
            }
            Pieces::Streams { streams, .. } => Some(match streams.next()? {
                Ok(part) => Piece::Jobs(part),
                Err(error) => Piece::Failed(error),
            }),
        }
    }
}

fn is_folder(file: &OsStr) -> bool {
    file != "-" && Path::new(file).is_dir()
}

/// The length of a file that has one beforehand.
fn length_of(file: &OsStr) -> Option<u64> {
    let known = fs::metadata(file).ok().filter(|known| known.is_file());
    known.map(|known| known.len()).filter(|_| file != "-")
}

/// A file itself; of a folder the files in it that end in `.job`, by their names.
fn with_folders(file: &OsStr) -> Vec<Result<OsString, InputError>> {
    if !is_folder(file) {
        return vec![Ok(file.to_owned())];
    }
    let expected = "a folder of files that end in .job";
    let paths = match fs::read_dir(file).and_then(paths_in) {
        Err(error) => return vec![Err(unreadable(file, expected, &error))],
        Ok(paths) => paths,
    };
    let jobs = paths.into_iter().filter(|path| is_job(path));
    let mut found: Vec<OsString> = jobs.map(OsString::from).collect();
    if found.is_empty() {
        return vec![Err(error_of(
            file,
            format!("expected {expected}, found none"),
        ))];
    }
    found.sort();
    found.into_iter().map(Ok).collect()
}

fn paths_in(entries: fs::ReadDir) -> io::Result<Vec<PathBuf>> {
    entries.map(|entry| Ok(entry?.path())).collect()
}

fn is_job(path: &Path) -> bool {
    path.extension().is_some_and(|extension| extension == "job")
}
