//! Says whether the table of crates in `docs/LAYOUT.md` is that of their sources: `cargo run --release --bin layout`.
//! With `--write` it is written anew first.

use outside_checks::crate_table::{table, with_table, PAGE};
use outside_checks::statements::repository;
use std::fs;
use std::process::ExitCode;

fn main() -> ExitCode {
    match run() {
        Ok(()) => ExitCode::SUCCESS,
        Err(message) => {
            eprintln!("{message}");
            ExitCode::FAILURE
        }
    }
}

fn run() -> Result<(), String> {
    let path = repository().join(PAGE);
    let error = |error: std::io::Error| format!("{PAGE}: {error}");
    let page = fs::read_to_string(&path).map_err(error)?;
    let expected = with_table(&page, &table(&repository())?);
    let words: Vec<String> = std::env::args().skip(1).collect();
    match &words[..] {
        [] if page == expected => Ok(()),
        [] => Err(format!("{PAGE} has another table: write it with --write")),
        [word] if word == "--write" => fs::write(&path, expected).map_err(error),
        _ => Err("usage: layout [--write]".to_string()),
    }
}
