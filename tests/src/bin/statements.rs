//! Says what `docs/STATEMENTS.md` lacks or shows otherwise than the files: `cargo run --offline --release --no-default-features --bin statements`.
//! With `--write` the definitions on the page are written anew from their files first.

use outside_checks::statements::{
    beyond_need, complaints, missing_blocks, page::Page, repository, PAGE,
};
use std::fs;
use std::process::ExitCode;

fn main() -> ExitCode {
    match run() {
        Ok(true) => ExitCode::SUCCESS,
        Ok(false) => ExitCode::FAILURE,
        Err(message) => {
            eprintln!("{message}");
            ExitCode::FAILURE
        }
    }
}

/// Whether the page is right.
fn run() -> Result<bool, String> {
    let root = repository();
    let path = root.join(PAGE);
    let mut text = fs::read_to_string(&path).map_err(|error| format!("{PAGE}: {error}"))?;
    let words: Vec<String> = std::env::args().skip(1).collect();
    match words.iter().map(String::as_str).collect::<Vec<&str>>()[..] {
        [] => {}
        ["--write"] => {
            text = Page::parse(&text).refreshed(&root, &text);
            fs::write(&path, &text).map_err(|error| format!("{PAGE}: {error}"))?;
        }
        _ => return Err("usage: statements [--write]".to_string()),
    }
    let found = complaints(&root, &text);
    for complaint in &found {
        println!("{complaint}");
    }
    for extra in beyond_need(&root, &text) {
        println!("no demand rests on {extra}");
    }
    for block in missing_blocks(&root, &text) {
        println!("\n{block}");
    }
    Ok(found.is_empty())
}
