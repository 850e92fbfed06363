//! Writes the bytes of a readable job, as `hanthuvelo pack` does, but without the library, so that nothing has to be proved for it:
//! `cargo run --release --no-default-features --bin pack-job -- FILE`.

use hanthuvelo::readable;
use std::io::Write;
use std::process::ExitCode;

fn main() -> ExitCode {
    let packed = match std::env::args_os().nth(1) {
        Some(file) => pack(&file),
        None => Err("usage: pack-job FILE".to_string()),
    };
    let written = packed.and_then(|bytes| {
        let written = std::io::stdout().write_all(&bytes);
        written.map_err(|error| format!("standard output: {error}"))
    });
    match written {
        Ok(()) => ExitCode::SUCCESS,
        Err(message) => {
            eprintln!("{message}");
            ExitCode::FAILURE
        }
    }
}

fn pack(file: &std::ffi::OsStr) -> Result<Vec<u8>, String> {
    let name = file.to_string_lossy();
    let bytes = std::fs::read(file).map_err(|error| format!("{name}: {error}"))?;
    let job = readable::parse(&bytes).map_err(|error| format!("{name}, {error}"))?;
    Ok(job.pack())
}
