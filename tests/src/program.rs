//! Runs the printing program.

use std::io::{ErrorKind, Write};
use std::path::PathBuf;
use std::process::{Child, Command, Output, Stdio};
use std::thread::sleep;
use std::time::{Duration, Instant};

const PATIENCE: Duration = Duration::from_secs(10);

/// Where the program stands once it is built.
pub fn path() -> PathBuf {
    PathBuf::from(concat!(env!("CARGO_MANIFEST_DIR"), "/../target/bin/print"))
}

/// The program's output for an input that comes in pieces, with a pause between them.
pub fn run(pieces: &[&[u8]]) -> Result<Output, String> {
    let mut child = start(&mut Command::new(path()))?;
    send(&mut child, pieces)?;
    wait(child)
}

/// The same where nobody reads: the output's other end is closed before the input comes.
pub fn run_unread(input: &[u8]) -> Result<Output, String> {
    let mut child = start(&mut Command::new(path()))?;
    drop(child.stdout.take());
    send(&mut child, &[input])?;
    wait(child)
}

/// The same with a redirection in the shell's words, as `>&-` for an output that is closed.
pub fn run_redirected(redirection: &str, input: &[u8]) -> Result<Output, String> {
    let line = format!("exec \"$0\" {redirection}");
    let mut child = start(Command::new("sh").arg("-c").arg(line).arg(path()))?;
    send(&mut child, &[input])?;
    wait(child)
}

fn start(command: &mut Command) -> Result<Child, String> {
    if !path().is_file() {
        let command = "build it in the repository's root with `scripts/build program`";
        return Err(format!(
            "target/bin/print is missing: {command}, or leave it out by `--no-default-features`"
        ));
    }
    command
        .stdin(Stdio::piped())
        .stdout(Stdio::piped())
        .stderr(Stdio::piped())
        .spawn()
        .map_err(|error| format!("the program does not start: {error}"))
}

/// Writes the pieces and closes the input. A program that has read all it wants may close first.
fn send(child: &mut Child, pieces: &[&[u8]]) -> Result<(), String> {
    let mut input = child.stdin.take().ok_or("the program has no input")?;
    for (index, piece) in pieces.iter().enumerate() {
        if index > 0 {
            sleep(Duration::from_millis(2));
        }
        match input.write_all(piece).and_then(|()| input.flush()) {
            Err(error) if error.kind() == ErrorKind::BrokenPipe => return Ok(()),
            result => result.map_err(|error| format!("writing the input failed: {error}"))?,
        }
    }
    Ok(())
}

/// The output is short enough to stay in the pipe until the program ends.
fn wait(mut child: Child) -> Result<Output, String> {
    let start = Instant::now();
    while child
        .try_wait()
        .map_err(|error| error.to_string())?
        .is_none()
    {
        if start.elapsed() > PATIENCE {
            child.kill().map_err(|error| error.to_string())?;
            return Err(format!("the program did not end within {PATIENCE:?}"));
        }
        sleep(Duration::from_micros(200));
    }
    child.wait_with_output().map_err(|error| error.to_string())
}
