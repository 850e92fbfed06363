//! `install`: what it puts where, and a C program that is built by pkg-config's flags alone.
#![cfg(all(feature = "library", feature = "program"))]

use outside_checks::empty_folder;
use std::fs;
use std::os::unix::fs::PermissionsExt;
use std::path::{Path, PathBuf};
use std::process::{Command, Output};

const ROOT: &str = concat!(env!("CARGO_MANIFEST_DIR"), "/..");
const FILES: [&str; 5] = [
    "bin/hanthuvelo",
    "bin/hanthuvelo-print",
    "include/hanthuvelo.h",
    "lib/libhanthuvelo.a",
    "lib/pkgconfig/hanthuvelo.pc",
];

fn folder(name: &str) -> PathBuf {
    empty_folder(env!("CARGO_TARGET_TMPDIR"), name)
}

/// Runs a command that must end well; what it prints.
fn output(command: &mut Command) -> String {
    let output: Output = command.output().expect("a command");
    let said = String::from_utf8_lossy(&output.stderr);
    assert!(output.status.success(), "{command:?}: {said}");
    String::from_utf8_lossy(&output.stdout).into_owned()
}

fn install(prefix: &str) -> Command {
    let mut command = Command::new(format!("{ROOT}/install"));
    command.arg(prefix).current_dir(ROOT);
    command
}

/// All files below a folder, by their paths from there.
fn files_below(folder: &Path) -> Vec<String> {
    let listed = output(
        Command::new("find")
            .current_dir(folder)
            .args([".", "-type", "f", "-printf", "%P\\n"]),
    );
    let mut files: Vec<String> = listed.lines().map(str::to_string).collect();
    files.sort();
    files
}

#[test]
fn a_c_program_needs_the_flags_alone() {
    let folder = folder("install");
    let prefix = folder.join("prefix");
    let name = prefix.to_str().expect("a plain name");
    output(&mut install(name));
    assert_eq!(files_below(&prefix), FILES);
    for (file, mode) in FILES.iter().zip([0o755, 0o755, 0o644, 0o644]) {
        let known = fs::metadata(prefix.join(file)).expect("an installed file");
        assert_eq!(known.permissions().mode() & 0o777, mode, "{file}");
    }
    let line = "cc -std=c99 -Wall -Wextra -Werror \"$0\"/*.c $(pkg-config --cflags --libs hanthuvelo) -o program && ./program";
    let mut shell = Command::new("sh");
    shell.args(["-c", line, &format!("{ROOT}/tests/c")]);
    shell.current_dir(&folder);
    output(shell.env("PKG_CONFIG_PATH", prefix.join("lib/pkgconfig")));
    let version = output(
        Command::new("pkg-config")
            .args(["--modversion", "hanthuvelo"])
            .env("PKG_CONFIG_PATH", prefix.join("lib/pkgconfig")),
    );
    assert_eq!(version.trim(), env!("CARGO_PKG_VERSION"));
    let example = format!("{ROOT}/examples/h01.job");
    let command = prefix.join("bin/hanthuvelo");
    let told = output(Command::new(&command).args(["recover", &example]));
    assert!(
        told.ends_with("\n  f1 = 5\n  wrong rows: 2 (u = 2)\n  margin: 1\n"),
        "{told}"
    );
    let line = "bin/hanthuvelo pack \"$0\" | bin/hanthuvelo-print";
    let mut shell = Command::new("sh");
    let printed = output(shell.args(["-c", line, &example]).current_dir(&prefix));
    assert_eq!(printed, "recovered 1\nwrong 2\ng 1\nf1 5\nmargin 1\n");
}

/// For a package: the files stand below DESTDIR, which may be named from the folder that one is in,
/// and speak of the prefix.
#[test]
fn files_can_be_staged() {
    let folder = folder("staged");
    let mut command = Command::new("bash");
    command.args([&format!("{ROOT}/install"), "/opt/somewhere"]);
    output(command.current_dir(&folder).env("DESTDIR", "stage"));
    let below = folder.join("stage/opt/somewhere");
    assert_eq!(files_below(&below), FILES);
    let described = fs::read_to_string(below.join(FILES[4])).expect("pkg-config's file");
    assert!(
        described.starts_with("prefix=/opt/somewhere\n"),
        "{described}"
    );
}

#[test]
fn a_prefix_is_asked_for() {
    for words in [&[][..], &["a", "b"], &["--help"], &[""]] {
        let mut command = Command::new("bash");
        command.arg("install").args(words).current_dir(ROOT);
        let output = command.output().expect("bash");
        assert_eq!(output.status.code(), Some(2), "{words:?}");
        assert_eq!(output.stderr, b"usage: ./install PREFIX\n", "{words:?}");
    }
}
