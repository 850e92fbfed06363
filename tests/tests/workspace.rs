//! The Cargo workspace in a copy that has no archive of the library.

use outside_checks::empty_folder;
use std::path::{Path, PathBuf};
use std::process::{Command, Output};

const ROOT: &str = concat!(env!("CARGO_MANIFEST_DIR"), "/..");

/// The Rust side of the repository alone.
fn copy(name: &str) -> PathBuf {
    let folder = empty_folder(env!("CARGO_TARGET_TMPDIR"), name);
    let copied = Command::new("cp")
        .args([
            ".cargo",
            "Cargo.toml",
            "Cargo.lock",
            "rust",
            "tests",
            "-r",
            "-t",
        ])
        .arg(&folder)
        .current_dir(ROOT)
        .status();
    assert!(copied.expect("cp").success());
    folder
}

fn build(folder: &Path, words: &[&str]) -> Output {
    Command::new("cargo")
        .args(["build", "--offline", "--package", "hanthuvelo"])
        .args(words)
        .current_dir(folder)
        .env_remove("CARGO_TARGET_DIR")
        .output()
        .expect("cargo")
}

#[test]
fn a_missing_archive_is_named_with_what_to_run() {
    let folder = copy("no-archive");
    let output = build(&folder, &[]);
    let said = String::from_utf8_lossy(&output.stderr);
    assert!(!output.status.success());
    let missing =
        "target/staticlib/libcapi.a is missing: run `scripts/build archive` in the repository's root";
    assert!(said.contains(missing), "{said}");
}

/// Without the library there are the formats; and cargo leaves `target/` to what is made of the proved crates.
#[test]
fn the_formats_are_built_without_the_archive() {
    let folder = copy("formats-alone");
    let output = build(&folder, &["--no-default-features"]);
    assert!(output.status.success(), "{output:?}");
    assert!(folder.join("build/debug").is_dir());
    assert!(!folder.join("target").exists());
}
