//! The C header: a C program that includes it and calls the library, compiled as C and as C++.
#![cfg(feature = "library")]

use std::fs;
use std::path::{Path, PathBuf};
use std::process::Command;

/// The program's files.
fn sources(folder: &Path) -> Vec<PathBuf> {
    let files = fs::read_dir(folder).expect("the folder of the C program");
    let files = files.map(|entry| entry.expect("a file").path());
    files
        .filter(|path| path.extension().is_some_and(|end| end == "c"))
        .collect()
}

/// Compiles the program with these words before its files, and runs it.
fn compile_and_run(compiler: &str, words: &[&str], name: &str) {
    let root = Path::new(env!("CARGO_MANIFEST_DIR")).join("..");
    let program = Path::new(env!("CARGO_TARGET_TMPDIR")).join(name);
    let compiled = Command::new(compiler)
        .args(["-Wall", "-Wextra", "-Werror", "-I"])
        .arg(root.join("include"))
        .args(words)
        .args(sources(&root.join("tests/c")))
        .args(["-x", "none"])
        .arg(root.join("target/staticlib/libcapi.a"))
        .arg("-o")
        .arg(&program)
        .output()
        .unwrap_or_else(|error| panic!("{compiler}: {error}"));
    let said = String::from_utf8_lossy(&compiled.stderr);
    assert!(compiled.status.success(), "{said}");
    let output = Command::new(&program).output().expect("the program starts");
    let said = String::from_utf8_lossy(&output.stdout);
    assert!(output.status.success(), "{said}");
}

#[test]
fn a_c_program_calls_the_library() {
    compile_and_run("cc", &["-std=c99"], "header");
}

#[test]
fn it_is_a_program_of_c_plus_plus_too() {
    compile_and_run("c++", &["-std=c++11", "-x", "c++"], "header-c++");
}
