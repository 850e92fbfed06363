//! `examples/run` and what it builds with: what is printed where, with a job, without one, while something is built or proved, and
//! where a toolchain is missing.
#![cfg(feature = "program")]

use outside_checks::crates::Crates;
use outside_checks::{empty_folder, put_script, Outside};
use std::collections::BTreeSet;
use std::fs;
use std::io::{BufRead, BufReader, Read};
use std::path::{Path, PathBuf};
use std::process::{Command, Output, Stdio};

const ROOT: &str = concat!(env!("CARGO_MANIFEST_DIR"), "/..");

/// The command from the repository's root; `rt` is looked for in `first` before anywhere else.
fn command(words: &[&str], first: Option<&Path>) -> Command {
    let mut command = Command::new(format!("{ROOT}/examples/run"));
    command.args(words).current_dir(ROOT).stdin(Stdio::null());
    if let Some(folder) = first {
        let rest = std::env::var("PATH").expect("a path");
        command.env("PATH", format!("{}:{rest}", folder.display()));
    }
    command
}

fn output(words: &[&str], first: Option<&Path>) -> Output {
    command(words, first).output().expect("bash runs")
}

fn text(bytes: &[u8]) -> String {
    String::from_utf8_lossy(bytes).into_owned()
}

fn example(name: &str) -> String {
    let path = format!("{ROOT}/examples/{name}");
    fs::read_to_string(&path).unwrap_or_else(|error| panic!("{path}: {error}"))
}

/// The lines of a text that name a crate with its number. What is begun is said too, where something is out of date.
fn proved(said: &str) -> String {
    let names = said.lines().filter(|line| is_numbered(line));
    names.map(|line| format!("{line}\n")).collect()
}

fn is_numbered(line: &str) -> bool {
    line.starts_with(|letter: char| letter.is_ascii_digit())
}

/// The lines of shell by which a stub says that a crate is proved, as `rt` does.
fn says_proved(name: &str) -> String {
    format!("echo 'crate {name}: modules loaded=9 checked=2'\necho 'logic=proved functions=3'\n")
}

/// A folder of this test's own with an `rt` that does what the lines of shell say.
fn with_stub(name: &str, lines: &str) -> PathBuf {
    let folder = empty_folder(env!("CARGO_TARGET_TMPDIR"), name);
    put_script(&folder, "rt", lines);
    folder
}

/// The crates of the repository that one of them needs, each behind those that it needs, itself last.
fn needed(top: &str) -> Vec<String> {
    fn visit(crates: &Crates, name: &str, found: &mut Vec<String>) {
        let Some(each) = crates.find(name) else {
            return;
        };
        if found.iter().all(|other| other != name) {
            each.used.iter().for_each(|used| visit(crates, used, found));
            found.push(name.to_string());
        }
    }
    let mut found = Vec::new();
    visit(&Crates::of_repository(), top, &mut found);
    found
}

/// The number of a crate among those that the printing program needs, and how many these are.
fn number_for_print(name: &str) -> String {
    let names = needed("print");
    let place = names.iter().position(|each| each == name);
    format!("{} of {}", place.expect("a crate") + 1, names.len())
}

#[test]
fn a_job_prints_the_programs_lines_alone() {
    for (words, expected) in [
        (vec![], "lowpass.out"),
        (vec!["examples/full.job"], "full.out"),
        (vec!["examples/h07.job"], "h07.out"),
    ] {
        let output = output(&words, None);
        let said = text(&output.stderr);
        assert!(output.status.success(), "{words:?}: {said}");
        assert_eq!(text(&output.stdout), example(expected), "{words:?}");
    }
}

#[test]
fn a_file_that_is_no_job_gives_its_error_alone() {
    let folder = with_stub("no-job", &says_proved("field"));
    let bad = folder.join("bad.job");
    fs::write(&bad, "prime 7 outputs 1 df 0 dg 0 errors 1\n0 5\n").expect("a file");
    let bad = bad.to_string_lossy();
    for (file, message) in [
        ("examples/none.job", "No such file"),
        ("no-folder/none.job", "No such file"),
        ("examples", "directory"),
        (&bad, "line 2: expected `point: values`, found `0 5`"),
        ("", "No such file"),
    ] {
        let output = output(&[file], Some(&folder));
        let said = text(&output.stderr);
        assert!(!output.status.success(), "{file}: {said}");
        assert_eq!(text(&output.stdout), "", "{file}");
        let last = said.lines().last().unwrap_or_default();
        assert_eq!(proved(&said), "", "{file}");
        assert!(last.starts_with(file) && last.contains(message), "{said}");
    }
    let many = output(&["examples/h01.job", "examples/h02.job"], Some(&folder));
    assert!(!many.status.success() && many.stdout.is_empty());
}

#[test]
fn each_crate_is_named_with_its_number() {
    let names = needed("print");
    assert!(names.len() > 10);
    let (last, others) = names.split_last().expect("the program");
    assert_eq!(last, "print");
    let others: BTreeSet<String> = others.iter().cloned().collect();
    assert_eq!(others, Crates::of_repository().below("print"));
    let mut lines = String::new();
    let mut expected = String::new();
    for (index, name) in names.iter().enumerate() {
        let (number, all) = (index + 1, names.len());
        // Of a crate that is unchanged rt says nothing, or with what it begins.
        if index % 3 == 1 {
            lines += &format!("echo 'rt: {name}: begins with what a check kept in elsewhere'\n");
        } else {
            lines += &format!("echo 'fn {name}::f: proved'\n{}", says_proved(name));
            expected += &format!("{number} of {all}  {name}\n");
        }
    }
    let folder = with_stub("named", &lines);
    let output = output(&[], Some(&folder));
    assert!(output.status.success());
    assert_eq!(proved(&text(&output.stderr)), expected);
    assert_eq!(text(&output.stdout), example("lowpass.out"));
}

/// The stub waits after its first crate until the test has read that crate's line, ten seconds at most.
#[test]
fn a_crate_is_named_before_the_next_is_proved() {
    let wait = "cd \"$(dirname \"$0\")\"\n\
        for i in $(seq 200); do [ -e go ] && break; sleep 0.05; done\n\
        [ -e go ] || touch late\n";
    let (field, poly) = (says_proved("field"), says_proved("poly"));
    let lines = format!("{field}{wait}{poly}");
    let folder = with_stub("before", &lines);
    let mut child = command(&[], Some(&folder))
        .stdout(Stdio::piped())
        .stderr(Stdio::piped())
        .spawn()
        .expect("bash runs");
    let mut errors = BufReader::new(child.stderr.take().expect("standard error"));
    let mut line = String::new();
    while !is_numbered(&line) {
        line.clear();
        assert_ne!(errors.read_line(&mut line).expect("a line"), 0);
    }
    fs::write(folder.join("go"), "").expect("a file");
    assert_eq!(line, format!("{}  field\n", number_for_print("field")));
    let mut rest = String::new();
    errors.read_to_string(&mut rest).expect("the rest");
    assert_eq!(rest, format!("{}  poly\n", number_for_print("poly")));
    assert!(!folder.join("late").exists(), "the line came too late");
    let output = child.wait_with_output().expect("an end");
    assert!(output.status.success());
    assert_eq!(text(&output.stdout), example("lowpass.out"));
}

#[test]
fn a_failed_proof_shows_what_the_check_said() {
    let last = "rt: the library poly did not build, so nothing above it was checked";
    let failed =
        "echo 'crate poly: modules loaded=9 checked=2'\necho 'logic=not-proved functions=3'\n";
    let lines = format!("{}{failed}echo '{last}'\nexit 1\n", says_proved("field"));
    let folder = with_stub("failed", &lines);
    let output = output(&[], Some(&folder));
    let said = text(&output.stderr);
    assert!(!output.status.success() && output.stdout.is_empty());
    assert!(said.contains(last), "{said}");
    let named = format!("{}  field\n", number_for_print("field"));
    assert_eq!(proved(&said), named);
}

/// A copy of the repository in which nothing is built, and programs that only seem to build something.
fn bare_copy(name: &str) -> (Outside, PathBuf) {
    let copy = Outside::new(name);
    let folder = &copy.0;
    let words = ["crates.txt", "hanthuvelo", "install", "examples", "scripts"];
    for built in ["crates/print", "crates/capi"] {
        fs::create_dir_all(folder.join(built)).expect("a folder");
    }
    let copied = Command::new("cp")
        .args(["-r", "-t"])
        .arg(folder)
        .args(words)
        .current_dir(ROOT)
        .status();
    assert!(copied.expect("cp").success());
    let tools = empty_folder(env!("CARGO_TARGET_TMPDIR"), &format!("{name}-tools"));
    let make = |file: &str, line: &str| {
        format!("mkdir -p \"$(dirname {file})\"; printf '#!/bin/sh\\n{line}\\n' > {file}; chmod +x {file}\n")
    };
    let archive = "mkdir -p out; touch out/libcapi.a";
    let program = make("out/print", "echo printed");
    let rt = format!("case $1 in\nlib) {archive} ;;\nrun) {program} ;;\nesac\n");
    put_script(&tools, "rt", &(rt + &says_proved("field")));
    let cargo = make("build/release/pack-job", "echo packed")
        + &make("build/release/hanthuvelo", "echo done");
    put_script(&tools, "cargo", &cargo);
    (copy, tools)
}

fn run_in(folder: &Path, tools: &Path, words: &[&str]) -> Output {
    let path = std::env::var("PATH").expect("a path");
    Command::new(folder.join(words[0]))
        .args(&words[1..])
        .env("PATH", format!("{}:{path}", tools.display()))
        .output()
        .expect("a script")
}

#[test]
fn what_is_begun_is_said_where_nothing_is_built() {
    let proving = |top: &str| {
        let names = needed(top);
        let field = names.iter().position(|name| name == "field");
        let (number, all) = (field.expect("the crate") + 1, names.len());
        format!("proving {top} and what it needs, {all} crates\n{number} of {all}  field\n")
    };
    let (print, capi) = (proving("print"), proving("capi"));
    let (folder, tools) = bare_copy("begun-run");
    let output = run_in(&folder.0, &tools, &["examples/run"]);
    assert_eq!(
        text(&output.stderr),
        format!("building the reader of jobs\n{print}")
    );
    assert_eq!(text(&output.stdout), "printed\n");
    let (folder, tools) = bare_copy("begun-command");
    let output = run_in(&folder.0, &tools, &["hanthuvelo", "recover"]);
    assert_eq!(
        text(&output.stderr),
        format!("{capi}building the command\n")
    );
    assert_eq!(text(&output.stdout), "done\n");
}

/// A path with the few commands that a script needs to come to its first word, and no toolchain.
fn without_toolchain(name: &str) -> PathBuf {
    let folder = empty_folder(env!("CARGO_TARGET_TMPDIR"), name);
    for tool in [
        "bash", "dirname", "mktemp", "rm", "mkdir", "flock", "find", "sed", "realpath",
    ] {
        let found = Command::new("sh")
            .args(["-c", &format!("command -v {tool}")])
            .output();
        let place = text(&found.expect("sh").stdout);
        std::os::unix::fs::symlink(place.trim(), folder.join(tool)).expect("a link");
    }
    folder
}

#[test]
fn a_missing_toolchain_is_said_in_a_sentence() {
    let (bare, _) = bare_copy("missing");
    let folder = &bare.0;
    let tools = without_toolchain("missing-path");
    let place = folder.join("place");
    let place = place.to_str().expect("a plain name");
    let rattle = "the Rattle toolchain is missing: there is no command `rt` (docs/manual/installing.md says what is needed)\n";
    let rust = "the Rust toolchain is missing: there is no command `cargo` (docs/manual/installing.md says what is needed)\n";
    for (words, expected) in [
        (&["hanthuvelo", "recover"][..], rattle),
        (&["install", place], rattle),
        (&["examples/run"], rust),
    ] {
        let output = Command::new("bash")
            .arg(folder.join(words[0]))
            .args(&words[1..])
            .env("PATH", &tools)
            .env("CARGO_HOME", folder)
            .output()
            .expect("bash");
        assert_eq!(text(&output.stderr), expected, "{words:?}");
        assert_eq!(
            (text(&output.stdout).as_str(), output.status.code()),
            ("", Some(2))
        );
    }
    assert!(!Path::new(place).exists());
}
