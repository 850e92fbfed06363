//! The gate, `.ci/run`, and what it asks of the wrong programs, `scripts/refusals`, in a copy where nothing is proved: `rt` and
//! `cargo` are stubs that say what they are told to.

use outside_checks::{put_script, Outside};
use std::fs;
use std::path::Path;
use std::process::{Command, Output};

const ROOT: &str = concat!(env!("CARGO_MANIFEST_DIR"), "/..");

/// What `rt ci` says of an edit that a contract refuses, behind the edit's name.
const REFUSED: &str =
    "refused, as it must be: proofs/f/Answers.antt:7:3: error: `high`: the two sides differ";
const WELL: &str = "rt: ok; handles allowed: none; must-fail edits: 2 refused; every proof and must-fail edit was done in this run";
const LAST: &str = "3 passed, 0 failed";

/// A copy with two wrong programs, and the stubs, which write down how they were called. `said` is what `rt ci` says, `status` how it ends.
fn copy(name: &str, said: &[String], status: i32) -> Outside {
    let copy = Outside::new(name);
    let folder = &copy.0;
    let copied = Command::new("cp")
        .args(["-r", "-t"])
        .arg(folder)
        .args([".ci", "scripts"])
        .current_dir(ROOT)
        .status();
    assert!(copied.expect("cp").success());
    for edit in ["low/must-fail/first.edit", "capi/must-fail/second.edit"] {
        let path = folder.join("crates").join(edit);
        fs::create_dir_all(path.parent().expect("a folder")).expect("a folder");
        fs::write(path, "file: src/lib.rt\nold: 1\nnew: 2\n").expect("an edit");
    }
    fs::create_dir_all(folder.join("crates/print")).expect("a folder");
    fs::write(
        folder.join("crates.txt"),
        "low:\ncapi staticlib: low\nprint: low\n",
    )
    .expect("a list");
    fs::write(folder.join("said"), said.join("\n") + "\n").expect("a log");
    let note = format!("echo \"$(basename $0) $*\" >> {}/calls\n", folder.display());
    let rt = format!(
        "case $1 in\nci) cat said; exit {status} ;;\nlib) mkdir -p out; touch out/libcapi.a ;;\nrun) mkdir -p out; touch out/print ;;\nesac\n"
    );
    fs::create_dir(folder.join("tools")).expect("a folder");
    put_script(&folder.join("tools"), "rt", &(note.clone() + &rt));
    put_script(&folder.join("tools"), "cargo", &note);
    copy
}

/// What `rt ci` says where the two edits come to this and its last lines are these.
fn said(first: &str, second: &str, last: &[&str]) -> Vec<String> {
    let edits = [
        format!("rt: must-fail low/first.edit: {first}"),
        format!("rt: must-fail capi/second.edit: {second}"),
    ];
    let last = last.iter().map(|line| line.to_string());
    edits.into_iter().chain(last).collect()
}

fn run(folder: &Path, words: &[&str]) -> Output {
    let path = std::env::var("PATH").expect("a path");
    Command::new(folder.join(words[0]))
        .args(&words[1..])
        .env("PATH", format!("{}/tools:{path}", folder.display()))
        .output()
        .expect("a script")
}

/// How the gate ends, what it prints, and how the tools were called.
fn gate(name: &str, said: &[String], status: i32) -> (bool, String, String) {
    let copy = copy(name, said, status);
    let output = run(&copy.0, &[".ci/run"]);
    let calls = fs::read_to_string(copy.0.join("calls")).expect("calls");
    let printed = String::from_utf8_lossy(&output.stdout).into_owned();
    (output.status.success(), printed, calls)
}

const PROVED: &str = "cargo fmt --check\nrt ci\n";
const BUILT: &str = "rt run\nrt lib\ncargo test --offline --release\n";

/// The check comes before anything is built, with no words, and its last line is the gate's.
#[test]
fn what_passes_ends_with_the_last_line_of_the_check() {
    for (name, ok) in [
        ("passes", WELL.to_string()),
        ("none-bad", WELL.replace("refused;", "refused, 0 bad;")),
    ] {
        let said = said(REFUSED, REFUSED, &[&ok, LAST]);
        let (passes, printed, calls) = gate(name, &said, 0);
        assert!(passes, "{printed}");
        assert_eq!(printed.lines().last(), Some(LAST));
        assert_eq!(calls, format!("{PROVED}{BUILT}"));
    }
}

#[test]
fn what_the_check_refuses_fails() {
    let bad = WELL.replace("2 refused;", "1 refused, 1 bad;");
    let limited = WELL.replace(
        "2 refused;",
        "2 refused, 1 of them only by a limit, 12 bad;",
    );
    for (name, ok, status) in [
        ("refused", WELL, 1),
        ("stopped", WELL, 2),
        ("one-bad", &bad, 0),
        ("more-bad", &limited, 0),
        ("no-line", "rt: FAILED: low", 0),
    ] {
        let said = said(REFUSED, REFUSED, &[ok, LAST]);
        let (passes, printed, calls) = gate(name, &said, status);
        assert!(!passes, "{name}: {printed}");
        assert_eq!(calls, PROVED, "{name}");
    }
}

/// What an edit can come to, and whether that shows something of a contract.
const REASONS: [(&str, bool, &str); 9] = [
    (REFUSED, true, ""),
    ("refused, as it must be", true, ""),
    (
        "refused, as it must be (only by a limit of the prover, which gave no verdict, so this says less of the contract: choose a change that it refuses sooner): stopped",
        true,
        "refused by a limit: crates/capi/must-fail/second.edit",
    ),
    (
        "refused, as it must be: src/lib.rt:4:9: error: `none_of`: is not in scope",
        false,
        "refused for no fact: crates/capi/must-fail/second.edit",
    ),
    (
        "refused, as it must be: proofs/Laws.antt:4:9: error: the record `Pair` has no field `a`",
        false,
        "refused for no fact: crates/capi/must-fail/second.edit",
    ),
    (
        "refused, as it must be (only because a proof file names what the edit took away, so this says little of the contract: change a value and keep the names): proofs/f/Answers.antt:2:1: error",
        false,
        "refused for no fact: crates/capi/must-fail/second.edit",
    ),
    (
        "BAD EDIT: an 'old:' text is in src/lib.rt 0 times, and not once",
        false,
        "not refused: crates/capi/must-fail/second.edit",
    ),
    (
        "NOT REFUSED: the crate is still proved with this edit",
        false,
        "not refused: crates/capi/must-fail/second.edit",
    ),
    (
        "NOT TRIED: its check was killed",
        false,
        "not refused: crates/capi/must-fail/second.edit",
    ),
];

#[test]
fn the_reason_of_each_refusal_is_looked_at() {
    for (number, (reason, passes, named)) in REASONS.into_iter().enumerate() {
        let said = said(REFUSED, reason, &[WELL, LAST]);
        let copy = copy(&format!("reason-{number}"), &said, 0);
        let output = run(
            &copy.0,
            &["scripts/refusals", &format!("{}/said", copy.0.display())],
        );
        let printed = String::from_utf8_lossy(&output.stdout);
        assert_eq!(output.status.success(), passes, "{reason}: {printed}");
        assert!(printed.contains(named), "{reason}: {printed}");
        assert_eq!(printed.lines().count(), 1 + usize::from(!named.is_empty()));
        drop(copy);
        let (is_through, printed, _) = gate(&format!("reason-{number}-gate"), &said, 0);
        assert_eq!(is_through, passes, "{reason}: {printed}");
    }
}

/// Another edit's line, or one of another crate, is not taken for it.
#[test]
fn an_edit_without_a_line_is_reported() {
    let said = vec![
        format!("rt: must-fail low/first.edit: {REFUSED}"),
        format!("rt: must-fail low/second.edit: {REFUSED}"),
        format!("rt: must-fail capi/second.edit.edit: {REFUSED}"),
    ];
    let copy = copy("no-line-of-an-edit", &said, 0);
    let output = run(
        &copy.0,
        &["scripts/refusals", &format!("{}/said", copy.0.display())],
    );
    assert!(!output.status.success());
    let printed = String::from_utf8_lossy(&output.stdout);
    assert!(
        printed.starts_with("not refused: crates/capi/must-fail/second.edit: not tried\n"),
        "{printed}"
    );
}
