//! Words, files and answers that the command does not take: each is named, with what was expected.

mod support;

use support::{assert_bad_use, assert_fails, file, folder, run, run_on};

/// Words behind `hanthuvelo`, the verb first, and what is said of them.
const BAD_WORDS: &str = "\
recover: expected a file
recover --jsn x: unknown option `--jsn`
recover --json --bytes x: --json and --bytes exclude each other
recover --hex x: expected --bytes beside --hex
recover --stream --readable x: --stream and --readable exclude each other
recover --readable --binary x: --readable and --binary exclude each other
recover --threads: expected a value behind --threads
recover --threads 0 x: expected a number from 1 to 1024 behind --threads, found `0`
recover --refused x: unknown option `--refused`
recover - -: expected - once at most
check: expected a file
check --refused: expected a file
check --bytes x: unknown option `--bytes`
check --hex x: unknown option `--hex`
check --stream --readable x: --stream and --readable exclude each other
check --readable --binary x: --readable and --binary exclude each other
check --threads: expected a value behind --threads
check --threads 0 x: expected a number from 1 to 1024 behind --threads, found `0`
check - -: expected - once at most
pack: expected a file
pack --json x: unknown option `--json`
show: expected a file
unpack: expected a job and an answer
unpack -: expected a job and an answer
unpack x y z: expected a job and an answer
judge: expected a job and an answer
judge -: expected a job and an answer
judge x y z: expected a job and an answer
judge - -: expected - once at most
judge --bytes x y: unknown option `--bytes`
judge --stream x y: unknown option `--stream`
judge --readable --binary x y: --readable and --binary exclude each other
trial: expected a file
trial --binary x: unknown option `--binary`
trial --hex x: expected --bytes beside --hex
trial x --start: expected a value behind --start
trial --start -1 x: expected a number from 0 to 4294967295 behind --start, found `-1`
trial --spoiled two x: expected a number from 0 to 4294967295 behind --spoiled, found `two`
trial - -: expected - once at most
";

#[test]
fn bad_words_are_named() {
    let verbs = "expected a verb of recover, check, pack, show, unpack, judge, trial, reciprocal";
    let unknown = format!("hanthuvelo: {verbs}, found `recovr`");
    assert_fails(&run(&["recovr", "x"]), &unknown);
    for line in BAD_WORDS.lines() {
        let (words, message) = line.split_once(": ").expect("words and a message");
        let (verb, words) = words.split_once(' ').unwrap_or((words, ""));
        assert_bad_use(verb, words, message);
    }
    assert_eq!(BAD_WORDS.lines().count(), 39);
    let dashed = run(&["recover", "--", "--json"]);
    assert_fails(&dashed, &format!("--json{MISSING}"));
}

const MISSING: &str = ": expected a job: No such file or directory (os error 2)";
const TOO_LONG: &str = ": expected a job, found more than 1048576 bytes";

#[test]
fn files_that_cannot_be_read_are_named() {
    let folder = folder("unreadable");
    let bad = b"prime 7 outputs 1 df 0 dg 0 errors 1\n0 5\n";
    let bad = file(&folder, "bad.job", bad);
    let large = file(&folder, "large.job", &vec![b'#'; (1 << 20) + 1]);
    let latin = file(&folder, "latin.job", b"# caf\xE9\nprime 7");
    let script = "set -euo pipefail";
    let script = file(
        &folder,
        "script",
        format!("# a script\n{script}\n").as_bytes(),
    );
    for (name, message) in [
        ("none.job", MISSING),
        ("", MISSING),
        (&bad, ", line 2: expected `point: values`, found `0 5`"),
        (&large, TOO_LONG),
        (&latin, ", line 1: expected text in UTF-8"),
        ("/dev/zero", TOO_LONG),
        (
            "/proc/self/mem",
            ": expected a job: Input/output error (os error 5)",
        ),
        (
            &script,
            ", line 2: expected `prime P outputs N df D.. dg D errors E`, found `set -euo pipefail`",
        ),
    ] {
        for verb in ["recover", "check", "pack", "show"] {
            assert_fails(&run(&[verb, name]), &format!("{name}{message}"));
        }
    }
    for verb in ["pack", "show", "unpack"] {
        let directory = run(&[verb, "examples"]);
        assert_fails(&directory, "examples: expected a job: found a directory");
    }
}

#[test]
fn answers_that_cannot_be_read_are_named() {
    for (words, input, message) in [
        (
            "--hex",
            &b"2000\n000g"[..],
            ", line 2: expected hexadecimal digits, found 'g'",
        ),
        (
            "--hex",
            b"2000000",
            ", line 1: expected two hexadecimal digits for each byte, found one",
        ),
        (
            "--readable",
            b"\x20\0\0\0",
            ": expected 8 bytes for this job's answer, found 4",
        ),
    ] {
        let run = run_on(&["unpack", words, "examples/h01.job"], input);
        assert_fails(&run, &format!("standard input{message}"));
    }
}
