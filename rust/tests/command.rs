//! The command on one job or a few: what it prints where, its exit status, and bad words and inputs.

mod support;

use hanthuvelo::hex;
use outside_checks::jobs::{generate, Random};
use std::fs;
use support::own_bounds::{has_own_bounds, known_by};
use support::{
    assert_done, assert_fails, command, example_names, feed, file, folder, run, run_on,
    run_redirected, stream_jobs, Run, ROOT,
};

const H1: &str = "01800200000005000100050002 0002";
const POLES: &str = "\
examples/poles.job: recovered modulo 97
  f1 = (1 + 2 u) / (15 + 89 u + u^2)
  f2 = (4 + u^2) / (15 + 89 u + u^2)
  wrong rows: 3 (u = 3), 5 (u = 5), 8 (u = 8), 10 (u = 10)
  margin: 1
";

fn h1() -> Vec<u8> {
    hex::bytes(H1).expect("bytes")
}

#[test]
fn recover_prints_fractions_and_wrong_rows() {
    assert_done(&run(&["recover", "examples/poles.job"]), POLES);
    let h8 = "\
standard input: recovered modulo 7
  f1 = 1 / (1 + u)
  f2 = u / (1 + u)
  wrong rows: none
  margin: 1
";
    let readable = fs::read(format!("{ROOT}/examples/h08.job")).expect("an example");
    assert_done(&run_on(&["recover", "-"], &readable), h8);
    let packed = run(&["pack", "examples/h08.job"]).out;
    assert_done(&run_on(&["recover", "-"], &packed), h8);
}

#[test]
fn recover_gives_bytes_and_objects() {
    let bytes = run(&["recover", "--bytes", "examples/h01.job"]);
    assert_eq!(bytes.out, [0x20, 0, 0, 0, 0, 1, 0, 5]);
    assert_eq!(bytes.status, 0);
    let text = run(&["recover", "--bytes", "--hex", "examples/h01.job"]);
    assert_done(&text, "2000000000010005\n");
    let object = run(&["recover", "--json", "examples/h03.job"]);
    assert_done(
        &object,
        "{\"file\":\"examples/h03.job\",\"status\":\"recovered\",\"prime\":7,\"g\":[0,1],\"f\":[[1]],\
         \"wrong\":[{\"row\":0,\"point\":0}],\"margin\":1}\n",
    );
    let zero = run(&["recover", "--json", "examples/h05.job"]);
    assert!(
        zero.text.contains("\"g\":[1],\"f\":[[0]],"),
        "{}",
        zero.text
    );
}

#[test]
fn a_refusal_is_said_in_words() {
    let words = "refused 5, row 0: a point or a value is 65521 or more\n";
    let text = run(&["recover", "examples/h11.job"]);
    assert_eq!(text.text, format!("examples/h11.job: {words}"));
    assert_eq!((text.said.as_str(), text.status), ("", 1));
    let bytes = run(&["recover", "--bytes", "examples/h11.job"]);
    assert_eq!(bytes.said, format!("examples/h11.job: {words}"));
    assert_eq!((bytes.text.as_str(), bytes.status), ("", 1));
    let object = run(&["recover", "--json", "examples/h11.job"]);
    let expected = "{\"file\":\"examples/h11.job\",\"status\":\"refused\",\"refusal\":5,\"row\":0,\
                    \"reason\":\"a point or a value is 65521 or more\"}\n";
    assert_eq!((object.text.as_str(), object.status), (expected, 1));
    let empty = run_on(&["recover", "-"], &[]);
    let expected = "standard input: refused 1: expected 3 bytes or more, found 0\n";
    assert_eq!((empty.text.as_str(), empty.status), (expected, 1));
}

#[test]
fn several_files_have_a_summary_and_one_status() {
    let both = run(&["recover", "examples/poles.job", "examples/h09.job"]);
    let refused = "examples/h09.job: refused 8: no reduced answer within df 0 and dg 0 has at most 1 wrong row\n";
    assert_eq!(both.text, format!("{POLES}{refused}"));
    assert_eq!(both.status, 1);
    assert!(
        both.said.starts_with("2 jobs: 1 recovered, 1 refused; "),
        "{}",
        both.said
    );
    let with_bad = run(&[
        "recover",
        "--json",
        "none.job",
        "examples/h09.job",
        "README.md",
        "examples/h01.job",
    ]);
    assert_eq!(with_bad.status, 2);
    let missing = "none.job: expected a job: No such file or directory (os error 2)\nREADME.md, line 3: expected `prime";
    assert!(with_bad.said.starts_with(missing), "{}", with_bad.said);
    assert!(with_bad
        .said
        .contains("\n2 jobs: 1 recovered, 1 refused; 2 inputs could not be read; "));
    let statuses: Vec<bool> = with_bad
        .text
        .lines()
        .zip(["unreadable", "refused", "unreadable", "recovered"])
        .map(|(line, status)| line.contains(&format!("\"status\":\"{status}\"")))
        .collect();
    assert_eq!(statuses, [true; 4], "{}", with_bad.text);
    assert!(with_bad.text.contains("{\"file\":\"README.md\",\"status\":\"unreadable\",\"line\":3,\"message\":\"expected `prime"));
    let quiet = run(&[
        "recover",
        "--quiet",
        "examples/poles.job",
        "examples/h01.job",
    ]);
    assert_eq!((quiet.said.as_str(), quiet.status), ("", 0));
}

#[test]
fn a_folder_is_its_jobs_by_name() {
    let all = run(&["recover", "examples"]);
    let names = example_names();
    let told: Vec<&str> = all
        .text
        .lines()
        .filter(|line| !line.starts_with(' '))
        .collect();
    assert_eq!(told.len(), names.len());
    for (line, name) in told.iter().zip(&names) {
        assert!(line.starts_with(&format!("examples/{name}: re")), "{line}");
    }
    assert_eq!(all.status, 1);
    let single: String = names
        .iter()
        .map(|name| run(&["recover", &format!("examples/{name}")]).text)
        .collect();
    assert_eq!(all.text, single);
    let empty = folder("empty");
    let empty = empty.to_str().expect("a name");
    let none = run(&["recover", empty]);
    let message = format!("{empty}: expected a folder of files that end in .job, found none\n");
    assert!(none.said.starts_with(&message), "{}", none.said);
    assert_eq!((none.text.as_str(), none.status), ("", 2));
}

#[test]
fn jobs_are_packed_shown_and_unpacked() {
    let packed = run(&["pack", "examples/h01.job"]);
    assert_eq!((packed.out, packed.status), (h1(), 0));
    let text = run(&["pack", "--hex", "examples/h01.job", "examples/h10.job"]);
    assert_done(&text, "018002000000050001000500020002\nC080000000FFF0\n");
    let shown = "prime 7 outputs 1 df 0 dg 0 errors 1\n0: 5\n1: 5\n2: 2\n";
    assert_done(&run_on(&["show", "-"], &h1()), shown);
    assert_done(&run(&["show", "examples/h01.job"]), shown);
    let two = run(&["show", "examples/h10.job", "examples/h10.job"]);
    let h10 = "# examples/h10.job\nprime 65521 outputs 1 df 0 dg 0 errors 0\n0: 65520\n";
    assert_done(&two, &h10.repeat(2));
    let h8 = "wrong rows: none\ng = 1 + u\nf1 = 1\nf2 = u\n";
    let bytes = run(&["recover", "--bytes", "examples/h08.job"]).out;
    assert_done(&run_on(&["unpack", "examples/h08.job"], &bytes), h8);
    assert_done(&run_on(&["unpack", "examples/h08.job", "-"], &bytes), h8);
    let folder = folder("unpack");
    let answer = file(&folder, "answer", (hex::text(&bytes) + "\n").as_bytes());
    let job = run(&["pack", "examples/h08.job"]).out;
    assert_done(&run_on(&["unpack", "--hex", "-", &answer], &job), h8);
}

/// Pack and show undo each other on any job that can be written.
#[test]
fn shown_jobs_pack_into_their_bytes() {
    let jobs = stream_jobs(3, 240);
    let mut tried = [0; 2];
    for job in jobs.iter().filter(|job| known_by(job).is_some()) {
        let shown = run_on(&["show", "--binary", "-"], job);
        let packed = run_on(&["pack", "--readable", "-"], shown.text.as_bytes());
        assert_eq!(packed.out, *job, "{}", shown.text);
        tried[usize::from(has_own_bounds(job))] += 1;
    }
    let [short, longer] = tried;
    assert!(
        short > 50 && longer > 50 && short + longer > 150,
        "{tried:?}"
    );
}

#[test]
fn help_and_version_are_printed() {
    let general = run(&["--help"]);
    assert_eq!(general.status, 0);
    for verb in [
        "recover",
        "check",
        "pack",
        "show",
        "unpack",
        "judge",
        "trial",
        "reciprocal",
    ] {
        assert!(
            general.text.contains(&format!("\n  {verb} ")),
            "{}",
            general.text
        );
        let help = run(&[verb, "--help"]);
        assert!(
            help.text.starts_with(&format!("usage: hanthuvelo {verb} ")),
            "{}",
            help.text
        );
        assert_done(&run(&[verb, "none.job", "-h"]), &help.text);
    }
    assert_done(&run(&["help"]), &general.text);
    assert_done(
        &run(&["--version"]),
        concat!("hanthuvelo ", env!("CARGO_PKG_VERSION"), "\n"),
    );
    assert_eq!(run(&[]).said, general.text);
    assert_eq!(run(&[]).status, 2);
}

#[test]
fn a_form_can_be_forced() {
    let binary = run(&["show", "--binary", "examples/h10.job"]);
    assert_eq!((binary.text.as_str(), binary.status), ("", 2));
    let message = "examples/h10.job: expected ";
    assert!(binary.said.starts_with(message), "{}", binary.said);
    let readable = run_on(&["recover", "--readable", "-"], &h1());
    assert_fails(&readable, "standard input, line 1: expected text in UTF-8");
}

/// Bytes of another kind are jobs that are refused.
#[test]
fn files_of_another_kind_are_refused_as_jobs() {
    let folder = folder("kinds");
    let image = file(&folder, "image.png", b"\x89PNG\r\n\x1a\n\0\0\0\rIHDR");
    let refused = run(&["recover", &image]);
    // 89 50 4E: modulo 257, one output, 18 rows.
    let expected = format!("{image}: refused 3: the header asks for 75 bytes, the job has 16\n");
    assert_eq!(
        (refused.text.as_str(), refused.status),
        (expected.as_str(), 1)
    );
    let nothing = run(&["recover", "/dev/null"]);
    let expected = "/dev/null: refused 1: expected 3 bytes or more, found 0\n";
    assert_eq!((nothing.text.as_str(), nothing.status), (expected, 1));
}

#[test]
fn a_closed_input_or_output_is_no_panic() {
    let closed = run_redirected("recover -", "<&-");
    assert_eq!(closed.status, 1, "{}", closed.said);
    for words in [
        "recover examples/h01.job",
        "check examples/h01.job",
        "pack examples/h01.job",
        "--help",
    ] {
        let full = run_redirected(words, "> /dev/full");
        let message = "standard output: No space left on device (os error 28)\n";
        assert_eq!((full.said.as_str(), full.status), (message, 2), "{words}");
        run_redirected(words, ">&-");
        run_redirected(words, ">&- 2>&-");
    }
    run_redirected("recover none.job", "2> /dev/full");
}

/// A reader that goes away ends the command, without a word.
#[test]
fn a_broken_pipe_ends_the_command() {
    let stream: Vec<u8> = stream_jobs(4, 20_000).concat();
    for words in [
        &["recover", "--stream", "-"][..],
        &["recover", "--stream", "--json", "--threads", "1", "-"],
        &["check", "--stream", "-"],
    ] {
        let mut child = command(words).spawn().expect("the command starts");
        drop(child.stdout.take());
        feed(&mut child, stream.clone());
        let run = Run::of(child.wait_with_output().expect("an end"));
        assert_eq!((run.said.as_str(), run.status), ("", 2));
    }
    let head = run_redirected("recover examples examples examples", "| head -n 1");
    assert_eq!(head.text, "examples/filter.job: recovered modulo 65521\n");
}

/// A file's bytes that may be anything: a generated job, random bytes, or random words of a readable job.
fn any_bytes(index: u64) -> Vec<u8> {
    const WORDS: [&str; 16] = [
        "long", "prime", "7", "outputs", "1", "df", "0", "dg", "errors", "0:", "1: 5", "\n", "#",
        "65536", "-1", "\u{fc}",
    ];
    let mut random = Random::new(9, index);
    match index % 4 {
        0 => generate(9, index).bytes,
        1 => {
            let length = random.below(60);
            random.bytes(length)
        }
        _ => {
            let count = random.below(30);
            let words = (0..count).map(|_| WORDS[random.below(WORDS.len())]);
            words.collect::<Vec<&str>>().join(" ").into_bytes()
        }
    }
}

/// As one folder, and one by one as streams, jobs and answers: each run ends with one of the three
/// statuses, and with 2 exactly if something is said that is no summary.
#[test]
fn nothing_panics_on_random_input() {
    let folder = folder("random");
    for index in 0..2000 {
        file(&folder, &format!("{index:04}.job"), &any_bytes(index));
    }
    let name = folder.to_str().expect("a name");
    let all = run(&["recover", "--json", name]);
    assert_eq!((all.text.lines().count(), all.status), (2000, 2));
    let checked = run(&["check", "--json", name]);
    assert_eq!((checked.text.lines().count(), checked.status), (2000, 2));
    let counts = |line: &str| line.contains(" recovered, ") || line.contains(" accepted, ");
    let is_summary = |line: &str| counts(line) && line.ends_with(" jobs a second");
    for index in 0..300 {
        let name = format!("{name}/{index:04}.job");
        for words in [
            &["recover", "--stream", &name][..],
            &["check", "--stream", "--refused", &name],
            &["check", &name],
            &["show", &name],
            &["unpack", "examples/h01.job", &name],
            &["judge", "examples/h01.job", &name],
            &["judge", &name, "examples/h01.job"],
        ] {
            let run = run(words);
            assert!((0..=2).contains(&run.status), "{words:?}");
            let complains = run.said.lines().any(|line| !is_summary(line));
            assert_eq!(run.status == 2, complains, "{words:?}: {}", run.said);
        }
    }
}
