//! `hanthuvelo judge`: what it prints where, its exit status, and bad inputs.

mod support;

use hanthuvelo::hex;
use outside_checks::jobs::generate;
use outside_checks::paper::{examples, refusals};
use outside_checks::second;
use std::fs;
use support::{
    assert_done, assert_fails, assert_prints, file, folder, run, run_on, run_redirected, ROOT,
};

const JOB: &str = "examples/h01.job";
const ANSWER: &str = "20000000 0001 0005";

fn bytes(text: &str) -> Vec<u8> {
    hex::bytes(text).expect("bytes")
}

/// The verdict on an answer as hexadecimal text.
fn assert_verdict(job: &str, answer: &str, expected: &str, status: i32) {
    let run = run_on(&["judge", "--hex", job, "-"], answer.as_bytes());
    assert_prints(&run, &format!("{expected}\n"), status);
}

/// A job as bytes and as text, and an answer as bytes and as text, from files and from standard input.
#[test]
fn each_form_is_judged() {
    let folder = folder("judge");
    let readable = fs::read(format!("{ROOT}/{JOB}")).expect("an example");
    let binary = run(&["pack", JOB]).out;
    let job = file(&folder, "job", &binary);
    for (name, number, expected, status) in [
        ("right", 1, "yes\n", 0),
        (
            "wrong",
            2,
            "no: the leading coefficient of g is 2, not 1\n",
            1,
        ),
    ] {
        let mut answer = bytes(ANSWER);
        answer[5] = number;
        let text = hex::text(&answer) + "\n";
        let answer_file = file(&folder, name, &answer);
        let text_file = file(&folder, &format!("{name}.hex"), text.as_bytes());
        for job in [JOB, &job] {
            for run in [
                run(&["judge", job, &answer_file]),
                run(&["judge", "--hex", job, &text_file]),
                run_on(&["judge", job], &answer),
                run_on(&["judge", job, "-"], &answer),
                run_on(&["judge", job, "--hex"], text.as_bytes()),
            ] {
                assert_prints(&run, expected, status);
            }
        }
        for job in [&readable, &binary] {
            let from_file = run_on(&["judge", "-", &answer_file], job);
            assert_prints(&from_file, expected, status);
        }
    }
    let own = run(&["recover", "--bytes", "--hex", "examples/ladder.job"]).out;
    let judged = run_on(&["judge", "--hex", "examples/ladder.job"], &own);
    assert_done(&judged, "yes\n");
}

/// A forced form is taken as it is said.
#[test]
fn a_form_can_be_forced() {
    let answer = bytes(ANSWER);
    assert_done(&run_on(&["judge", "--readable", JOB], &answer), "yes\n");
    let text = run_on(&["judge", "--binary", JOB], &answer);
    assert!(text.text.starts_with("refused "), "{}", text.text);
    assert_eq!((text.said.as_str(), text.status), ("", 1));
    let digits = run_on(&["judge", JOB], hex::text(&answer).as_bytes());
    let expected = "refused 3: the job's answer has 8 bytes, the offered one has 16\n";
    assert_prints(&digits, expected, 1);
}

/// The paper's answers are right; a job without one has a no for every answer.
#[test]
fn the_papers_answers_are_right() {
    let folder = folder("judge-paper");
    let mut seen = (0, 0);
    let all = examples().into_iter();
    for example in all.filter(|example| example.report.refusal != 5) {
        let job = file(&folder, example.name, &bytes(example.job));
        if example.report.is_recovered() {
            assert_verdict(&job, example.answer, "yes", 0);
            seen.0 += 1;
        } else if example.report.refusal == 8 {
            let zeros = run_on(&["judge", &job], &vec![0; example.area_length]);
            assert_prints(&zeros, "no: g is zero\n", 1);
            seen.1 += 1;
        }
    }
    assert_eq!(seen, (9, 2));
}

/// An example, an answer that is not its own, and what is said of it. Where several reasons hold, the first is said.
const REASONS: &str = "\
h01: FFFFFFFF FFFF 0007: the constant term of g is 65535, not below 7
h01: FFFFFFFF 0000 0007: the constant term of f1 is 7, not below 7
h08: 00000000 0001 0008 0001 0000 0000 0001: the coefficient of u in g is 8, not below 7
h08: 00000000 0000 0000 0001 0000 FFFF 0001: the constant term of f2 is 65535, not below 7
poles: 14A00000 000F 0059 0001 0001 0002 0000 0004 0000 0062: the coefficient of u^2 in f2 is 98, not below 97
h01: FFFFFFFF 0000 0005: g is zero
h01: FFFFFFFF 0002 0005: the leading coefficient of g is 2, not 1
h08: 00000000 0002 0002 0002 0000 0000 0002: the leading coefficient of g is 2, not 1
h07: 00000000 0005 0001 0005 0001: 5 + u divides g and every f
h08: 00000000 0003 0001 0006 0002 0000 0000: 3 + u divides g and every f
h08: FFFFFFFF 0001 0001 0000 0000 0000 0000: 1 + u divides g and every f
h01: FFFFFFFF 0001 0005: the word marks row 3, the job has 3 rows
h01: 20000001 0001 0004: the word marks row 31, the job has 3 rows
h10: 40000000 0001 FFF0: the word marks row 1, the job has 1 row
h01: 60000000 0001 0005: the word marks row 1, at the point 1, and it is right
h01: 40000000 0001 0005: the word marks row 1, at the point 1, and it is right
h02: 40000000 0000 0001 0001: the word marks row 1, at the point 2, and it is right
h01: C0000000 0001 0002: the number of wrong rows is 2, and E is 1
h01: E0000000 0001 0004: the number of wrong rows is 3, and E is 1
h07: 20000000 0001 0000 0001 0000: the number of wrong rows is 1, and E is 0
h09: 60000000 0001 0005: the number of wrong rows is 2, and E is 1
";

/// The same, where a wrong row is not marked: the row, its point, and why it is wrong.
const UNMARKED: &str = "\
h01: 00000000 0001 0005: 2: 2: f1/g is 5 there, the row has 2
h01: 00000000 0001 0002: 0: 0: f1/g is 2 there, the row has 5
h02: 00000000 0000 0001 0002: 0: 1: f1/g is 2 there, the row has 1
h08: 00000000 0001 0001 0001 0000 0000 0002: 1: 1: f2/g is 1 there, the row has 4
h03: 00000000 0000 0001 0001: 0: 0: g is 0 there, and a row with values at a root of g is wrong
poles: 10A00000 000F 0059 0001 0001 0002 0000 0004 0000 0001: 5: 5: g is 0 there, and a row with values at a root of g is wrong
";

#[test]
fn a_no_has_its_reason() {
    let assert_no = |example: &str, answer: &str, reason: &str| {
        let job = format!("examples/{example}.job");
        assert_verdict(&job, answer, &format!("no: {reason}"), 1);
    };
    for line in REASONS.lines() {
        let parts: Vec<&str> = line.splitn(3, ": ").collect();
        assert_no(parts[0], parts[1], parts[2]);
    }
    for line in UNMARKED.lines() {
        let parts: Vec<&str> = line.splitn(5, ": ").collect();
        let (row, point, fault) = (parts[2], parts[3], parts[4]);
        let place = format!("row {row}, at the point {point}");
        let reason = format!("the word does not mark {place}, and it is wrong: {fault}");
        assert_no(parts[0], parts[1], &reason);
    }
}

/// The refusals of a job's form are said as `recover` says them, whatever is offered.
#[test]
fn a_job_is_refused_as_elsewhere() {
    let folder = folder("judge-refused");
    let mut numbers = Vec::new();
    let all = refusals().into_iter();
    for example in all.filter(|example| !matches!(example.report.refusal, 7 | 8)) {
        let job = file(&folder, "job", &bytes(example.job));
        let recovered = run(&["recover", "--binary", &job]);
        let words = recovered.text.strip_prefix(&format!("{job}: "));
        let words = words.expect("the refusal behind the file's name");
        let number = example.report.refusal;
        assert!(words.starts_with(&format!("refused {number}")), "{words}");
        for offered in [&bytes(ANSWER)[..], &[]] {
            let judged = run_on(&["judge", "--binary", &job], offered);
            assert_prints(&judged, words, 1);
        }
        numbers.push(number);
    }
    // The second example met 2 before there was a longer header.
    assert_eq!(numbers[..8], [1, 1, 3, 4, 5, 6, 4, 3]);
    assert_verdict(
        "examples/h11.job",
        ANSWER,
        "refused 5, row 0: a point or a value is 65521 or more",
        1,
    );
}

/// The second 3.
#[test]
fn an_answer_of_another_length_is_refused() {
    let expected = "refused 3: the job's answer has 8 bytes, the offered one has ";
    for length in (0..20).filter(|&length| length != 8) {
        let offered = &[bytes(ANSWER), vec![0; 20]].concat()[..length];
        let run = run_on(&["judge", JOB], offered);
        assert_prints(&run, &format!("{expected}{length}\n"), 1);
    }
}

#[test]
fn a_verdict_is_an_object_where_asked() {
    for (answer, rest, status) in [
        (ANSWER, "\"judged\",\"yes\":true", 0),
        (
            "20000000 0000 0005",
            "\"judged\",\"yes\":false,\"reason\":\"g is zero\"",
            1,
        ),
        (
            "20",
            "\"refused\",\"refusal\":3,\"row\":0,\
             \"reason\":\"the job's answer has 8 bytes, the offered one has 1\"",
            1,
        ),
    ] {
        let run = run_on(&["judge", "--json", "--hex", JOB], answer.as_bytes());
        assert_prints(
            &run,
            &format!("{{\"file\":\"{JOB}\",\"status\":{rest}}}\n"),
            status,
        );
    }
    let unreadable = run_on(&["judge", "--json", "--hex", JOB], b"2g");
    let message = "expected hexadecimal digits, found 'g'";
    assert_eq!(
        unreadable.said,
        format!("standard input, line 1: {message}\n")
    );
    let object = "{\"file\":\"standard input\",\"status\":\"unreadable\",\"line\":1,\"message\":";
    assert_eq!(unreadable.text, format!("{object}\"{message}\"}}\n"));
    assert_eq!(unreadable.status, 2);
}

#[test]
fn files_that_cannot_be_read_are_named() {
    let missing = "No such file or directory (os error 2)";
    for (job, answer, message) in [
        (
            "none.job",
            JOB,
            format!("none.job: expected a job: {missing}"),
        ),
        (JOB, "none", format!("none: expected an answer: {missing}")),
        (
            "examples",
            JOB,
            "examples: expected a job: found a directory".to_string(),
        ),
        (
            JOB,
            "examples",
            "examples: expected an answer: found a directory".to_string(),
        ),
        (
            JOB,
            "/dev/zero",
            "/dev/zero: expected an answer, found more than 1048576 bytes".to_string(),
        ),
    ] {
        assert_fails(&run(&["judge", job, answer]), &message);
    }
    let odd = run_on(&["judge", "--hex", JOB], b"2000000");
    let message = "line 1: expected two hexadecimal digits for each byte, found one";
    assert_fails(&odd, &format!("standard input, {message}"));
    let full = run_redirected("judge examples/h01.job examples/h01.job", "> /dev/full");
    assert_fails(
        &full,
        "standard output: No space left on device (os error 28)",
    );
}

/// The command on generated jobs, their answers by the second solver, and the same with a byte changed.
#[test]
fn generated_answers_are_judged() {
    let folder = folder("judge-generated");
    let (mut right, mut wrong, mut refused) = (0, 0, 0);
    for index in 0..150 {
        let job = generate(36, index).bytes;
        let name = file(&folder, "job", &job);
        let mut area = [0; 254];
        let report = second::recover(&job, &mut area);
        if report.refusal == 8 {
            continue;
        }
        let mut answer = area[..report.written as usize].to_vec();
        let judged = run_on(&["judge", "--binary", &name], &answer);
        if !report.is_recovered() {
            let start = format!("refused {}", report.refusal);
            assert!(judged.text.starts_with(&start), "{}", judged.text);
            assert_eq!((judged.said.as_str(), judged.status), ("", 1));
            refused += 1;
            continue;
        }
        assert_done(&judged, "yes\n");
        let place = index as usize % answer.len();
        answer[place] ^= 1;
        let judged = run_on(&["judge", "--binary", &name], &answer);
        let is_no = judged.text.starts_with("no: ") && judged.text.lines().count() == 1;
        assert!(
            is_no && !judged.text.contains("no reason"),
            "{}",
            judged.text
        );
        assert_eq!((judged.said.as_str(), judged.status), ("", 1));
        (right, wrong) = (right + 1, wrong + 1);
    }
    assert!(
        right > 90 && wrong > 90 && refused > 10,
        "{right}, {wrong}, {refused}"
    );
}
