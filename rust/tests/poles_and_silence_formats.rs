//! The formats of jobs and trials with rows that report a pole or are silent, and what is said of them. The library is not
//! needed.

#[path = "support/rows.rs"]
mod rows;

use hanthuvelo::{
    hex, objection, Form, Header, Job, Judgement, Reading, Refusal, Report, Row, Trial,
};
use outside_checks::jobs::{generate, Random};
use outside_checks::layout::{self, HeaderForm, Mark};
use outside_checks::second;
use rows::row_of;

const SEED: u64 = 61;

fn bytes(text: &str) -> Vec<u8> {
    hex::bytes(text).expect("bytes")
}

/// The example of the paper: g = 3 + u, which is 0 at 4, f1 = 4 and f2 = 2.
const POLE: &str = "prime 7 outputs 2 df 0 0 dg 1 errors 0\n3: 3 5\n4: pole\n";
const POLE_BYTES: &str = "11 00 21 00000800 0003 0003 0005 0004 FFFF FFFF";
const POLE_ANSWER: &str = "00000000 0003 0001 0004 0002";

/// Readable jobs modulo 7 as they are shown, with their bytes, which stand in the paper bit by bit.
const SHOWN: [(&str, &str); 8] = [
    (POLE, POLE_BYTES),
    (
        "prime 7 outputs 1 df 0 dg 1 errors 0\n0: pole\n1: 1\n6: silent\n",
        "01 80 21 00000800 0000 FFFF 0001 0001 0006 FFFE",
    ),
    // The flag alone.
    (
        "prime 7 outputs 1 df 0 marks dg 0 errors 1\n0: 5\n1: 5\n2: 2\n",
        "01 80 03 00000800 0000 0005 0001 0005 0002 0002",
    ),
    (
        "prime 7 outputs 1 df 0 long dg 0 errors 0\n0: 65535\n",
        "00 80 01 00000000 0000 FFFF",
    ),
    (
        "prime 7 outputs 1 df 0 dg 0 errors 0\n0: 65534\n",
        "00 80 00 0000 FFFE",
    ),
    (
        "prime 7 outputs 3 df 4 1 2 marks dg 0 errors 0\n",
        "20 10 01 20440800",
    ),
    // Partly marked, and both marks.
    (
        "prime 7 outputs 2 df 0 0 marks dg 0 errors 0\n0: 65535 5\n1: 65534 65535\n",
        "11 00 01 00000800 0000 FFFF 0005 0001 FFFE FFFF",
    ),
    (
        "prime 7 outputs 4 df 0 0 0 0 dg 0 errors 0\n5: silent\n65535: 1 2 3 4\n",
        "31 00 01 00000800 0005 FFFE FFFE FFFE FFFE FFFF 0001 0002 0003 0004",
    ),
];

#[test]
fn a_job_is_shown_as_it_is_read() {
    for (text, packed) in SHOWN {
        let job: Job = text.parse().expect("a job");
        assert_eq!((job.pack(), job.to_string()), (bytes(packed), text.into()));
        assert_eq!(Job::unpack(&bytes(packed)), Ok(job));
    }
}

/// The same jobs in other words.
const OTHER_WORDS: [(&str, &str); 7] = [
    (
        "prime 7 outputs 2 df 0 dg 1 errors 0\n3: 3 5\n4: pole",
        SHOWN[0].0,
    ),
    (
        "prime 7 outputs 2 df 0 marks dg 1 errors 0\n3: 3 5\n4:pole # told",
        SHOWN[0].0,
    ),
    (
        "prime 7 outputs 2 df 0 0 marks dg 1 errors 0\n3: 3 5\n4: 65535 65535",
        SHOWN[0].0,
    ),
    (
        "prime 7 outputs 1 df 0 long dg 1 errors 0\n0: pole\n1: 1\n6: silent",
        SHOWN[1].0,
    ),
    // The number before the first marked row is a mark too.
    (
        "prime 7 outputs 1 df 0 dg 1 errors 0\n0: 65535\n1: 1\n6: silent",
        SHOWN[1].0,
    ),
    (
        "prime 7 outputs 1 df 0 long marks dg 0 errors 1\n0: 5\n1: 5\n2: 2",
        SHOWN[2].0,
    ),
    (
        "prime 7 outputs 4 df 0 dg 0 errors 0\n5: silent\n65535: 1 2 3 4",
        SHOWN[7].0,
    ),
];

#[test]
fn words_that_are_not_needed_are_left_out() {
    for (text, shown) in OTHER_WORDS {
        let job: Job = text.parse().expect("a job");
        assert_eq!(job.to_string(), shown);
        assert!(job.allows_marks());
    }
}

/// Lines that are no row and no header, with what is expected in place of a part of them.
const BAD_LINES: [(&str, &str); 8] = [
    (
        "0: pole silent",
        "value as a number from 0 to 65535, found `pole`",
    ),
    (
        "0: pole 5",
        "value as a number from 0 to 65535, found `pole`",
    ),
    (
        "0: 5 pole",
        "value as a number from 0 to 65535, found `pole`",
    ),
    ("0: Pole", "value as a number from 0 to 65535, found `Pole`"),
    ("0:", "2 values, found 0"),
    (
        "pole: 1 2",
        "point as a number from 0 to 65535, found `pole`",
    ),
    ("pole", "`point: values`, found `pole`"),
    (
        "65536: silent",
        "point as a number from 0 to 65535, found `65536`",
    ),
];

#[test]
fn bad_words_are_named() {
    for (line, expected) in BAD_LINES {
        let text = format!("prime 7 outputs 2 df 0 dg 0 errors 0\n{line}\n");
        let error = text.parse::<Job>().expect_err("no job").to_string();
        assert_eq!(error, format!("line 2: expected {expected}"));
    }
    for (df, expected) in [
        ("marks", "df as a number from 0 to 65535, found `marks`"),
        (
            "marks 0",
            "df of f1 as a number from 0 to 65535, found `marks`",
        ),
        (
            "0 0 mark",
            "a number or 2 numbers behind df, found `0 0 mark`",
        ),
        (
            "0 0 0 marks",
            "a number or 2 numbers behind df, found `0 0 0`",
        ),
        (
            "0 long marks",
            "df of f2 as a number from 0 to 65535, found `long`",
        ),
    ] {
        let text = format!("prime 7 outputs 2 df {df} dg 0 errors 0\n");
        let error = text.parse::<Job>().expect_err("no job").to_string();
        assert_eq!(error, format!("line 1: expected {expected}"));
    }
}

/// Every job that the second solver does not refuse by 1, 11 or 3, as text and back, with the rows that are marked outside.
#[test]
fn generated_jobs_keep_their_marks() {
    let mut met = [0; 4];
    for index in 0..12_000 {
        let job = generate(SEED, index).bytes;
        if matches!(second::check(&job).refusal, 1 | 3 | 11) {
            continue;
        }
        let (read, outside) = (Job::unpack(&job).expect("a job"), layout::Job::unpack(&job));
        let text = read.to_string();
        assert_eq!(text.parse::<Job>().map(|job| job.pack()), Ok(job));
        let is_flagged = outside.header == HeaderForm::Flagged;
        assert_eq!(read.allows_marks(), is_flagged);
        let says_marks = text
            .lines()
            .next()
            .is_some_and(|line| line.contains(" marks "));
        assert_eq!(says_marks, is_flagged && !outside.has_marks(), "{text}");
        for (row, found) in outside.rows.iter().zip(read.rows()) {
            assert_eq!(*found, row_of(&outside, row));
        }
        let has = |mark: Mark| !outside.marked(mark).is_empty();
        for (count, is_met) in met.iter_mut().zip([
            has(Mark::Pole),
            has(Mark::Silent),
            is_flagged && !outside.has_marks(),
            !is_flagged,
        ]) {
            *count += usize::from(is_met);
        }
    }
    assert!(met.iter().all(|&count| count > 500), "{met:?}");
}

/// A row that reports a pole or is silent and is pushed gives the job a bound for each output and the flag.
#[test]
fn a_pole_or_a_silent_row_changes_the_header() {
    let short: Job = "prime 7 outputs 2 df 3 dg 1 errors 0\n0: 1 2\n"
        .parse()
        .expect("a job");
    for (row, last) in [(Row::pole(4), "FFFF"), (Row::silent(4), "FFFE")] {
        let mut job = short.clone();
        assert!(!job.allows_marks() && job.pack().len() == 3 + 6);
        job.push(row).expect("a row");
        assert!(job.allows_marks());
        let expected = format!("11 0C 21 18C00800 0000 0001 0002 0004 {last} {last}");
        assert_eq!(job.pack(), bytes(&expected));
        let header = Header::read(&job.pack()).expect("a header");
        assert!(header.allows_marks() && header.flags == Header::MARKS);
        assert_eq!(header.broken_rule(), None);
    }
    let mut full: Job = "prime 97 outputs 1 df 0 dg 0 errors 0\n"
        .parse()
        .expect("a job");
    (0..31).for_each(|point| full.push(Row::silent(point)).expect("a row"));
    let error = full.push(Row::pole(31)).expect_err("too many rows");
    assert_eq!(error.to_string(), "expected at most 31 rows");
    let error = full
        .clone()
        .push(Row::new(0, vec![1, 2]))
        .expect_err("no room");
    assert_eq!(error.to_string(), "expected at most 31 rows");
}

/// A trial has the flag in its header, and the word for it in its first line.
#[test]
fn a_trial_can_have_the_flag() {
    let text = "prime 7 outputs 2 df 0 0 marks dg 1 errors 2\nrows 7 start 14 spoiled 2\ng = 1 + u\nf1 = 5\nf2 = 1\n";
    let trial: Trial = text.parse().expect("a trial");
    assert_eq!(trial.to_string(), text);
    assert!(trial.allows_marks());
    assert_eq!(trial.header(), bytes("13 80 25 00000800"));
    let short: Trial = text.replace("0 0 marks", "0").parse().expect("a trial");
    assert!(!short.allows_marks() && short.header() == bytes("13 80 24"));
    assert_eq!(short.coefficients(), trial.coefficients());
    let mut other = short.clone();
    other.allow_marks();
    assert_eq!(other, trial);
}

/// What a recovery, a check and a judgement say of a job that they refuse with 12.
#[test]
fn too_few_speaking_rows_are_said_in_words() {
    for (job, needed, speaking) in [
        ("01 80 03 00000800 0000 0005 0001 0005 0002 FFFE", 3, 2),
        ("01 80 03 00000800 0000 FFFF 0001 FFFE 0002 FFFE", 3, 1),
        ("11 00 21 00000800 0003 FFFE FFFE 0004 FFFE FFFE", 2, 0),
    ] {
        let job = bytes(job);
        let words =
            format!("df + dg + 2 E + 1 is {needed}, the number of rows that speak is {speaking}");
        for refusal in [
            Refusal::of(Report::refused(12, 0), &job),
            Refusal::of_check(Form::refused(12, 0), &job),
            Refusal::of_judgement(Judgement::refused(12, 0), &job, &[]),
        ] {
            let refusal = refusal.expect("a refusal");
            assert_eq!(refusal.to_string(), format!("refused 12: {words}"));
            assert!(!refusal.names_a_row());
        }
        assert_eq!(second::check(&job), Form::refused(12, 0));
    }
}

/// The reason why bytes are not the answer of a job, in words; empty where they are.
fn reason(job: &str, offered: &str) -> String {
    let job: Job = job.parse().expect("a job");
    let found = objection(&job, &bytes(offered));
    found.map_or(String::new(), |found| found.to_string())
}

/// Offered answers of the example, with the reason of each no.
#[test]
fn reasons_speak_of_reported_poles() {
    let reason = |offered: &str| reason(POLE, offered);
    assert_eq!(reason(POLE_ANSWER), "");
    let marked = "the word marks row 1, at the point 4, and it is right";
    assert_eq!(reason("40000000 0003 0001 0004 0002"), marked);
    // g = 1, then g = 2 + u, which is 6 at 4.
    let unmarked = |value: u16| {
        let fault = format!("it reports a pole, and g is {value} there");
        format!("the word does not mark row 1, at the point 4, and it is wrong: {fault}")
    };
    assert_eq!(reason("00000000 0001 0000 0003 0005"), unmarked(1));
    assert_eq!(reason("00000000 0002 0001 0001 0004"), unmarked(6));
    let many = "the number of wrong rows is 1, and E is 0";
    assert_eq!(reason("40000000 0001 0000 0003 0005"), many);
}

#[test]
fn reasons_speak_of_silent_rows_and_of_values_at_a_root() {
    let silent = "prime 7 outputs 1 df 0 dg 0 errors 1\n0: 5\n3: silent\n1: 5\n2: 2\n";
    assert_eq!(reason(silent, "10000000 0001 0005"), "");
    let words = "the word marks row 1, at the point 3, and it is silent";
    assert_eq!(reason(silent, "50000000 0001 0005"), words);
    // g = u (u - 1), of which row 0 reports the one root, and row 1 has a value at the other. At 2 it is 2, so that 2/g is 1.
    let both = "prime 7 outputs 1 df 0 dg 2 errors 1\n0: pole\n1: 3\n2: 1\n3: 5\n4: 6\n";
    assert_eq!(reason(both, "40000000 0000 0006 0001 0002"), "");
    let fault = "g is 0 there, and a row with values at a root of g is wrong";
    let words = format!("the word does not mark row 1, at the point 1, and it is wrong: {fault}");
    assert_eq!(reason(both, "00000000 0000 0006 0001 0002"), words);
}

/// The readings of a row whose values are drawn, under the flag and without.
#[test]
fn the_flag_alone_makes_a_number_a_mark() {
    let mut random = Random::new(SEED, 0);
    for _ in 0..2000 {
        let outputs = random.between(1, 4);
        let drawn: Vec<u16> = (0..outputs)
            .map(|_| random.one_of(&[65535, 65534, 65533, 3]))
            .collect();
        let text = format!("prime 7 outputs {outputs} df 0 dg 0 errors 0\n");
        let mut job: Job = text.parse().expect("a job");
        job.push(Row::new(1, drawn.clone())).expect("a row");
        assert_eq!(job.rows()[0].values(), Some(&drawn[..]));
        job.allow_marks();
        let expected = match (drawn.iter().min(), drawn.iter().max()) {
            (Some(65535), _) => Reading::Pole,
            (Some(65534), Some(65534)) => Reading::Silent,
            _ => Reading::Values(drawn),
        };
        assert_eq!(job.rows()[0].reading, expected);
    }
}
