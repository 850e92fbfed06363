//! The formats of jobs and answers against those of the outside checks, and what is said of bad ones.

#[path = "support/exchanged.rs"]
mod exchanged;
#[path = "support/own_bounds.rs"]
mod own_bounds;
#[path = "support/rows.rs"]
mod rows;

use exchanged::read_and_named;
use hanthuvelo::{hex, readable, trimmed, Answer, Bounds, Header, Job, NumeratorBounds, Prime};
use outside_checks::jobs::{enlargement, generate, Random};
use outside_checks::layout::{self, HeaderForm};
use outside_checks::second;
use own_bounds::{df_of, has_own_bounds, outputs_of, Added};
use rows::row_of;

const SEED: u64 = 31;
const HEADER: &str = "prime 7 outputs 1 df 0 dg 0 errors 1\n";

/// The same job by this crate's types.
fn rebuilt(job: &layout::Job) -> Job {
    let bytes = job.pack();
    let bounds = Bounds {
        prime: Prime::from_value(job.prime()).expect("a known prime"),
        outputs: outputs_of(&bytes),
        df: match has_own_bounds(&bytes) {
            true => NumeratorBounds::Each(Added::of(&bytes).bounds),
            false => NumeratorBounds::Same(df_of(&bytes)),
        },
        dg: job.denominator_bound,
        errors: job.error_bound,
    };
    let mut rebuilt = Job::new(bounds).expect("bounds");
    for row in &job.rows {
        rebuilt.push(row_of(job, row)).expect("a row");
    }
    if job.header == HeaderForm::Flagged {
        rebuilt.allow_marks();
    }
    rebuilt
}

#[test]
fn jobs_pack_and_unpack_as_outside() {
    for index in 0..3000 {
        let pair = enlargement::generate(SEED, index);
        for outside in [&pair.smaller, &pair.larger] {
            let job = rebuilt(outside);
            let bytes = outside.pack();
            assert_eq!(job.pack(), bytes);
            assert_eq!(Job::unpack(&bytes), Ok(job.clone()));
            assert_eq!(job.bounds().needed_rows(), outside.needed_rows());
            assert_eq!(job.bounds().answer_length(), outside.answer_length());
            let text = job.to_string();
            assert_eq!(text.parse(), Ok(job.clone()));
            assert!(readable::is_readable(text.as_bytes()), "{text}");
            assert!(!readable::is_readable(&bytes), "{}", hex::text(&bytes));
        }
    }
}

/// What the second solver does not refuse by 1, 11 or 3 to 5 is never taken for text.
#[test]
fn a_well_formed_job_is_not_readable() {
    let (mut tried, mut prime_codes) = (0, [0; 4]);
    for index in 0..20_000 {
        let job = generate(SEED, index).bytes;
        let refusal = second::recover(&job, &mut [0; 254]).refusal;
        if !matches!(refusal, 1..=5 | 11) {
            assert!(!readable::is_readable(&job), "{}", hex::text(&job));
            prime_codes[usize::from(job[0] >> 6)] += 1;
            tried += 1;
        }
    }
    assert!(tried > 10_000 && prime_codes.iter().all(|&count| count > 1000));
}

#[test]
fn answers_unpack_as_outside() {
    let mut count = 0;
    for index in 0..3000 {
        let outside = enlargement::generate(SEED, index).smaller;
        let mut area = vec![0; outside.answer_length()];
        if !second::recover(&outside.pack(), &mut area).is_recovered() {
            continue;
        }
        count += 1;
        let expected = layout::Answer::unpack(&area, &outside);
        let job = rebuilt(&outside);
        let answer = Answer::unpack(&area, job.bounds(), outside.rows.len()).expect("an answer");
        assert_eq!(answer.word, expected.word);
        let wide = |list: &[u16]| -> Vec<u32> { list.iter().map(|&c| c.into()).collect() };
        assert_eq!(wide(&answer.denominator), expected.denominator);
        let numerators: Vec<Vec<u32>> = answer.numerators.iter().map(|f| wide(f)).collect();
        assert_eq!(numerators, expected.numerators);
        let wrong = (0..outside.rows.len()).filter(|&row| answer.word & layout::row_bit(row) != 0);
        assert!(wrong.eq(answer.wrong_rows()));
        assert_eq!(wide(trimmed(&answer.denominator)), expected.trimmed().0);
    }
    assert!(count > 2000, "{count}");
}

/// Fractions as people write them, worked out by hand.
#[test]
fn fractions_are_written_as_people_do() {
    let fraction = |f: &[u16], g: &[u16]| {
        let answer = Answer {
            word: 0,
            denominator: g.to_vec(),
            numerators: vec![f.to_vec()],
        };
        answer.fraction(0)
    };
    assert_eq!(
        fraction(&[1, 2], &[15, 89, 1]),
        "(1 + 2 u) / (15 + 89 u + u^2)"
    );
    assert_eq!(fraction(&[5, 0], &[1, 0]), "5");
    assert_eq!(fraction(&[0, 1], &[1]), "u");
    assert_eq!(fraction(&[1], &[0, 1]), "1 / u");
    assert_eq!(fraction(&[0, 3, 0], &[0, 0, 1]), "3 u / u^2");
    assert_eq!(fraction(&[0, 0, 1, 1], &[6, 1, 0]), "(u^2 + u^3) / (6 + u)");
    assert_eq!(fraction(&[0, 0], &[6, 1]), "0");
}

fn assert_message(text: &str, message: &str) {
    let error = text.parse::<Job>().expect_err(text);
    assert_eq!(error.to_string(), message);
}

#[test]
fn a_bad_header_is_named_with_its_line() {
    let expected = "expected `prime P outputs N df D.. dg D errors E`";
    assert_message("", &format!("line 1: {expected}"));
    assert_message("# nothing\n\n", &format!("line 3: {expected}"));
    assert_message("0: 5", &format!("line 1: {expected}, found `0: 5`"));
    for (old, new, message) in [
        ("7", "11", "a prime of 7, 97, 257, 65521, found 11"),
        (
            "7",
            "65543",
            "prime as a number from 0 to 65535, found `65543`",
        ),
        ("outputs 1", "outputs 5", "outputs from 1 to 4, found 5"),
        ("outputs 1", "outputs 0", "outputs from 1 to 4, found 0"),
        ("errors 1", "errors 16", "errors from 0 to 15, found 16"),
        ("df 0", "df 32", "df from 0 to 31, found 32"),
        ("df 0", "df x", "df as a number from 0 to 65535, found `x`"),
        (
            "df 0",
            "df +1",
            "df as a number from 0 to 65535, found `+1`",
        ),
        ("dg 0", "dg 32", "dg from 0 to 31, found 32"),
    ] {
        let text = HEADER.replacen(old, new, 1);
        assert_message(&text, &format!("line 1: expected {message}"));
    }
}

#[test]
fn a_bad_row_is_named_with_its_line() {
    for (rows, message) in [
        ("0 5", "line 2: expected `point: values`, found `0 5`"),
        ("0: 5\n\n1: 5 6", "line 4: expected 1 value, found 2"),
        ("0:", "line 2: expected 1 value, found 0"),
        (
            ":5",
            "line 2: expected point as a number from 0 to 65535, found ``",
        ),
        (
            "0: 65536",
            "line 2: expected value as a number from 0 to 65535, found `65536`",
        ),
        (
            "0: \u{7}",
            "line 2: expected value as a number from 0 to 65535, found `\\u{7}`",
        ),
        (&"0: 0\n".repeat(32), "line 33: expected at most 31 rows"),
    ] {
        assert_message(&format!("{HEADER}{rows}"), message);
    }
    let long = "x".repeat(1000);
    let message = format!(
        "line 2: expected `point: values`, found `{}..`",
        "x".repeat(60)
    );
    assert_message(&format!("{HEADER}{long}"), &message);
    let error = readable::parse(b"prime 7\n# caf\xE9\n").expect_err("not UTF-8");
    assert_eq!(error.to_string(), "line 2: expected text in UTF-8");
}

#[test]
fn remarks_blanks_and_line_ends_do_not_matter() {
    let plain: Job = format!("{HEADER}0: 5\n1: 5\n2: 2\n")
        .parse()
        .expect("a job");
    let loose =
        "\r\n  # H1\r\n prime 7  outputs 1 df 0 dg 0\terrors 1 # one\r\n0 :5\r\n1:\t5#\r\n2: 2";
    assert_eq!(loose.parse(), Ok(plain));
}

#[test]
fn bytes_that_are_no_job_are_named() {
    let message = |bytes: &[u8]| Job::unpack(bytes).expect_err("no job").to_string();
    assert_eq!(message(&[1, 0x80]), "expected a header of 3 bytes, found 2");
    assert_eq!(
        message(&[1, 0x80, 3]),
        "expected a header of 7 bytes, as the spare bit is 1, found 3"
    );
    let short = "expected 15 bytes, as the header says, found 5";
    assert_eq!(message(&[1, 0x80, 2, 0, 0]), short);
}

#[test]
fn bytes_that_are_no_answer_are_named() {
    let job: Job = format!("{HEADER}0: 5\n1: 5\n2: 2\n")
        .parse()
        .expect("a job");
    let unpack = |text: &str| {
        let bytes = hex::bytes(text).expect("bytes");
        Answer::unpack(&bytes, job.bounds(), 3)
    };
    assert_eq!(unpack("20000000 0001 0005").expect("H1").wrong_rows(), [2]);
    let message = |text: &str| unpack(text).expect_err("no answer").to_string();
    let short = "expected 8 bytes for this job's answer, found 4";
    assert_eq!(message("20000000"), short);
    let large = "expected coefficients below 7, found 7";
    assert_eq!(message("20000000 0001 0007"), large);
    assert_eq!(message("20000000 0007 0001"), large);
    let beyond = "expected marks at the job's 3 rows, found one at row 3";
    assert_eq!(message("10000000 0001 0005"), beyond);
    assert!(message("00000001 0001 0005").ends_with("found one at row 31"));
}

#[test]
fn every_header_is_read_as_the_paper_packs_it() {
    for number in 0..1u32 << 24 {
        // Any four bytes more, which say something where the last bit is 1 alone.
        let added = number.wrapping_mul(0x9E37_79B9).to_be_bytes();
        let bytes = [&number.to_be_bytes()[1..], &added].concat();
        let header = Header::read(&bytes).expect("a header");
        let mut rest = number as usize;
        let mut take = |width: u32| {
            let field = rest % (1 << width);
            rest >>= width;
            field
        };
        let (spare, bounds) = (take(1), header.bounds);
        assert_eq!(header.length(), [3, 7][spare]);
        assert_eq!(
            [bounds.errors, bounds.dg, header.df],
            [take(4), take(5), take(5)]
        );
        let added = Added::of(&bytes);
        let (df, flags) = match spare {
            0 => (NumeratorBounds::Same(header.df), 0),
            _ => (NumeratorBounds::Each(added.bounds), added.flags),
        };
        assert_eq!((bounds.df, usize::from(header.flags)), (df, flags));
        assert_eq!(Header::read(&bytes[..header.length() - 1]), None);
        assert_eq!([header.rows, bounds.outputs - 1], [take(5), take(2)]);
        assert_eq!(bounds.prime.value(), [7, 97, 257, 65521][take(2)]);
    }
}

/// Read or named, never a panic.
#[test]
fn any_bytes_are_read_or_named() {
    for index in 0..20_000 {
        let mut random = Random::new(SEED, index);
        let length = random.below(400);
        let bytes = random.bytes(length);
        let _ = readable::parse(&bytes);
        let _ = Job::unpack(&bytes);
        let _ = hex::bytes(&String::from_utf8_lossy(&bytes));
    }
}

#[test]
fn any_text_is_read_or_named() {
    let text = "# three readings\nprime 7 outputs 1 df 0 dg 0 errors 1\n0: 5\n1: 5\n2: 2\n";
    let characters = b"0123456789 :#\nprime\xC3\xFF\x00";
    let (read, named) = read_and_named(SEED, text, characters, readable::parse);
    assert!(read > 2000 && named > 10_000, "{read} read, {named} named");
}

#[cfg(feature = "library")]
#[path = "support/words.rs"]
mod words;

#[cfg(feature = "library")]
mod with_library {
    use super::words::REFUSED;
    use super::{hex, Header};
    use hanthuvelo::{check, recover, Job, Refusal};
    use outside_checks::paper::{examples, refusals};

    /// The words of each refusal, by the paper's table; all but those of 7 and 8 are said by a check too.
    #[test]
    fn refusals_are_said_in_words() {
        assert_eq!(refusals().len(), REFUSED.len());
        for (example, words) in refusals().into_iter().zip(REFUSED) {
            let job = hex::bytes(example.job).expect("the paper's job");
            let report = recover(&job, &mut vec![0; example.area_length]);
            let refusal = Refusal::of(report, &job).expect("a refusal");
            assert_eq!(refusal.to_string(), words);
            assert_eq!((refusal.number, refusal.row), (report.refusal, report.row));
            assert_eq!(report, example.report);
            let form = Refusal::of_check(check(&job), &job);
            assert_eq!(form, (!matches!(refusal.number, 7 | 8)).then_some(refusal));
        }
    }

    #[test]
    fn a_job_recovers_itself() {
        let all = examples().into_iter();
        for example in all.filter(|example| example.name != "H12") {
            let bytes = hex::bytes(example.job).expect("the paper's job");
            let job = Job::unpack(&bytes).expect("a job");
            assert_eq!(job.check().is_err(), example.report.refusal == 5);
            match job.recover() {
                Ok(answer) => {
                    let expected = hex::bytes(example.answer).expect("the paper's answer");
                    let rows = Header::read(&bytes).expect("a header").rows;
                    let read = hanthuvelo::Answer::unpack(&expected, job.bounds(), rows);
                    assert_eq!(Ok(answer), read, "{}", example.name);
                }
                Err(refusal) => {
                    let report = example.report;
                    assert_eq!((refusal.number, refusal.row), (report.refusal, report.row));
                }
            }
        }
    }
}
