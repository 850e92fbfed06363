//! The formats of trials against those of the outside checks, and what is said of bad ones.

#[path = "support/exchanged.rs"]
mod exchanged;
#[path = "support/own_bounds.rs"]
mod own_bounds;
#[path = "support/trials.rs"]
mod trials;

use exchanged::read_and_named;
use hanthuvelo::{hex, readable, Bounds, NumeratorBounds, Prime, Trial};
use outside_checks::jobs::trial::generate;
use outside_checks::jobs::Random;
use own_bounds::{has_own_bounds, with_own_bounds};
use trials::{trial_of, within_own_bounds};

const SEED: u64 = 32;
const BOUNDS: Bounds = Bounds {
    prime: Prime::P7,
    outputs: 2,
    df: NumeratorBounds::Same(1),
    dg: 2,
    errors: 1,
};
const TEXT: &str = "\
# a trial
prime 7 outputs 2 df 1 dg 2 errors 1

rows 6 start 4294967295 spoiled 2  # two
g = 3 + u^2
f1 = 2 u
f2 = 0
";

#[test]
fn trials_have_the_bytes_of_outside() {
    let mut tried = 0;
    for index in 0..3000 {
        let call = generate(SEED, index);
        let Some(trial) = trial_of(&call) else {
            continue;
        };
        tried += 1;
        assert_eq!(trial.header()[..], call.header, "{}", call.describe());
        assert_eq!(trial.coefficients(), call.coefficients);
        let text = trial.to_string();
        assert_eq!(text.parse(), Ok(trial), "{text}");
        assert!(readable::is_readable(text.as_bytes()), "{text}");
    }
    assert!(tried > 2000, "{tried}");
}

/// The same fractions within a bound for each output: the header is the longer one, and of each f there are as many
/// coefficients as its bound asks for.
#[test]
fn trials_have_a_bound_for_each_output() {
    let (mut tried, mut shorter) = (0, 0);
    for index in 0..8000 {
        let call = generate(SEED + 1, index);
        let known = trial_of(&call).filter(|_| !has_own_bounds(&call.header));
        let Some(short) = known else {
            continue;
        };
        let (longer, added) = within_own_bounds(&short, &mut Random::new(SEED, index));
        assert_eq!(longer.header(), with_own_bounds(&call.header, &added));
        let cut = short.numerators().iter().zip(added.bounds);
        let cut: Vec<u16> = cut.flat_map(|(f, bound)| f[..=bound].to_vec()).collect();
        let listed = [short.denominator(), &cut].concat();
        let expected: Vec<u8> = listed.into_iter().flat_map(u16::to_be_bytes).collect();
        assert_eq!(longer.coefficients(), expected);
        let text = longer.to_string();
        assert!(readable::is_readable(text.as_bytes()), "{text}");
        assert_eq!(text.parse(), Ok(longer), "{text}");
        tried += 1;
        shorter += usize::from(expected.len() < call.coefficients.len());
    }
    assert!(tried > 500 && shorter > 200, "{tried}, {shorter}");
}

#[test]
fn a_readable_trial_is_read() {
    let trial: Trial = TEXT.parse().expect("a trial");
    assert_eq!((*trial.bounds(), trial.rows()), (BOUNDS, 6));
    assert_eq!((trial.start, trial.spoiled), (u32::MAX, 2));
    assert_eq!(trial.denominator(), [3, 0, 1]);
    assert_eq!(trial.numerators(), [[0, 2], [0, 0]]);
    // 00 01 00110 00001 00010 0001 0, and g, f1 and f2.
    assert_eq!(trial.header(), [0x13, 0x04, 0x42]);
    let coefficients = "0003 0000 0001 0000 0002 0000 0000";
    assert_eq!(trial.coefficients(), hex::bytes(coefficients).unwrap());
    let loose = "prime 7 outputs 2 df 1 dg 2 errors 1\r\nrows 6 start 4294967295\tspoiled 2\r\n\
                 g=u^2+3+0u\r\nf1 =2u\r\nf2= 0 + 0 u#\r\n";
    assert_eq!(loose.parse(), Ok(trial));
}

fn assert_message(text: &str, message: &str) {
    let error = text.parse::<Trial>().expect_err(text);
    assert_eq!(error.to_string(), message, "{text}");
}

/// What is changed in the text, and what is said then.
const BAD_LINES: [(&str, &str, &str); 15] = [
    (
        "dg 2",
        "dg 32",
        "line 2: expected dg from 0 to 31, found 32",
    ),
    (
        "rows 6",
        "6",
        "line 4: expected `rows L start S spoiled W`, found `6 start 4294967295 spoiled 2`",
    ),
    (
        "rows 6",
        "rows 32",
        "line 4: expected rows from 0 to 31, found 32",
    ),
    (
        "start 4294967295",
        "start 4294967296",
        "line 4: expected start as a number from 0 to 4294967295, found `4294967296`",
    ),
    (
        "spoiled 2",
        "spoiled -1",
        "line 4: expected spoiled as a number from 0 to 4294967295, found `-1`",
    ),
    (
        "g = 3",
        "h = 3",
        "line 5: expected `g = POLYNOMIAL`, found `h = 3 + u^2`",
    ),
    (
        "u^2",
        "u^3",
        "line 5: expected g of degree 2 at most, found degree 3",
    ),
    (
        "u^2",
        "3",
        "line 5: expected each power of u once, found `3` as well",
    ),
    (
        "u^2",
        "u2",
        "line 5: expected a term as `5`, `u`, `5 u` or `5 u^2`, found `u2`",
    ),
    (
        "u^2",
        "u^x",
        "line 5: expected a power of u as a number from 0 to 65535, found `x`",
    ),
    (
        "u^2",
        "",
        "line 5: expected a coefficient as a number from 0 to 65535, found ``",
    ),
    (
        "2 u",
        "65536 u",
        "line 6: expected a coefficient as a number from 0 to 65535, found `65536`",
    ),
    (
        "f1",
        "f2",
        "line 6: expected `f1 = POLYNOMIAL`, found `f2 = 2 u`",
    ),
    ("f2 = 0\n", "", "line 7: expected `f2 = POLYNOMIAL`"),
    (
        "f2 = 0\n",
        "f2 = 0\nf3 = 0\n",
        "line 8: expected no further line, found `f3 = 0`",
    ),
];

#[test]
fn a_bad_line_is_named() {
    let header = "expected `prime P outputs N df D.. dg D errors E`";
    assert_message("", &format!("line 1: {header}"));
    assert_message("g = 1", &format!("line 1: {header}, found `g = 1`"));
    for (old, new, message) in BAD_LINES {
        assert!(TEXT.contains(old), "{old}");
        assert_message(&TEXT.replacen(old, new, 1), message);
    }
    let error = readable::parse_trial(b"# caf\xE9\n").expect_err("not UTF-8");
    assert_eq!(error.to_string(), "line 1: expected text in UTF-8");
}

#[test]
fn what_fits_no_bytes_is_named() {
    let message = |bounds, rows, g: &[u16], f: &[Vec<u16>]| {
        let error = Trial::new(bounds, rows, g, f).expect_err("no trial");
        error.to_string()
    };
    let f = [vec![1], vec![]];
    assert!(Trial::new(BOUNDS, 31, &[1, 0, 0, 0], &f).is_ok());
    assert_eq!(
        message(BOUNDS, 32, &[1], &f),
        "expected rows from 0 to 31, found 32"
    );
    assert_eq!(
        message(BOUNDS, 6, &[1, 0, 0, 5], &f),
        "expected g of degree 2 at most, found degree 3"
    );
    assert_eq!(
        message(BOUNDS, 6, &[1], &[vec![1], vec![0, 0, 1]]),
        "expected f2 of degree 1 at most, found degree 2"
    );
    assert_eq!(
        message(BOUNDS, 6, &[1], &f[..1]),
        "expected 2 numerators, found 1"
    );
    let bounds = Bounds {
        errors: 16,
        ..BOUNDS
    };
    assert_eq!(
        message(bounds, 6, &[1], &f),
        "expected errors from 0 to 15, found 16"
    );
}

#[test]
fn any_text_is_read_or_named() {
    let characters = b"0123456789 =+^u#\nfg\xC3\xFF\x00";
    let (read, named) = read_and_named(SEED, TEXT, characters, readable::parse_trial);
    assert!(read > 1500 && named > 10_000, "{read} read, {named} named");
}

#[cfg(feature = "library")]
mod with_library {
    use super::{generate, trial_of, SEED};
    use hanthuvelo::{Job, LONGEST_JOB};
    use outside_checks::second::trial_job;

    /// The job or the refusal of the second writer.
    #[test]
    fn a_trial_writes_its_job() {
        let (mut written, mut refused) = (0, 0);
        for index in 0..3000 {
            let call = generate(SEED, index);
            let Some(trial) = trial_of(&call) else {
                continue;
            };
            let (header, coefficients) = (&call.header, &call.coefficients);
            let (start, spoiled) = (call.start, call.spoiled);
            match trial_job(header, coefficients, start, spoiled, LONGEST_JOB) {
                Ok(job) => {
                    assert_eq!(trial.write().map(|job| job.pack()), Ok(job.bytes.clone()));
                    assert_eq!(trial.write().ok(), Job::unpack(&job.bytes).ok());
                    written += 1;
                }
                Err(number) => {
                    let refusal = trial.write().expect_err("a refusal");
                    assert_eq!(refusal.number, number, "{}", call.describe());
                    refused += 1;
                }
            }
        }
        assert!(written > 2000 && refused > 300, "{written}, {refused}");
    }
}
