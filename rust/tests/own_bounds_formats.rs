//! The formats of jobs, answers and trials with a bound for each output, and what is said of bad ones. The library is not needed.

#[path = "support/own_bounds.rs"]
mod own_bounds;

use hanthuvelo::{
    hex, Answer, Bounds, Form, Header, Job, Judgement, NumeratorBounds, Prime, Refusal, Report,
    Trial, Written,
};
use outside_checks::jobs::{enlargement, Random};
use own_bounds::{
    break_rules, df_of, has_own_bounds, outputs_of, with_one_bound, with_own_bounds, Added, Way,
};

const SEED: u64 = 51;
const BOUNDS: Bounds = Bounds {
    prime: Prime::P7,
    outputs: 2,
    df: NumeratorBounds::Each([0, 1, 0, 0]),
    dg: 1,
    errors: 0,
};

fn bytes(text: &str) -> Vec<u8> {
    hex::bytes(text).expect("bytes")
}

/// The bytes of a generated job with the short header.
fn short_job(index: u64) -> Vec<u8> {
    let job = enlargement::generate(SEED, index).larger.pack();
    match has_own_bounds(&job) {
        true => with_one_bound(&job),
        false => job,
    }
}

/// A readable job's first line, from the bytes of the job with the short header and the bounds.
fn first_line(short: &[u8], added: &Added) -> String {
    let outputs = outputs_of(short);
    let bounds = added.bounds[..outputs].iter().map(usize::to_string);
    let df = bounds.collect::<Vec<String>>().join(" ");
    let long = if outputs == 1 { " long" } else { "" };
    let prime = [7, 97, 257, 65521][usize::from(short[0] / 64)];
    let dg = short[1] % 4 * 8 + short[2] / 32;
    let errors = short[2] / 2 % 16;
    format!("prime {prime} outputs {outputs} df {df}{long} dg {dg} errors {errors}\n")
}

/// Bytes, job and text, each from each, with either header.
#[test]
fn jobs_pack_and_unpack_with_either_header() {
    let (mut by_outputs, mut differing) = ([0; 5], 0);
    for index in 0..4000 {
        let short = short_job(index);
        let added = Added::drawn(&mut Random::new(SEED, index), &short);
        let longer = with_own_bounds(&short, &added);
        let [one, other] = [&short, &longer].map(|job| Job::unpack(job).expect("a job"));
        assert_eq!((one.pack(), other.pack()), (short.clone(), longer));
        assert_eq!(one.rows(), other.rows());
        assert_eq!(one.bounds().df, NumeratorBounds::Same(df_of(&short)));
        assert_eq!(other.bounds().df, NumeratorBounds::Each(added.bounds));
        assert_eq!(one.bounds().needed_rows(), other.bounds().needed_rows());
        let line = first_line(&short, &added);
        assert!(other.to_string().starts_with(&line), "{other}");
        for job in [one, other] {
            let text = job.to_string();
            let read: Job = text.parse().expect("a readable job");
            assert_eq!((read.to_string(), &read), (text, &job));
        }
        by_outputs[outputs_of(&short)] += 1;
        differing += usize::from(added != Added::equal(&short));
    }
    assert!(
        by_outputs[1..].iter().all(|&count| count > 400),
        "{by_outputs:?}"
    );
    assert!(differing > 1000, "{differing}");
}

/// An answer has the bound plus 1 coefficients of each f, one block behind the other.
#[test]
fn answers_have_a_block_for_each_bound() {
    let mut differing = 0;
    for index in 0..3000 {
        let short = short_job(index);
        let mut random = Random::new(SEED, index);
        let added = Added::drawn(&mut random, &short);
        let job = Job::unpack(&with_own_bounds(&short, &added)).expect("a job");
        let widths = added.bounds[..outputs_of(&short)].iter();
        let widths: Vec<usize> = widths.map(|bound| bound + 1).collect();
        let length = 4 + 2 * (job.bounds().dg + 1 + widths.iter().sum::<usize>());
        assert_eq!(job.bounds().answer_length(), length);
        assert_eq!(job.bounds().coefficients_length(), length - 4);
        // Coefficients below 7, and no mark.
        let mut answer = vec![0; length];
        answer[5..]
            .iter_mut()
            .step_by(2)
            .for_each(|byte| *byte = random.below(7) as u8);
        let read = Answer::unpack(&answer, job.bounds(), 0).expect("an answer");
        let found: Vec<usize> = read.numerators.iter().map(Vec::len).collect();
        assert_eq!(found, widths);
        let blocks = read.numerators.iter().chain([&read.denominator]).flatten();
        assert_eq!(blocks.count(), length / 2 - 2);
        let listed = [vec![read.denominator], read.numerators].concat().concat();
        let expected = answer[5..].iter().step_by(2).map(|&byte| u16::from(byte));
        assert!(listed.into_iter().eq(expected), "{}", hex::text(&answer));
        differing += usize::from(widths.iter().any(|width| *width != widths[0]));
    }
    assert!(differing > 1000, "{differing}");
}

/// A first line without the prime, dg 0 and errors 0, with the header's bytes, which stand in the paper bit by bit.
const LINES: [(&str, &str); 6] = [
    ("outputs 1 df 10", "00 28 00"),
    // 01010 00000 00000 00000.
    ("outputs 1 df 10 long", "00 28 01 50 00 00 00"),
    ("outputs 4 df 10", "30 28 00"),
    // 01010 00011 00000 00111.
    ("outputs 4 df 10 3 0 7", "30 28 01 50 C0 70 00"),
    ("outputs 2 df 3", "10 0C 00"),
    // 00011 00011 00000 00000.
    ("outputs 2 df 3 3", "10 0C 01 18 C0 00 00"),
];

#[test]
fn the_words_behind_df_say_which_header_it_is() {
    for (words, header) in LINES {
        let text = format!("prime 7 {words} dg 0 errors 0\n");
        let job: Job = text.parse().expect("a job");
        assert_eq!((job.pack(), job.to_string()), (bytes(header), text));
        assert_eq!(Job::unpack(&bytes(header)), Ok(job));
    }
}

/// The same where the words are bad, and what is expected then.
const BAD_LINES: [(&str, &str); 11] = [
    (
        "outputs 1 df 10 3",
        "a number or a number and `long` behind df, found `10 3`",
    ),
    (
        "outputs 1 df 10 LONG",
        "a number or a number and `long` behind df, found `10 LONG`",
    ),
    (
        "outputs 1 df 1 long long",
        "a number or a number and `long` behind df, found `1 long long`",
    ),
    (
        "outputs 1 df long",
        "df as a number from 0 to 65535, found `long`",
    ),
    ("outputs 1 df 32 long", "df of f1 from 0 to 31, found 32"),
    (
        "outputs 2 df 10 long",
        "df of f2 as a number from 0 to 65535, found `long`",
    ),
    (
        "outputs 3 df 1 2",
        "a number or 3 numbers behind df, found `1 2`",
    ),
    (
        "outputs 3 df 1 2 3 long",
        "a number or 3 numbers behind df, found `1 2 3 long`",
    ),
    ("outputs 4 df 1 2 3 32", "df of f4 from 0 to 31, found 32"),
    (
        "outputs 4 df 1 x 3 32",
        "df of f2 as a number from 0 to 65535, found `x`",
    ),
    ("outputs 5 df 1 2 3 4 5", "outputs from 1 to 4, found 5"),
];

#[test]
fn bad_words_behind_df_are_named() {
    let assert_named = |text: &str, message: &str| {
        let message = format!("line 2: expected {message}");
        let text = format!("# a job, or a trial\n{text}\n");
        assert_eq!(
            text.parse::<Job>().expect_err("no job").to_string(),
            message
        );
        let error = text.parse::<Trial>().expect_err("no trial");
        assert_eq!(error.to_string(), message);
    };
    for (words, message) in BAD_LINES {
        assert_named(&format!("prime 7 {words} dg 0 errors 0"), message);
    }
    let form = "`prime P outputs N df D.. dg D errors E`";
    for line in [
        "prime 7 outputs 2 df dg 0 errors 0",
        "prime 7 outputs 2 3 df 1 dg 0 errors 0",
        "prime 7 outputs 2 df 1 2 dg 0 errors 0 1",
        "prime 7 outputs 2 df 1 2 errors 0 dg 0",
    ] {
        assert_named(line, &format!("{form}, found `{line}`"));
    }
}

#[test]
fn bounds_that_fit_no_bytes_are_named() {
    for (bounds, message) in [
        (
            [1, 2, 3, 0],
            "expected 0 as the bound of f3, which does not exist, found 3",
        ),
        (
            [0, 0, 0, 32],
            "expected 0 as the bound of f4, which does not exist, found 32",
        ),
        ([32, 0, 0, 0], "expected df of f1 from 0 to 31, found 32"),
        ([31, 32, 0, 0], "expected df of f2 from 0 to 31, found 32"),
    ] {
        let df = NumeratorBounds::Each(bounds);
        let bounds = Bounds { df, ..BOUNDS };
        assert_eq!(Job::new(bounds).expect_err("no job").to_string(), message);
        let error = Trial::new(bounds, 3, &[1], &[vec![], vec![]]).expect_err("no trial");
        assert_eq!(error.to_string(), message);
    }
    // Of f1 and f2 the first has the bound 0 and the second 1.
    let message = |f1: &[u16], f2: &[u16]| {
        let error = Trial::new(BOUNDS, 3, &[1], &[f1.to_vec(), f2.to_vec()]);
        error.expect_err("no trial").to_string()
    };
    let of_first = "expected f1 of degree 0 at most, found degree 1";
    assert_eq!(message(&[0, 1], &[0, 1]), of_first);
    let of_second = "expected f2 of degree 1 at most, found degree 2";
    assert_eq!(message(&[1, 0], &[0, 1, 5]), of_second);
}

/// What the four calls say of bytes that they refuse with this number.
fn said(number: u32, job: &[u8]) -> [Option<String>; 4] {
    let words = |refusal: Option<Refusal>| refusal.map(|refusal| refusal.to_string());
    [
        words(Refusal::of(Report::refused(number, 0), job)),
        words(Refusal::of_check(Form::refused(number, 0), job)),
        words(Refusal::of_judgement(
            Judgement::refused(number, 0),
            job,
            &[],
        )),
        words(Refusal::of_trial(Written::refused(number), job, &[], 0)),
    ]
}

fn assert_said(number: u32, job: &[u8], words: &str) {
    let expected = Some(format!("refused {number}: {words}"));
    for found in said(number, job) {
        assert_eq!(found, expected, "{}", hex::text(job));
    }
}

/// Each rule alone, and several at once, with what is said of it.
#[test]
fn a_broken_rule_is_named() {
    let mut by_way = [0; 4];
    for index in 0..4000 {
        let (short, mut random) = (short_job(index), Random::new(SEED, index));
        let mut added = Added::drawn(&mut random, &short);
        let place = index as usize % by_way.len();
        let words = match random.once_in(3) {
            true => Some(break_rules(&mut random, &short, &mut added)),
            false => Way::ALL[place].take(&mut random, &short, &mut added),
        };
        let Some(words) = words else {
            continue;
        };
        by_way[place] += 1;
        let job = with_own_bounds(&short, &added);
        let error = Job::unpack(&job).expect_err("no job").to_string();
        let expected = format!("expected an added header that breaks no rule: {words}");
        assert_eq!(error, expected);
        assert_said(11, &job, &words);
        let header = Header::read(&job[..7]).expect("a header");
        assert_eq!((header.job_length(), header.length()), (job.len(), 7));
        assert_eq!(Header::read(&job), Some(header));
    }
    assert!(by_way.iter().all(|&count| count > 400), "{by_way:?}");
}

#[test]
fn a_header_that_breaks_off_is_named() {
    let job = bytes("01 80 03 00 00 00 00");
    assert!(
        Job::unpack(&job).is_err_and(|error| error.to_string().starts_with("expected 19 bytes"))
    );
    for length in 0..7 {
        let cut = &job[..length];
        let (needed, why) = match length {
            0..3 => (3, ""),
            _ => (7, ", as the spare bit is 1"),
        };
        assert_eq!(Header::read(cut), None);
        assert_eq!(Header::length_at(cut), needed);
        let error = Job::unpack(cut).expect_err("no job").to_string();
        assert_eq!(
            error,
            format!("expected a header of {needed} bytes{why}, found {length}")
        );
        let words = format!("expected {needed} bytes or more{why}, found {length}");
        assert_said(1, cut, &words);
    }
}

/// Refusal 2 has words still, though no job meets it.
#[test]
fn the_number_of_the_spare_bit_is_known() {
    for job in ["01 80 03", "01 80 03 00 00 00 00", "01 80 02", "01"] {
        assert_said(2, &bytes(job), "the header's last bit is 1");
    }
}
