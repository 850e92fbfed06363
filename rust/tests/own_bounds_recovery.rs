//! Jobs with a bound for each output by the library's calls: answered as those with one bound where all are equal, within each
//! output's own bound where they are not, and refused with 1 and 11 in words.

#[path = "support/own_bounds.rs"]
mod own_bounds;
#[path = "support/trials.rs"]
mod trials;

use hanthuvelo::{
    check, hex, judge, recover, trial, Answer, Form, Job, Judgement, NumeratorBounds, Refusal,
    Report, Written,
};
use outside_checks::jobs::{generate, trial as trial_calls, Random};
use outside_checks::second;
use own_bounds::{
    break_rules, df_of, has_own_bounds, header_length, outputs_of, with_one_bound, with_own_bounds,
    Added,
};
use trials::{trial_of, within_own_bounds};

const SEED: u64 = 52;

/// A generated job of any form with the short header, its own or in place of the longer one.
fn short_job(index: u64) -> Option<Vec<u8>> {
    let job = generate(SEED, index).bytes;
    if job.len() < 3 || job.len() < header_length(&job) {
        return None;
    }
    Some(match has_own_bounds(&job) {
        true => with_one_bound(&job),
        false => job,
    })
}

/// What a recovery returns, and the area after it.
fn recovered(job: &[u8], before: &[u8]) -> (Report, Vec<u8>) {
    let mut area = before.to_vec();
    (recover(job, &mut area), area)
}

/// Every call returns and writes the same for the two headers of a job, also where the job is refused.
#[test]
fn equal_bounds_are_answered_as_one_bound() {
    let mut met = [0; 9];
    for index in 0..20_000 {
        let Some(short) = short_job(index) else {
            continue;
        };
        let mut random = Random::new(SEED, index);
        let longer = with_own_bounds(&short, &Added::equal(&short));
        let length = match random.once_in(4) {
            true => random.below(255),
            false => 254,
        };
        let before = random.bytes(length);
        let (report, area) = recovered(&short, &before);
        assert_eq!(recovered(&longer, &before), (report, area.clone()));
        assert_eq!(check(&longer), check(&short), "{}", hex::text(&short));
        let mut offered = area[..report.written as usize].to_vec();
        assert_eq!(judge(&longer, &offered), judge(&short, &offered));
        if let Some(byte) = offered.first_mut() {
            *byte ^= 1 << random.below(8);
            assert_eq!(judge(&longer, &offered), judge(&short, &offered));
        }
        met[report.refusal as usize] += 1;
    }
    let is_met = |number: usize| met[number] > 100;
    assert!([0, 3, 4, 5, 6, 7, 8].into_iter().all(is_met), "{met:?}");
}

/// A job with the short header that has an answer, with this answer's bytes by the second solver, and its degrees.
struct Known {
    short: Vec<u8>,
    answer: Vec<u8>,
    degrees: Vec<usize>,
}

impl Known {
    fn new(index: u64) -> Option<Known> {
        let short = short_job(index)?;
        let mut answer = vec![0; 254];
        let report = second::recover(&short, &mut answer);
        if !report.is_recovered() {
            return None;
        }
        answer.truncate(report.written as usize);
        let job = Job::unpack(&short).expect("a job");
        let read = Answer::unpack(&answer, job.bounds(), job.rows().len()).expect("an answer");
        let degree = |f: &Vec<u16>| hanthuvelo::trimmed(f).len().saturating_sub(1);
        let degrees = read.numerators.iter().map(degree).collect();
        Some(Known {
            short,
            answer,
            degrees,
        })
    }

    /// The answer within bounds that it meets: the word and g as they are, and of each f as many coefficients as its bound
    /// asks for.
    fn within(&self, added: &Added) -> Vec<u8> {
        let df = df_of(&self.short);
        let all = 2 * (df + 1) * self.degrees.len();
        let (start, numerators) = self.answer.split_at(self.answer.len() - all);
        let blocks = numerators.chunks(2 * (df + 1)).zip(added.bounds);
        let cut = blocks.flat_map(|(block, bound)| block[..2 * (bound + 1)].to_vec());
        [start.to_vec(), cut.collect()].concat()
    }
}

/// By uniqueness within the largest bound: the same fractions where each meets its own bound.
#[test]
fn each_output_is_recovered_within_its_own_bound() {
    let (mut tried, mut shorter) = (0, 0);
    for index in 0..20_000 {
        let Some(known) = Known::new(index) else {
            continue;
        };
        let mut random = Random::new(SEED, index);
        let added = Added::meeting(&mut random, &known.short, &known.degrees);
        let job = with_own_bounds(&known.short, &added);
        let answer = known.within(&added);
        let before = random.bytes(254);
        let mut expected = before.clone();
        expected[..answer.len()].copy_from_slice(&answer);
        let (report, area) = recovered(&job, &before);
        let wrong = answer[..4].iter().map(|byte| byte.count_ones()).sum();
        assert_eq!(report, Report::recovered(answer.len() as u32, wrong));
        assert_eq!(area, expected, "{}", hex::text(&job));
        assert_eq!(judge(&job, &answer), Judgement::judged(true));
        if answer.len() < known.answer.len() {
            let padded = judge(&job, &known.answer);
            assert_eq!(padded, Judgement::refused(3, 0));
            shorter += 1;
        }
        tried += 1;
    }
    assert!(tried > 4000 && shorter > 1000, "{tried}, {shorter}");
}

/// And none where one does not, though there is an answer within the largest bound.
#[test]
fn an_answer_beyond_one_bound_is_none() {
    let mut tried = 0;
    for index in 0..20_000 {
        let Some(known) = Known::new(index).filter(|known| known.degrees.len() > 1) else {
            continue;
        };
        let mut random = Random::new(SEED, index);
        let output = random.below(known.degrees.len());
        if known.degrees[output] == 0 {
            continue;
        }
        let mut added = Added::equal(&known.short);
        added.bounds[output] = random.below(known.degrees[output]);
        let job = with_own_bounds(&known.short, &added);
        let before = random.bytes(254);
        let (report, area) = recovered(&job, &before);
        assert_eq!((report, area), (Report::refused(8, 0), before));
        assert_eq!(check(&job), Form::ACCEPTED);
        let bounds = added.bounds[..known.degrees.len()].iter();
        let bounds: Vec<String> = bounds.map(usize::to_string).collect();
        let words = Refusal::of(report, &job).expect("a refusal").reason;
        let start = format!("no reduced answer within df {} and dg ", bounds.join(" "));
        assert!(words.starts_with(&start), "{words}");
        tried += 1;
    }
    assert!(tried > 1000, "{tried}");
}

/// H8 is 1 / (1 + u) and u / (1 + u).
#[test]
fn the_bounds_of_h8_by_hand() {
    let job = |df: &str| -> Job {
        let text = format!("prime 7 outputs 2 df {df} dg 1 errors 0\n0: 1 0\n1: 4 4\n2: 5 3\n");
        text.parse().expect("a job")
    };
    let answer = job("0 1").recover().expect("an answer");
    assert_eq!(answer.denominator, [1, 1]);
    assert_eq!(answer.numerators, [vec![1], vec![0, 1]]);
    assert_eq!(job("1 1").recover(), job("1").recover());
    let refusal = job("1 0").recover().expect_err("no answer");
    let words = "refused 8: no reduced answer within df 1 0 and dg 1 has at most 0 wrong rows";
    assert_eq!(refusal.to_string(), words);
    let few = job("3 2").recover().expect_err("too few rows");
    let words = "refused 4: df + dg + 2 E + 1 is 5, the job has 3 rows";
    assert_eq!(few.to_string(), words);
}

/// Each of the four calls on bytes that it refuses with this number: what it returns, and the words.
fn assert_refused(job: &[u8], number: u32, words: &str) {
    let before = [0xA5; 20];
    let report = recovered(job, &before);
    assert_eq!(report, (Report::refused(number, 0), before.to_vec()));
    let form = check(job);
    assert_eq!(form, Form::refused(number, 0));
    let judgement = judge(job, &before);
    assert_eq!(judgement, Judgement::refused(number, 0));
    let mut area = before;
    let written = trial(job, &before, 0, 99, &mut area);
    assert_eq!((written, area), (Written::refused(number), before));
    for refusal in [
        Refusal::of(report.0, job),
        Refusal::of_check(form, job),
        Refusal::of_judgement(judgement, job, &before),
        Refusal::of_trial(written, job, &before, 99),
    ] {
        let said = refusal.map(|refusal| refusal.to_string());
        assert_eq!(said, Some(format!("refused {number}: {words}")));
    }
}

/// Whatever follows, also too few bytes for the rows; and 1 where the header itself breaks off.
#[test]
fn broken_headers_are_refused() {
    let (mut broken, mut cut) = (0, 0);
    for index in 0..6000 {
        let Some(short) = short_job(index) else {
            continue;
        };
        let mut random = Random::new(SEED, index);
        let mut added = Added::drawn(&mut random, &short);
        let words = break_rules(&mut random, &short, &mut added);
        let mut job = with_own_bounds(&short, &added);
        if random.once_in(2) {
            job.truncate(random.between(7, job.len()));
        }
        assert_refused(&job, 11, &words);
        broken += 1;
        job.truncate(random.between(3, 6));
        let found = job.len();
        let words = format!("expected 7 bytes or more, as the spare bit is 1, found {found}");
        assert_refused(&job, 1, &words);
        cut += 1;
    }
    assert!(broken > 2000 && cut > 2000, "{broken}, {cut}");
}

/// The job of a trial has the header that was given, and rows that do not depend on it.
#[test]
fn trials_are_written_with_either_header() {
    let (mut written, mut refused, mut back) = (0, 0, 0);
    for index in 0..8000 {
        let call = trial_calls::generate(SEED, index);
        let known = trial_of(&call).filter(|_| !has_own_bounds(&call.header));
        let Some(short) = known else {
            continue;
        };
        let (longer, added) = within_own_bounds(&short, &mut Random::new(SEED, index));
        let job = match (short.write(), longer.write()) {
            (Err(one), Err(other)) => {
                assert_eq!(one.number, other.number, "{}", call.describe());
                refused += 1;
                continue;
            }
            (one, other) => {
                let one = one.expect("a job").pack();
                let other = other.expect("a job");
                assert_eq!(other.pack(), with_own_bounds(&one, &added));
                other
            }
        };
        written += 1;
        assert_eq!(job.bounds().df, NumeratorBounds::Each(added.bounds));
        let (header, coefficients) = (&call.header, &call.coefficients);
        let made = second::trial_job(header, coefficients, call.start, call.spoiled, 313);
        let wrong = made.expect("a job").wrong_rows();
        if wrong.len() <= job.bounds().errors {
            let answer = job.recover().expect("an answer");
            assert_eq!(answer.denominator, longer.denominator());
            assert_eq!(answer.numerators, longer.numerators());
            assert!(wrong.into_iter().eq(answer.wrong_rows()));
            back += 1;
        }
    }
    let counts = [written, refused, back];
    assert!(written > 1000 && refused > 100 && back > 500, "{counts:?}");
}

/// The largest job has 317 bytes, and one more is too many.
#[test]
fn the_largest_job_has_317_bytes() {
    let header = "prime 65521 outputs 4 df 3 10 0 7 dg 8 errors 6\n";
    let rows: String = (0..31).map(|point| format!("{point}: 5 5 5 5\n")).collect();
    let job: Job = format!("{header}{rows}").parse().expect("a job");
    let mut bytes = job.pack();
    assert_eq!((bytes.len(), hanthuvelo::LONGEST_JOB), (317, 317));
    assert_eq!(outputs_of(&bytes), 4);
    let answer = job.recover().expect("an answer");
    let lengths: Vec<usize> = answer.numerators.iter().map(Vec::len).collect();
    assert_eq!(lengths, [4, 11, 1, 8]);
    assert!(answer
        .numerators
        .iter()
        .all(|f| hanthuvelo::trimmed(f) == [5]));
    bytes.push(0);
    assert_eq!(check(&bytes), Form::refused(3, 0));
}
