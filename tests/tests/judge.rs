//! Every judge on the same pairs of a job and an offered answer: compared with each other, with the
//! definition and with what a recovery of the job gives.
//!
//! `SEED` and `PAIRS` in the environment take another run.

use hanthuvelo::{hex, Judgement, Report, LONGEST_ANSWER};
use outside_checks::definition::{
    answers, faults, for_each_list, for_each_smallest_job, for_each_smallest_job_with_marks, Fault,
};
use outside_checks::jobs::judged::{generate, Pair, Tally};
use outside_checks::jobs::{self, Counts, Expected};
use outside_checks::layout::{row_bit, Answer, Job};
use outside_checks::{
    conclude, expect_repeatable, implementations, judges, run_title, setting, show, Implementation,
    Judge,
};

const SEED: u64 = 4_294_967_291;
const PAIRS: u64 = 60_000;

/// What every judge says, which must be the same, and as expected.
fn agreed(judges: &[Judge], pair: &Pair) -> Judgement {
    let said = |judge: &Judge| (judge.judge)(&pair.job, &pair.offered);
    let judgements: Vec<Judgement> = judges.iter().map(said).collect();
    let agreed = pair.expected.unwrap_or(judgements[0]);
    for (judge, judgement) in judges.iter().zip(judgements) {
        assert_eq!(judgement, agreed, "{}\n{}", judge.name, pair.describe());
    }
    let form = match agreed.refusal {
        0 => Judgement::judged(agreed.is_yes()),
        number => Judgement::refused(number, agreed.row),
    };
    assert_eq!(agreed, form, "{}", pair.describe());
    agreed
}

/// Looks at the definition: a pair that is judged has no fault exactly if it is a yes.
fn faults_of(pair: &Pair, judgement: Judgement) -> Vec<Fault> {
    if judgement.refusal != 0 {
        return Vec::new();
    }
    let job = Job::unpack(&pair.job);
    let found = faults(&job, &Answer::unpack(&pair.offered, &job));
    let is_yes = judgement.is_yes();
    assert_eq!(found.is_empty(), is_yes, "{found:?}\n{}", pair.describe());
    found
}

/// Recovers the job. The judgement follows from what this returns and writes, and the recovered bytes
/// are judged with yes. Returns whether there are any.
fn is_recovered(recovery: Implementation, judges: &[Judge], pair: &Pair, said: Judgement) -> bool {
    let mut area = [0xA5; LONGEST_ANSWER];
    let report = (recovery.recover)(&pair.job, &mut area);
    let follows = match report {
        Report { refusal: 0 | 8, .. } => {
            let length = Job::unpack(&pair.job).answer_length();
            let is_the_answer = report.is_recovered() && area[..length] == pair.offered;
            match pair.offered.len() == length {
                true => Judgement::judged(is_the_answer),
                false => Judgement::refused(3, 0),
            }
        }
        Report { refusal, row, .. } => Judgement::refused(refusal, row),
    };
    let describe = || format!("{report:?} {}\n{}", hex::text(&area), pair.describe());
    assert_eq!(said, follows, "{}", describe());
    if report.is_recovered() {
        let recovered = &area[..report.written as usize];
        let again = (judges[0].judge)(&pair.job, recovered);
        assert_eq!(again, Judgement::judged(true), "{}", describe());
    }
    report.is_recovered()
}

#[test]
fn all_judges_agree_on_generated_pairs() {
    let seed = setting("SEED", SEED);
    let (judges, recovery) = (judges(), implementations()[0]);
    let mut tally = Tally::default();
    for index in 0..setting("PAIRS", PAIRS) {
        let pair = generate(seed, index);
        let judgement = agreed(&judges, &pair);
        let faults = faults_of(&pair, judgement);
        let has_answer = is_recovered(recovery, &judges, &pair, judgement);
        tally.count(&pair, judgement, &faults, has_answer);
    }
    let names = judges.iter().map(|each| each.name);
    let names = names.chain(["the definition"]);
    conclude(&run_title(seed, "judged by", names), tally.summary());
}

#[test]
fn the_generator_repeats_itself() {
    expect_repeatable(SEED, |seed, index| generate(seed, index).describe());
}

/// Offers for a job modulo 7 under this header all coefficients from 0 to 7 with every word of its
/// rows. To the answer's word, or to none, each mark of a row that does not exist is added as well.
fn judge_all_small(judges: &[Judge], job: &Job, counts: &mut Counts) {
    let found = answers(job);
    assert!(found.len() <= 1, "two answers: {job:?}");
    let right = found.first().map(|answer| answer.pack(job));
    assert_eq!(implementations()[0].answer(job), right, "{job:?}");
    let row_count = job.rows.len();
    let known = found.first().map_or(0, |answer| answer.word);
    let words = (0..1 << row_count).map(|marks: u32| marks << (32 - row_count));
    let further = (row_count..32).map(|row| known | row_bit(row));
    let words: Vec<u32> = words.chain(further).collect();
    let bytes = job.pack();
    let mut offered = vec![0; job.answer_length()];
    let (mut yes, mut count) = (vec![0; judges.len()], 0);
    for_each_list(offered.len() / 2 - 2, 8, &mut |coefficients| {
        for (place, &number) in offered[4..].chunks_mut(2).zip(coefficients) {
            place.copy_from_slice(&(number as u16).to_be_bytes());
        }
        for word in &words {
            offered[..4].copy_from_slice(&word.to_be_bytes());
            let expected = Judgement::judged(right.as_ref() == Some(&offered));
            for (judge, yes) in judges.iter().zip(&mut yes) {
                let judgement = (judge.judge)(&bytes, &offered);
                assert_eq!(judgement, expected, "{} {job:?} {offered:02X?}", judge.name);
                *yes += usize::from(judgement.is_yes());
            }
            count += 1;
        }
    });
    assert!(yes.iter().all(|&yes| yes == found.len()), "{yes:?} {job:?}");
    counts.add("jobs", true);
    counts.add("jobs with an answer", right.is_some());
    counts.add("jobs without an answer", right.is_none());
    counts.add_number("offered answers", count);
}

/// The bound of each f, dg, E, and every so many lists of values at the points 0 to L − 1.
const SMALLEST: [(&[usize], usize, usize, usize); 11] = [
    (&[0], 0, 0, 1),
    (&[0], 0, 1, 1),
    (&[0], 1, 0, 1),
    (&[1], 0, 0, 1),
    (&[0, 0], 0, 0, 1),
    (&[0, 0], 0, 1, 2357),
    (&[0], 1, 1, 47),
    (&[1], 0, 1, 47),
    (&[1], 1, 0, 31),
    (&[1, 0], 0, 0, 211),
    (&[0, 1], 0, 0, 211),
];

/// The same with rows that report a pole or are silent: how many rows more than needed stands before the stride.
const SMALLEST_WITH_MARKS: [(&[usize], usize, usize, usize, usize); 6] = [
    (&[0], 0, 0, 1, 1),
    (&[0], 1, 0, 1, 11),
    (&[1], 0, 0, 1, 13),
    (&[0], 0, 1, 1, 41),
    (&[0, 0], 0, 0, 1, 7),
    (&[0, 0], 1, 0, 0, 11),
];

/// There is exactly one yes where the job has an answer, to its bytes, and none where it has not.
#[test]
fn all_small_offers_for_the_smallest_jobs() {
    let judges = judges();
    let mut counts = Counts::default();
    for (bounds, dg, errors, stride) in SMALLEST {
        let mut number = 0;
        for_each_smallest_job((bounds, dg, errors), &mut |job| {
            number += 1;
            for &form in job.headers().iter().filter(|_| number % stride == 0) {
                judge_all_small(&judges, &job.under(form), &mut counts);
            }
        });
    }
    let floors = [
        ("jobs", 1200),
        ("jobs with an answer", 600),
        ("jobs without an answer", 400),
        ("offered answers", 30_000_000),
    ];
    conclude(
        "all small offers for the smallest jobs",
        counts.against(&floors),
    );
}

/// Whatever the words say of rows that report a pole or are silent.
#[test]
fn all_small_offers_for_the_smallest_jobs_with_poles_and_silent_rows() {
    let judges = judges();
    let mut counts = Counts::default();
    for (bounds, dg, errors, surplus, stride) in SMALLEST_WITH_MARKS {
        let mut number = 0;
        for_each_smallest_job_with_marks((bounds, dg, errors), surplus, &mut |job| {
            number += 1;
            if number % stride == 0 {
                judge_all_small(&judges, job, &mut counts);
            }
        });
    }
    let floors = [
        ("jobs", 150),
        ("jobs with an answer", 50),
        ("jobs without an answer", 80),
        ("offered answers", 3_000_000),
    ];
    let title = "all small offers for the smallest jobs with poles and silent rows";
    conclude(title, counts.against(&floors));
}

#[test]
fn every_flipped_bit_of_a_right_answer_is_a_no() {
    let judge = judges()[0].judge;
    let (mut jobs, mut bits) = (0, 0);
    for index in 0..900 {
        let job = jobs::generate(SEED, index);
        let Expected::Answered { bytes, .. } = &job.expected else {
            continue;
        };
        let mut offered = bytes.clone();
        for bit in 0..8 * offered.len() {
            offered[bit / 8] ^= 128 >> (bit % 8);
            let judgement = judge(&job.bytes, &offered);
            let describe = || format!("bit {bit}\n{}", job.describe());
            assert_eq!(judgement, Judgement::judged(false), "{}", describe());
            offered[bit / 8] ^= 128 >> (bit % 8);
        }
        let judgement = judge(&job.bytes, &offered);
        assert_eq!(judgement, Judgement::judged(true), "{}", job.describe());
        jobs += 1;
        bits += 8 * offered.len();
    }
    show(&format!("flipped bits: {bits}, of {jobs} right answers\n"));
    assert!(jobs >= 300 && bits >= 100_000);
}
