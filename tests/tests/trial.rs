//! Every writer of trial jobs on the same generated calls: what is returned and every byte of the
//! area; and each job recovered and compared with what went in.
//!
//! `SEED` and `CALLS` in the environment take another run.

use hanthuvelo::{hex, Report, Written};
use outside_checks::definition::{for_each_list, is_reduced};
use outside_checks::jobs::trial::{generate, Tally, TrialCall};
use outside_checks::layout::{is_right, row_bit, trimmed, value_at, Answer, HeaderForm, Job, Row};
use outside_checks::second::{trial_job, TrialJob};
use outside_checks::{
    agreed, conclude, expect_repeatable, implementations, run_title, setting, show, writers, Area,
    Writer,
};

const SEED: u64 = 1_013_904_223;
const CALLS: u64 = 50_000;

/// What every writer returned, which must be the same, with the area, which must be the same too.
fn agreed_job(call: &TrialCall) -> (Written, Area) {
    let outcome = |writer: Writer| {
        let mut area = call.area.clone();
        let (header, coefficients) = (&call.header, &call.coefficients);
        let written = (writer.trial)(header, coefficients, call.start, call.spoiled, &mut area);
        let outcome = || format!("{}: {written:?}\n{}", writer.name, hex::text(&area));
        let describe = || format!("{}\n{}", outcome(), call.describe());
        let expected = call.expected.unwrap_or(written.refusal);
        assert_eq!(written.refusal, expected, "{}", describe());
        let is_refused = written == Written::refused(expected);
        assert!(written.is_written() || is_refused, "{}", describe());
        let kept = written.written as usize;
        assert!(area[kept..] == call.area[kept..], "behind\n{}", describe());
        (writer.name, (written, Area(area)))
    };
    let outcomes = writers().into_iter().map(outcome);
    agreed(outcomes, &|| call.describe())
}

/// Recovers a trial job. Its wrong rows are the poles and the spoiled ones; if they are E at most,
/// the recovery gives back what went in, and else something else or nothing.
fn recover(call: &TrialCall, area: &[u8], job: &TrialJob) {
    let recover = implementations()[0].recover;
    let wrong = job.wrong_rows();
    let word: u32 = wrong.iter().copied().map(row_bit).sum();
    let answer = [&word.to_be_bytes()[..], &call.coefficients].concat();
    let mut expected = answer.clone();
    expected.extend([0x5A; 5]);
    let mut found = vec![0x5A; expected.len()];
    let report = recover(&area[..job.bytes.len()], &mut found);
    if wrong.len() <= call.fields().error_bound {
        let known = Report::recovered(answer.len() as u32, wrong.len() as u32);
        assert_eq!(report, known, "{}", call.describe());
        assert_eq!(found, expected, "{}", call.describe());
    } else {
        let other = report == Report::refused(8, 0) || found[4..answer.len()] != answer[4..];
        assert!(other, "{report:?}\n{}", call.describe());
    }
}

#[test]
fn all_writers_agree_on_generated_calls() {
    let seed = setting("SEED", SEED);
    let mut tally = Tally::default();
    for index in 0..setting("CALLS", CALLS) {
        let call = generate(seed, index);
        let (written, Area(area)) = agreed_job(&call);
        let (header, coefficients) = (&call.header, &call.coefficients);
        let length = call.area.len();
        let job = trial_job(header, coefficients, call.start, call.spoiled, length).ok();
        if let Some(job) = &job {
            recover(&call, &area, job);
        }
        tally.count(&call, written, job.as_ref());
    }
    let names = writers().into_iter().map(|each| each.name);
    conclude(&run_title(seed, "trial jobs by", names), tally.summary());
}

#[test]
fn the_generator_repeats_itself() {
    expect_repeatable(SEED, |seed, index| generate(seed, index).describe());
}

/// A trial modulo 7 with these bounds, E = 0 and no row more than needed.
fn small_job(numerator_bounds: &[usize], dg: usize) -> Job {
    let row = |point| Row {
        point,
        values: vec![0; numerator_bounds.len()],
    };
    let mut job = Job {
        header: HeaderForm::OwnBounds,
        prime_code: 0,
        numerator_bounds: numerator_bounds.to_vec(),
        denominator_bound: dg,
        error_bound: 0,
        rows: Vec::new(),
    };
    job.rows = (0..job.needed_rows() as u32).map(row).collect();
    job
}

/// Paper 01's "reduced", by trying every divisor.
fn is_reduced_by_definition(denominator: &[u32], numerators: &[Vec<u32>]) -> bool {
    let denominator = trimmed(denominator);
    denominator.last() == Some(&1) && is_reduced(&denominator, numerators, 7)
}

/// Every writer on a trial of which no row is spoiled: refused with 10 exactly if it is not reduced,
/// else zeros at the poles and right rows everywhere else.
fn compare_small(job: &Job, denominator: &[u32], numerators: &[Vec<u32>]) -> bool {
    let listed = Answer {
        word: 0,
        denominator: denominator.to_vec(),
        numerators: numerators.to_vec(),
    };
    let coefficients = &listed.pack(job)[4..];
    let header = &job.packed_header();
    let is_reduced = is_reduced_by_definition(denominator, numerators);
    for writer in writers() {
        let mut area = vec![0xA5; job.pack().len()];
        let written = (writer.trial)(header, coefficients, 0, 0, &mut area);
        let describe = || format!("{}: {written:?} {listed:?}", writer.name);
        if !is_reduced {
            assert_eq!(written, Written::refused(10), "{}", describe());
            continue;
        }
        assert_eq!(written, Written::bytes(area.len() as u32), "{}", describe());
        assert!(area.starts_with(header), "{}", describe());
        let rows = area[header.len()..].chunks(2 * (1 + job.outputs()));
        let rows = rows.enumerate();
        for (place, bytes) in rows {
            let number = |pair: &[u8]| u32::from(pair[0]) * 256 + u32::from(pair[1]);
            let numbers: Vec<u32> = bytes.chunks(2).map(number).collect();
            let row = Row {
                point: numbers[0],
                values: numbers[1..].to_vec(),
            };
            let polynomials = numerators.iter().map(Vec::as_slice);
            let fits = match value_at(denominator, row.point, 7) {
                0 => row.values.iter().all(|&value| value == 0),
                _ => is_right(denominator, polynomials, &row, 7),
            };
            assert!(fits && row.point == place as u32, "{}", describe());
            assert!(row.values.iter().all(|&value| value < 7), "{}", describe());
        }
    }
    is_reduced
}

#[test]
fn all_polynomials_of_the_smallest_trials() {
    let (mut reduced, mut other) = (0, 0);
    // The bound of each f, dg.
    let bounds: [(&[usize], usize); 8] = [
        (&[0], 0),
        (&[1], 1),
        (&[2], 2),
        (&[1, 1], 1),
        (&[0, 0, 0], 1),
        (&[1, 0], 1),
        (&[0, 2], 1),
        (&[1, 0, 1], 0),
    ];
    for (bounds, dg) in bounds {
        let job = small_job(bounds, dg);
        let count = dg + 1 + bounds.iter().map(|bound| bound + 1).sum::<usize>();
        for_each_list(count, 7, &mut |coefficients| {
            let (denominator, numerators) = coefficients.split_at(dg + 1);
            let numerators: Vec<Vec<u32>> =
                job.numerators_in(numerators).map(<[u32]>::to_vec).collect();
            for &form in job.headers() {
                match compare_small(&job.under(form), denominator, &numerators) {
                    true => reduced += 1,
                    false => other += 1,
                }
            }
        });
    }
    show(&format!(
        "all polynomials of the smallest trials: {reduced} reduced, {other} not\n"
    ));
    assert!(reduced > 60_000 && other > 400_000);
}
