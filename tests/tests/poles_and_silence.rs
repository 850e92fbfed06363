//! Rows that report a pole or are silent: what follows for a job when a row of it becomes one, or is one no more, and every
//! number in every place of such rows.

use hanthuvelo::{hex, Form, Judgement, Report};
use outside_checks::compared::Compared;
use outside_checks::jobs::form::{most_rows, sound_job, Order};
use outside_checks::jobs::{generate, Expected, Random};
use outside_checks::layout::{row_bit, value_at, Answer, HeaderForm, Job, Mark, Row, PRIMES};
use outside_checks::{conclude, implementations, judges, setting};

const SEED: u64 = 65_534;
const JOBS: u64 = 30_000;

/// A generated job under the flag with its answer, if it has one that the generator knows.
fn known(index: u64) -> Option<(Job, Answer)> {
    let generated = generate(SEED, index);
    let Expected::Answered { bytes, .. } = &generated.expected else {
        return None;
    };
    let job = Job::unpack(&generated.bytes);
    let answer = Answer::unpack(bytes, &job);
    let can_be_marked = job.header == HeaderForm::Flagged || !job.has_marks();
    can_be_marked.then(|| (job.under(HeaderForm::Flagged), answer))
}

/// Every implementation gives the job this answer, and every judge says yes to it.
fn expect_answer(job: &Job, answer: &Answer) {
    let (bytes, expected) = (job.pack(), answer.pack(job));
    let report = Report::recovered(expected.len() as u32, answer.word.count_ones());
    for implementation in implementations() {
        let mut area = vec![0xA5; expected.len()];
        let found = (implementation.recover)(&bytes, &mut area);
        let describe = || format!("{}: {}", implementation.name, hex::text(&bytes));
        assert_eq!((found, &area), (report, &expected), "{}", describe());
    }
    for judge in judges() {
        let said = (judge.judge)(&bytes, &expected);
        assert_eq!(said, Judgement::judged(true), "{}: {job:?}", judge.name);
    }
}

/// The word without the bits of these rows, which rise; the others close up.
fn closed_up(word: u32, gone: &[usize]) -> u32 {
    let kept = (0..32).filter(|row| !gone.contains(row));
    let marked = kept
        .enumerate()
        .filter(|(_, row)| word & row_bit(*row) != 0);
    marked.map(|(place, _)| row_bit(place)).sum()
}

/// Without its silent rows a job has the same answer, and no other word but for the places of the rows.
#[test]
fn silent_rows_can_be_left_out() {
    let (mut jobs, mut rows) = (0, 0);
    for index in 0..setting("JOBS", JOBS) {
        let Some((mut job, mut answer)) = known(index) else {
            continue;
        };
        let silent = job.marked(Mark::Silent);
        if silent.is_empty() {
            continue;
        }
        expect_answer(&job, &answer);
        for &row in silent.iter().rev() {
            job.rows.remove(row);
        }
        answer.word = closed_up(answer.word, &silent);
        expect_answer(&job, &answer);
        (jobs, rows) = (jobs + 1, rows + silent.len());
    }
    let text = format!("{jobs} jobs, {rows} silent rows\n");
    conclude("silent rows left out", (text, jobs >= 2000 && rows >= 6000));
}

/// What is done to one row of a job with a known answer.
#[derive(Clone, Copy, Debug, PartialEq, Eq)]
enum Change {
    /// A row that is not needed becomes silent, a wrong or a right one.
    Silenced,
    /// A row with values at a root of g reports it, and is right.
    PoleTold,
    /// A right row reports a pole where there is none.
    FalsePole,
    /// A row that reports a pole rightly has values, and is wrong.
    PoleUntold,
}

impl Change {
    const ALL: [Change; 4] = [
        Change::Silenced,
        Change::PoleTold,
        Change::FalsePole,
        Change::PoleUntold,
    ];

    /// A row that can be changed so, with what it is afterwards.
    fn of(self, random: &mut Random, job: &Job, g: &[u32]) -> Option<(usize, Row, bool)> {
        let mut places: Vec<usize> = (0..job.rows.len()).collect();
        random.shuffle(&mut places);
        places.into_iter().find_map(|place| {
            let (row, is_wrong) = self.row(random, job, &job.rows[place], g)?;
            Some((place, row, is_wrong))
        })
    }

    /// The row after the change and whether it is wrong then, if this row can be changed so.
    fn row(self, random: &mut Random, job: &Job, row: &Row, g: &[u32]) -> Option<(Row, bool)> {
        let (point, outputs, mark) = (row.point, job.outputs(), job.mark(row));
        let is_root = value_at(g, point, job.prime()) == 0;
        match self {
            Change::Silenced if job.rows_to_spare() > 0 && mark != Some(Mark::Silent) => {
                Some((Mark::Silent.row(point, outputs), false))
            }
            Change::PoleTold if is_root && mark.is_none() => {
                Some((Mark::Pole.row(point, outputs), false))
            }
            Change::FalsePole if !is_root && mark.is_none() => {
                Some((Mark::Pole.row(point, outputs), true))
            }
            Change::PoleUntold if is_root && mark == Some(Mark::Pole) => {
                let values = (0..outputs).map(|_| random.residue(job.prime())).collect();
                Some((Row { point, values }, true))
            }
            _ => None,
        }
    }
}

/// As long as no more rows than E are wrong, the answer stays, and the word says the changed row anew. Beyond that it is
/// another one, or there is none.
#[test]
fn a_row_says_something_else() {
    let mut counts = [[0; 2]; 4];
    for index in 0..setting("JOBS", JOBS) {
        let Some((job, answer)) = known(index) else {
            continue;
        };
        let mut random = Random::new(SEED, index);
        let change = Change::ALL[index as usize % 4];
        let Some((place, row, is_wrong)) = change.of(&mut random, &job, &answer.denominator) else {
            continue;
        };
        let mut changed = job.clone();
        changed.rows[place] = row;
        let mut word = answer.word & !row_bit(place);
        word |= if is_wrong { row_bit(place) } else { 0 };
        let is_kept = word.count_ones() as usize <= job.error_bound;
        let answer = Answer { word, ..answer };
        match is_kept {
            true => expect_answer(&changed, &answer),
            false => expect_other(&changed, &answer),
        }
        counts[index as usize % 4][usize::from(is_kept)] += 1;
    }
    let lines = Change::ALL.iter().zip(&counts);
    let text: String = lines
        .map(|(change, [other, kept])| format!("{change:?}: {kept} kept, {other} not\n"))
        .collect();
    let [[_, silenced], [_, told], [false_lost, false_kept], [lost, kept]] = counts;
    let enough = silenced >= 300 && told >= 200 && false_lost >= 1000 && false_kept >= 300;
    conclude(
        "rows that say something else",
        (text, enough && lost >= 100 && kept >= 20),
    );
}

/// No implementation gives the job these polynomials, and every judge says no to them.
fn expect_other(job: &Job, answer: &Answer) {
    let (bytes, offered) = (job.pack(), answer.pack(job));
    for implementation in implementations() {
        let mut area = vec![0xA5; offered.len()];
        let found = (implementation.recover)(&bytes, &mut area);
        let is_other =
            found == Report::refused(8, 0) || found.is_recovered() && area[4..] != offered[4..];
        assert!(is_other, "{}: {}", implementation.name, hex::text(&bytes));
    }
    for judge in judges() {
        let said = (judge.judge)(&bytes, &offered);
        assert_eq!(said, Judgement::judged(false), "{}: {job:?}", judge.name);
    }
}

/// The form of a job whose points differ, by the paper: the first row with a number that is too large and no mark; then too few
/// rows that speak.
fn form_of(job: &Job) -> Form {
    let large = job.rows.iter().position(|row| job.is_out_of_range(row));
    match large {
        Some(row) => Form::refused(5, row as u32),
        None if job.speaking() < job.needed_rows() => Form::refused(12, 0),
        None => Form::ACCEPTED,
    }
}

/// A sound job whose first row reports a pole and whose last row is silent.
fn job_with_pole_and_silent_row(random: &mut Random, size: (usize, usize, usize)) -> Job {
    loop {
        let mut job = sound_job(random, size, Order::Shuffled);
        if job.header == HeaderForm::Flagged && job.rows_to_spare() > 0 {
            let last = job.rows.len() - 1;
            job.rows[0].put(Mark::Pole);
            job.rows[last].put(Mark::Silent);
            return job;
        }
    }
}

fn put_every_number(compared: &Compared, job: &mut Job, row: usize, counts: &mut [usize; 13]) {
    for column in 0..job.outputs() {
        let before = job.rows[row].values[column];
        for number in 0..=u32::from(u16::MAX) {
            job.rows[row].values[column] = number;
            let form = form_of(job);
            compared.expect(&job.pack(), form);
            counts[form.refusal as usize] += 1;
        }
        job.rows[row].values[column] = before;
    }
}

/// Every 16-bit number at every value of a row that reports a pole, and of a silent one.
#[test]
fn every_number_in_poles_and_silent_rows() {
    let compared = Compared::default();
    let mut counts = [0; 13];
    let mut random = Random::new(SEED, 0);
    for prime_code in 0..PRIMES.len() {
        for outputs in 1..=4 {
            let rows = random.between(3, most_rows(prime_code));
            let mut job = job_with_pole_and_silent_row(&mut random, (prime_code, outputs, rows));
            compared.expect(&job.pack(), Form::ACCEPTED);
            put_every_number(&compared, &mut job, 0, &mut counts);
            put_every_number(&compared, &mut job, rows - 1, &mut counts);
        }
    }
    let [accepted, .., silent] = counts;
    let large = counts[5];
    let text = format!("{accepted} accepted, {large} refused with 5, {silent} with 12\n");
    let all = (4 * 2 * (1 + 2 + 3 + 4)) << 16;
    // A row of several values is marked as it was, or not at all; the only value of a row can be any below p, or a mark.
    let several = 4 * 2 * (2 + 3 + 4);
    let single = 2 * (7 + 97 + 257 + 65521);
    let enough = accepted + large + silent == all && accepted + silent == several + single + 4 * 4;
    conclude(
        "numbers in rows that report a pole or are silent",
        (text, enough && silent > 0),
    );
}
