//! Streams of jobs of which some are damaged, with what is to be said of each.

use super::support::own_bounds::{
    break_rules, has_own_bounds, with_one_bound, with_own_bounds, Added,
};
use outside_checks::jobs::form::{most_rows, raise_bound, set_number, silence, sound_job, Order};
use outside_checks::jobs::Random;
use outside_checks::layout::{HeaderForm, Job};

const SEED: u64 = 41;

/// What is said of a job that is not damaged.
pub const ACCEPTED: &str = "accepted";

/// A job that no test refuses.
fn sound(random: &mut Random) -> Job {
    let prime_code = random.below(4);
    let row_count = random.between(2, most_rows(prime_code));
    let size = (prime_code, random.between(1, 4), row_count);
    sound_job(random, size, Order::Shuffled)
}

/// Repeats an earlier row's point.
fn repeat_point(random: &mut Random, job: &mut Job) -> String {
    let row = random.between(1, job.rows.len() - 1);
    let point = job.rows[random.below(row)].point;
    job.rows[row].point = point;
    format!("refused 6, row {row}: its point {point} stands in an earlier row")
}

/// Puts a number of p or more into one row or two.
fn enlarge(random: &mut Random, job: &mut Job) -> String {
    let prime = job.prime();
    let rows = [0, 1].map(|_| random.below(job.rows.len()));
    for row in rows {
        // No mark.
        let large = random.between(prime as usize, 65533) as u32;
        let columns = 1 + job.rows[row].values.len();
        set_number(job, row, random.below(columns), large);
    }
    let row = rows[0].min(rows[1]);
    format!("refused 5, row {row}: a point or a value is {prime} or more")
}

/// Makes rows of a job with the flag silent, until too few speak.
fn silence_rows(random: &mut Random, job: &mut Job) -> String {
    silence(random, job);
    let (needed, speaking) = (job.needed_rows(), job.speaking());
    format!(
        "refused 12: df + dg + 2 E + 1 is {needed}, the number of rows that speak is {speaking}"
    )
}

fn ask_for_more_rows(random: &mut Random, job: &mut Job) -> String {
    raise_bound(random, job);
    let (needed, rows) = (job.needed_rows(), job.rows.len());
    format!("refused 4: df + dg + 2 E + 1 is {needed}, the job has {rows} rows")
}

/// A job of a stream.
pub struct Made {
    pub number: usize,
    /// Where it begins.
    pub byte: usize,
    pub bytes: Vec<u8>,
    /// What is to be said of it: `accepted`, or the refusal in words.
    pub said: String,
}

/// The jobs of a stream, with any header. Each of the five refusals that are possible there is put into one job of eight,
/// 11 and 12 into more of those that can have them, the last in order first, so that what is put in later is said. 11 comes
/// with a longer header alone, and 12 with the flag.
pub fn stream(count: usize) -> Vec<Made> {
    let mut byte = 0;
    let next = |number: usize| {
        let (bytes, said) = damaged(&mut Random::new(SEED, number as u64));
        let start = byte;
        byte += bytes.len();
        Made {
            number,
            byte: start,
            bytes,
            said,
        }
    };
    (0..count).map(next).collect()
}

fn damaged(random: &mut Random) -> (Vec<u8>, String) {
    let mut job = sound(random);
    let mut said = ACCEPTED.to_string();
    if random.once_in(8) {
        said = repeat_point(random, &mut job);
    }
    if job.header == HeaderForm::Flagged && random.once_in(4) {
        said = silence_rows(random, &mut job);
    }
    for damage in [enlarge, ask_for_more_rows] {
        if random.once_in(8) {
            said = damage(random, &mut job);
        }
    }
    let bytes = job.pack();
    let (short, mut added) = match has_own_bounds(&bytes) {
        true => (with_one_bound(&bytes), Added::of(&bytes)),
        false if random.once_in(2) => return (bytes, said),
        false => {
            let added = Added::drawn(random, &bytes);
            (bytes, added)
        }
    };
    if random.once_in(5) {
        let words = break_rules(random, &short, &mut added);
        said = format!("refused 11: {words}");
    }
    (with_own_bounds(&short, &added), said)
}

/// All their bytes, back to back.
pub fn bytes_of(jobs: &[Made]) -> Vec<u8> {
    jobs.iter().flat_map(|job| job.bytes.clone()).collect()
}
