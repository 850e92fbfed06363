//! Every check of a job's form on the same bytes: compared with each other, with what a recovery
//! refuses, and with what is known of the bytes.
//!
//! `SEED` and `JOBS` in the environment take another run.

use hanthuvelo::{Form, Report};
use outside_checks::compared::Compared;
use outside_checks::jobs::form::{generate, FormJob, Order, Tally};
use outside_checks::jobs::Random;
use outside_checks::layout::{has_sound_added_header, HeaderForm, Job, MOST_ROWS, PRIMES};
use outside_checks::{conclude, expect_repeatable, run_title, setting, show};

const SEED: u64 = 18_446_744;
const JOBS: u64 = 65_000;

/// Recovers the job: refused with what the check found, and answered or refused with 8 where it found
/// nothing. Returns whether it is answered.
fn is_answered(compared: &Compared, job: &FormJob, form: Form) -> bool {
    let (report, _) = compared.recovered(&job.bytes);
    let follows = match form {
        Form::ACCEPTED => report.is_recovered() || report == Report::refused(8, 0),
        Form { refusal, row } => report == Report::refused(refusal, row),
    };
    assert!(follows, "{form:?} but {report:?}\n{}", job.describe());
    report.is_recovered()
}

#[test]
fn all_checks_agree_on_generated_jobs() {
    let seed = setting("SEED", SEED);
    let compared = Compared::default();
    let mut tally = Tally::default();
    for index in 0..setting("JOBS", JOBS) {
        let job = generate(seed, index);
        let form = compared.form(&job.bytes, job.expected, &|| job.describe());
        let is_answered = is_answered(&compared, &job, form);
        tally.count(&job, form, is_answered);
    }
    let names = compared.checkers.iter().map(|each| each.name);
    conclude(&run_title(seed, "forms checked by", names), tally.summary());
}

#[test]
fn the_generator_repeats_itself() {
    expect_repeatable(SEED, |seed, index| generate(seed, index).describe());
}

/// Room for a job and bytes around it, at an address that is a multiple of 16.
#[repr(align(16))]
struct Surroundings([u8; 1024]);

/// Each job stands in a box of its own length first, then at all addresses modulo 16 among other
/// bytes. The check and the recovery find the same.
#[test]
fn a_job_is_read_alike_wherever_it_stands() {
    let compared = Compared::default();
    let (mut places, mut answered) = (0, 0);
    for index in 0..2000 {
        let job = generate(SEED + 1, index);
        let length = job.bytes.len();
        let alone = job.bytes.clone().into_boxed_slice();
        let form = compared.form(&alone, job.expected, &|| job.describe());
        let recovered = compared.recovered(&alone);
        for filling in [0x00, 0x01, 0xFF] {
            for offset in 0..16 {
                let mut around = Surroundings([filling; 1024]);
                around.0[offset..offset + length].copy_from_slice(&job.bytes);
                let bytes = &around.0[offset..offset + length];
                let describe = || format!("{filling:02X} {offset}\n{}", job.describe());
                compared.form(bytes, Some(form), &describe);
                let again = compared.recovered(bytes);
                assert!(again == recovered, "{}", describe());
                places += 1;
            }
        }
        answered += usize::from(recovered.0.is_recovered());
    }
    show(&format!(
        "jobs at other addresses: {places}, with an answer: {answered} in a box\n"
    ));
    assert!(places == 96_000 && answered >= 200);
}

/// The form of a sound job without marks after another number was put in a row: refused with 5 if it is p or more,
/// with 6 if it is the point of another row, at the later one of the two. Column 0 has the points. Where the flag is set and
/// there is one value, that can be a mark: too few rows speak if the job has none to spare and the row is silent.
fn with_number(job: &Job, row: usize, column: usize, number: u32) -> Form {
    let has_it = |other: &usize| *other != row && job.rows[*other].point == number;
    let same = (0..job.rows.len()).find(has_it).filter(|_| column == 0);
    let can_be_mark = job.header == HeaderForm::Flagged && column == 1 && job.outputs() == 1;
    match same {
        _ if can_be_mark && number == 65535 => Form::ACCEPTED,
        _ if can_be_mark && number == 65534 => match job.rows.len() > job.needed_rows() {
            true => Form::ACCEPTED,
            false => Form::refused(12, 0),
        },
        _ if number >= job.prime() => Form::refused(5, row as u32),
        Some(other) => Form::refused(6, row.max(other) as u32),
        None => Form::ACCEPTED,
    }
}

/// The place of a number among a job's bytes.
fn place_of(job: &Job, row: usize, column: usize) -> usize {
    job.header.length() + 2 * (row * (1 + job.outputs()) + column)
}

fn put_every_number(compared: &Compared, job: &Job, counts: &mut [usize; 13]) {
    let columns = (0..=job.outputs()).flat_map(|column| [(0, column), (2, column)]);
    for (row, column) in columns {
        let mut bytes = job.pack();
        let place = place_of(job, row, column);
        for number in 0..=u16::MAX {
            bytes[place..place + 2].copy_from_slice(&number.to_be_bytes());
            let form = with_number(job, row, column, u32::from(number));
            compared.expect(&bytes, form);
            counts[form.refusal as usize] += 1;
        }
    }
}

/// Every 16-bit number at every column of the first and of the last of three rows, under every header.
#[test]
fn every_number_at_every_column() {
    let compared = Compared::default();
    let mut random = Random::new(SEED, 1);
    let mut counts = [0; 13];
    for prime_code in 0..PRIMES.len() {
        for outputs in 1..=4 {
            let size = (prime_code, outputs, 3);
            let drawn = compared.sound(&mut random, size, Order::Shuffled);
            for job in HeaderForm::ALL.map(|form| drawn.under(form)) {
                put_every_number(&compared, &job, &mut counts);
            }
        }
    }
    let [accepted, _, _, _, _, large, repeated, .., silent] = counts;
    show(&format!("all numbers at all columns: {accepted} accepted, {large} refused with 5, {silent} with 12, {repeated} with 6\n"));
    assert_eq!(
        accepted + large + repeated + silent,
        (3 * 4 * 2 * (2 + 3 + 4 + 5)) << 16
    );
    assert_eq!(repeated, 3 * 4 * 4 * 2 * 2);
}

/// Gives each row the point of each earlier one; returns how many pairs there are.
fn repeat_every_point(compared: &Compared, job: &Job) -> usize {
    let mut pairs = 0;
    for later in 1..job.rows.len() {
        let mut bytes = job.pack();
        let place = place_of(job, later, 0);
        for earlier in &job.rows[..later] {
            let point = earlier.point as u16;
            bytes[place..place + 2].copy_from_slice(&point.to_be_bytes());
            compared.expect(&bytes, Form::refused(6, later as u32));
            pairs += 1;
        }
    }
    pairs
}

/// Every pair of rows has the same point, in jobs of every size, under every header.
#[test]
fn every_pair_of_rows_with_the_same_point() {
    let compared = Compared::default();
    let mut random = Random::new(SEED, 2);
    let mut pairs = 0;
    for (prime_code, prime) in PRIMES.into_iter().enumerate() {
        for (outputs, row_count) in sizes().filter(|&(_, row_count)| row_count as u32 <= prime) {
            let order = Order::ALL[row_count % 3];
            let size = (prime_code, outputs, row_count);
            let drawn = compared.sound(&mut random, size, order);
            for job in HeaderForm::ALL.map(|form| drawn.under(form)) {
                pairs += repeat_every_point(&compared, &job);
            }
        }
    }
    show(&format!("pairs of rows with the same point: {pairs}\n"));
    assert_eq!(pairs, 3 * 4 * (3 * 31 * 32 * 30 / 6 + 7 * 8 * 6 / 6));
}

/// Every number of outputs with every number of rows.
fn sizes() -> impl Iterator<Item = (usize, usize)> {
    (1..=4).flat_map(|outputs| (1..=MOST_ROWS).map(move |row_count| (outputs, row_count)))
}

/// The form of a sound job after one of its bits was flipped. Behind a flipped spare bit the first row is read as an added
/// header, or an added header as rows.
fn with_flipped_bit(job: &Job, bytes: &[u8], bit: usize) -> Form {
    if let Some(place) = bit.checked_sub(8 * job.header.length()) {
        let (row, column) = (
            place / 16 / (1 + job.outputs()),
            place / 16 % (1 + job.outputs()),
        );
        let place = place_of(job, row, column);
        let number = u16::from_be_bytes([bytes[place], bytes[place + 1]]);
        return with_number(job, row, column, u32::from(number));
    }
    let flipped = Job::unpack(bytes);
    if flipped.header.has_own_bounds() && !has_sound_added_header(bytes) {
        return Form::refused(11, 0);
    }
    match bit {
        // The prime; the outputs, the rows or the spare bit; the bounds.
        0..2 => with_prime(job, flipped.prime()),
        2..9 | 23 => Form::refused(3, 0),
        _ if job.rows.len() < flipped.needed_rows() => Form::refused(4, 0),
        _ => Form::ACCEPTED,
    }
}

/// The form of a sound job modulo another prime.
fn with_prime(job: &Job, prime: u32) -> Form {
    let is_large = |number: &u32| *number >= prime;
    let mut rows = job.rows.iter();
    match rows.position(|row| is_large(&row.point) || row.values.iter().any(is_large)) {
        Some(row) => Form::refused(5, row as u32),
        None => Form::ACCEPTED,
    }
}

fn flip_every_bit(compared: &Compared, job: &Job, counts: &mut [usize; 13]) {
    let mut bytes = job.pack();
    for bit in 0..8 * bytes.len() {
        bytes[bit / 8] ^= 128 >> (bit % 8);
        let form = with_flipped_bit(job, &bytes, bit);
        compared.expect(&bytes, form);
        counts[form.refusal as usize] += 1;
        bytes[bit / 8] ^= 128 >> (bit % 8);
    }
}

#[test]
fn every_flipped_bit_of_a_sound_job() {
    let compared = Compared::default();
    let mut random = Random::new(SEED, 3);
    let mut counts = [0; 13];
    for (outputs, row_count) in sizes() {
        for (prime_code, order) in [(1, 0), (2, 1), (3, 2), (random.below(4), 2)] {
            let row_count = row_count.min(PRIMES[prime_code] as usize);
            let size = (prime_code, outputs, row_count);
            let drawn = compared.sound(&mut random, size, Order::ALL[order]);
            for job in HeaderForm::ALL.map(|form| drawn.under(form)) {
                flip_every_bit(&compared, &job, &mut counts);
            }
        }
    }
    show(&format!(
        "flipped bits of sound jobs: accepted, and refused with 1 to 12: {counts:?}\n"
    ));
    // The spare bit was refused with 2, and is with 3 or 11.
    let floors = [100_000, 0, 0, 2400, 2000, 100_000, 500, 0, 0, 0, 0, 4000, 0];
    assert!(counts
        .iter()
        .zip(floors)
        .all(|(count, floor)| *count >= floor));
}
