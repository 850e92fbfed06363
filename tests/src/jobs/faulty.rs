//! Jobs with faults: made to be refused with a given number, damaged, or random.

use super::broken_header::Broken;
use super::faults::{change_length, large_number, raise_bound, take_rows};
use super::form::set_number;
use super::planted::{draw_header, planted, Shape, WrongRows};
use super::planted_marks::Marks;
use super::{false_marks, new_job, Expected, GeneratedJob, Kind, Random};
use crate::layout::{HeaderForm, Job, Mark, Row};

/// A well formed job to be spoilt; some rows of every fourth one are marked.
pub fn sound_job(random: &mut Random) -> Job {
    let wrong = match random.below(3) {
        0 => WrongRows::None,
        1 => WrongRows::Exact,
        _ => WrongRows::OneTooMany,
    };
    let marked = Shape::Marked(random.one_of(&Marks::ALL));
    let shape = random.one_of(&[Shape::Any, Shape::Any, Shape::Any, marked]);
    planted(random, shape, wrong).job
}

/// An area that is often too short as well, which only matters where nothing else is wrong.
fn any_area(random: &mut Random) -> usize {
    random.below(300)
}

/// A job that is refused with `number`, for a reason that the generator put in.
pub fn refused(random: &mut Random, number: u32) -> GeneratedJob {
    match number {
        1 => too_short(random),
        3 => wrong_length(random),
        4 => too_few_rows(random),
        5 => out_of_range(random),
        6 => repeated_point(random),
        12 => false_marks::too_few_speaking(random),
        _ => short_area(random),
    }
}

pub fn faulty(
    random: &mut Random,
    mut kinds: Vec<Kind>,
    two_faults: bool,
    bytes: Vec<u8>,
    refusal: (u32, u32),
) -> GeneratedJob {
    if two_faults {
        kinds.push(Kind::TwoFaults);
    }
    let area_length = any_area(random);
    let expected = Expected::Refused {
        number: refusal.0,
        row: refusal.1,
    };
    new_job(random, kinds, bytes, area_length, expected)
}

/// A part of a header.
fn too_short(random: &mut Random) -> GeneratedJob {
    let job = sound_job(random);
    let mut bytes = job.pack();
    bytes.truncate(random.below(job.header.length()));
    faulty(random, vec![Kind::Refused1], false, bytes, (1, 0))
}

/// A job with the short header and the spare bit 1. By paper 01 it was refused with 2; by item 5 of paper 02 it has too few
/// bytes for an added header and meets 1, or its first row is read as one, sets flags and meets 11.
pub fn spare_bit(random: &mut Random) -> GeneratedJob {
    let mut job = sound_job(random).under(HeaderForm::Short);
    let most = 4095.min(job.prime() - 1);
    let flags = random.between(1, most as usize) as u32;
    // The first flag alone would be let through.
    job.rows[0].values[0] = if flags == 0x800 { 1 } else { flags };
    let mut bytes = job.pack();
    bytes[2] |= 1;
    let length = bytes.len();
    bytes.truncate(random.one_of(&[3, 4, 5, 6, 7, length, length, length]));
    let number = if bytes.len() < 7 { 1 } else { 11 };
    let two_faults = bytes.len() < length;
    faulty(random, vec![Kind::SpareBit], two_faults, bytes, (number, 0))
}

/// A job with this broken added header.
pub fn broken(random: &mut Random, broken: Broken) -> GeneratedJob {
    let job = loop {
        let job = sound_job(random);
        if broken.fits(&job) {
            break job;
        }
    };
    let needed = job.answer_length();
    let bytes = broken.bytes(random, job);
    let area_length = match broken.other {
        7 => random.below(needed),
        _ => needed + random.below(3),
    };
    let expected = Expected::Refused {
        number: broken.refusal(),
        row: 0,
    };
    GeneratedJob {
        broken: Some(broken),
        ..new_job(random, Vec::new(), bytes, area_length, expected)
    }
}

fn wrong_length(random: &mut Random) -> GeneratedJob {
    let mut job = sound_job(random);
    let two_faults = random.once_in(3);
    if two_faults {
        raise_bound(random, &mut job);
    }
    let mut bytes = job.pack();
    change_length(random, &mut bytes);
    faulty(random, vec![Kind::Refused3], two_faults, bytes, (3, 0))
}

fn too_few_rows(random: &mut Random) -> GeneratedJob {
    let mut job = sound_job(random);
    take_rows(random, &mut job);
    let two_faults = random.once_in(2) && !job.rows.is_empty();
    if two_faults {
        let row = random.below(job.rows.len());
        job.rows[row].values[0] = 65535;
    }
    faulty(random, vec![Kind::Refused4], two_faults, job.pack(), (4, 0))
}

/// More rows than residues modulo 7, so some point is repeated.
fn crowded_job(random: &mut Random) -> Job {
    let rows = (0..random.between(8, 31))
        .map(|_| Row {
            point: random.residue(7),
            values: vec![random.residue(7)],
        })
        .collect();
    let mut job = Job {
        header: HeaderForm::Short,
        prime_code: 0,
        numerator_bounds: vec![random.below(3)],
        denominator_bound: random.below(2),
        error_bound: random.below(3),
        rows,
    };
    draw_header(random, &mut job, 0);
    job
}

/// A job for the refusals 5, 12 and 6, with two rows or more.
pub fn job_with_rows(random: &mut Random, kinds: &mut Vec<Kind>) -> Job {
    if random.once_in(5) {
        kinds.push(Kind::MoreRowsThanPrime);
        return crowded_job(random);
    }
    loop {
        let job = sound_job(random);
        if job.rows.len() >= 2 {
            return job;
        }
    }
}

/// A point or a value becomes p or more, often the least such number.
fn out_of_range(random: &mut Random) -> GeneratedJob {
    let mut kinds = vec![Kind::Refused5];
    let mut job = job_with_rows(random, &mut kinds);
    let two_faults = random.once_in(3);
    if two_faults {
        job.rows[1].point = job.rows[0].point;
    }
    let mut first = job.rows.len();
    for _ in 0..random.between(1, 3) {
        let row = random.below(job.rows.len());
        let place = random.below(1 + job.outputs());
        let number = large_number(random, &job);
        set_number(&mut job, row, place, number);
        first = first.min(row);
    }
    faulty(random, kinds, two_faults, job.pack(), (5, first as u32))
}

/// A point is copied from one row to others.
fn repeated_point(random: &mut Random) -> GeneratedJob {
    let mut kinds = vec![Kind::Refused6];
    let mut job = job_with_rows(random, &mut kinds);
    for _ in 0..random.between(1, 2) {
        let later = random.between(1, job.rows.len() - 1);
        job.rows[later].point = job.rows[random.below(later)].point;
    }
    let points: Vec<u32> = job.rows.iter().map(|row| row.point).collect();
    let repeats = |later: &usize| points[..*later].contains(&points[*later]);
    let first = (1..points.len())
        .find(repeats)
        .expect("a point was repeated");
    faulty(random, kinds, false, job.pack(), (6, first as u32))
}

fn short_area(random: &mut Random) -> GeneratedJob {
    let job = sound_job(random);
    let needed = job.answer_length();
    let mut kinds = vec![Kind::Refused7];
    let area_length = match random.below(4) {
        0 => 0,
        1 => random.below(needed),
        _ => needed - 1,
    };
    if area_length == needed - 1 {
        kinds.push(Kind::AreaShortByOne);
    }
    let expected = Expected::Refused { number: 7, row: 0 };
    new_job(random, kinds, job.pack(), area_length, expected)
}

/// A well formed job whose values mean nothing: mostly refused with 8. Silent rows stay silent, and some others of a job
/// with the flag report a pole.
pub fn random_values(random: &mut Random) -> GeneratedJob {
    let mut job = sound_job(random);
    let (prime, silent) = (job.prime(), job.marked(Mark::Silent));
    let has_marks = job.header == HeaderForm::Flagged;
    for (place, row) in job.rows.iter_mut().enumerate() {
        if silent.contains(&place) {
            continue;
        }
        row.values
            .iter_mut()
            .for_each(|value| *value = random.residue(prime));
        if has_marks && random.once_in(4) {
            row.put(Mark::Pole);
        }
    }
    let area_length = job.answer_length() + random.below(3);
    new_job(
        random,
        vec![Kind::RandomValues],
        job.pack(),
        area_length,
        Expected::Open,
    )
}

/// A job with some bytes changed, lost or doubled, often those of its added header.
pub fn damaged(random: &mut Random) -> GeneratedJob {
    let job = sound_job(random);
    let mut bytes = job.pack();
    let of_header = job.header.has_own_bounds() && random.once_in(2);
    for _ in 0..random.between(1, 3) {
        let place = match of_header {
            true => random.between(3, 6),
            false => random.below(bytes.len()),
        };
        match random.below(8) {
            0 => bytes[place] = random.byte(),
            1..=5 => bytes[place] ^= 1 << random.below(8),
            6 => bytes.insert(place, random.byte()),
            _ => {
                bytes.remove(place);
            }
        }
    }
    let mut job = open_job(random, Kind::DamagedBytes, bytes);
    if of_header {
        job.kinds.push(Kind::DamagedAddedHeader);
    }
    job
}

/// A job of which nothing is known beforehand, mostly with room for any answer.
fn open_job(random: &mut Random, kind: Kind, bytes: Vec<u8>) -> GeneratedJob {
    let area_length = if random.once_in(4) {
        any_area(random)
    } else {
        254
    };
    new_job(random, vec![kind], bytes, area_length, Expected::Open)
}

/// Random bytes, half of them with the length that their header asks for.
pub fn random_bytes(random: &mut Random) -> GeneratedJob {
    let bytes = match random.once_in(2) {
        true => fitting_bytes(random),
        false => {
            let length = random.below(330);
            random.bytes(length)
        }
    };
    open_job(random, Kind::RandomBytes, bytes)
}

/// A header with small bounds, so that the tests behind 4 are reached, and rows of random bytes, some marked.
fn fitting_bytes(random: &mut Random) -> Vec<u8> {
    let (outputs, df) = (random.between(1, 4), random.below(2));
    let row = Row {
        point: 0,
        values: vec![0; outputs],
    };
    let mut job = Job {
        header: HeaderForm::Short,
        prime_code: random.below(4),
        numerator_bounds: vec![df; outputs],
        denominator_bound: random.below(2),
        error_bound: random.below(4),
        rows: vec![row; random.below(32)],
    };
    draw_header(random, &mut job, 0);
    let mut rows = random.bytes(2 * job.rows.len() * (1 + outputs));
    if random.once_in(2) {
        keep_in_range(&mut rows, job.prime());
    }
    for row in rows.chunks_mut(2 * (1 + outputs)) {
        match random.below(4) {
            0 => row[2..].fill(0xFF),
            1 => row[2..]
                .chunks_mut(2)
                .for_each(|value| value.copy_from_slice(&[0xFF, 0xFE])),
            _ => {}
        }
    }
    [job.packed_header(), rows].concat()
}

/// Makes every 16-bit number a residue.
fn keep_in_range(numbers: &mut [u8], prime: u32) {
    for pair in numbers.chunks_mut(2) {
        let number = (u32::from(pair[0]) * 256 + u32::from(pair[1])) % prime;
        pair.copy_from_slice(&(number as u16).to_be_bytes());
    }
}
