//! Every header against every check of a job's form: all numbers of the first three bytes, all bounds and all flags of the
//! added header, and all lengths under each.

use hanthuvelo::Form;
use outside_checks::compared::Compared;
use outside_checks::jobs::form::{job_without_marks, Order};
use outside_checks::jobs::Random;
use outside_checks::layout::{has_sound_added_header, HeaderForm, Job};
use outside_checks::show;

const SEED: u64 = 16_777_216;

/// The first three bytes of a header in 24 bits.
fn first_bytes(header: u32) -> [u8; 3] {
    let [_, first, second, third] = header.to_be_bytes();
    [first, second, third]
}

/// The number of rows that a header names.
fn row_count(header: u32) -> usize {
    header as usize >> 15 & 31
}

/// As many rows as a header names, at the points 0, 1, 2, .. with zeros.
fn rows(header: u32) -> Vec<u8> {
    let values = vec![0; 2 * (1 + (header as usize >> 20 & 3))];
    let row = |point: usize| [&(point as u16).to_be_bytes()[..], &values].concat();
    (0..row_count(header)).flat_map(row).collect()
}

/// The added header in which every f has the bound df of a header.
fn equal_bounds(header: u32) -> [u8; 4] {
    let df = header >> 10 & 31;
    let outputs = header >> 20 & 3;
    let bounds = (0..=outputs).map(|output| df << (27 - 5 * output));
    bounds.sum::<u32>().to_be_bytes()
}

/// The form of a sound header with its rows. Modulo 7 the points from row 7 on are too large.
fn with_rows_form(header: u32) -> Form {
    let short = first_bytes(header & !1);
    let job = Job::unpack(&short);
    match row_count(header) {
        count if count < job.needed_rows() => Form::refused(4, 0),
        count if count > job.prime() as usize => Form::refused(5, job.prime()),
        _ => Form::ACCEPTED,
    }
}

/// The form of three bytes with their rows behind them. With the spare bit 1 the first row, which is zeros, is read as the
/// added header, if there is one: it breaks a rule unless df is 0, and then four bytes are missing.
fn short_form(header: u32) -> Form {
    match (header % 2, row_count(header), header >> 10 & 31) {
        (0, ..) => with_rows_form(header),
        (_, 0, _) => Form::refused(1, 0),
        (_, _, 0) => Form::refused(3, 0),
        _ => Form::refused(11, 0),
    }
}

/// The form of a sound header alone, which lacks all rows that it names.
fn alone_form(header: u32) -> Form {
    match row_count(header) {
        0 => Form::refused(4, 0),
        _ => Form::refused(3, 0),
    }
}

/// Calls `visit` with all 24 bits of a header's first three bytes, each with so many bytes that begin with these, and have the
/// rows that they name behind them.
fn for_each_header(length: usize, visit: &mut dyn FnMut(u32, &mut [u8])) {
    for upper in 0..1 << 9 {
        let mut bytes = [vec![0; length], rows(upper << 15)].concat();
        for header in upper << 15..(upper + 1) << 15 {
            bytes[..3].copy_from_slice(&first_bytes(header));
            visit(header, &mut bytes);
        }
    }
}

/// All 2^24 headers of three bytes: without rows, and with as many as they name.
#[test]
fn every_header() {
    let compared = Compared::default();
    let mut counts = [0; 12];
    for_each_header(3, &mut |header, bytes| {
        let form = short_form(header);
        compared.expect(bytes, form);
        counts[form.refusal as usize] += 1;
        let alone = match header % 2 {
            1 => Form::refused(1, 0),
            _ => alone_form(header),
        };
        compared.expect(&bytes[..3], alone);
    });
    show(&format!(
        "all headers of 3 bytes with rows: accepted, and refused with 1 to 11: {counts:?}\n"
    ));
    assert_eq!(counts.iter().sum::<usize>(), 1 << 24);
    // 2^4 primes and outputs, L above 0, 2^5 numbers of df or all but 0, 2^9 of dg and E.
    assert_eq!(counts[1], (1 << 4) * (1 << 14));
    assert_eq!(counts[3], (1 << 4) * 31 * (1 << 9));
    assert_eq!(counts[11], (1 << 4) * 31 * 31 * (1 << 9));
}

/// All 2^23 headers with the spare bit 1 and df as the bound of every f: without rows, and with as many as they name.
#[test]
fn every_header_with_an_equal_bound_for_each_output() {
    let compared = Compared::default();
    let mut counts = [0; 12];
    for_each_header(7, &mut |header, bytes| {
        if header % 2 == 0 {
            return;
        }
        bytes[3..7].copy_from_slice(&equal_bounds(header));
        let form = with_rows_form(header);
        compared.expect(bytes, form);
        counts[form.refusal as usize] += 1;
        compared.expect(&bytes[..7], alone_form(header));
    });
    show(&format!(
        "all headers of 7 bytes with equal bounds and rows: accepted, and refused with 1 to 11: {counts:?}\n"
    ));
    assert_eq!(counts.iter().sum::<usize>(), 1 << 23);
}

/// A job of 31 rows modulo 97 with a bound for each output, which is this df; dg and E are 0.
fn job_with_df(outputs: usize, df: usize) -> Job {
    let sound = job_without_marks(&mut Random::new(SEED, 0), (1, outputs, 31), Order::Rising);
    Job {
        numerator_bounds: vec![df; outputs],
        denominator_bound: 0,
        error_bound: 0,
        ..sound.under(HeaderForm::OwnBounds)
    }
}

/// All 2^20 bounds of the added header with each number of outputs. Those of the outputs that exist are df at most, one of
/// them is, and all others are 0: there are (df + 1)^n - df^n such lists.
#[test]
fn every_list_of_bounds() {
    let compared = Compared::default();
    let mut accepted = 0;
    let cases = [
        (1, 0),
        (1, 30),
        (2, 3),
        (2, 17),
        (3, 1),
        (3, 8),
        (4, 0),
        (4, 7),
    ];
    for (outputs, df) in cases {
        let mut bytes = job_with_df(outputs, df).pack();
        let mut count = 0;
        for bounds in 0..1u32 << 20 {
            bytes[3..7].copy_from_slice(&(bounds << 12).to_be_bytes());
            let places = [15, 10, 5, 0].map(|low| (bounds >> low) as usize % 32);
            let (own, absent) = places.split_at(outputs);
            let is_sound = own.iter().all(|&bound| bound <= df) && own.contains(&df);
            let form = match is_sound && absent.iter().all(|&bound| bound == 0) {
                true => Form::ACCEPTED,
                false => Form::refused(11, 0),
            };
            compared.expect(&bytes, form);
            count += usize::from(form.is_accepted());
        }
        assert_eq!(count, (df + 1).pow(outputs as u32) - df.pow(outputs as u32));
        accepted += count;
    }
    let all = cases.len() << 20;
    show(&format!(
        "lists of bounds: {all}, {accepted} of them accepted\n"
    ));
}

/// All 2^12 flags, of which the first alone is let through; 31 rows do not suffice for df 31, which is tested later.
#[test]
fn every_flag() {
    let compared = Compared::default();
    let mut refused = 0;
    for (outputs, df) in [(1, 0), (2, 5), (3, 30), (4, 11), (4, 31)] {
        let mut bytes = job_with_df(outputs, df).pack();
        let third = bytes[5];
        for flags in 0..1u16 << 12 {
            bytes[5..7].copy_from_slice(&flags.to_be_bytes());
            bytes[5] |= third;
            let form = match flags {
                0 | 0x800 if df == 31 => Form::refused(4, 0),
                0 | 0x800 => Form::ACCEPTED,
                _ => Form::refused(11, 0),
            };
            compared.expect(&bytes, form);
            refused += usize::from(form.refusal == 11);
        }
    }
    show(&format!(
        "flags of the added header: {refused} refused with 11\n"
    ));
    assert_eq!(refused, 5 * 4094);
}

/// Every byte at each of the four places of the added header.
#[test]
fn every_byte_of_the_added_header() {
    let compared = Compared::default();
    let mut random = Random::new(SEED, 1);
    let (mut accepted, mut refused) = (0, 0);
    for index in 0..400 {
        let size = (index % 4, 1 + index / 4 % 4, 1 + index % 7);
        let job = job_without_marks(&mut random, size, Order::Shuffled);
        let sound = job.under(HeaderForm::OwnBounds).pack();
        for (place, byte) in (3..7).flat_map(|place| (0..=255).map(move |byte| (place, byte))) {
            let mut bytes = sound.clone();
            bytes[place] = byte;
            let form = match has_sound_added_header(&bytes) {
                true => Form::ACCEPTED,
                false => Form::refused(11, 0),
            };
            compared.expect(&bytes, form);
            accepted += usize::from(form.is_accepted());
            refused += usize::from(!form.is_accepted());
        }
    }
    show(&format!(
        "bytes of the added header: {accepted} accepted, {refused} refused with 11\n"
    ));
    assert!(accepted >= 1600 && refused >= 350_000);
}

/// Every number of bytes below 700 for every number of rows and outputs of each prime under every header, and lengths whose
/// lower bits are right.
#[test]
fn every_length() {
    let compared = Compared::default();
    let mut lengths = 0;
    for (upper, form) in (0..1 << 9).flat_map(|upper| HeaderForm::ALL.map(|form| (upper, form))) {
        let header = upper << 15 | u32::from(form.has_own_bounds());
        let mut added = equal_bounds(header);
        added[2] |= if form == HeaderForm::Flagged { 8 } else { 0 };
        let added = &added[..form.length() - 3];
        let mut bytes = [&first_bytes(header)[..], added, &rows(header)].concat();
        let right = bytes.len();
        bytes.resize(right + (1 << 16), 0);
        let cut = [8, 9, 10, 12, 16].map(|bits| right + (1 << bits));
        for length in (0..700).chain(cut) {
            let expected = match length {
                _ if length < form.length() => Form::refused(1, 0),
                _ if length == right => with_rows_form(header),
                _ => Form::refused(3, 0),
            };
            compared.expect(&bytes[..length], expected);
            lengths += 1;
        }
    }
    show(&format!("jobs of all lengths: {lengths}\n"));
    assert_eq!(lengths, (3 * (700 + 5)) << 9);
}
