//! Paper 01's definition itself, with item 6 of paper 02 for marked rows: every answer of a small job, by trying all
//! polynomials; every other reduced vector, and how many rows it leaves wrong; and what an offered answer of any job lacks of
//! being the job's.

mod vectors;

use crate::layout::{row_bit, trimmed, wrong_rows, Answer, HeaderForm, Job, Mark, Row};
use crate::second::{reduced, Field};
pub use vectors::{Nearest, Vector, Vectors};

/// Every reduced answer within the job's bounds with at most E wrong rows.
///
/// All g with leading coefficient 1 and all f are tried, so the job must be tiny.
pub fn answers(job: &Job) -> Vec<Answer> {
    let mut found = Vec::new();
    for denominator in monic_polynomials(job.denominator_bound, job.prime()) {
        for_each_list(numerator_length(job), job.prime(), &mut |coefficients| {
            if !has_few_wrong_rows(job, &denominator, coefficients) {
                return;
            }
            let numerators = numerator_lists(job, coefficients);
            if is_reduced(&denominator, &numerators, job.prime()) {
                let word = wrong_rows(job, &denominator, &numerators);
                found.push(Answer {
                    word,
                    denominator: denominator.clone(),
                    numerators,
                });
            }
        });
    }
    found
}

/// f1, f2, .. as lists of their own.
fn numerator_lists(job: &Job, coefficients: &[u32]) -> Vec<Vec<u32>> {
    let lists = job.numerators_in(coefficients);
    lists.map(<[u32]>::to_vec).collect()
}

/// How many coefficients f1, f2, .. have together, each up to its own bound.
fn numerator_length(job: &Job) -> usize {
    job.numerator_bounds.iter().map(|bound| bound + 1).sum()
}

/// What an offered answer can lack of being the job's.
#[derive(Clone, Copy, Debug, PartialEq, Eq)]
pub enum Fault {
    /// A coefficient is p or more.
    LargeCoefficient,
    ZeroDenominator,
    /// The leading coefficient of g is not 1.
    LeadingCoefficient,
    /// A polynomial of positive degree divides g and every f.
    CommonDivisor,
    /// The word marks a right row, or does not mark a wrong one.
    WrongMark,
    /// The word marks a silent row.
    SilentRow,
    /// The word marks a row that does not exist.
    NoSuchRow,
    /// More than E rows are wrong.
    TooManyWrong,
}

impl Fault {
    pub const ALL: [Fault; 8] = [
        Fault::LargeCoefficient,
        Fault::ZeroDenominator,
        Fault::LeadingCoefficient,
        Fault::CommonDivisor,
        Fault::WrongMark,
        Fault::SilentRow,
        Fault::NoSuchRow,
        Fault::TooManyWrong,
    ];
}

/// All that an offered answer lacks, so nothing exactly if it is the job's. Each is looked at without
/// regard to the others, so coefficients of p or more count there by what they are modulo p.
pub fn faults(job: &Job, offered: &Answer) -> Vec<Fault> {
    let prime = job.prime();
    let lists = || std::iter::once(&offered.denominator).chain(&offered.numerators);
    let mut residues = lists().map(|list| list.iter().map(|number| number % prime).collect());
    let denominator: Vec<u32> = residues.next().expect("g comes first");
    let numerators: Vec<Vec<u32>> = residues.collect();
    let leading = trimmed(&denominator).last().copied().unwrap_or(0);
    let wrong = wrong_rows(job, &denominator, &numerators);
    let no_rows = u32::MAX >> job.rows.len();
    let silent: u32 = job.marked(Mark::Silent).into_iter().map(row_bit).sum();
    let found = [
        lists().flatten().any(|&number| number >= prime),
        leading == 0,
        leading > 1,
        leading > 0 && has_common_divisor(&denominator, &numerators, leading, prime),
        (offered.word ^ wrong) & !no_rows & !silent != 0,
        offered.word & silent != 0,
        offered.word & no_rows != 0,
        wrong.count_ones() as usize > job.error_bound,
    ];
    let all = Fault::ALL.into_iter().zip(found);
    all.filter_map(|(fault, is_there)| is_there.then_some(fault))
        .collect()
}

/// Whether g, which has this leading coefficient, and every f have a common divisor, by a rank.
fn has_common_divisor(g: &[u32], numerators: &[Vec<u32>], leading: u32, prime: u32) -> bool {
    let field = Field::new(prime);
    let unit = field.reciprocal(leading);
    let monic: Vec<u32> = g.iter().map(|&c| field.multiply(c, unit)).collect();
    !reduced::is_reduced(&monic, numerators, field)
}

/// At most E rows are wrong, the numerators standing one after the other in `coefficients`.
fn has_few_wrong_rows(job: &Job, denominator: &[u32], coefficients: &[u32]) -> bool {
    let wrong = job.rows.iter().filter(|row| {
        let numerators = job.numerators_in(coefficients);
        job.is_wrong(row, denominator, numerators)
    });
    wrong.take(job.error_bound + 1).count() <= job.error_bound
}

/// How many pairs `answers` tries for a job, or the largest number where they are more.
pub fn candidates(job: &Job) -> u64 {
    let count = |length: usize| u64::from(job.prime()).saturating_pow(length as u32);
    let denominators = (0..=job.denominator_bound).map(count);
    let numerators = count(numerator_length(job));
    denominators
        .fold(0, u64::saturating_add)
        .saturating_mul(numerators)
}

/// No polynomial of positive degree divides g, which ends in its leading coefficient, and every fi.
pub fn is_reduced(denominator: &[u32], numerators: &[Vec<u32>], prime: u32) -> bool {
    !have_one_in_common(&divisors(denominator, prime), numerators, prime)
}

/// All divisors of g that have a positive degree; its leading coefficient is 1, and so can be theirs.
fn divisors(denominator: &[u32], prime: u32) -> Vec<Vec<u32>> {
    let mut all = monic_polynomials(denominator.len() - 1, prime);
    all.retain(|each| each.len() > 1 && divides(each, denominator, prime));
    all
}

/// Whether one of the divisors of g divides every fi.
fn have_one_in_common(divisors: &[Vec<u32>], numerators: &[Vec<u32>], prime: u32) -> bool {
    divisors.iter().any(|divisor| {
        let mut numerators = numerators.iter();
        numerators.all(|numerator| divides(divisor, numerator, prime))
    })
}

/// Whether a monic polynomial divides another one: its leading term is taken out from the top.
fn divides(divisor: &[u32], polynomial: &[u32], prime: u32) -> bool {
    let mut rest = polynomial.to_vec();
    while rest.len() >= divisor.len() {
        let factor = rest[rest.len() - 1];
        let start = rest.len() - divisor.len();
        for (entry, &coefficient) in rest[start..].iter_mut().zip(divisor) {
            *entry = (*entry + (prime - factor) * coefficient) % prime;
        }
        rest.pop();
    }
    rest.iter().all(|&coefficient| coefficient == 0)
}

/// All polynomials with leading coefficient 1 and degree at most `bound`, ending in that 1.
fn monic_polynomials(bound: usize, prime: u32) -> Vec<Vec<u32>> {
    let mut all = Vec::new();
    for degree in 0..=bound {
        for_each_list(degree, prime, &mut |lower| {
            let mut polynomial = lower.to_vec();
            polynomial.push(1);
            all.push(polynomial);
        });
    }
    all
}

/// Calls `visit` with every list of `length` residues.
pub fn for_each_list(length: usize, prime: u32, visit: &mut dyn FnMut(&[u32])) {
    let mut list = vec![0; length];
    loop {
        visit(&list);
        let Some(place) = list.iter().position(|&entry| entry + 1 < prime) else {
            return;
        };
        list[place] += 1;
        list[..place].fill(0);
    }
}

/// Small bounds: of each f, dg and E.
pub const SMALLEST: [(&[usize], usize, usize); 21] = [
    (&[0], 0, 0),
    (&[0], 0, 1),
    (&[0], 1, 0),
    (&[1], 0, 0),
    (&[1], 1, 0),
    (&[0], 2, 0),
    (&[2], 0, 0),
    (&[0], 1, 1),
    (&[1], 0, 1),
    (&[1], 1, 1),
    (&[0], 0, 2),
    (&[2], 1, 0),
    (&[1], 2, 0),
    (&[0, 0], 0, 0),
    (&[0, 0], 1, 0),
    (&[1, 1], 0, 0),
    (&[1, 0], 0, 0),
    (&[0, 1], 0, 0),
    (&[0, 0], 0, 1),
    (&[0, 0, 0], 0, 0),
    (&[0, 0, 0, 0], 0, 0),
];

/// The same for jobs with rows that report a pole or are silent, and how many rows more than needed.
pub const SMALLEST_WITH_MARKS: [(&[usize], usize, usize, usize); 11] = [
    (&[0], 0, 0, 1),
    (&[0], 1, 0, 1),
    (&[1], 0, 0, 1),
    (&[0], 0, 1, 1),
    (&[1], 1, 0, 1),
    (&[0], 2, 0, 1),
    (&[0], 1, 1, 1),
    (&[0, 0], 0, 0, 1),
    (&[0, 0], 1, 0, 1),
    (&[1, 0], 1, 0, 0),
    (&[0, 0, 0], 1, 0, 0),
];

/// Calls `visit` with every job modulo 7 that has these bounds of each f, of g and of the wrong rows, no row more than they
/// need, and its rows at the points 0 to L − 1. Its header has a bound for each output.
pub fn for_each_smallest_job(bounds: (&[usize], usize, usize), visit: &mut dyn FnMut(&Job)) {
    let mut job = job_without_rows(HeaderForm::OwnBounds, bounds);
    let outputs = job.outputs();
    for_each_list(job.needed_rows() * outputs, 7, &mut |values| {
        let row = |(point, values): (u32, &[u32])| Row {
            point,
            values: values.to_vec(),
        };
        job.rows = (0..).zip(values.chunks(outputs)).map(row).collect();
        visit(&job);
    });
}

fn job_without_rows(
    header: HeaderForm,
    (numerator_bounds, dg, errors): (&[usize], usize, usize),
) -> Job {
    Job {
        header,
        prime_code: 0,
        numerator_bounds: numerator_bounds.to_vec(),
        denominator_bound: dg,
        error_bound: errors,
        rows: Vec::new(),
    }
}

/// The same under the flag, with so many rows more, each of values, with a pole or silent in every way, but for the jobs of
/// which too few rows speak or none is marked.
pub fn for_each_smallest_job_with_marks(
    bounds: (&[usize], usize, usize),
    surplus: usize,
    visit: &mut dyn FnMut(&Job),
) {
    let mut job = job_without_rows(HeaderForm::Flagged, bounds);
    let (outputs, row_count) = (job.outputs(), job.needed_rows() + surplus);
    for_each_list(row_count, 3, &mut |kinds| {
        let value_rows = kinds.iter().filter(|&&kind| kind == 2).count();
        let silent_rows = kinds.iter().filter(|&&kind| kind == 1).count();
        if silent_rows > surplus || value_rows == row_count {
            return;
        }
        for_each_list(value_rows * outputs, 7, &mut |values| {
            let mut chunks = values.chunks(outputs);
            let row = |(point, &kind): (u32, &u32)| match Mark::ALL.get(kind as usize) {
                Some(mark) => mark.row(point, outputs),
                None => Row {
                    point,
                    values: chunks.next().expect("values of a row").to_vec(),
                },
            };
            job.rows = (0..).zip(kinds).map(row).collect();
            visit(&job);
        });
    });
}
