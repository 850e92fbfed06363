//! The second writer of trial jobs: items 1 and 5 of paper 02, written from these alone. The
//! flag of item 6 stands in the header and changes no row.

use super::reader::{coefficient_count, read_header, refuse_if, Header, Refusal};
use super::reduced::is_reduced;
use super::Field;
use hanthuvelo::Written;
use std::collections::BTreeSet;

/// A trial that is not refused.
struct Trial {
    field: Field,
    row_count: usize,
    denominator: Vec<u32>,
    numerators: Vec<Vec<u32>>,
}

/// A trial job, with what was done to its rows.
pub struct TrialJob {
    pub bytes: Vec<u8>,
    pub poles: BTreeSet<usize>,
    pub spoiled: BTreeSet<usize>,
    /// How often a chosen row was spoiled already.
    pub taken: usize,
    /// How often the row to be spoiled was found behind the last one, from row 0 on.
    pub wrapped: usize,
}

impl TrialJob {
    /// The rows that are wrong for the trial's fraction: the poles, and the spoiled rows.
    pub fn wrong_rows(&self) -> BTreeSet<usize> {
        &self.poles | &self.spoiled
    }
}

/// Writes the trial job to `area`; on refusal the area keeps its contents.
pub fn trial(
    header: &[u8],
    coefficients: &[u8],
    start: u32,
    spoiled: u32,
    area: &mut [u8],
) -> Written {
    match trial_job(header, coefficients, start, spoiled, area.len()) {
        Err(number) => Written::refused(number),
        Ok(TrialJob { bytes, .. }) => {
            area[..bytes.len()].copy_from_slice(&bytes);
            Written::bytes(bytes.len() as u32)
        }
    }
}

/// The job for an area of this length, or the refusal's number.
pub fn trial_job(
    header: &[u8],
    coefficients: &[u8],
    start: u32,
    spoiled: u32,
    area_length: usize,
) -> Result<TrialJob, u32> {
    let trial = read(header, coefficients, spoiled, area_length);
    let trial = trial.map_err(|refusal| refusal.number)?;
    let points = 0..trial.row_count as u32;
    let mut rows: Vec<Vec<u32>> = points.map(|point| trial.values_at(point)).collect();
    let mut draws = Draws::new(start, trial.row_count);
    for _ in 0..spoiled {
        let row = draws.row();
        let added = draws.next() % (trial.field.prime() - 1) + 1;
        rows[row][0] = trial.field.add(rows[row][0], added);
    }
    let is_pole = |row: &usize| trial.value(&trial.denominator, *row as u32) == 0;
    Ok(TrialJob {
        bytes: [header, &row_bytes(&rows)].concat(),
        poles: (0..trial.row_count).filter(is_pole).collect(),
        spoiled: draws.spoiled,
        taken: draws.taken,
        wrapped: draws.wrapped,
    })
}

/// Each row's point, which is its place, and its values, 16 bits each.
fn row_bytes(rows: &[Vec<u32>]) -> Vec<u8> {
    let numbers = (0..)
        .zip(rows)
        .flat_map(|(point, values)| std::iter::once(point).chain(values.iter().copied()));
    let bytes = numbers.flat_map(|number| (number as u16).to_be_bytes());
    bytes.collect()
}

/// The word that is drawn after another one.
pub fn next_word(last: u32) -> u32 {
    let wide = 1_664_525 * u64::from(last) + 1_013_904_223;
    (wide % (1 << 32)) as u32
}

/// The draws from a start, and the rows that they have spoiled.
struct Draws {
    word: u32,
    row_count: usize,
    spoiled: BTreeSet<usize>,
    taken: usize,
    wrapped: usize,
}

impl Draws {
    fn new(start: u32, row_count: usize) -> Draws {
        Draws {
            word: start,
            row_count,
            spoiled: BTreeSet::new(),
            taken: 0,
            wrapped: 0,
        }
    }

    /// The top 16 bits of the next word.
    fn next(&mut self) -> u32 {
        self.word = next_word(self.word);
        self.word / 65536
    }

    /// The row that the next draw chooses, which is spoiled from now on.
    fn row(&mut self) -> usize {
        let first = self.next() as usize % self.row_count;
        let mut order = (first..self.row_count).chain(0..first);
        let free = order.find(|row| !self.spoiled.contains(row));
        let row = free.expect("no more rows are spoiled than there are");
        self.spoiled.insert(row);
        self.taken += usize::from(row != first);
        self.wrapped += usize::from(row < first);
        row
    }
}

impl Trial {
    /// A polynomial's value, as the sum of its terms.
    fn value(&self, polynomial: &[u32], point: u32) -> u32 {
        let field = self.field;
        let term = |(power, &coefficient)| field.multiply(coefficient, field.power(point, power));
        let terms = (0..).zip(polynomial).map(term);
        terms.fold(0, |sum, term| field.add(sum, term))
    }

    /// The values that make a row right, fi(x) / g(x), where g(x)^(p - 2) is the reciprocal of g(x);
    /// zeros at a pole.
    fn values_at(&self, point: u32) -> Vec<u32> {
        let below = self.value(&self.denominator, point);
        if below == 0 {
            return vec![0; self.numerators.len()];
        }
        let unit = self.field.reciprocal(below);
        let above = self.numerators.iter().map(|f| self.value(f, point));
        above
            .map(|above| self.field.multiply(above, unit))
            .collect()
    }
}

/// The trial that the bytes describe, or the first refusal in the order of items 1 and 5.
fn read(
    header: &[u8],
    coefficients: &[u8],
    spoiled: u32,
    area_length: usize,
) -> Result<Trial, Refusal> {
    let fields = read_header(header)?;
    let Header {
        row_count,
        denominator_bound,
        ..
    } = fields;
    let count = coefficient_count(&fields.numerator_bounds, denominator_bound);
    let has_surplus = header.len() > fields.length;
    refuse_if(has_surplus || coefficients.len() != 2 * count, 3, 0)?;
    refuse_if(row_count < fields.needed_rows(), 4, 0)?;
    let field = Field::new(fields.prime());
    let beyond_field = row_count > field.prime() as usize;
    refuse_if(beyond_field || spoiled > row_count as u32, 9, 0)?;
    let number = |pair: &[u8]| u32::from(pair[0]) * 256 + u32::from(pair[1]);
    let mut numbers = coefficients.chunks(2).map(number);
    let mut take = |bound: usize| -> Vec<u32> { numbers.by_ref().take(bound + 1).collect() };
    let denominator = take(denominator_bound);
    let bounds = fields.numerator_bounds.iter();
    let numerators: Vec<Vec<u32>> = bounds.map(|&bound| take(bound)).collect();
    let mut all = denominator.iter().chain(numerators.iter().flatten());
    refuse_if(all.any(|&number| number >= field.prime()), 5, 0)?;
    refuse_if(!is_reduced(&denominator, &numerators, field), 10, 0)?;
    refuse_if(area_length < fields.job_length(), 7, 0)?;
    Ok(Trial {
        field,
        row_count,
        denominator,
        numerators,
    })
}
