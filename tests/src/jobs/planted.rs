//! Jobs made from a known reduced answer, with a known number of wrong rows.

use super::fraction::{numerators_within, Fraction};
use super::planted_marks::Marks;
use super::random::Random;
use crate::layout::{has_pole, wrong_rows, HeaderForm, Job, Mark, Row, MOST_ROWS, PRIMES};
use crate::second::polynomial::Polynomial;
use crate::second::Field;

/// How many rows are to be wrong.
#[derive(Clone, Copy, Debug, PartialEq, Eq)]
pub enum WrongRows {
    /// E is 0, and so is their number.
    None,
    /// Fewer than E.
    Fewer,
    /// E, which is not 0.
    Exact,
    /// E + 1.
    OneTooMany,
}

/// What a planted job is to be like.
#[derive(Clone, Copy, Debug, PartialEq, Eq)]
pub enum Shape {
    Any,
    /// g has roots among the points.
    Poles,
    /// The values come from f and g with a common factor.
    CommonFactor,
    /// Every f is zero.
    AllZero,
    /// Every residue modulo 7 is a point.
    WholeField,
    /// The bounds are far above the true degrees.
    LooseBounds,
    /// Two outputs or more; g and all f but one have a common divisor.
    PartlyCommon,
    /// 31 rows, four outputs, df 30 and dg 0.
    LongestAnswer,
    /// Rows report poles or are silent.
    Marked(Marks),
}

pub struct Planted {
    pub job: Job,
    pub denominator: Vec<u32>,
    pub numerators: Vec<Vec<u32>>,
    /// What the values were enlarged by; answers of shape `CommonFactor` times this meet the bounds.
    pub common_factor: Polynomial,
    /// The rows that are wrong for the planted answer.
    pub word: u32,
}

impl Planted {
    pub fn has_pole(&self) -> bool {
        has_pole(&self.job, &self.denominator)
    }
}

/// A job of this shape with this number of wrong rows; unsuitable draws are thrown away.
pub fn planted(random: &mut Random, shape: Shape, wrong: WrongRows) -> Planted {
    loop {
        let mut job = header(random, shape, wrong);
        let wrong_count = match wrong {
            WrongRows::None => 0,
            WrongRows::Fewer if shape == Shape::Poles => random.between(1, job.error_bound - 1),
            WrongRows::Fewer => random.below(job.error_bound),
            WrongRows::Exact => job.error_bound,
            WrongRows::OneTooMany => job.error_bound + 1,
        };
        let Some(fraction) = Fraction::draw(random, &job, shape, wrong_count) else {
            continue;
        };
        fill_values(random, &mut job, &fraction);
        if let Shape::Marked(marks) = shape {
            marks.report(random, &mut job, &fraction);
        }
        random.shuffle(&mut job.rows);
        let denominator = fraction.denominator.coefficients().to_vec();
        let numerators: Vec<Vec<u32>> = fraction
            .numerators
            .iter()
            .map(|f| f.coefficients().to_vec())
            .collect();
        let Some(word) = spoil(random, &mut job, &denominator, &numerators, wrong_count) else {
            continue;
        };
        return Planted {
            job,
            denominator,
            numerators,
            common_factor: fraction.common_factor,
            word,
        };
    }
}

/// The least that a shape asks of a header.
struct Least {
    /// Of the bound of every f.
    numerator_bound: usize,
    denominator_bound: usize,
    bounds_sum: usize,
    errors: usize,
}

fn least(shape: Shape, wrong: WrongRows) -> Least {
    let (numerator_bound, denominator_bound, bounds_sum) = match shape {
        Shape::Poles => (0, 1, 1),
        Shape::CommonFactor | Shape::PartlyCommon => (1, 1, 2),
        Shape::LooseBounds => (0, 0, 8),
        Shape::LongestAnswer => (30, 0, 30),
        Shape::Marked(marks) => marks.least(),
        Shape::Any | Shape::AllZero | Shape::WholeField => (0, 0, 0),
    };
    let errors = match wrong {
        WrongRows::None | WrongRows::OneTooMany => 0,
        WrongRows::Fewer if shape == Shape::Poles => 2,
        WrongRows::Fewer | WrongRows::Exact => 1,
    };
    Least {
        numerator_bound,
        denominator_bound,
        bounds_sum,
        errors,
    }
}

/// Prime, bounds and points; the values are zeros for now.
pub fn header(random: &mut Random, shape: Shape, wrong: WrongRows) -> Job {
    let prime_code = match shape {
        Shape::WholeField => 0,
        Shape::LooseBounds | Shape::LongestAnswer => random.between(1, 3),
        _ => random.below(4),
    };
    let prime = PRIMES[prime_code];
    let least = least(shape, wrong);
    let most_rows = match shape {
        Shape::Marked(marks) => marks.most_speaking(prime),
        _ => MOST_ROWS.min(prime as usize),
    };
    let row_count = match shape {
        Shape::WholeField => most_rows,
        _ => random.between(least.bounds_sum + 2 * least.errors + 1, most_rows),
    };
    let outputs = match shape {
        Shape::PartlyCommon | Shape::Marked(Marks::OwnPoles) => random.between(2, 4),
        Shape::LongestAnswer => 4,
        _ => random.between(1, 4),
    };
    let mut job = sized(random, (prime_code, outputs, row_count), &least, wrong);
    if let Shape::Marked(marks) = shape {
        job.header = HeaderForm::Flagged;
        marks.add_silent_rows(random, &mut job);
    }
    job
}

/// The same for a prime's code, a number of outputs and a number of rows, with any bounds that the
/// rows suffice for.
pub fn header_of_size(random: &mut Random, size: (usize, usize, usize)) -> Job {
    let wrong = WrongRows::OneTooMany;
    sized(random, size, &least(Shape::Any, wrong), wrong)
}

fn sized(
    random: &mut Random,
    (prime_code, outputs, row_count): (usize, usize, usize),
    least: &Least,
    wrong: WrongRows,
) -> Job {
    let points = distinct_points(random, PRIMES[prime_code], row_count);
    let values = vec![0; outputs];
    let row = |point| Row {
        point,
        values: values.clone(),
    };
    let rows = points.into_iter().map(row).collect();
    let mut job = Job {
        header: HeaderForm::Short,
        prime_code,
        numerator_bounds: vec![0; outputs],
        denominator_bound: 0,
        error_bound: 0,
        rows,
    };
    draw_bounds(random, &mut job, least, wrong);
    draw_header(random, &mut job, least.numerator_bound);
    job
}

/// Takes the longer header for two jobs of three, for every other one of these with the flag for marks. It mostly has a bound
/// of each output's own, this one at least. df, which is every bound before, stays that of one output, and often of this one
/// alone.
pub fn draw_header(random: &mut Random, job: &mut Job, least: usize) {
    if random.once_in(3) {
        return;
    }
    job.header = random.one_of(&[HeaderForm::OwnBounds, HeaderForm::Flagged]);
    let (df, largest) = (job.numerator_bound(), random.below(job.outputs()));
    let highest = match random.below(5) {
        0 => return,
        1 => df,
        _ => least.max(df.saturating_sub(1)),
    };
    for (output, bound) in job.numerator_bounds.iter_mut().enumerate() {
        let any = random.between(least, highest);
        if output != largest {
            *bound = random.one_of(&[any, any, any, least, highest]);
        }
    }
}

/// Bounds that the rows suffice for, mostly the largest.
fn draw_bounds(random: &mut Random, job: &mut Job, least: &Least, wrong: WrongRows) {
    let room = job.rows.len() - 1;
    job.error_bound = match wrong {
        WrongRows::None => 0,
        _ => random.between(least.errors, 15.min((room - least.bounds_sum) / 2)),
    };
    let room = room - 2 * job.error_bound;
    let sum = match random.below(4) {
        0 => random.between(least.bounds_sum, room),
        _ => room,
    };
    job.denominator_bound = random.between(least.denominator_bound, sum - least.numerator_bound);
    let df = sum - job.denominator_bound;
    job.numerator_bounds.fill(df);
}

/// A residue that is no point yet; one must be left.
pub fn free_point(random: &mut Random, job: &Job) -> u32 {
    loop {
        let point = random.residue(job.prime());
        if job.rows.iter().all(|row| row.point != point) {
            return point;
        }
    }
}

/// Different points in random order; the ends of the range are drawn often.
pub fn distinct_points(random: &mut Random, prime: u32, count: usize) -> Vec<u32> {
    let mut points: Vec<u32> = Vec::new();
    while points.len() < count {
        let point = match random.below(8) {
            0 => random.below(count) as u32,
            1 => prime - 1 - random.below(count) as u32,
            _ => random.residue(prime),
        };
        if !points.contains(&point) {
            points.push(point);
        }
    }
    points
}

/// The quotient of the unreduced polynomials at every point. Where both are zero, and at the poles,
/// there is none: zeros stand there, or anything, or the reduced value. Silent rows stay silent.
fn fill_values(random: &mut Random, job: &mut Job, fraction: &Fraction) {
    let field = Field::new(job.prime());
    let silent = job.marked(Mark::Silent);
    for (place, row) in job.rows.iter_mut().enumerate() {
        if silent.contains(&place) {
            continue;
        }
        let below = fraction.denominator.value_at(row.point, field);
        let lost = fraction.common_factor.value_at(row.point, field) == 0 && !random.once_in(3);
        row.values = if below == 0 || lost {
            let zeros = random.once_in(2);
            let residue = |_| {
                if zeros {
                    0
                } else {
                    random.residue(field.prime())
                }
            };
            fraction.numerators.iter().map(residue).collect()
        } else {
            let unit = field.reciprocal(below);
            let value = |f: &Polynomial| field.multiply(f.value_at(row.point, field), unit);
            fraction.numerators.iter().map(value).collect()
        };
    }
}

/// Makes right rows wrong until `wrong_count` rows are; returns the word of the wrong rows, or
/// `None` where too many are wrong already.
pub fn spoil(
    random: &mut Random,
    job: &mut Job,
    denominator: &[u32],
    numerators: &[Vec<u32>],
    wrong_count: usize,
) -> Option<u32> {
    let prime = job.prime();
    let other = numerators_within(random, &job.numerator_bounds, prime);
    let styles = match job.header {
        HeaderForm::Flagged => &SpoilStyle::ALL[..],
        _ => &SpoilStyle::ALL[..3],
    };
    let style = random.one_of(styles);
    loop {
        let word = wrong_rows(job, denominator, numerators);
        let count = word.count_ones() as usize;
        if count >= wrong_count {
            return (count == wrong_count).then_some(word);
        }
        let is_right = |row: &usize| word << row >> 31 == 0 && !job.is_marked(*row, Mark::Silent);
        let right: Vec<usize> = (0..job.rows.len()).filter(is_right).collect();
        let chosen = random.one_of(&right);
        let style = match job.is_marked(chosen, Mark::Pole) {
            true => SpoilStyle::AllValues,
            false => style,
        };
        style.spoil(random, &mut job.rows[chosen], prime, &other);
    }
}

/// What is done to right rows.
#[derive(Clone, Copy, PartialEq, Eq)]
enum SpoilStyle {
    OneValue,
    AllValues,
    /// They have the values of other polynomials.
    OtherPolynomials,
    /// They report a pole where there is none.
    FalsePole,
}

impl SpoilStyle {
    const ALL: [SpoilStyle; 4] = [
        SpoilStyle::OneValue,
        SpoilStyle::AllValues,
        SpoilStyle::OtherPolynomials,
        SpoilStyle::FalsePole,
    ];

    /// A row with values stands at no pole, so any change makes it wrong; at a pole any values do.
    fn spoil(self, random: &mut Random, row: &mut Row, prime: u32, other: &[Polynomial]) {
        let field = Field::new(prime);
        let before = row.values.clone();
        match self {
            SpoilStyle::OneValue => {}
            SpoilStyle::AllValues => row
                .values
                .iter_mut()
                .for_each(|value| *value = random.residue(prime)),
            SpoilStyle::OtherPolynomials => {
                row.values = other.iter().map(|f| f.value_at(row.point, field)).collect();
            }
            SpoilStyle::FalsePole => row.put(Mark::Pole),
        }
        if row.values == before {
            let output = random.below(row.values.len());
            let added = random.between(1, prime as usize - 1) as u32;
            row.values[output] = field.add(row.values[output], added);
        }
    }
}
