//! Generated calls of the writer of trial jobs: seeded and repeatable, labelled with what they were
//! made to be.

mod fault;
mod tally;

use super::broken_header::Broken;
use super::fraction::Fraction;
use super::planned;
use super::planted::{header, Shape, WrongRows};
use super::random::Random;
use crate::layout::{Answer, HeaderForm, Job, LONGEST_JOB, PRIMES};
use crate::second::polynomial::Polynomial;
use crate::second::Field;
use fault::Fault;
use hanthuvelo::hex;
pub use tally::Tally;

/// A call, with the area that is lent with it.
pub struct TrialCall {
    pub seed: u64,
    pub index: u64,
    /// What the call was made to be; `Tally` has a floor for each.
    pub labels: Vec<&'static str>,
    pub header: Vec<u8>,
    pub coefficients: Vec<u8>,
    pub start: u32,
    pub spoiled: u32,
    pub area: Vec<u8>,
    /// The number of the refusal, 0 where a job is written; none where it is not known.
    pub expected: Option<u32>,
    /// How the added header is broken, if it was made so.
    broken: Option<Broken>,
}

/// How many rows are to be spoiled.
#[derive(Clone, Copy)]
enum Spoiled {
    None,
    /// E or fewer, so that the job is often recovered.
    Within,
    Any,
    All,
}

#[derive(Clone, Copy)]
enum Source {
    Sound(Shape, Spoiled),
    /// g and every f but one have a common divisor.
    PartlyCommon,
    Faulty(Fault),
    /// The added header breaks a rule.
    Broken,
    DamagedOrRandom,
}

/// What else is wrong where an added header is broken.
const OTHER_FAULTS: [u32; 8] = [0, 1, 3, 4, 5, 7, 9, 10];

/// Where calls come from, with the share of each; a call with each fault follows.
const PLAN: [(Source, usize); 15] = [
    (Source::Sound(Shape::Any, Spoiled::Within), 9),
    (Source::Sound(Shape::Poles, Spoiled::Within), 9),
    (Source::Sound(Shape::Any, Spoiled::Any), 3),
    (Source::Sound(Shape::Poles, Spoiled::Any), 5),
    (Source::Sound(Shape::WholeField, Spoiled::Within), 2),
    (Source::Sound(Shape::WholeField, Spoiled::All), 1),
    (Source::Sound(Shape::Any, Spoiled::All), 2),
    (Source::Sound(Shape::Poles, Spoiled::All), 1),
    (Source::Sound(Shape::Any, Spoiled::None), 2),
    (Source::Sound(Shape::Poles, Spoiled::None), 2),
    (Source::Sound(Shape::AllZero, Spoiled::Within), 1),
    (Source::Sound(Shape::LooseBounds, Spoiled::Within), 1),
    (Source::PartlyCommon, 2),
    (Source::Broken, 3),
    (Source::DamagedOrRandom, 1),
];

/// The call of this number in the run of this seed.
pub fn generate(seed: u64, index: u64) -> TrialCall {
    let mut random = Random::new(seed, index);
    let (source, turn) = source_of(index);
    let mut call = match source {
        Source::Sound(shape, spoiled) => {
            let mut draft = Draft::draw(&mut random, shape);
            draft.spoil(&mut random, spoiled);
            draft.call(&mut random)
        }
        Source::PartlyCommon => partly_common(&mut random),
        Source::Faulty(fault) => fault::faulty(&mut random, fault),
        Source::Broken => fault::broken(&mut random, Broken::of_turn(turn, &OTHER_FAULTS)),
        Source::DamagedOrRandom => fault::damaged_or_random(&mut random),
    };
    call.seed = seed;
    call.index = index;
    call
}

fn source_of(index: u64) -> (Source, usize) {
    let faults = Fault::ALL.map(|fault| (Source::Faulty(fault), 1));
    planned(&[&PLAN[..], &faults].concat(), index)
}

/// What a call is made from: the header's fields, of the rows only their number, and polynomials.
struct Draft {
    job: Job,
    denominator: Polynomial,
    numerators: Vec<Polynomial>,
    /// What a fault may multiply g and every f by.
    common_factor: Polynomial,
    spoiled: u32,
}

impl Draft {
    /// A reduced fraction within the bounds, and no row spoiled.
    fn draw(random: &mut Random, shape: Shape) -> Draft {
        loop {
            let wrong = match shape {
                Shape::Any | Shape::CommonFactor | Shape::PartlyCommon if random.once_in(6) => {
                    WrongRows::None
                }
                _ => WrongRows::Exact,
            };
            let mut job = header(random, shape, wrong);
            for (point, row) in job.rows.iter_mut().enumerate() {
                row.point = point as u32;
            }
            random.shuffle(&mut job.rows);
            let poles = match random.once_in(4) {
                true => job.denominator_bound,
                false => job.error_bound,
            };
            if let Some(fraction) = Fraction::draw(random, &job, shape, poles) {
                return Draft {
                    job,
                    denominator: fraction.denominator,
                    numerators: fraction.numerators,
                    common_factor: fraction.common_factor,
                    spoiled: 0,
                };
            }
        }
    }

    fn field(&self) -> Field {
        Field::new(self.job.prime())
    }

    fn spoil(&mut self, random: &mut Random, spoiled: Spoiled) {
        let row_count = self.job.rows.len();
        let count = match spoiled {
            Spoiled::None => 0,
            Spoiled::Within => random.between(0, self.job.error_bound),
            Spoiled::Any => random.between(0, row_count),
            Spoiled::All => row_count,
        };
        self.spoiled = count as u32;
    }

    /// The call, which is not refused, with an area that is long enough.
    fn call(&self, random: &mut Random) -> TrialCall {
        let length = self.job.pack().len();
        let (label, length) = match random.below(3) {
            0 => ("exact area", length),
            1 => ("longer area", length + random.between(1, 40)),
            _ => ("longer area", 1 + LONGEST_JOB),
        };
        let listed = Answer {
            word: 0,
            denominator: self.denominator.coefficients().to_vec(),
            numerators: self
                .numerators
                .iter()
                .map(|f| f.coefficients().to_vec())
                .collect(),
        };
        TrialCall {
            seed: 0,
            index: 0,
            labels: vec![label],
            header: self.job.packed_header(),
            coefficients: listed.pack(&self.job)[4..].to_vec(),
            start: any_start(random),
            spoiled: self.spoiled,
            area: filled(random, length),
            expected: Some(0),
            broken: None,
        }
    }
}

/// Any word, at times one at an end of the range.
fn any_start(random: &mut Random) -> u32 {
    match random.below(16) {
        0 => random.below(4) as u32,
        1 => u32::MAX - random.below(4) as u32,
        _ => random.draw() as u32,
    }
}

/// An area with random contents, or with one byte throughout.
fn filled(random: &mut Random, length: usize) -> Vec<u8> {
    match random.below(4) {
        0 => vec![random.byte(); length],
        _ => random.bytes(length),
    }
}

/// A call with a reduced fraction although g and all f but one have a common divisor.
fn partly_common(random: &mut Random) -> TrialCall {
    let mut draft = Draft::draw(random, Shape::PartlyCommon);
    draft.spoil(random, Spoiled::Within);
    let mut call = draft.call(random);
    call.labels.push("common divisor of g and all f but one");
    call
}

impl Draft {
    fn multiply_by_common_factor(&mut self) {
        let (factor, field) = (&self.common_factor, self.field());
        self.denominator = self.denominator.times(factor, field);
        for numerator in &mut self.numerators {
            *numerator = numerator.times(factor, field);
        }
    }
}

/// The fields of a header that the generator and the counts need.
pub struct Fields {
    pub form: HeaderForm,
    pub prime: u32,
    pub outputs: usize,
    pub row_count: usize,
    pub error_bound: usize,
}

impl Fields {
    /// How many bytes the job has.
    pub fn job_length(&self) -> usize {
        self.form.length() + 2 * self.row_count * (1 + self.outputs)
    }
}

impl TrialCall {
    /// The header's fields, where it is whole.
    pub fn fields(&self) -> Fields {
        let [first, second, third] = [0, 1, 2].map(|place| usize::from(self.header[place]));
        Fields {
            form: HeaderForm::of(&self.header),
            prime: PRIMES[first / 64],
            outputs: first / 16 % 4 + 1,
            row_count: first % 16 * 2 + second / 128,
            error_bound: third / 2 % 16,
        }
    }

    /// Everything needed to try the call again.
    pub fn describe(&self) -> String {
        format!(
            "seed {} call {} {:?} {:?}\nheader {} coefficients {} start {:08X} spoiled {}\narea before {}",
            self.seed,
            self.index,
            self.labels,
            self.broken,
            hex::text(&self.header),
            hex::text(&self.coefficients),
            self.start,
            self.spoiled,
            hex::text(&self.area)
        )
    }
}
