//! Generated jobs: seeded and repeatable, each labelled with what it was made to be.

mod broken_header;
pub mod enlargement;
mod false_marks;
mod faults;
mod faulty;
pub mod form;
mod fraction;
mod header_tally;
pub mod judged;
pub mod margin;
mod mark_tally;
pub mod measured;
mod own_bound;
mod planted;
mod planted_marks;
mod random;
pub mod reciprocal;
pub mod small;
mod tally;
pub mod trial;

use crate::layout::Answer;
use broken_header::Broken;
use false_marks::FalseMark;
use hanthuvelo::{hex, Form, Report};
use own_bound::beyond_own_bound;
use planted::{planted, Planted, Shape, WrongRows};
use planted_marks::Marks;
pub use random::Random;
pub use tally::{outcome, with_floors, Counts, Kind, Tally};

/// What the generator knows of a job's outcome.
pub enum Expected {
    /// These bytes at the start of the area, with this many wrong rows.
    Answered {
        bytes: Vec<u8>,
        wrong: u32,
    },
    Refused {
        number: u32,
        row: u32,
    },
    /// Either refused with 8 or answered by something else than these polynomials.
    NotThis {
        bytes: Vec<u8>,
    },
    /// The solvers are only compared with each other.
    Open,
}

impl Expected {
    /// What is known of the job's form: which of the refusals 1, 11, 3 to 5, 12 and 6 applies, if one does.
    fn form(&self) -> Option<Form> {
        match *self {
            Expected::Refused {
                number: number @ (1..=6 | 11 | 12),
                row,
            } => Some(Form::refused(number, row)),
            Expected::Open => None,
            _ => Some(Form::ACCEPTED),
        }
    }
}

/// A job with the area that is lent with it.
pub struct GeneratedJob {
    pub seed: u64,
    pub index: u64,
    pub kinds: Vec<Kind>,
    pub bytes: Vec<u8>,
    pub area: Vec<u8>,
    pub expected: Expected,
    /// How the added header is broken, if it was made so.
    broken: Option<Broken>,
}

/// What else is wrong where an added header is broken: nothing, or the cause of a refusal.
const OTHER_FAULTS: [u32; 8] = [0, 1, 3, 4, 5, 12, 6, 7];

/// Where jobs come from, with the share of each.
const PLAN: [(Source, usize); 42] = [
    (Source::Planted(Shape::Any, WrongRows::Exact), 11),
    (Source::Planted(Shape::Poles, WrongRows::Exact), 6),
    (Source::Planted(Shape::Any, WrongRows::Fewer), 4),
    (Source::Planted(Shape::Poles, WrongRows::Fewer), 3),
    (Source::Planted(Shape::Any, WrongRows::None), 2),
    (Source::Planted(Shape::CommonFactor, WrongRows::Exact), 2),
    (Source::Planted(Shape::CommonFactor, WrongRows::Fewer), 1),
    (Source::Planted(Shape::AllZero, WrongRows::Exact), 1),
    (Source::Planted(Shape::AllZero, WrongRows::Fewer), 1),
    (Source::Planted(Shape::WholeField, WrongRows::Exact), 1),
    (Source::Planted(Shape::WholeField, WrongRows::Fewer), 1),
    (Source::Planted(Shape::LooseBounds, WrongRows::Exact), 1),
    (Source::Planted(Shape::LooseBounds, WrongRows::Fewer), 1),
    (Source::Planted(Shape::Any, WrongRows::OneTooMany), 4),
    (Source::Planted(Shape::Poles, WrongRows::OneTooMany), 1),
    (Source::Planted(Shape::WholeField, WrongRows::OneTooMany), 1),
    (Source::marks(Marks::Poles, WrongRows::None), 1),
    (Source::marks(Marks::Poles, WrongRows::Fewer), 1),
    (Source::marks(Marks::Poles, WrongRows::Exact), 2),
    (Source::marks(Marks::OwnPoles, WrongRows::None), 2),
    (Source::marks(Marks::OwnPoles, WrongRows::Exact), 2),
    (Source::marks(Marks::PolesAboveErrors, WrongRows::None), 1),
    (Source::marks(Marks::PolesAboveErrors, WrongRows::Exact), 2),
    (Source::marks(Marks::Silent, WrongRows::Fewer), 1),
    (Source::marks(Marks::Silent, WrongRows::Exact), 2),
    (Source::marks(Marks::PolesAndSilent, WrongRows::Exact), 3),
    (Source::marks(Marks::PolesAndSilent, WrongRows::Fewer), 1),
    (
        Source::marks(Marks::PolesAndSilent, WrongRows::OneTooMany),
        1,
    ),
    (Source::marks(Marks::OwnPoles, WrongRows::OneTooMany), 1),
    (Source::BeyondOwnBound, 2),
    (Source::Faulty(1), 1),
    (Source::SpareBit, 1),
    (Source::Broken, 3),
    (Source::Faulty(3), 1),
    (Source::Faulty(4), 1),
    (Source::Faulty(5), 1),
    (Source::FalseMark, 3),
    (Source::Faulty(12), 2),
    (Source::Faulty(6), 1),
    (Source::Faulty(7), 1),
    (Source::RandomValues, 1),
    (Source::DamagedOrRandom, 2),
];

#[derive(Clone, Copy)]
enum Source {
    Planted(Shape, WrongRows),
    /// An answer within df for every output, and none within each output's own bound.
    BeyondOwnBound,
    /// Made to be refused with this number.
    Faulty(u32),
    /// Refused with 5 for what is no mark.
    FalseMark,
    SpareBit,
    Broken,
    RandomValues,
    DamagedOrRandom,
}

impl Source {
    const fn marks(marks: Marks, wrong: WrongRows) -> Source {
        Source::Planted(Shape::Marked(marks), wrong)
    }
}

/// The job of this number in the run of this seed.
pub fn generate(seed: u64, index: u64) -> GeneratedJob {
    let mut random = Random::new(seed, index);
    let (source, turn) = planned(&PLAN, index);
    let mut job = match source {
        Source::Planted(shape, wrong) => from_planted(&mut random, shape, wrong),
        Source::BeyondOwnBound => from_beyond_own_bound(&mut random),
        Source::Faulty(number) => faulty::refused(&mut random, number),
        Source::FalseMark => FalseMark::of_turn(turn).job(&mut random),
        Source::SpareBit => faulty::spare_bit(&mut random),
        Source::Broken => faulty::broken(&mut random, Broken::of_turn(turn, &OTHER_FAULTS)),
        Source::RandomValues => faulty::random_values(&mut random),
        Source::DamagedOrRandom if random.once_in(2) => faulty::damaged(&mut random),
        Source::DamagedOrRandom => faulty::random_bytes(&mut random),
    };
    job.seed = seed;
    job.index = index;
    job
}

/// The entry of a plan that a number falls to, and how many numbers before it fall to the same.
fn planned<T: Copy>(plan: &[(T, usize)], index: u64) -> (T, usize) {
    let whole: usize = plan.iter().map(|(_, parts)| parts).sum();
    let (round, mut place) = (index as usize / whole, index as usize % whole);
    for &(entry, parts) in plan {
        if place < parts {
            return (entry, round * parts + place);
        }
        place -= parts;
    }
    unreachable!("the place is below the sum of all parts")
}

fn from_planted(random: &mut Random, shape: Shape, wrong: WrongRows) -> GeneratedJob {
    let planted = planted(random, shape, wrong);
    let mut kinds = labels(shape, wrong);
    if planted.has_pole() {
        kinds.push(Kind::Pole);
    }
    let bytes = planted.answer().pack(&planted.job);
    let expected = if wrong == WrongRows::OneTooMany {
        Expected::NotThis { bytes }
    } else {
        let wrong = planted.word.count_ones();
        Expected::Answered { bytes, wrong }
    };
    sufficient(random, kinds, &planted, expected)
}

fn from_beyond_own_bound(random: &mut Random) -> GeneratedJob {
    let planted = beyond_own_bound(random);
    let expected = Expected::Refused { number: 8, row: 0 };
    sufficient(random, vec![Kind::BeyondOwnBound], &planted, expected)
}

/// A job with an area that is long enough for its answer.
fn sufficient(
    random: &mut Random,
    mut kinds: Vec<Kind>,
    planted: &Planted,
    expected: Expected,
) -> GeneratedJob {
    let surplus = match random.below(2) {
        0 => 0,
        _ => random.between(1, 40),
    };
    kinds.push(match surplus {
        0 => Kind::ExactArea,
        _ => Kind::LongArea,
    });
    let area_length = planted.job.answer_length() + surplus;
    new_job(random, kinds, planted.job.pack(), area_length, expected)
}

fn labels(shape: Shape, wrong: WrongRows) -> Vec<Kind> {
    let mut kinds = vec![match wrong {
        WrongRows::None => Kind::NoErrors,
        WrongRows::Fewer => Kind::FewerErrors,
        WrongRows::Exact => Kind::ExactErrors,
        WrongRows::OneTooMany => Kind::OneErrorTooMany,
    }];
    match shape {
        Shape::Any | Shape::Poles | Shape::PartlyCommon | Shape::LongestAnswer => {}
        Shape::CommonFactor => kinds.push(Kind::CommonFactor),
        Shape::AllZero => kinds.push(Kind::AllZero),
        Shape::WholeField => kinds.push(Kind::WholeField),
        Shape::LooseBounds => kinds.push(Kind::LooseBounds),
        Shape::Marked(marks) => kinds.push(Kind::of_marks(marks)),
    }
    kinds
}

impl Planted {
    fn answer(&self) -> Answer {
        Answer {
            word: self.word,
            denominator: self.denominator.clone(),
            numerators: self.numerators.clone(),
        }
    }
}

/// A job with an area of random contents.
fn new_job(
    random: &mut Random,
    kinds: Vec<Kind>,
    bytes: Vec<u8>,
    area_length: usize,
    expected: Expected,
) -> GeneratedJob {
    let area = random.bytes(area_length);
    GeneratedJob {
        seed: 0,
        index: 0,
        kinds,
        bytes,
        area,
        expected,
        broken: None,
    }
}

impl GeneratedJob {
    /// Everything needed to try the job again.
    pub fn describe(&self) -> String {
        format!(
            "seed {} job {} kinds {:?} {:?}\njob bytes {}\narea before {}",
            self.seed,
            self.index,
            self.kinds,
            self.broken,
            hex::text(&self.bytes),
            hex::text(&self.area)
        )
    }

    /// What the outcome breaks of what the generator knows, if anything.
    pub fn complaint(&self, report: Report, area: &[u8]) -> Option<String> {
        match &self.expected {
            Expected::Answered { bytes, wrong } => {
                let written = bytes.len();
                let fits = report == Report::recovered(written as u32, *wrong)
                    && area[..written] == bytes[..];
                (!fits).then(|| format!("expected {} wrong, {}", wrong, hex::text(bytes)))
            }
            Expected::Refused { number, row } => (report != Report::refused(*number, *row))
                .then(|| format!("expected refusal {number}, row {row}")),
            Expected::NotThis { bytes } => {
                let other = report == Report::refused(8, 0)
                    || report.is_recovered() && area[4..bytes.len()] != bytes[4..];
                (!other).then(|| "answered with more than E wrong rows".to_string())
            }
            Expected::Open => None,
        }
    }
}
