//! Why an offered answer is not the job's: a reason for every no and none for a yes, and each reason is true.

use hanthuvelo::{hex, objection, Fault, Job, Objection};
use outside_checks::definition;
use outside_checks::jobs::{generate, Expected, Random};
use outside_checks::layout::{self, row_bit, value_at, wrong_rows, Answer, Mark};
use outside_checks::paper::examples;
use outside_checks::second::polynomial::Polynomial;
use outside_checks::second::{self, Field};
use std::collections::BTreeMap;

const SEED: u64 = 35;

/// How many offered answers had a reason of each kind.
type Counts = BTreeMap<&'static str, usize>;

/// Each kind of reason, with how many answers the generated run must have of it.
const FLOORS: [(&str, usize); 13] = [
    ("none", 3000),
    ("byte count", 6000),
    ("large coefficient", 30_000),
    ("zero denominator", 4000),
    ("leading coefficient", 10_000),
    ("common divisor", 2500),
    ("mark beyond", 15_000),
    ("right marked", 7000),
    ("silent marked", 300),
    ("false pole unmarked", 300),
    ("pole unmarked", 900),
    ("wrong unmarked", 18_000),
    ("too many wrong", 5000),
];

fn kind(found: &Option<Objection>) -> &'static str {
    match found {
        None => "none",
        Some(Objection::ByteCount { .. }) => "byte count",
        Some(Objection::LargeCoefficient { .. }) => "large coefficient",
        Some(Objection::ZeroDenominator) => "zero denominator",
        Some(Objection::LeadingCoefficient(_)) => "leading coefficient",
        Some(Objection::CommonDivisor(_)) => "common divisor",
        Some(Objection::MarkBeyond { .. }) => "mark beyond",
        Some(Objection::RightMarked { .. }) => "right marked",
        Some(Objection::SilentMarked { .. }) => "silent marked",
        Some(Objection::WrongUnmarked { fault, .. }) => match fault {
            Fault::Pole => "pole unmarked",
            Fault::NoPole(_) => "false pole unmarked",
            Fault::Value { .. } => "wrong unmarked",
        },
        Some(Objection::TooManyWrong { .. }) => "too many wrong",
    }
}

/// A job that is not refused by its form, with its answer's bytes, if it has one, by what is written outside.
struct Case {
    job: Job,
    outside: layout::Job,
    answer: Option<Vec<u8>>,
}

impl Case {
    fn new(bytes: &[u8], answer: Option<Vec<u8>>) -> Case {
        let job = Job::unpack(bytes).expect("a job");
        let outside = layout::Job::unpack(bytes);
        Case {
            job,
            outside,
            answer,
        }
    }

    /// An answer is offered: there is a reason exactly if it is not the job's, which the library says too, and it is true.
    fn offer(&self, offered: &[u8], counts: &mut Counts) {
        let said = || format!("{}offered {}", self.job, hex::text(offered));
        let is_answer = self.answer.as_deref() == Some(offered);
        let found = objection(&self.job, offered);
        assert_eq!(found.is_none(), is_answer, "{}: {found:?}", said());
        #[cfg(feature = "library")]
        if offered.len() == self.outside.answer_length() {
            assert_eq!(self.job.judge(offered), Ok(is_answer), "{}", said());
        } else {
            let refusal = self.job.judge(offered).expect_err("a refusal");
            let words = found.as_ref().map(Objection::to_string);
            assert_eq!((refusal.number, Some(refusal.reason)), (3, words));
        }
        if let Some(found) = &found {
            assert!(self.is_true(found, offered), "{}: {found:?}", said());
        }
        *counts.entry(kind(&found)).or_default() += 1;
    }

    /// Whether a reason holds, by the formats and the arithmetic of the outside checks.
    fn is_true(&self, found: &Objection, offered: &[u8]) -> bool {
        let bytes = offered.len();
        if let Objection::ByteCount { needed, found } = *found {
            return needed == self.outside.answer_length() && found == bytes && found != needed;
        }
        let large = self.large_coefficient(offered);
        if large.is_some() {
            return large.as_ref() == Some(found);
        }
        let answer = Answer::unpack(offered, &self.outside);
        let leading = answer.trimmed().0.last().copied();
        match found {
            Objection::ZeroDenominator => leading.is_none(),
            Objection::LeadingCoefficient(found) => {
                leading == Some(u32::from(*found)) && *found != 1
            }
            Objection::CommonDivisor(divisor) => self.divides(divisor, &answer),
            _ => self.is_true_of_rows(found, &answer),
        }
    }

    /// The first coefficient of p or more, in the order of the bytes.
    fn large_coefficient(&self, offered: &[u8]) -> Option<Objection> {
        let (answer, prime) = (Answer::unpack(offered, &self.outside), self.outside.prime());
        let blocks = [&answer.denominator].into_iter().chain(&answer.numerators);
        let mut found = blocks.enumerate().filter_map(|(place, block)| {
            let power = block.iter().position(|&each| each >= prime)?;
            Some((place, power, block[power]))
        });
        let (place, power, coefficient) = found.next()?;
        Some(Objection::LargeCoefficient {
            polynomial: match place {
                0 => "g".to_string(),
                output => format!("f{output}"),
            },
            power,
            coefficient: coefficient as u16,
            prime,
        })
    }

    /// The same for a reason that speaks of rows, and of the first row that it holds of.
    fn is_true_of_rows(&self, found: &Objection, answer: &Answer) -> bool {
        let (rows, marks) = (&self.outside.rows, answer.word);
        let word = wrong_rows(&self.outside, &answer.denominator, &answer.numerators);
        let is_first = |row: usize| (marks ^ word).leading_zeros() as usize == row;
        let has_point = |row: usize, point: u16| rows[row].point == u32::from(point);
        match *found {
            Objection::MarkBeyond { row, rows: count } => {
                let beyond = marks & (u32::MAX >> count);
                count == rows.len() && beyond.leading_zeros() as usize == row
            }
            Objection::RightMarked { row, point } | Objection::SilentMarked { row, point } => {
                let is_silent = matches!(found, Objection::SilentMarked { .. });
                let is_marked = is_first(row) && marks & row_bit(row) != 0;
                let has_mark = self.outside.is_marked(row, Mark::Silent) == is_silent;
                is_marked && has_mark && has_point(row, point)
            }
            Objection::WrongUnmarked { row, point, fault } => {
                let is_unmarked = is_first(row) && marks & row_bit(row) == 0;
                is_unmarked && has_point(row, point) && self.is_fault(fault, row, answer)
            }
            Objection::TooManyWrong { wrong, errors } => {
                let is_count = marks == word && word.count_ones() as usize == wrong;
                is_count && wrong > errors && errors == self.outside.error_bound
            }
            _ => false,
        }
    }

    fn is_fault(&self, fault: Fault, row: usize, answer: &Answer) -> bool {
        let (prime, row) = (self.outside.prime(), &self.outside.rows[row]);
        let at_point = |polynomial: &[u32]| value_at(polynomial, row.point, prime);
        let below = at_point(&answer.denominator);
        let mark = self.outside.mark(row);
        match fault {
            Fault::Pole => below == 0 && mark.is_none(),
            Fault::NoPole(value) => {
                let is_value = below == u32::from(value) && below != 0;
                is_value && mark == Some(Mark::Pole)
            }
            Fault::Value {
                output,
                found,
                needed,
            } => {
                let product = below * u32::from(needed) % prime;
                let is_needed = below != 0 && at_point(&answer.numerators[output]) == product;
                is_needed && found != needed && row.values[output] == u32::from(found)
            }
        }
    }

    /// A polynomial of positive degree, with leading coefficient 1, that divides g and every f.
    fn divides(&self, divisor: &[u16], answer: &Answer) -> bool {
        let field = Field::new(self.outside.prime());
        let divisor = Polynomial::new(divisor.iter().map(|&each| each.into()).collect());
        let is_divided = |polynomial: &Vec<u32>| {
            let (_, rest) = Polynomial::new(polynomial.clone()).divide(&divisor, field);
            rest.is_zero()
        };
        let is_monic = divisor.degree() > Some(0) && divisor.leading() == Some(1);
        let mut all = answer.numerators.iter().chain([&answer.denominator]);
        is_monic && all.all(is_divided)
    }
}

/// Every word for one row more than there are, and all coefficients from 0 to 7, for the paper's small jobs modulo 7: the
/// only answer without a reason is the one that the definition has.
#[test]
fn small_answers_are_all_looked_at() {
    let mut counts = Counts::new();
    let (mut jobs, mut answers) = (0, 0);
    let all = examples().into_iter();
    for example in all.filter(|example| example.report.refusal != 5) {
        let bytes = hex::bytes(example.job).expect("the paper's job");
        let mut case = Case::new(&bytes, None);
        let length = (case.outside.answer_length() - 4) / 2;
        if case.outside.prime() != 7 || length > 4 {
            continue;
        }
        let found = definition::answers(&case.outside);
        assert!(found.len() <= 1, "{}", example.name);
        case.answer = found.first().map(|answer| answer.pack(&case.outside));
        (jobs, answers) = (jobs + 1, answers + found.len());
        let rows = case.outside.rows.len();
        definition::for_each_list(length, 8, &mut |coefficients| {
            let numbers = coefficients.iter().map(|&each| each as u16);
            let numbers: Vec<u8> = numbers.flat_map(u16::to_be_bytes).collect();
            for marks in 0..1u32 << (rows + 1) {
                let word = marks << (31 - rows);
                case.offer(&[&word.to_be_bytes()[..], &numbers].concat(), &mut counts);
            }
        });
    }
    // H1 to H12 without H8, which has six coefficients, and H10 and H11, which are modulo 65521; H12 stands there twice.
    assert_eq!((jobs, answers, counts["none"]), (10, 8, 8));
    let total: usize = counts.values().sum();
    assert!(total > 150_000 && counts.len() == 10, "{counts:?}");
}

#[test]
fn generated_answers_have_a_reason_or_are_right() {
    let mut counts = Counts::new();
    let mut jobs = 0;
    for index in 0..4000 {
        let generated = generate(SEED, index);
        let mut area = [0; 254];
        let report = second::recover(&generated.bytes, &mut area);
        if !matches!(report.refusal, 0 | 8) {
            continue;
        }
        jobs += 1;
        let answer = (report.refusal == 0).then(|| area[..report.written as usize].to_vec());
        let case = Case::new(&generated.bytes, answer);
        let mut random = Random::new(SEED, index);
        let start = match (&case.answer, &generated.expected) {
            (Some(bytes), _) | (None, Expected::NotThis { bytes }) => bytes.clone(),
            _ => random.bytes(case.outside.answer_length()),
        };
        offer_altered(&case, &start, &mut random, &mut counts);
    }
    assert!(jobs > 3000, "{jobs}");
    for (kind, floor) in FLOORS {
        let count = counts.get(kind).copied().unwrap_or(0);
        assert!(count >= floor, "{kind}: {counts:?}");
    }
}

/// Offers an answer, the same with another number of bytes, with single bits flipped, and altered in other ways.
fn offer_altered(case: &Case, start: &[u8], random: &mut Random, counts: &mut Counts) {
    case.offer(start, counts);
    case.offer(&start[..random.below(start.len())], counts);
    case.offer(&[start, &[0]].concat(), counts);
    let bits = 8 * start.len();
    let flipped: Vec<usize> = match bits {
        0..=96 => (0..bits).collect(),
        _ => (0..8).map(|_| random.below(bits)).collect(),
    };
    for bit in flipped {
        let mut offered = start.to_vec();
        offered[bit / 8] ^= 128 >> (bit % 8);
        case.offer(&offered, counts);
    }
    for way in 0..WAYS {
        let mut answer = Answer::unpack(start, &case.outside);
        alter(way, &mut answer, &case.outside, random);
        case.offer(&answer.pack(&case.outside), counts);
    }
    case.offer(&random.bytes(start.len()), counts);
}

const WAYS: usize = 10;

/// Alters an answer in one of the ways.
fn alter(way: usize, answer: &mut Answer, job: &layout::Job, random: &mut Random) {
    let (prime, field) = (job.prime(), Field::new(job.prime()));
    match way {
        0 => answer.word ^= row_bit(random.below(32)),
        1 => answer.word ^= row_bit(random.below(job.rows.len())),
        2 => answer.word = 0,
        3 => answer.denominator.fill(0),
        4 => *any_coefficient(answer, random) = random.between(prime as usize, 65535) as u32,
        5 => {
            let factor = random.between(2, prime as usize - 1) as u32;
            each(answer, |polynomial| polynomial.scaled(factor, field));
        }
        6 => {
            // Above the bounds the product is cut off.
            let factor = Polynomial::new(vec![random.residue(prime), 1]);
            each(answer, |polynomial| polynomial.times(&factor, field));
        }
        7 => {
            let factor = Polynomial::new(vec![random.residue(prime), 1]);
            let rest = |polynomial: &Polynomial| polynomial.divide(&factor, field).1;
            each(answer, |polynomial| {
                polynomial.minus(&rest(polynomial), field)
            });
        }
        8 => {
            *any_coefficient(answer, random) = random.residue(prime);
            answer.word = wrong_rows(job, &answer.denominator, &answer.numerators);
        }
        _ => {
            draw(answer, random, prime);
            answer.word = wrong_rows(job, &answer.denominator, &answer.numerators);
        }
    }
}

fn any_coefficient<'a>(answer: &'a mut Answer, random: &mut Random) -> &'a mut u32 {
    let numerators = answer.numerators.iter_mut().flatten();
    let mut all: Vec<&mut u32> = answer.denominator.iter_mut().chain(numerators).collect();
    all.swap_remove(random.below(all.len()))
}

/// Puts another polynomial in the place of each.
fn each(answer: &mut Answer, other: impl Fn(&Polynomial) -> Polynomial) {
    let numerators = answer.numerators.iter_mut();
    for polynomial in numerators.chain([&mut answer.denominator]) {
        let put = other(&Polynomial::new(polynomial.clone()));
        *polynomial = put.coefficients().to_vec();
    }
}

/// Other polynomials within the bounds, g with leading coefficient 1; at times every f is zero.
fn draw(answer: &mut Answer, random: &mut Random, prime: u32) {
    let degree = random.below(answer.denominator.len());
    answer.denominator = (0..degree).map(|_| random.residue(prime)).collect();
    answer.denominator.push(1);
    let is_zero = random.once_in(4);
    for entry in answer.numerators.iter_mut().flatten() {
        *entry = if is_zero { 0 } else { random.residue(prime) };
    }
}
