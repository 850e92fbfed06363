//! Calls with faults: made to be refused for a given cause, damaged, or random.

use super::{Draft, Spoiled, TrialCall};
use crate::jobs::broken_header::{Breach, Broken};
use crate::jobs::faults::take_rows;
use crate::jobs::planted::Shape;
use crate::jobs::random::Random;
use crate::layout::HeaderForm;
use crate::second::polynomial::Polynomial;

/// A cause of a refusal, in the order in which they are tested.
#[derive(Clone, Copy, Debug, PartialEq, Eq, PartialOrd, Ord)]
pub enum Fault {
    ShortHeader,
    /// The spare bit 1 with 3 to 6 bytes. Item 1 alone would refuse three of them with 2.
    SpareBit,
    LongHeader,
    CoefficientBytes,
    TooFewRows,
    RowsAbovePrime,
    SpoiledAboveRows,
    LargeCoefficient,
    ZeroDenominator,
    LeadingCoefficient,
    CommonDivisor,
    ShortArea,
}

impl Fault {
    pub const ALL: [Fault; 12] = [
        Fault::ShortHeader,
        Fault::SpareBit,
        Fault::LongHeader,
        Fault::CoefficientBytes,
        Fault::TooFewRows,
        Fault::RowsAbovePrime,
        Fault::SpoiledAboveRows,
        Fault::LargeCoefficient,
        Fault::ZeroDenominator,
        Fault::LeadingCoefficient,
        Fault::CommonDivisor,
        Fault::ShortArea,
    ];

    /// The refusal's number, with the label of a call that has this fault.
    pub fn refusal(self) -> (u32, &'static str) {
        match self {
            Fault::ShortHeader => (1, "1: short header"),
            Fault::SpareBit => (1, "1: spare bit, 3 to 6 bytes"),
            Fault::LongHeader => (3, "3: long header"),
            Fault::CoefficientBytes => (3, "3: coefficient bytes"),
            Fault::TooFewRows => (4, "4: too few rows"),
            Fault::RowsAbovePrime => (9, "9: L above p"),
            Fault::SpoiledAboveRows => (9, "9: w above L"),
            Fault::LargeCoefficient => (5, "5: coefficient of p or more"),
            Fault::ZeroDenominator => (10, "10: g is zero"),
            Fault::LeadingCoefficient => (10, "10: leading coefficient not 1"),
            Fault::CommonDivisor => (10, "10: common divisor"),
            Fault::ShortArea => (7, "7: short area"),
        }
    }
}

/// A call with this fault, at times with one more that is tested later.
pub fn faulty(random: &mut Random, first: Fault) -> TrialCall {
    let later: Vec<Fault> = Fault::ALL
        .into_iter()
        .filter(|&fault| fault > first)
        .collect();
    let mut faults = vec![first];
    if !later.is_empty() && random.once_in(2) {
        faults.push(later[random.below(later.len())]);
    }
    let mut call = with_faults(random, &faults, None);
    let (number, label) = first.refusal();
    call.labels = vec![label];
    if faults.len() > 1 {
        call.labels.push("two faults");
    }
    call.expected = Some(number);
    call
}

/// A call with this broken added header.
pub fn broken(random: &mut Random, broken: Broken) -> TrialCall {
    let is_other =
        |fault: &Fault| fault.refusal().0 == broken.other && *fault != Fault::ShortHeader;
    let others: Vec<Fault> = Fault::ALL.into_iter().filter(is_other).collect();
    let faults: Vec<Fault> = match others.is_empty() {
        true => Vec::new(),
        false => vec![random.one_of(&others)],
    };
    let call = with_faults(random, &faults, Some(broken.breach));
    TrialCall {
        labels: Vec::new(),
        expected: Some(broken.refusal()),
        broken: Some(broken),
        ..call
    }
}

/// A call with these faults, in the order of their tests, and this way to break the added header.
fn with_faults(random: &mut Random, faults: &[Fault], breach: Option<Breach>) -> TrialCall {
    let mut draft = draft_for(random, faults, breach);
    for &fault in faults.iter().rev() {
        draft.spoil_by(random, fault);
    }
    let mut call = draft.call(random);
    if let Some(breach) = breach {
        breach.apply(random, &mut call.header);
    }
    for &fault in faults.iter().rev() {
        call.spoil_by(random, fault);
    }
    call
}

/// A sound draft that these faults can be put into.
fn draft_for(random: &mut Random, faults: &[Fault], breach: Option<Breach>) -> Draft {
    let shape = match faults.contains(&Fault::CommonDivisor) {
        true => Shape::CommonFactor,
        false => Shape::Any,
    };
    loop {
        let mut draft = Draft::draw(random, shape);
        let is_modulo_7 = draft.job.prime_code == 0;
        let fits = breach.is_none_or(|breach| breach.fits(&draft.job));
        if fits && (is_modulo_7 || !faults.contains(&Fault::RowsAbovePrime)) {
            draft.spoil(random, Spoiled::Any);
            return draft;
        }
    }
}

impl Draft {
    /// Puts a fault into the fields and polynomials; those of the bytes come later.
    fn spoil_by(&mut self, random: &mut Random, fault: Fault) {
        match fault {
            Fault::TooFewRows => take_rows(random, &mut self.job),
            Fault::RowsAbovePrime => {
                let row = self.job.rows[0].clone();
                self.job.rows.resize(random.between(8, 31), row);
            }
            Fault::SpoiledAboveRows => {
                let least = self.job.rows.len() as u32 + 1;
                self.spoiled = match random.below(3) {
                    0 => least,
                    1 => random.between(least as usize, 40) as u32,
                    _ => u32::MAX - random.below(3) as u32,
                };
            }
            Fault::ZeroDenominator => self.denominator = Polynomial::zero(),
            Fault::LeadingCoefficient => {
                let factor = random.between(2, self.job.prime() as usize - 1) as u32;
                self.denominator = self.denominator.scaled(factor, self.field());
            }
            Fault::CommonDivisor => {
                self.multiply_by_common_factor();
                if random.once_in(4) {
                    self.numerators.fill(Polynomial::zero());
                }
            }
            _ => {}
        }
    }
}

impl TrialCall {
    /// Puts a fault into the bytes or the area.
    fn spoil_by(&mut self, random: &mut Random, fault: Fault) {
        match fault {
            Fault::ShortHeader => {
                let whole = HeaderForm::of(&self.header).length();
                self.header.truncate(random.below(whole));
            }
            Fault::SpareBit => {
                self.header[2] |= 1;
                self.header.truncate(random.between(3, 6));
            }
            Fault::LongHeader => {
                let surplus = random.between(1, 300);
                self.header.extend(random.bytes(surplus));
            }
            Fault::CoefficientBytes => self.change_length(random),
            Fault::LargeCoefficient => {
                let prime = self.fields().prime as usize;
                let number = match random.below(2) {
                    0 => prime,
                    _ => random.between(prime, 65535),
                };
                let place = 2 * random.below(self.coefficients.len() / 2);
                let bytes = (number as u16).to_be_bytes();
                self.coefficients[place..place + 2].copy_from_slice(&bytes);
            }
            Fault::ShortArea => self.shorten_area(random),
            _ => {}
        }
    }

    fn change_length(&mut self, random: &mut Random) {
        let bytes = &mut self.coefficients;
        match random.below(5) {
            0 => bytes.clear(),
            1 => bytes.truncate(bytes.len() - random.between(1, 2)),
            2 => bytes.extend([0; 2]),
            3 => bytes.push(random.byte()),
            _ => {
                let surplus = random.between(1, 300);
                bytes.extend(random.bytes(surplus));
            }
        }
    }

    /// The area is one byte short, or empty, or of any length that is too short.
    fn shorten_area(&mut self, random: &mut Random) {
        let needed = self.fields().job_length();
        self.area.truncate(match random.below(4) {
            0 => 0,
            1 => random.below(needed),
            _ => needed - 1,
        });
    }
}

/// A sound call with some bytes changed, lost or doubled, or random bytes.
pub fn damaged_or_random(random: &mut Random) -> TrialCall {
    let mut draft = Draft::draw(random, Shape::Any);
    draft.spoil(random, Spoiled::Any);
    let mut call = draft.call(random);
    if random.once_in(2) {
        call.labels = vec!["damaged bytes"];
        for _ in 0..random.between(1, 2) {
            let is_header = random.once_in(2);
            let part = match is_header {
                true => &mut call.header,
                false => &mut call.coefficients,
            };
            let place = random.below(part.len());
            if is_header && place > 2 {
                call.labels.push("damaged added header");
            }
            match random.below(8) {
                0 => part.insert(place, random.byte()),
                1 if part.len() > 1 => drop(part.remove(place)),
                _ => part[place] ^= 1 << random.below(8),
            }
        }
    } else {
        call.labels = vec!["random bytes"];
        let (header, coefficients) = (random.between(2, 8), random.below(260));
        call.header = random.bytes(header);
        call.coefficients = random.bytes(coefficients);
        call.spoiled = random.below(40) as u32;
    }
    call.expected = None;
    call
}
