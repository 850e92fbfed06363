//! The header with a bound for each output, by paper 02: written, read and broken, and what is known outside of a job that has it.
#![allow(dead_code)] // Each test file has a copy of its own and uses a part.

use outside_checks::jobs::Random;
use std::borrow::Cow;

/// What the four bytes say that this header has more than a short one.
#[derive(Clone, Copy, Debug, PartialEq, Eq)]
pub struct Added {
    pub bounds: [usize; 4],
    pub flags: usize,
}

pub fn outputs_of(job: &[u8]) -> usize {
    usize::from(job[0] / 16 % 4) + 1
}

pub fn df_of(job: &[u8]) -> usize {
    usize::from(job[1] / 4 % 32)
}

pub fn has_own_bounds(job: &[u8]) -> bool {
    job[2] % 2 == 1
}

/// How many bytes the header has of a job that has three at least.
pub fn header_length(job: &[u8]) -> usize {
    match has_own_bounds(job) {
        true => 7,
        false => 3,
    }
}

impl Added {
    /// A bound for each output of a job: its df.
    pub fn equal(job: &[u8]) -> Added {
        let mut bounds = [0; 4];
        bounds[..outputs_of(job)].fill(df_of(job));
        Added { bounds, flags: 0 }
    }

    /// A bound for each output of a job, any up to its df, which one of them is.
    pub fn drawn(random: &mut Random, job: &[u8]) -> Added {
        Added::meeting(random, job, &[0; 4][..outputs_of(job)])
    }

    /// The same, each bound not below a degree.
    pub fn meeting(random: &mut Random, job: &[u8], degrees: &[usize]) -> Added {
        let mut added = Added::equal(job);
        let kept = random.below(degrees.len());
        let others = degrees.iter().enumerate();
        for (output, &degree) in others.filter(|&(output, _)| output != kept) {
            added.bounds[output] = random.between(degree, df_of(job));
        }
        added
    }

    /// Four bounds of 5 bits each, and 12 flag bits.
    pub fn bytes(&self) -> [u8; 4] {
        let step = |sum: usize, bound: &usize| 32 * sum + bound;
        let bounds = self.bounds.iter().fold(0, step);
        ((4096 * bounds + self.flags) as u32).to_be_bytes()
    }

    /// Those of a job that has this header.
    pub fn of(job: &[u8]) -> Added {
        let step = |sum: usize, byte: &u8| 256 * sum + usize::from(*byte);
        let number = job[3..7].iter().fold(0, step);
        let powers = [32 * 32 * 32, 32 * 32, 32, 1];
        Added {
            bounds: powers.map(|power| number / 4096 / power % 32),
            flags: number % 4096,
        }
    }

    pub fn breaks_a_rule(&self, job: &[u8]) -> bool {
        let (known, absent) = self.bounds.split_at(outputs_of(job));
        let is_largest = known.iter().max() == Some(&df_of(job));
        self.flags & 0x7FF != 0 || absent.iter().any(|&bound| bound != 0) || !is_largest
    }
}

/// The same job with these bounds in place of df alone.
pub fn with_own_bounds(short: &[u8], added: &Added) -> Vec<u8> {
    let mut job = short.to_vec();
    job[2] |= 1;
    job.splice(3..3, added.bytes());
    job
}

/// The same job with the short header: df bounds every f.
pub fn with_one_bound(job: &[u8]) -> Vec<u8> {
    let mut short = [&job[..3], &job[7..]].concat();
    short[2] -= 1;
    short
}

/// A way to break a rule of the added header.
#[derive(Clone, Copy, Debug, PartialEq, Eq)]
pub enum Way {
    FlagBit,
    AbsentOutput,
    DfAbove,
    DfBelow,
}

impl Way {
    /// Of several broken rules the one that stands first here is said.
    pub const ALL: [Way; 4] = [Way::FlagBit, Way::AbsentOutput, Way::DfAbove, Way::DfBelow];

    /// Breaks a rule where that is possible in a job of this header, and says it in words.
    pub fn take(self, random: &mut Random, job: &[u8], added: &mut Added) -> Option<String> {
        let (outputs, df) = (outputs_of(job), df_of(job));
        match self {
            Way::FlagBit => {
                added.flags |= 1 << random.below(11);
                let words = "not all 0 behind the first";
                Some(format!("the flag bits are {:012b}, {words}", added.flags))
            }
            Way::AbsentOutput if outputs < 4 => {
                let (output, bound) = (random.between(outputs, 3), random.between(1, 31));
                added.bounds[output] = bound;
                let ending = if outputs == 1 { "" } else { "s" };
                let name = output + 1;
                Some(format!(
                    "the bound of f{name} is {bound}, the job has {outputs} output{ending}"
                ))
            }
            Way::DfAbove if df > 0 => {
                added.bounds[..outputs].fill_with(|| random.below(df));
                Some(df_words(df, added))
            }
            Way::DfBelow if df < 31 => {
                added.bounds[random.below(outputs)] = random.between(df + 1, 31);
                Some(df_words(df, added))
            }
            _ => None,
        }
    }
}

fn df_words(df: usize, added: &Added) -> String {
    let largest = added.bounds.iter().max().expect("four bounds");
    format!("df is {df}, the largest bound is {largest}")
}

/// Breaks one rule at least, at times several, and says the first in words.
pub fn break_rules(random: &mut Random, job: &[u8], added: &mut Added) -> String {
    let mut said = None;
    let first = random.below(Way::ALL.len());
    for (place, way) in Way::ALL.into_iter().enumerate().rev() {
        // A df above all bounds is none above one of them.
        let is_taken = way != Way::DfAbove || said.is_none();
        if is_taken && (place == first || random.once_in(4)) {
            said = way.take(random, job, added).or(said);
        }
    }
    said.unwrap_or_else(|| break_rules(random, job, added))
}

/// The bytes by which the outcome of a job is known outside: those of the same job with the short header where the longer one
/// has equal bounds; else its own. None where the added header breaks a rule, and the job is refused with 11.
pub fn known_by(job: &[u8]) -> Option<Cow<'_, [u8]>> {
    if !has_own_bounds(job) {
        return Some(job.into());
    }
    let added = Added::of(job);
    if added.breaks_a_rule(job) {
        return None;
    }
    match added == Added::equal(job) {
        true => Some(with_one_bound(job).into()),
        false => Some(job.into()),
    }
}
