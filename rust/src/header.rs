//! A job's header: short, or longer by a bound for each output.

use crate::format::{counted, output_name};
use crate::{Bounds, NumeratorBounds, Prime};
use std::fmt::{Display, Formatter};

/// What the bytes at a job's start say: any three whose last bit is 0, or any seven where that bit is 1.
///
/// A longer header may break a rule, and is refused with 11 then; what its bytes say is kept here all the same.
#[derive(Clone, Copy, Debug, PartialEq, Eq)]
pub struct Header {
    /// Prime, number of outputs, and bounds: one bound for every f in a short header, one for each in a longer one.
    pub bounds: Bounds,
    /// L, the number of rows, 31 at most.
    pub rows: usize,
    /// df as the first three bytes have it. In a longer header that is not refused it is the largest bound of an f.
    pub df: usize,
    /// The 12 flag bits at a longer header's end, of which the first alone can be 1 in one that is not refused; 0 in a short
    /// one.
    pub flags: u16,
}

impl Header {
    /// How many bytes a short header has.
    pub const SHORT: usize = 3;
    /// How many bytes a longer header has, a bound for each output among them.
    pub const LONGER: usize = 7;
    /// The first of the 12 flag bits, by which rows can be marked.
    pub const MARKS: u16 = 0x800;

    /// How many bytes the header has that `bytes` begin with. Where they are too few to say that, it has at least
    /// [`SHORT`](Header::SHORT).
    pub fn length_at(bytes: &[u8]) -> usize {
        match bytes.get(Header::SHORT - 1) {
            Some(last) if last & 1 == 1 => Header::LONGER,
            _ => Header::SHORT,
        }
    }

    /// Why the header that `bytes` begin with has more bytes than a short one, to be put behind their number.
    pub(crate) fn why_longer(bytes: &[u8]) -> &'static str {
        match Header::length_at(bytes) {
            Header::SHORT => "",
            _ => ", as the spare bit is 1",
        }
    }

    /// The header that `bytes` begin with, if they are enough for one.
    pub fn read(bytes: &[u8]) -> Option<Header> {
        let bytes = bytes.get(..Header::length_at(bytes))?;
        let (first, added) = bytes.split_at(Header::SHORT);
        let first = Fields::of(first);
        let added = (!added.is_empty()).then(|| Fields::of(added));
        let df = first.field(10, 5);
        Some(Header {
            bounds: Bounds {
                prime: Prime::ALL[first.field(22, 2)],
                outputs: first.field(20, 2) + 1,
                df: match &added {
                    None => NumeratorBounds::Same(df),
                    Some(added) => {
                        NumeratorBounds::Each([27, 22, 17, 12].map(|above| added.field(above, 5)))
                    }
                },
                dg: first.field(5, 5),
                errors: first.field(1, 4),
            },
            rows: first.field(15, 5),
            df,
            flags: added.map_or(0, |added| added.field(0, 12) as u16),
        })
    }

    /// The header of a job with these bounds and so many rows, which breaks no rule. Where rows can be marked, each f has a
    /// bound of its own.
    pub(crate) fn new(bounds: Bounds, rows: usize, allows_marks: bool) -> Header {
        Header {
            bounds,
            rows,
            df: bounds.df.largest(),
            flags: if allows_marks { Header::MARKS } else { 0 },
        }
    }

    /// Whether rows can be marked: the first flag bit is 1.
    pub fn allows_marks(&self) -> bool {
        self.flags & Header::MARKS != 0
    }

    /// The header's bytes; every field is within its range.
    pub(crate) fn pack(&self) -> Vec<u8> {
        let (bounds, is_longer) = (&self.bounds, self.length() == Header::LONGER);
        let first = joined(&[
            (2, bounds.prime as usize),
            (2, bounds.outputs - 1),
            (5, self.rows),
            (5, self.df),
            (5, bounds.dg),
            (4, bounds.errors),
            (1, usize::from(is_longer)),
        ]);
        let mut bytes = first.to_be_bytes()[1..].to_vec();
        if let NumeratorBounds::Each(each) = bounds.df {
            let added = joined(&each.map(|bound| (5, bound)));
            bytes.extend((added << 12 | u32::from(self.flags)).to_be_bytes());
        }
        bytes
    }

    /// How many bytes this header has.
    pub fn length(&self) -> usize {
        self.bounds.header_length()
    }

    /// How many bytes a job with this header has, the header among them.
    pub fn job_length(&self) -> usize {
        self.length() + self.rows * self.bounds.row_length()
    }

    /// The rule that a longer header breaks, if it does: the first of a flag bit behind the first one, the bound of an output
    /// that does not exist, and df.
    pub fn broken_rule(&self) -> Option<BrokenRule> {
        let NumeratorBounds::Each(bounds) = self.bounds.df else {
            return None;
        };
        if self.flags & !Header::MARKS != 0 {
            return Some(BrokenRule::FlagBits(self.flags));
        }
        let outputs = self.bounds.outputs;
        if let Some(output) = (outputs..4).find(|&output| bounds[output] != 0) {
            return Some(BrokenRule::AbsentOutput {
                output,
                bound: bounds[output],
                outputs,
            });
        }
        let (df, largest) = (self.df, self.bounds.df.largest());
        (df != largest).then_some(BrokenRule::Largest { df, largest })
    }
}

/// A rule that the four bytes which a longer header adds break. Shown as `df is 4, the largest bound is 3`.
#[derive(Clone, Copy, Debug, PartialEq, Eq)]
pub enum BrokenRule {
    /// Of these 12 flag bits one behind the first is 1 at least.
    FlagBits(u16),
    /// An output that does not exist has a bound other than 0.
    AbsentOutput {
        /// The output, counted from 0.
        output: usize,
        /// Its bound.
        bound: usize,
        /// n, how many outputs there are.
        outputs: usize,
    },
    /// df is not the largest bound.
    Largest {
        /// df as the first three bytes have it.
        df: usize,
        /// The largest bound.
        largest: usize,
    },
}

impl Display for BrokenRule {
    fn fmt(&self, formatter: &mut Formatter<'_>) -> std::fmt::Result {
        match *self {
            BrokenRule::FlagBits(flags) => {
                write!(
                    formatter,
                    "the flag bits are {flags:012b}, not all 0 behind the first"
                )
            }
            BrokenRule::AbsentOutput {
                output,
                bound,
                outputs,
            } => {
                let (name, outputs) = (output_name(output), counted(outputs, "output"));
                write!(
                    formatter,
                    "the bound of {name} is {bound}, the job has {outputs}"
                )
            }
            BrokenRule::Largest { df, largest } => {
                write!(formatter, "df is {df}, the largest bound is {largest}")
            }
        }
    }
}

/// Four bytes at most as one number, whose bits are fields.
struct Fields(u32);

impl Fields {
    fn of(bytes: &[u8]) -> Fields {
        let step = |bits: u32, byte: &u8| bits << 8 | u32::from(*byte);
        Fields(bytes.iter().fold(0, step))
    }

    /// The field of so many bits that has so many others behind it.
    fn field(&self, behind: u32, width: u32) -> usize {
        (self.0 >> behind) as usize & ((1 << width) - 1)
    }
}

/// Numbers of so many bits each, the first on top.
fn joined(fields: &[(u32, usize)]) -> u32 {
    let step = |bits: u32, &(width, number): &(u32, usize)| bits << width | number as u32;
    fields.iter().fold(0, step)
}

#[cfg(test)]
mod tests {
    use super::{Fields, Header};

    /// Bytes of which every bit depends on the number.
    fn mixed(number: u64) -> [u8; 7] {
        let bytes = (number + 1)
            .wrapping_mul(0x9E37_79B9_7F4A_7C15)
            .to_be_bytes();
        [1, 2, 3, 4, 5, 6, 7].map(|place| bytes[place - 1] ^ bytes[7])
    }

    /// A header, also one that breaks a rule, packs into the bytes that it was read from.
    #[test]
    fn what_is_read_is_packed() {
        let mut lengths = [0; 8];
        for number in 0..100_000 {
            let bytes = mixed(number);
            let header = Header::read(&bytes).expect("a header");
            assert_eq!(header.pack(), bytes[..header.length()]);
            assert_eq!(header.length(), Header::length_at(&bytes));
            lengths[header.length()] += 1;
        }
        assert!(lengths[3] > 40_000 && lengths[7] > 40_000, "{lengths:?}");
    }

    #[test]
    fn fields_are_counted_from_behind() {
        let fields = Fields::of(&[0xFF, 0xE0, 0x01, 0x80]);
        assert_eq!(fields.field(7, 2), 3);
        assert_eq!(fields.field(9, 12), 0);
        assert_eq!(fields.field(27, 5), 31);
    }
}
