//! The moduli.

use crate::FormatError;

/// A modulus that the library takes.
#[derive(Clone, Copy, Debug, PartialEq, Eq)]
pub enum Prime {
    /// Code 0.
    P7,
    /// Code 1.
    P97,
    /// Code 2.
    P257,
    /// Code 3.
    P65521,
}

impl Prime {
    /// The primes by their codes.
    pub const ALL: [Prime; 4] = [Prime::P7, Prime::P97, Prime::P257, Prime::P65521];

    /// The prime itself.
    pub fn value(self) -> u32 {
        match self {
            Prime::P7 => 7,
            Prime::P97 => 97,
            Prime::P257 => 257,
            Prime::P65521 => 65521,
        }
    }

    /// The prime with this value, if the library takes it.
    pub fn from_value(value: u32) -> Option<Prime> {
        Prime::ALL.into_iter().find(|prime| prime.value() == value)
    }
}

impl TryFrom<u32> for Prime {
    type Error = FormatError;

    fn try_from(value: u32) -> Result<Prime, FormatError> {
        Prime::from_value(value).ok_or_else(|| {
            let known = Prime::ALL.map(|prime| prime.value().to_string()).join(", ");
            FormatError(format!("expected a prime of {known}, found {value}"))
        })
    }
}
