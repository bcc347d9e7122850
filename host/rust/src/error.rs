//! Why a movement record can't be read, in the original's terms.

use crate::lent::Refusal;
use std::fmt;

/// A read that failed. Positions count bits of the window.
#[derive(Debug, Clone, PartialEq, Eq)]
#[must_use]
pub enum BitError {
    /// Fewer bits are left than asked (7).
    Eof {
        /// Where the read begins.
        position: u64,
        /// The window's length.
        length: u64,
        /// Bits asked.
        requested: u64,
    },
    /// A packed number goes on behind its fifth byte (8).
    MalformedIntPacked {
        /// Where the number begins.
        position: u64,
    },
    /// A packed number's fifth byte holds more than 15 (9).
    IntPackedOverflow {
        /// Where the number begins.
        position: u64,
    },
    /// A reader or a movement has more bits than its bytes hold (14).
    InvalidBitLength {
        /// The window's bits.
        requested: u64,
        /// The bytes' bits.
        available: u64,
    },
}

/// Why there is no movement record.
#[derive(Debug, Clone, PartialEq)]
#[must_use]
pub enum DecodeError {
    /// A read failed.
    BitIo(BitError),
    /// A component is a NaN or infinite (12).
    NonFiniteComponent {
        /// What has the component.
        context: &'static str,
    },
    /// A refusal that the original doesn't have: the window is longer than 524,288 bits (1).
    Refused(Refusal),
}

impl BitError {
    /// The refusal that it stands for.
    pub fn refusal(&self) -> Refusal {
        let (number, values) = match *self {
            Self::Eof {
                position,
                length,
                requested,
            } => (Refusal::TOO_FEW_BITS, [position, length, requested]),
            Self::MalformedIntPacked { position } => (Refusal::NUMBER_GOES_ON, [position, 0, 0]),
            Self::IntPackedOverflow { position } => (Refusal::NUMBER_TOO_LARGE, [position, 0, 0]),
            Self::InvalidBitLength { requested, available } => (Refusal::PAST_THE_END, [requested, available, 0]),
        };
        Refusal { number, values }
    }
}

impl DecodeError {
    /// The refusal that it stands for.
    ///
    /// ```
    /// use vrf_proved::{BitError, DecodeError};
    ///
    /// let error = DecodeError::BitIo(BitError::Eof { position: 24, length: 26, requested: 3 });
    /// assert_eq!((error.refusal().number, error.refusal().values), (7, [24, 26, 3]));
    /// assert_eq!(error.to_string(), "refusal 7: a read asks more bits than the window has left: 3 bits at bit 24 of 26");
    /// ```
    pub fn refusal(&self) -> Refusal {
        match self {
            Self::BitIo(error) => error.refusal(),
            Self::NonFiniteComponent { .. } => Refusal {
                number: Refusal::NOT_FINITE,
                values: [0; 3],
            },
            Self::Refused(refusal) => *refusal,
        }
    }
}

impl From<BitError> for DecodeError {
    fn from(error: BitError) -> Self {
        Self::BitIo(error)
    }
}

impl From<Refusal> for DecodeError {
    fn from(refusal: Refusal) -> Self {
        let [first, second, third] = refusal.values;
        match refusal.number {
            Refusal::TOO_FEW_BITS => Self::BitIo(BitError::Eof {
                position: first,
                length: second,
                requested: third,
            }),
            Refusal::NUMBER_GOES_ON => Self::BitIo(BitError::MalformedIntPacked { position: first }),
            Refusal::NUMBER_TOO_LARGE => Self::BitIo(BitError::IntPackedOverflow { position: first }),
            Refusal::NOT_FINITE => Self::NonFiniteComponent {
                context: "quantized vector",
            },
            Refusal::PAST_THE_END => Self::BitIo(BitError::InvalidBitLength {
                requested: first,
                available: second,
            }),
            _ => Self::Refused(refusal),
        }
    }
}

impl fmt::Display for BitError {
    fn fmt(&self, f: &mut fmt::Formatter<'_>) -> fmt::Result {
        self.refusal().fmt(f)
    }
}

impl fmt::Display for DecodeError {
    fn fmt(&self, f: &mut fmt::Formatter<'_>) -> fmt::Result {
        self.refusal().fmt(f)
    }
}

impl std::error::Error for BitError {}

/// What failed below, where something did: the read, or the refusal. The text says it already.
impl std::error::Error for DecodeError {
    fn source(&self) -> Option<&(dyn std::error::Error + 'static)> {
        match self {
            Self::BitIo(error) => Some(error),
            Self::NonFiniteComponent { .. } => None,
            Self::Refused(refusal) => Some(refusal),
        }
    }
}
