//! The refusals, by number.

use mrc_decoder::DecodeError;

#[derive(Clone, Copy, Debug, PartialEq, Eq)]
pub struct Refusal {
    pub number: u8,
    pub byte: u8,
}

impl Refusal {
    pub const END_OF_INPUT: Self = Self::bare(1);
    pub const COULD_NOT_READ_EXTRA_BYTES: Self = Self::bare(2);
    pub const OUTSIDE_INPUT: Self = Self::bare(11);
    pub const NO_ROOM: Self = Self::bare(12);
    pub const IMAGE_TOO_LONG: Self = Self::bare(13);

    /// Refusal 10, with the prefix that is over the budget.
    pub const fn too_many_prefixes(prefix: u8) -> Self {
        Self::with(10, prefix)
    }

    const fn bare(number: u8) -> Self {
        Self::with(number, 0)
    }

    const fn with(number: u8, byte: u8) -> Self {
        Self { number, byte }
    }
}

impl From<DecodeError> for Refusal {
    fn from(error: DecodeError) -> Self {
        match error {
            DecodeError::EndOfInput => Self::END_OF_INPUT,
            DecodeError::CouldNotReadExtraBytes => Self::COULD_NOT_READ_EXTRA_BYTES,
            DecodeError::InvalidDataSizeEncoding(byte) => Self::with(3, byte),
            DecodeError::InvalidIndirectMemoryEncoding(byte) => Self::with(4, byte),
            DecodeError::InvalidModRegRMEncoding(byte) => Self::with(5, byte),
            DecodeError::InvalidOpCode(byte) => Self::with(6, byte),
            DecodeError::InvalidRegisterEncoding(byte) => Self::with(7, byte),
            DecodeError::InvalidSegmentEncoding(byte) => Self::with(8, byte),
            DecodeError::InvalidPrefix(byte) => Self::with(9, byte),
        }
    }
}
