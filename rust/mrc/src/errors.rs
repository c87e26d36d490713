use std::fmt::{self, Display, Formatter};

/// Why a call is refused.
#[derive(Clone, Copy, Debug, PartialEq, Eq, Hash)]
#[non_exhaustive]
pub enum DecodeError {
    /// No opcode is there.
    EndOfInput,
    /// The bytes end behind the opcode, within the instruction.
    CouldNotReadExtraBytes,
    /// No call gives this one; its number is reserved.
    InvalidDataSizeEncoding(u8),
    /// An addressing field of 8 or more.
    InvalidIndirectMemoryEncoding(u8),
    /// The ModRM byte of an 8F whose reg is not 0.
    InvalidModRegRMEncoding(u8),
    /// A first byte that no instruction has; 1 for an F6 or F7 whose reg is 1.
    InvalidOpCode(u8),
    /// A register field of 8 or more.
    InvalidRegisterEncoding(u8),
    /// A segment field of 4 or more.
    InvalidSegmentEncoding(u8),
    /// The first segment override, before bytes that are refused, or that have no operands and do not keep it.
    InvalidPrefix(u8),
    /// The first prefix over the budget.
    TooManyPrefixes(u8),
    /// The position is beyond the length.
    OutsideInput,
    /// The line is longer than its buffer.
    NoRoom,
    /// The image has more than [`LONGEST_IMAGE`](crate::LONGEST_IMAGE) bytes.
    ImageTooLong,
}

/// An answer, or why the call is refused.
pub type Result<T> = std::result::Result<T, DecodeError>;

impl DecodeError {
    /// The refusal's number, 1 to 13.
    #[must_use]
    pub const fn number(&self) -> u8 {
        match self {
            Self::EndOfInput => 1,
            Self::CouldNotReadExtraBytes => 2,
            Self::InvalidDataSizeEncoding(_) => 3,
            Self::InvalidIndirectMemoryEncoding(_) => 4,
            Self::InvalidModRegRMEncoding(_) => 5,
            Self::InvalidOpCode(_) => 6,
            Self::InvalidRegisterEncoding(_) => 7,
            Self::InvalidSegmentEncoding(_) => 8,
            Self::InvalidPrefix(_) => 9,
            Self::TooManyPrefixes(_) => 10,
            Self::OutsideInput => 11,
            Self::NoRoom => 12,
            Self::ImageTooLong => 13,
        }
    }

    /// The byte that the refusal carries; 0 where it carries none.
    #[must_use]
    pub const fn byte(&self) -> u8 {
        match *self {
            Self::InvalidDataSizeEncoding(byte)
            | Self::InvalidIndirectMemoryEncoding(byte)
            | Self::InvalidModRegRMEncoding(byte)
            | Self::InvalidOpCode(byte)
            | Self::InvalidRegisterEncoding(byte)
            | Self::InvalidSegmentEncoding(byte)
            | Self::InvalidPrefix(byte)
            | Self::TooManyPrefixes(byte) => byte,
            Self::EndOfInput
            | Self::CouldNotReadExtraBytes
            | Self::OutsideInput
            | Self::NoRoom
            | Self::ImageTooLong => 0,
        }
    }

    pub(crate) fn from_number(number: u8, byte: u8) -> Self {
        match number {
            1 => Self::EndOfInput,
            2 => Self::CouldNotReadExtraBytes,
            3 => Self::InvalidDataSizeEncoding(byte),
            4 => Self::InvalidIndirectMemoryEncoding(byte),
            5 => Self::InvalidModRegRMEncoding(byte),
            6 => Self::InvalidOpCode(byte),
            7 => Self::InvalidRegisterEncoding(byte),
            8 => Self::InvalidSegmentEncoding(byte),
            9 => Self::InvalidPrefix(byte),
            10 => Self::TooManyPrefixes(byte),
            11 => Self::OutsideInput,
            12 => Self::NoRoom,
            13 => Self::ImageTooLong,
            _ => panic!("no refusal has the number {number}"),
        }
    }
}

impl Display for DecodeError {
    fn fmt(&self, f: &mut Formatter<'_>) -> fmt::Result {
        match self {
            Self::EndOfInput => write!(f, "End of input reached"),
            Self::CouldNotReadExtraBytes => write!(f, "Could not fetch extra bytes from stream"),
            Self::InvalidDataSizeEncoding(byte) => {
                write!(
                    f,
                    "Could not determine data size from encoding ({byte:#04x})"
                )
            }
            Self::InvalidIndirectMemoryEncoding(field) => {
                write!(f, "Invalid indirect memory encoding ({field:#10b})")
            }
            Self::InvalidModRegRMEncoding(byte) => {
                write!(f, "Invalid mod reg R/M encoding ({byte:#04x})")
            }
            Self::InvalidOpCode(byte) => write!(f, "Invalid op code ({byte:#04x})"),
            Self::InvalidRegisterEncoding(field) => {
                write!(f, "Invalid register encoding ({field:#10b})")
            }
            Self::InvalidSegmentEncoding(field) => {
                write!(f, "Invalid segment encoding ({field:#10b})")
            }
            Self::InvalidPrefix(byte) => write!(
                f,
                "A prefix was found, but followed by an invalid instruction ({byte:#04x})"
            ),
            Self::TooManyPrefixes(byte) => {
                write!(
                    f,
                    "More prefixes were found than the budget allows ({byte:#04x})"
                )
            }
            Self::OutsideInput => write!(f, "Position is beyond the end of input"),
            Self::NoRoom => write!(f, "Could not fit the line into the buffer"),
            Self::ImageTooLong => write!(f, "Image is longer than 65536 bytes"),
        }
    }
}

impl std::error::Error for DecodeError {}

impl From<std::io::Error> for DecodeError {
    fn from(_: std::io::Error) -> Self {
        Self::CouldNotReadExtraBytes
    }
}
