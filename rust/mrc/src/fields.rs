use crate::{boundary, AddressingMode, DecodeError, RegisterEncoding, Result, Segment};

/// What a field of an instruction's bits names.
///
/// ```
/// use mrc::{DecodeError, Segment, TryFromEncoding};
///
/// assert_eq!(Segment::try_from_encoding(0), Ok(Segment::ES));
/// assert_eq!(Segment::try_from_encoding(4), Err(DecodeError::InvalidSegmentEncoding(4)));
/// ```
pub trait TryFromEncoding<T> {
    /// What the field names. A refusal carries the field; it has taken no byte, and read no prefix.
    fn try_from_encoding(encoding: u8) -> Result<T>;
}

impl TryFromEncoding<Self> for RegisterEncoding {
    fn try_from_encoding(encoding: u8) -> Result<Self> {
        code(boundary::register(encoding)).map(Self::from_code)
    }
}

impl TryFromEncoding<Self> for Segment {
    fn try_from_encoding(encoding: u8) -> Result<Self> {
        code(boundary::segment(encoding)).map(Self::from_code)
    }
}

impl TryFromEncoding<Self> for AddressingMode {
    fn try_from_encoding(encoding: u8) -> Result<Self> {
        code(boundary::addressing(encoding)).map(Self::from_code)
    }
}

/// A field reader's answer: the code, or 65,536 times the refusal's number and its byte.
fn code(answer: u32) -> Result<u8> {
    let [low, _, number, _] = answer.to_le_bytes();
    match number {
        0 => Ok(low),
        _ => Err(DecodeError::from_number(number, low)),
    }
}
