use crate::{boundary, DecodeError, Instruction, Reading, Result};

/// The most prefixes that `decode_instruction` reads; one more is refused.
pub const LARGEST_BUDGET: u8 = 255;

/// The most bytes that a decode takes: those of an instruction, behind as many prefixes as the budget allows.
const MOST_TAKEN: usize = LARGEST_BUDGET as usize + 6;

/// Decodes the instruction at the front of an iterator, and takes just the bytes that make the answer. An iterator that has
/// ended is not asked again.
///
/// The answer is that of [`decode_at`](crate::decode_at) on the same bytes with [`LARGEST_BUDGET`], and it takes as much of the stack.
///
/// ```
/// let mut bytes = [0x8B, 0x07, 0x90].into_iter();
/// let instruction = mrc::decode_instruction(&mut bytes)?;
/// assert_eq!(instruction.operation, mrc::Operation::MOV);
/// assert_eq!(bytes.next(), Some(0x90));
/// # mrc::Result::Ok(())
/// ```
pub fn decode_instruction(it: &mut impl Iterator<Item = u8>) -> Result<Instruction> {
    Reading::One.decode_instruction(it)
}

impl Reading {
    /// Decodes the instruction at the front of an iterator in this reading, as [`decode_instruction`] does in the first.
    pub fn decode_instruction(self, it: &mut impl Iterator<Item = u8>) -> Result<Instruction> {
        let mut bytes = [0; MOST_TAKEN];
        let (mut taken, mut prefixes) = (0, 0);
        for byte in it {
            bytes[taken] = byte;
            taken += 1;
            match self.front_of(&bytes[prefixes..taken]) {
                Front::Prefix if prefixes < usize::from(LARGEST_BUDGET) => prefixes += 1,
                Front::Prefix | Front::Whole => break,
                Front::CutShort => {}
            }
        }
        self.decode_at(&bytes[..taken], 0, LARGEST_BUDGET).result
    }

    /// With a budget of 0 a prefix is one too many.
    fn front_of(self, bytes: &[u8]) -> Front {
        match (boundary::step(bytes, 0, 0, self.number()) >> 32) as u8 {
            PREFIX => Front::Prefix,
            NO_MORE => Front::CutShort,
            _ => Front::Whole,
        }
    }
}

/// What stands at the front of some bytes, of which there is one at least.
enum Front {
    Prefix,
    /// An answer that no further byte changes.
    Whole,
    CutShort,
}

const PREFIX: u8 = DecodeError::TooManyPrefixes(0).number();
const NO_MORE: u8 = DecodeError::CouldNotReadExtraBytes.number();
