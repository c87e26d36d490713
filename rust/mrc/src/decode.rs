use crate::{Instruction, Reading, Result};

/// A decode's answer. Refused or not, it has both counts.
#[derive(Clone, Copy, Debug, PartialEq, Eq, Hash)]
#[must_use]
#[non_exhaustive]
pub struct Answer {
    /// The instruction, or why there is none.
    pub result: Result<Instruction>,
    /// The bytes taken from the position on, prefixes included.
    pub taken: usize,
    /// The prefix bytes among them.
    pub prefixes: usize,
}

/// Decodes the instruction at a position. More prefixes than the budget are refused.
///
/// Of the stack it takes at most 8 KiB with a budget of up to 15, and at most 96 KiB with any.
///
/// ```
/// let answer = mrc::decode_at(&[0x90, 0xF3, 0xA4], 1, 15);
/// assert_eq!(answer.result?.operation, mrc::Operation::MOVSB);
/// assert_eq!((answer.taken, answer.prefixes), (2, 1));
/// # mrc::Result::Ok(())
/// ```
pub fn decode_at(bytes: &[u8], position: usize, budget: u8) -> Answer {
    Reading::One.decode_at(bytes, position, budget)
}

impl Reading {
    /// Decodes the instruction at a position in this reading, as [`decode_at`] does in the first.
    pub fn decode_at(self, bytes: &[u8], position: usize, budget: u8) -> Answer {
        let record = self.record_at(bytes, position, budget);
        Answer {
            result: record.result(),
            taken: record.taken(),
            prefixes: record.prefixes(),
        }
    }
}
