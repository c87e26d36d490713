//! The given Rust's decoder with what the rules add to it: a position, a prefix budget, the two counts, near and far, and the
//! displacement bytes.

use crate::counted::Counted;
use crate::reach;
use crate::reading::GIVEN;
use crate::refusal::Refusal;
use crate::written;
use mrc_decoder::decode_instruction;
use mrc_instruction::Instruction;

/// The budget of the listing, and of every case that names none.
pub const USUAL_BUDGET: u8 = 15;

pub struct Answer {
    pub result: Result<Instruction, Refusal>,
    pub taken: usize,
    pub prefixes: usize,
    /// The code of `enum mrc_reach`, found in the bytes.
    pub reach: u8,
    /// The code of `enum mrc_kept`: an override that is kept, of which the given Rust has none.
    pub kept: u8,
    /// The displacement bytes behind the ModRM, found in the bytes.
    pub written: u8,
}

pub fn decode(bytes: &[u8], at: usize, budget: u8) -> Answer {
    match bytes.get(at..) {
        None => refused(Refusal::OUTSIDE_INPUT, 0),
        Some(rest) => decode_within(rest, usize::from(budget)),
    }
}

fn decode_within(bytes: &[u8], budget: usize) -> Answer {
    let prefixes = prefixes(bytes).len();
    if prefixes > budget {
        return refused(Refusal::too_many_prefixes(bytes[budget]), budget + 1);
    }
    let mut counted = Counted::new(bytes);
    let result = decode_instruction(&mut counted).map_err(Refusal::from);
    let (reach, written) = match result {
        Ok(_) => (reach::of(bytes), written::of(GIVEN, bytes)),
        Err(_) => (reach::NEITHER, 0),
    };
    Answer {
        result,
        taken: counted.taken,
        prefixes,
        reach,
        kept: 0,
        written,
    }
}

/// A refusal whose bytes taken are all prefixes.
fn refused(refusal: Refusal, prefixes: usize) -> Answer {
    Answer {
        result: Err(refusal),
        taken: prefixes,
        prefixes,
        reach: reach::NEITHER,
        kept: 0,
        written: 0,
    }
}

/// The prefixes in front.
pub fn prefixes(bytes: &[u8]) -> &[u8] {
    let count = bytes.iter().take_while(|byte| is_prefix(**byte)).count();
    &bytes[..count]
}

/// What follows the prefixes.
pub fn tail(bytes: &[u8]) -> &[u8] {
    &bytes[prefixes(bytes).len()..]
}

fn is_prefix(byte: u8) -> bool {
    matches!(byte, 0x26 | 0x2E | 0x36 | 0x3E | 0xF2 | 0xF3)
}
