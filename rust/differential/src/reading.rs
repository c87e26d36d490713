//! The two readings, by the number that a call has for them.

use crate::oracle::{self, Answer};
use crate::second;

pub const GIVEN: u8 = 1;
pub const MANUAL: u8 = 2;

/// The answer in a reading: the manual's for its number, the given Rust's for every other.
pub fn decode(reading: u8, bytes: &[u8], at: usize, budget: u8) -> Answer {
    match reading {
        MANUAL => second::decode(bytes, at, budget),
        _ => oracle::decode(bytes, at, budget),
    }
}
