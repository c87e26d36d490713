//! One stored case: a question to the decoder and its answer, on a line: the given Rust's, or in the second reading what `second`
//! makes of it.
//!
//! A line has fixed columns, all in upper-case hex:
//!
//! | columns | hold |
//! |---|---|
//! | 0, 1 | the reading |
//! | 3, 4 | the budget |
//! | 6 to 9 | the position |
//! | 11 to 74 | the answer, the first 32 bytes of `record` |
//! | 76 on | the input's bytes, none for the empty input; then LF |
//!
//! Columns 2, 5, 10 and 75 are spaces.

use crate::compare::hex;
use crate::oracle::{Answer, USUAL_BUDGET};
use crate::reading;
use crate::record;

#[derive(Clone, Debug, PartialEq, Eq, Hash)]
pub struct Case {
    pub reading: u8,
    pub budget: u8,
    pub at: u16,
    pub bytes: Vec<u8>,
}

impl Case {
    pub fn at_front(bytes: &[u8]) -> Self {
        Self::with_budget(USUAL_BUDGET, bytes)
    }

    pub fn with_budget(budget: u8, bytes: &[u8]) -> Self {
        Self {
            reading: reading::GIVEN,
            budget,
            at: 0,
            bytes: bytes.to_vec(),
        }
    }

    /// The same question in the manual's reading.
    pub fn in_the_second(self) -> Self {
        Self {
            reading: reading::MANUAL,
            ..self
        }
    }

    pub fn answer(&self) -> Answer {
        reading::decode(self.reading, &self.bytes, usize::from(self.at), self.budget)
    }

    /// The case and its answer as a line.
    pub fn line(&self) -> String {
        let record = hex(&record::of(&self.answer())[..record::STORED], "");
        let bytes = hex(&self.bytes, "");
        let (reading, budget, at) = (self.reading, self.budget, self.at);
        format!("{reading:02X} {budget:02X} {at:04X} {record} {bytes}\n")
    }
}
