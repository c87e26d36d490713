//! How many answers were compared, how many differ, and the smallest question on which they do.

use crate::record;
use std::fmt;
use std::sync::atomic::{AtomicUsize, Ordering};
use std::thread;

const LONGEST_SHOWN: usize = 400;
const FRONT_SHOWN: usize = 24;

#[derive(Clone, Copy, Debug, PartialEq, Eq, PartialOrd, Ord)]
pub enum Limit {
    None,
    Budget(u8),
    Room(usize),
}

impl fmt::Display for Limit {
    fn fmt(&self, f: &mut fmt::Formatter<'_>) -> fmt::Result {
        match self {
            Limit::None => Ok(()),
            Limit::Budget(budget) => write!(f, ", budget {budget}"),
            Limit::Room(room) => write!(f, ", room {room}"),
        }
    }
}

/// What both sides were asked. The order is that of size: shorter inputs first, then by their bytes.
#[derive(Clone, Debug, PartialEq, Eq, PartialOrd, Ord)]
pub struct Question {
    length: usize,
    bytes: Vec<u8>,
    at: usize,
    limit: Limit,
    call: &'static str,
    reading: Option<u8>,
}

impl Question {
    pub fn new(call: &'static str, reading: u8, bytes: &[u8], at: usize, limit: Limit) -> Self {
        Self {
            limit,
            reading: Some(reading),
            ..Self::unread(call, bytes, at)
        }
    }

    /// A question that no reading answers differently, and that has no limit.
    pub fn unread(call: &'static str, bytes: &[u8], at: usize) -> Self {
        Self {
            length: bytes.len(),
            bytes: bytes.to_vec(),
            at,
            limit: Limit::None,
            call,
            reading: None,
        }
    }
}

impl fmt::Display for Question {
    fn fmt(&self, f: &mut fmt::Formatter<'_>) -> fmt::Result {
        let Self {
            call, at, limit, ..
        } = self;
        write!(f, "{call} of {}, position {at}{limit}", self.input_text())?;
        match self.reading {
            None => Ok(()),
            Some(reading) => write!(f, ", reading {reading}"),
        }
    }
}

impl Question {
    /// The bytes, or of a long input its length and those from the position on.
    fn input_text(&self) -> String {
        if self.length <= LONGEST_SHOWN {
            return format!("[{}]", hex(&self.bytes, " "));
        }
        let rest = self.bytes.get(self.at..).unwrap_or_default();
        let front = &rest[..rest.len().min(FRONT_SHOWN)];
        format!("{} bytes, there [{}]", self.length, hex(front, " "))
    }
}

#[derive(Clone, Debug)]
pub struct Difference {
    pub question: Question,
    pub rust: Vec<u8>,
    pub ours: Vec<u8>,
}

impl fmt::Display for Difference {
    fn fmt(&self, f: &mut fmt::Formatter<'_>) -> fmt::Result {
        writeln!(f, "    smallest: {}", self.question)?;
        if is_record(&self.rust) {
            writeln!(f, "              {}", record::HEADING)?;
        }
        writeln!(f, "    expected: {}", shown(&self.rust))?;
        write!(f, "    ours:     {}", shown(&self.ours))
    }
}

fn is_record(answer: &[u8]) -> bool {
    answer.len() == record::LENGTH
}

fn shown(answer: &[u8]) -> String {
    match std::str::from_utf8(answer) {
        _ if is_record(answer) => record::spaced(answer),
        Ok(text) if !text.contains(char::is_control) => text.to_string(),
        _ => hex(answer, " "),
    }
}

#[derive(Default)]
pub struct Tally {
    pub compared: u64,
    pub differ: u64,
    pub smallest: Option<Difference>,
}

impl Tally {
    pub fn note(&mut self, rust: &[u8], ours: &[u8], question: impl Fn() -> Question) {
        self.compared += 1;
        if rust != ours {
            self.differ += 1;
            self.keep_smaller(Difference {
                question: question(),
                rust: rust.to_vec(),
                ours: ours.to_vec(),
            });
        }
    }

    pub fn add(&mut self, other: Tally) {
        self.compared += other.compared;
        self.differ += other.differ;
        if let Some(difference) = other.smallest {
            self.keep_smaller(difference);
        }
    }

    fn keep_smaller(&mut self, found: Difference) {
        match &self.smallest {
            Some(kept) if kept.question <= found.question => {}
            _ => self.smallest = Some(found),
        }
    }
}

/// The tally of `work` on each number below `chunks`, shared among the processors.
pub fn over(chunks: usize, work: impl Fn(usize, &mut Tally) + Sync) -> Tally {
    let next = AtomicUsize::new(0);
    let worker = || {
        let mut tally = Tally::default();
        loop {
            let chunk = next.fetch_add(1, Ordering::Relaxed);
            if chunk >= chunks {
                return tally;
            }
            work(chunk, &mut tally);
        }
    };
    let processors = thread::available_parallelism().map_or(1, |count| count.get());
    thread::scope(|scope| {
        let workers: Vec<_> = (0..processors).map(|_| scope.spawn(worker)).collect();
        let mut total = Tally::default();
        for worker in workers {
            total.add(worker.join().expect("a worker that ends"));
        }
        total
    })
}

/// Two upper-case digits a byte.
pub fn hex(bytes: &[u8], between: &str) -> String {
    let digits: Vec<String> = bytes.iter().map(|byte| format!("{byte:02X}")).collect();
    digits.join(between)
}

#[cfg(test)]
mod tests {
    use super::*;

    fn tally_of(inputs: &[&[u8]]) -> Tally {
        over(inputs.len(), |chunk, tally| {
            let input = inputs[chunk];
            tally.note(&[1], &[input[0] % 2], || Question::unread("odd", input, 0));
        })
    }

    #[test]
    fn the_shortest_difference_is_kept() {
        let tally = tally_of(&[&[2, 0], &[4], &[3], &[2, 2], &[6]]);
        assert_eq!((tally.compared, tally.differ), (5, 4));
        let smallest = tally.smallest.expect("four differences");
        assert_eq!(smallest.question, Question::unread("odd", &[4], 0));
    }

    #[test]
    fn a_long_input_is_shown_from_its_position() {
        let question = Question::new("line", 2, &[0x90; 401], 399, Limit::Room(7));
        let text = "line of 401 bytes, there [90 90], position 399, room 7, reading 2";
        assert_eq!(question.to_string(), text);
    }

    #[test]
    fn agreement_keeps_nothing() {
        let tally = tally_of(&[&[1], &[3]]);
        assert_eq!(tally.differ, 0);
        assert!(tally.smallest.is_none());
    }
}
