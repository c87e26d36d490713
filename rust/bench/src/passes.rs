//! The things that are measured, each a pass over an image that answers its number of steps.

use differential::listing;
use differential::oracle::USUAL_BUDGET;
use differential::reading::{GIVEN, MANUAL};
use mrc::{boundary, Reading, LARGEST_BUDGET};
use std::hint::black_box;

/// How often a pass over the first instruction alone decodes it.
const REPEATS: usize = 1000;

/// A name, and the pass over an image.
pub type Pass = (&'static str, fn(&[u8]) -> usize);

pub const PASSES: [Pass; 13] = [
    ("empty", |_| 0),
    ("ours-decode", |image| steps(image, ours)),
    ("step-decode", |image| steps(image, our_step::<GIVEN>)),
    ("step-decode-2", |image| steps(image, our_step::<MANUAL>)),
    ("record-decode", |image| steps(image, record)),
    ("binding-decode", |image| steps(image, binding)),
    ("iterator-decode", |image| steps(image, iterator)),
    ("rust-decode", |image| steps(image, given_rust)),
    ("ours-lines", |image| {
        steps(image, |image, at| our_line(Reading::One, image, at))
    }),
    ("ours-lines-2", |image| {
        steps(image, |image, at| our_line(Reading::Two, image, at))
    }),
    ("rust-lines", |image| steps(image, given_line)),
    ("ours-first", |image| {
        repeated(image, ours_with_all_prefixes)
    }),
    ("rust-first", |image| repeated(image, given_rust)),
];

/// Steps from the front of the image to its end; a step answers the bytes that it moves on.
fn steps(image: &[u8], step: impl Fn(&[u8], usize) -> usize) -> usize {
    let (mut at, mut count) = (0, 0);
    while at < image.len() {
        at += step(image, at);
        count += 1;
    }
    count
}

fn repeated(image: &[u8], step: impl Fn(&[u8], usize) -> usize) -> usize {
    for _ in 0..REPEATS {
        black_box(step(black_box(image), 0));
    }
    REPEATS
}

fn ours(image: &[u8], at: usize) -> usize {
    ours_within(image, at, USUAL_BUDGET)
}

fn ours_with_all_prefixes(image: &[u8], at: usize) -> usize {
    ours_within(image, at, LARGEST_BUDGET)
}

fn ours_within(image: &[u8], at: usize, budget: u8) -> usize {
    let mut record = boundary::Record::default();
    boundary::decode(image, at, budget, GIVEN, &mut record);
    moved(record.refusal == 0, usize::from(record.taken))
}

fn our_step<const READING: u8>(image: &[u8], at: usize) -> usize {
    let counts = black_box(boundary::step(image, at, USUAL_BUDGET, READING));
    moved(counts >> 32 == 0, (counts & 0xFFFF) as usize)
}

fn record(image: &[u8], at: usize) -> usize {
    let record = mrc::record_at(image, at, USUAL_BUDGET);
    black_box(&record);
    moved(record.refusal().is_none(), record.taken())
}

fn iterator(image: &[u8], at: usize) -> usize {
    let mut bytes = image[at..].iter().copied();
    let result = black_box(mrc::decode_instruction(&mut bytes));
    moved(result.is_ok(), image.len() - at - bytes.len())
}

fn binding(image: &[u8], at: usize) -> usize {
    let answer = black_box(mrc::decode_at(image, at, USUAL_BUDGET));
    moved(answer.result.is_ok(), answer.taken)
}

fn given_rust(image: &[u8], at: usize) -> usize {
    let mut bytes = image[at..].iter().copied();
    let result = black_box(mrc_decoder::decode_instruction(&mut bytes));
    moved(result.is_ok(), image.len() - at - bytes.len())
}

fn our_line(reading: Reading, image: &[u8], at: usize) -> usize {
    let mut out = [0; mrc::LONGEST_LINE];
    let written = reading.line(image, at, &mut out);
    let written = written.expect("a line within the image");
    black_box(&out);
    written.taken
}

fn given_line(image: &[u8], at: usize) -> usize {
    let line = listing::call(GIVEN, image, at, mrc::LONGEST_LINE).expect("a line within the image");
    black_box(line).taken
}

/// A refusal moves one byte on.
fn moved(read: bool, taken: usize) -> usize {
    if read {
        taken
    } else {
        1
    }
}
