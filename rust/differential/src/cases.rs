//! The inputs on which both sides are asked.

use crate::random::Random;

pub const PREFIXES: [u8; 6] = [0x26, 0x2E, 0x36, 0x3E, 0xF2, 0xF3];

/// No prefix, each override, each repeat, and both in either order.
pub const FRONTS: [&[u8]; 9] = [
    &[],
    &[0x26],
    &[0x2E],
    &[0x36],
    &[0x3E],
    &[0xF2],
    &[0xF3],
    &[0x26, 0xF3],
    &[0xF2, 0x36],
];

/// What may follow opcode and ModRM: zero, small, largest, most negative, and prefixes where data is expected.
pub const TAILS: [[u8; 5]; 8] = [
    [0x00, 0x00, 0x00, 0x00, 0x00],
    [0xFF, 0xFF, 0xFF, 0xFF, 0xFF],
    [0x34, 0x12, 0x78, 0x56, 0x9A],
    [0x80, 0x00, 0x80, 0x00, 0x80],
    [0x00, 0x80, 0x00, 0x80, 0x00],
    [0x7F, 0xFF, 0x7F, 0xFF, 0x7F],
    [0x01, 0x00, 0xFF, 0x7F, 0x90],
    [0x26, 0xF3, 0x8B, 0x07, 0x26],
];

/// What follows a run of prefixes: operands in memory and elsewhere, none, refusals of each kind, and nothing.
pub const BEHIND_PREFIXES: [&[u8]; 11] = [
    &[0x8B, 0x07],
    &[0xA3, 0x34, 0x12],
    &[0x40],
    &[0x90],
    &[0xA4],
    &[0xAA],
    &[0x60],
    &[0xD9, 0x46, 0x02],
    &[0x8F, 0x48, 0x00],
    &[0x81, 0x80, 0x34, 0x12, 0x78],
    &[],
];

/// What the two readings answer differently, with or without a prefix.
pub const WHERE_READINGS_PART: [&[u8]; 9] = [
    &[0x83, 0xC0, 0xFF],
    &[0x83, 0x46, 0x80, 0x80],
    &[0x8B, 0x46, 0x02],
    &[0x8D, 0x02],
    &[0xD3, 0xE0],
    &[0xC2, 0x04, 0x00],
    &[0xDF, 0x3E, 0x34, 0x12],
    &[0xA7],
    &[0xD7],
];

pub const LONGEST_RUN: usize = 300;
const LONGEST_RANDOM: usize = 24;

/// Every string of up to `longest` bytes that begins with `first`; the empty one goes with 0.
pub fn short_strings(first: u8, longest: usize, visit: &mut impl FnMut(&[u8])) {
    if first == 0 {
        visit(&[]);
    }
    extended(&mut vec![first], longest, visit);
}

fn extended(string: &mut Vec<u8>, longest: usize, visit: &mut impl FnMut(&[u8])) {
    visit(string);
    if string.len() == longest {
        return;
    }
    for byte in 0..=255 {
        string.push(byte);
        extended(string, longest, visit);
        string.pop();
    }
}

/// The opcode with every ModRM byte, under each tail, behind each front.
pub fn every_modrm(opcode: u8, visit: &mut impl FnMut(&[u8])) {
    for front in FRONTS {
        for modrm in 0..=255 {
            for tail in TAILS {
                visit(&[front, &[opcode, modrm], &tail].concat());
            }
        }
    }
}

/// The front parts of a string, of every length.
pub fn cuts(string: &[u8], visit: &mut impl FnMut(&[u8])) {
    for length in 0..=string.len() {
        visit(&string[..length]);
    }
}

/// A string of 0 to 24 bytes: any bytes, or about half of them prefixes, or prefixes followed by any bytes.
pub fn random_string(random: &mut Random) -> Vec<u8> {
    let length = random.below(LONGEST_RANDOM + 1);
    let run = random.below(length + 1);
    let style = random.below(3);
    let byte = |place| match style {
        0 => random.byte(),
        1 if random.below(2) == 0 => random.byte(),
        2 if place >= run => random.byte(),
        _ => random.one_of(&PREFIXES),
    };
    (0..length).map(byte).collect()
}

/// Every position of a string, the two beyond its end, and the largest.
pub fn positions(string: &[u8]) -> impl Iterator<Item = usize> {
    (0..=string.len() + 2).chain([65_536, usize::MAX])
}

/// Runs of `length` prefixes: of one byte each, the two kinds in turn, and mixed.
pub fn prefix_runs(length: usize, random: &mut Random) -> Vec<Vec<u8>> {
    let mut runs: Vec<Vec<u8>> = PREFIXES
        .iter()
        .map(|prefix| vec![*prefix; length])
        .collect();
    runs.push([0xF3, 0x26].into_iter().cycle().take(length).collect());
    runs.push(
        [0x3E, 0x2E, 0xF2]
            .into_iter()
            .cycle()
            .take(length)
            .collect(),
    );
    runs.push((0..length).map(|_| random.one_of(&PREFIXES)).collect());
    runs
}

/// An image of any bytes.
pub fn random_image(length: usize, random: &mut Random) -> Vec<u8> {
    (0..length).map(|_| random.byte()).collect()
}

#[cfg(test)]
mod tests {
    use super::*;

    #[test]
    fn short_strings_are_all_there_once() {
        let mut seen = std::collections::HashSet::new();
        for first in 0..=255 {
            short_strings(
                first,
                2,
                &mut |string| assert!(seen.insert(string.to_vec())),
            );
        }
        assert_eq!(seen.len(), 1 + 256 + 65_536);
    }

    #[test]
    fn a_seed_settles_the_random_strings() {
        let strings = |seed| {
            let mut random = Random::new(seed, 7);
            (0..50)
                .map(|_| random_string(&mut random))
                .collect::<Vec<_>>()
        };
        assert_eq!(strings(1), strings(1));
        assert_ne!(strings(1), strings(2));
    }
}
