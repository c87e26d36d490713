//! The cases whose answers are stored: some thousands, which cover every opcode, ModRM shape, cut, prefix run and budget rule, and
//! behind them those of the second reading.

use crate::case::Case;
use crate::cases::{random_string, FRONTS};
use crate::oracle::{self, USUAL_BUDGET};
use crate::random::Random;
use crate::reading;
use crate::sample_second;
use std::collections::HashSet;

const RANDOM_CASES: u64 = 800;
const SEED: u64 = 8086;

/// Every case once, the numbered cases first.
pub fn all() -> Vec<Case> {
    let mut seen = HashSet::new();
    let parts = [
        numbered(),
        every_opcode_cut(),
        every_modrm(),
        every_group_and_shape(),
        displacements(),
        every_opcode_behind_prefixes(),
        prefix_runs(),
        positions(),
        random_cases(),
    ];
    let second = numbered().into_iter().chain(sample_second::all());
    let second = second.map(Case::in_the_second);
    let cases = parts.into_iter().flatten().chain(second);
    cases.filter(|case| seen.insert(case.clone())).collect()
}

/// The numbered cases in their order, then those that it has run only.
fn numbered() -> Vec<Case> {
    let strings: [&[u8]; 14] = [
        &[],
        &[0xF3],
        &[0x26],
        &[0x83, 0xC0, 0xFF],
        &[0x26, 0xA4],
        &[0x26, 0x2E, 0x8B, 0x07],
        &[0x8B, 0x47, 0x00],
        &[0xF6, 0xC8],
        &[0x8F, 0x48],
        &[0x8F, 0x48, 0x00],
        &[0x8E, 0xE0],
        &[0x81, 0x80, 0x34, 0x12, 0x78, 0x56],
        &[0x81, 0x80, 0x34, 0x12, 0x78],
        &[0xF2, 0xF3, 0xA4],
    ];
    let mut cases: Vec<Case> = strings.into_iter().map(Case::at_front).collect();
    cases.push(Case::with_budget(0, &[0xF3, 0x90]));
    for run in [15, 16] {
        cases.push(Case::at_front(
            &[vec![0x26; run], vec![0x8B, 0x07]].concat(),
        ));
    }
    cases.push(Case::at_front(&[0xEB, 0x80]));
    cases
}

/// Every opcode before a ModRM byte with a word displacement, cut at every length up to one byte more than it takes.
fn every_opcode_cut() -> Vec<Case> {
    let mut cases = Vec::new();
    for opcode in 0..=255 {
        let whole = [opcode, 0x86, 0x34, 0x92, 0x78, 0xF6, 0x9A];
        let taken = oracle::decode(&whole, 0, USUAL_BUDGET).taken;
        cases.extend((1..=taken + 1).map(|length| Case::at_front(&whole[..length])));
    }
    cases
}

/// Every ModRM byte behind MOV and behind the group of 81.
fn every_modrm() -> Vec<Case> {
    let with = |opcode| move |modrm| Case::at_front(&[opcode, modrm, 0x34, 0x92, 0x78, 0xF6]);
    (0..=255)
        .map(with(0x8B))
        .chain((0..=255).map(with(0x81)))
        .collect()
}

/// Each other opcode that has a ModRM byte, with every reg and a ModRM of each shape.
fn every_group_and_shape() -> Vec<Case> {
    const OPCODES: [u8; 30] = [
        0x00, 0x03, 0x30, 0x3B, 0x80, 0x82, 0x83, 0x84, 0x85, 0x86, 0x87, 0x88, 0x89, 0x8A, 0x8C,
        0x8D, 0x8E, 0x8F, 0xC0, 0xC1, 0xC4, 0xC5, 0xC6, 0xC7, 0xD0, 0xD3, 0xF6, 0xF7, 0xFE, 0xFF,
    ];
    OPCODES.into_iter().flat_map(every_reg_and_shape).collect()
}

/// The opcode with every reg and a ModRM of each shape.
pub fn every_reg_and_shape(opcode: u8) -> Vec<Case> {
    const SHAPES: [u8; 5] = [0x07, 0x06, 0x42, 0x83, 0xC5];
    let with = |modrm: u8| Case::at_front(&[opcode, modrm, 0xFE, 0xCA, 0x80, 0x7F]);
    SHAPES
        .into_iter()
        .flat_map(|shape| (0..8).map(move |reg| shape + 8 * reg))
        .map(with)
        .collect()
}

/// Displacements of zero, one, and the largest and smallest of their width, in every addressing mode.
fn displacements() -> Vec<Case> {
    let mut cases = Vec::new();
    for mode in 0..8 {
        for byte in [0x00, 0x01, 0x7F, 0x80, 0xFF] {
            cases.push(Case::at_front(&[0x8A, 0x40 + mode, byte]));
        }
        for word in [0x0000_u16, 0x0001, 0x0080, 0x7FFF, 0x8000, 0xFF00, 0xFFFF] {
            let [low, high] = word.to_le_bytes();
            cases.push(Case::at_front(&[0x88, 0x80 + mode, low, high]));
        }
    }
    for byte in [0x00, 0x01, 0x7F, 0x80, 0xFF] {
        cases.extend([0x70, 0xE0, 0xEB].map(|opcode| Case::at_front(&[opcode, byte])));
        cases.extend([0xC2, 0xE8, 0xE9].map(|opcode| Case::at_front(&[opcode, 0x00, byte])));
    }
    cases
}

/// Every opcode with an operand in memory, behind an override, a repeat, and both.
fn every_opcode_behind_prefixes() -> Vec<Case> {
    let mut cases = Vec::new();
    for opcode in 0..=255_usize {
        let tail = [opcode as u8, 0x46, 0xFE, 0x12, 0x34, 0x56];
        let one = 1 + opcode % (FRONTS.len() - 1);
        for front in [FRONTS[one], &[0x26], &[0xF3], &[0xF2, 0x36]] {
            cases.push(Case::at_front(&[front, &tail].concat()));
        }
    }
    cases
}

/// Runs of one prefix less than the budget, as many, and one and two more, and runs of 300.
fn prefix_runs() -> Vec<Case> {
    let mut cases = Vec::new();
    for budget in [0, 1, 2, 3, 14, 15, 16] {
        for tail in [&[0x8B, 0x07][..], &[0xA4], &[0x60], &[]] {
            cases.extend(runs_about(budget, tail));
        }
    }
    for budget in [100, 254, 255] {
        cases.extend(runs_about(budget, &[0xA3, 0x34, 0x12]));
        cases.push(Case::with_budget(budget, &run(&[0x36], 300, &[0x90])));
    }
    cases
}

/// Prefixes as many as the budget, one less, and one and two more, before a tail.
pub fn runs_about(budget: u8, tail: &[u8]) -> Vec<Case> {
    const PATTERNS: [&[u8]; 4] = [&[0x26], &[0xF3], &[0xF2, 0x2E, 0xF3], &[0x3E, 0xF3, 0x36]];
    let budget_length = usize::from(budget);
    let mut cases = Vec::new();
    for length in budget_length.saturating_sub(1)..=budget_length + 2 {
        for pattern in PATTERNS {
            cases.push(Case::with_budget(budget, &run(pattern, length, tail)));
        }
    }
    cases
}

fn run(pattern: &[u8], length: usize, tail: &[u8]) -> Vec<u8> {
    let prefixes = pattern.iter().copied().cycle().take(length);
    prefixes.chain(tail.iter().copied()).collect()
}

/// The image of README's listing at every position, beyond its end too, with three budgets.
fn positions() -> Vec<Case> {
    let image = vec![
        0x26, 0x8B, 0x47, 0xFE, 0xF3, 0xA4, 0x75, 0xF8, 0x83, 0xC0, 0xFF, 0x60, 0x8B,
    ];
    let mut cases = Vec::new();
    for at in (0..=image.len() as u16 + 2).chain([0x00FF, 0x0100, 0xFFFF]) {
        cases.extend([0, 1, USUAL_BUDGET].map(|budget| Case {
            reading: reading::GIVEN,
            budget,
            at,
            bytes: image.clone(),
        }));
    }
    cases
}

/// Random strings, each at one of its positions or the one beyond, with a budget that is small as often as not.
fn random_cases() -> Vec<Case> {
    let one = |stream| {
        let mut random = Random::new(SEED, stream);
        let bytes = random_string(&mut random);
        let at = random.below(bytes.len() + 2) as u16;
        let budget = match random.below(2) {
            0 => random.below(8) as u8,
            _ => random.byte(),
        };
        Case {
            reading: reading::GIVEN,
            budget,
            at,
            bytes,
        }
    };
    (0..RANDOM_CASES).map(one).collect()
}

#[cfg(test)]
mod tests {
    use super::*;
    use crate::record;

    fn records() -> Vec<record::Record> {
        all()
            .iter()
            .map(|case| record::of(&case.answer()))
            .collect()
    }

    fn values(places: &[usize], refused: bool) -> HashSet<u8> {
        let wanted = records()
            .into_iter()
            .filter(|record| (record[0] != 0) == refused);
        wanted
            .flat_map(|record| places.iter().map(move |place| record[*place]))
            .collect()
    }

    #[test]
    fn it_is_some_thousands_of_lines() {
        let lines: Vec<String> = all().iter().map(Case::line).collect();
        assert!((3_000..=7_000).contains(&lines.len()), "{}", lines.len());
        assert!(lines.concat().len() < 600_000);
        assert!(all().iter().all(|case| case.bytes.len() <= 512));
    }

    #[test]
    fn every_operation_operand_and_refusal_is_there() {
        assert_eq!(values(&[record::OPERATION], false), (0..=96).collect());
        assert_eq!(values(&[record::REPEAT], false), (0..=2).collect());
        assert_eq!(values(&[record::REACH], false), (0..=2).collect());
        assert_eq!(values(&[record::KEPT], false), (0..=4).collect());
        assert_eq!(values(&[record::WRITTEN], false), (0..=2).collect());
        let kinds = (0..=12)
            .filter(|kind| *kind != record::DISPLACEMENT_NONE)
            .collect();
        assert_eq!(values(&[record::DESTINATION, record::SOURCE], false), kinds);
        assert_eq!(
            values(&[0], true),
            HashSet::from([1, 2, 5, 6, 8, 9, 10, 11])
        );
    }

    #[test]
    fn a_written_zero_of_each_width_is_there_in_each_reading() {
        let found: HashSet<(u8, u8)> = all()
            .iter()
            .map(|case| (case.reading, record::of(&case.answer())))
            .filter(|(_, record)| {
                [record::DESTINATION, record::SOURCE]
                    .iter()
                    .any(|place| record[*place] == record::INDIRECT)
            })
            .map(|(reading, record)| (reading, record[record::WRITTEN]))
            .collect();
        let each = [reading::GIVEN, reading::MANUAL]
            .map(|reading| [0, 1, 2].map(|written| (reading, written)));
        assert_eq!(found, each.concat().into_iter().collect());
    }

    #[test]
    fn every_first_byte_and_modrm_byte_is_there() {
        let bytes_at = |place: usize| -> HashSet<u8> {
            all()
                .iter()
                .filter_map(|case| case.bytes.get(place).copied())
                .collect()
        };
        assert_eq!(bytes_at(0).len(), 256);
        assert_eq!(bytes_at(1).len(), 256);
    }

    #[test]
    fn the_first_lines_are_document_01s() {
        let lines: Vec<String> = all().iter().take(3).map(Case::line).collect();
        assert_eq!(lines[0], format!("01 0F 0000 {:0<64} \n", "01"));
        let with_counts = |bytes, record| format!("01 0F 0000 {record:0<64} {bytes}\n");
        assert_eq!(lines[1], with_counts("F3", "010001000100"));
        assert_eq!(lines[2], with_counts("26", "092601000100"));
    }
}
