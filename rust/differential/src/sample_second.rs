//! The cases that are stored in the second reading besides the numbered ones: each thing that it reads otherwise, where it does and
//! where it does not.

use crate::case::Case;
use crate::cases::cuts;
use crate::sample::{every_reg_and_shape, runs_about};

const ESCAPES: std::ops::RangeInclusive<u8> = 0xD8..=0xDF;

pub fn all() -> Vec<Case> {
    let parts = [
        every_opcode_through_bp(),
        amended_operands(),
        escapes(),
        every_mode(),
        kept(),
        not_kept(),
        cut_anywhere(),
        prefix_runs(),
    ];
    parts.into_iter().flatten().collect()
}

/// Every opcode with memory through BP and reg 0.
fn every_opcode_through_bp() -> Vec<Case> {
    let through_bp = |opcode| Case::at_front(&[opcode, 0x46, 0xFE, 0x92, 0x78, 0xF6]);
    (0..=255).map(through_bp).collect()
}

fn amended_operands() -> Vec<Case> {
    let mut cases: Vec<Case> = [0x83, 0xD2, 0xD3]
        .into_iter()
        .flat_map(every_reg_and_shape)
        .collect();
    for byte in [0x00, 0x01, 0x7F, 0x80, 0xFF] {
        cases.push(Case::at_front(&[0x83, 0xC3, byte]));
        cases.push(Case::at_front(&[0xC2, 0x00, byte]));
        cases.push(Case::at_front(&[0xCA, byte, 0x00]));
    }
    cases
}

/// One ESC with every reg, and the others with one reg each, on every shape.
fn escapes() -> Vec<Case> {
    let mut cases = every_reg_and_shape(0xD9);
    for opcode in ESCAPES {
        let of_one_reg = |case: &Case| case.bytes[1] >> 3 & 7 == opcode & 7;
        cases.extend(every_reg_and_shape(opcode).into_iter().filter(of_one_reg));
    }
    cases
}

/// Every addressing mode in every width of displacement, alone and behind an override of DS.
fn every_mode() -> Vec<Case> {
    let mut cases = Vec::new();
    for modrm in (0x00..0xC0).filter(|modrm| modrm >> 3 & 7 == 0) {
        for opcode in [0x8A, 0x88, 0x8D, 0xC4, 0xC5, 0xFF] {
            cases.push(Case::at_front(&[opcode, modrm, 0x80, 0x01]));
        }
        for opcode in [0x89, 0x8F, 0xDB] {
            cases.push(Case::at_front(&[0x3E, opcode, modrm, 0x00, 0x00]));
        }
    }
    cases
}

/// Each operation that keeps an override, behind each, behind two, and with a repeat on either side.
fn kept() -> Vec<Case> {
    const FRONTS: [&[u8]; 9] = [
        &[0x26],
        &[0x2E],
        &[0x36],
        &[0x3E],
        &[0x2E, 0x36],
        &[0xF3, 0x26],
        &[0x3E, 0xF2],
        &[0xF2, 0x36, 0xF3, 0x26],
        &[0xF3],
    ];
    let mut cases = Vec::new();
    for opcode in [0xA4, 0xA5, 0xA6, 0xA7, 0xAC, 0xAD, 0xD7] {
        cases.extend(FRONTS.map(|front| Case::at_front(&[front, &[opcode]].concat())));
    }
    cases
}

/// What has no operand and keeps no override, and what is refused anyway.
fn not_kept() -> Vec<Case> {
    let mut cases = Vec::new();
    for opcode in [
        0x27, 0x60, 0x90, 0x98, 0x9B, 0x9C, 0xAA, 0xAB, 0xAE, 0xAF, 0xC3, 0xCB, 0xCC, 0xCF, 0xD6,
        0xF0, 0xF4, 0xF8,
    ] {
        cases.push(Case::at_front(&[0x26, opcode]));
        cases.push(Case::at_front(&[0xF3, 0x3E, opcode]));
    }
    cases
}

fn cut_anywhere() -> Vec<Case> {
    let mut cases = Vec::new();
    for opcode in [0x83, 0xD3, 0xC2, 0xD8, 0xDF] {
        for front in [&[][..], &[0x36]] {
            let whole = [front, &[opcode, 0x86, 0x34, 0x92, 0x78]].concat();
            cuts(&whole, &mut |cut| cases.push(Case::at_front(cut)));
        }
    }
    cases
}

fn prefix_runs() -> Vec<Case> {
    let mut cases = Vec::new();
    for budget in [0, 1, 3, 15] {
        for tail in [&[0xA4][..], &[0xDC, 0x42, 0xFE]] {
            cases.extend(runs_about(budget, tail));
        }
    }
    cases
}
