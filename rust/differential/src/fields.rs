//! The field readers and `operand_size`, as numbers.

use crate::record::*;
use crate::refusal::Refusal;
use mrc_decoder::{Result, TryFromEncoding};
use mrc_instruction::{
    Address, AddressingMode, Displacement, Immediate, Operand, OperandSize, RegisterEncoding,
    Segment, SizedRegisterEncoding,
};
use std::panic;

const NO_SIZE: u8 = 2;

pub fn register(field: u8) -> u32 {
    code_or_refusal(RegisterEncoding::try_from_encoding(field), |found| {
        found as u32
    })
}

pub fn segment(field: u8) -> u32 {
    code_or_refusal(Segment::try_from_encoding(field), |found| found as u32)
}

pub fn addressing(field: u8) -> u32 {
    code_or_refusal(AddressingMode::try_from_encoding(field), |found| {
        found as u32
    })
}

fn code_or_refusal<T>(found: Result<T>, code: impl Fn(T) -> u32) -> u32 {
    found.map(code).unwrap_or_else(|error| {
        let refusal = Refusal::from(error);
        u32::from(refusal.number) * 65_536 + u32::from(refusal.byte)
    })
}

/// Every kind with every size, also those that no operand has.
pub fn kinds_and_sizes() -> impl Iterator<Item = (u8, u8)> {
    (0..=255).flat_map(|kind| (0..=255).map(move |size| (kind, size)))
}

/// 0 Byte, 1 Word, 2 where the Rust panics and where there is no such operand.
pub fn operand_size(kind: u8, size: u8) -> u8 {
    if !exists(kind, size) {
        return NO_SIZE;
    }
    let operand = operand_of(kind, size);
    let hook = panic::take_hook();
    panic::set_hook(Box::new(|_| {}));
    let answer = panic::catch_unwind(|| operand.operand_size() as u8);
    panic::set_hook(hook);
    answer.unwrap_or(NO_SIZE)
}

/// Memory and registers have a size of their own; with the others it does not count.
fn exists(kind: u8, size: u8) -> bool {
    match kind {
        DIRECT..=REGISTER => size < NO_SIZE,
        SEGMENT..=SEGMENT_AND_OFFSET => true,
        _ => false,
    }
}

fn operand_of(kind: u8, size: u8) -> Operand {
    let size = if size == 0 {
        OperandSize::Byte
    } else {
        OperandSize::Word
    };
    let indirect = |by| Operand::Indirect(Segment::DS, AddressingMode::Bx, by, size);
    match kind {
        DIRECT => Operand::Direct(Segment::DS, 0, size),
        INDIRECT => indirect(Displacement::None),
        INDIRECT_BYTE => indirect(Displacement::Byte(1)),
        INDIRECT_WORD => indirect(Displacement::Word(1)),
        REGISTER => Operand::Register(SizedRegisterEncoding(RegisterEncoding::AlAx, size)),
        SEGMENT => Operand::Segment(Segment::DS),
        IMMEDIATE_BYTE => Operand::Immediate(Immediate::Byte(0)),
        IMMEDIATE_WORD => Operand::Immediate(Immediate::Word(0)),
        DISPLACEMENT_NONE => Operand::Displacement(Displacement::None),
        DISPLACEMENT_BYTE => Operand::Displacement(Displacement::Byte(0)),
        DISPLACEMENT_WORD => Operand::Displacement(Displacement::Word(0)),
        SEGMENT_AND_OFFSET => Operand::SegmentAndOffset(Address::new(0, 0)),
        _ => panic!("no operand has kind {kind}"),
    }
}

#[cfg(test)]
mod tests {
    use super::*;

    #[test]
    fn refusals_carry_their_field() {
        assert_eq!(register(8), 7 * 65_536 + 8);
        assert_eq!(segment(255), 8 * 65_536 + 255);
        assert_eq!(addressing(9), 4 * 65_536 + 9);
        assert_eq!(register(7), 7);
    }

    #[test]
    fn two_kinds_of_operand_have_no_size() {
        let unsized_kinds: Vec<u8> = (DIRECT..=SEGMENT_AND_OFFSET)
            .filter(|kind| operand_size(*kind, 0) == NO_SIZE)
            .collect();
        assert_eq!(unsized_kinds, [DISPLACEMENT_NONE, SEGMENT_AND_OFFSET]);
    }
}
