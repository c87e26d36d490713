//! The readers of fields and of ModRM, and the size of an operand.

use mrc::{
    read_mrrm, Address, AddressingMode, DecodeError, Displacement, Immediate, ModRegRM, Operand,
    OperandSize, RegisterEncoding, RegisterOrMemory, Segment, SizedRegisterEncoding,
    TryFromEncoding,
};

#[test]
fn a_register_field() {
    use RegisterEncoding::*;
    let all = [AlAx, ClCx, DlDx, BlBx, AhSp, ChBp, DhSi, BhDi];
    for (register, field) in all.into_iter().zip(0..) {
        assert_eq!(RegisterEncoding::try_from_encoding(field), Ok(register));
    }
    let refusal = DecodeError::InvalidRegisterEncoding(8);
    assert_eq!(RegisterEncoding::try_from_encoding(8), Err(refusal));
}

#[test]
fn a_segment_field() {
    let all = [Segment::ES, Segment::CS, Segment::SS, Segment::DS];
    for (segment, field) in all.into_iter().zip(0..) {
        assert_eq!(Segment::try_from_encoding(field), Ok(segment));
    }
    let refusal = DecodeError::InvalidSegmentEncoding(255);
    assert_eq!(Segment::try_from_encoding(255), Err(refusal));
}

#[test]
fn an_addressing_field() {
    use AddressingMode::*;
    let all = [BxSi, BxDi, BpSi, BpDi, Si, Di, Bp, Bx];
    for (mode, field) in all.into_iter().zip(0..) {
        assert_eq!(AddressingMode::try_from_encoding(field), Ok(mode));
    }
    let refusal = DecodeError::InvalidIndirectMemoryEncoding(8);
    assert_eq!(AddressingMode::try_from_encoding(8), Err(refusal));
}

#[test]
fn modrm_by_its_mod() {
    let reads = |bytes: &[u8], register_or_memory: RegisterOrMemory, written| {
        let mrrm = ModRegRM::new(RegisterEncoding::ClCx, register_or_memory);
        let answer = read_mrrm(bytes, 0);
        assert_eq!(answer.result, Ok((mrrm, bytes[0])));
        assert_eq!((answer.taken, answer.written), (bytes.len(), written));
        assert_eq!(register_or_memory.written(), written);
    };
    let bx = AddressingMode::Bx;
    reads(&[0x0E, 0x34, 0x12], RegisterOrMemory::Direct(0x1234), 2);
    reads(&[0x0F], RegisterOrMemory::Indirect(bx), 0);
    reads(&[0x4F, 0xFE], RegisterOrMemory::DisplacementByte(bx, -2), 1);
    reads(&[0x4F, 0x00], RegisterOrMemory::DisplacementByte(bx, 0), 1);
    reads(
        &[0x8F, 0x00, 0x80],
        RegisterOrMemory::DisplacementWord(bx, -32_768),
        2,
    );
    reads(
        &[0x8F, 0x00, 0x00],
        RegisterOrMemory::DisplacementWord(bx, 0),
        2,
    );
    reads(
        &[0xCF],
        RegisterOrMemory::Register(RegisterEncoding::BhDi),
        0,
    );
}

#[test]
fn modrm_cut_short_or_outside() {
    let refuses = |bytes: &[u8], position, refusal, taken| {
        let answer = read_mrrm(bytes, position);
        assert_eq!((answer.result, answer.taken), (Err(refusal), taken));
        assert_eq!(answer.written, 0);
    };
    refuses(&[0x8F, 0x00], 0, DecodeError::CouldNotReadExtraBytes, 2);
    refuses(&[0x8F], 1, DecodeError::CouldNotReadExtraBytes, 0);
    refuses(&[0x8F], 2, DecodeError::OutsideInput, 0);
}

#[test]
fn the_size_of_an_operand() {
    use OperandSize::{Byte, Word};
    let (ds, bx, al) = (Segment::DS, AddressingMode::Bx, RegisterEncoding::AlAx);
    for size in [Byte, Word] {
        let register = SizedRegisterEncoding(al, size);
        let memory = |displacement| Operand::Indirect(ds, bx, displacement, size);
        has_size(Operand::Direct(ds, 0, size), Some(size));
        has_size(memory(Displacement::None), Some(size));
        has_size(memory(Displacement::Byte(1)), Some(size));
        has_size(memory(Displacement::Word(1)), Some(size));
        has_size(Operand::from(register), Some(size));
    }
    has_size(Operand::from(ds), Some(Word));
    has_size(Operand::from(Immediate::Byte(1)), Some(Byte));
    has_size(Operand::from(Immediate::Word(1)), Some(Word));
    has_size(Operand::Displacement(Displacement::Byte(1)), Some(Byte));
    has_size(Operand::Displacement(Displacement::Word(1)), Some(Word));
    has_size(Operand::Displacement(Displacement::None), None);
    has_size(Operand::SegmentAndOffset(Address::new(0, 0)), None);
}

fn has_size(operand: Operand, size: Option<OperandSize>) {
    assert_eq!(operand.operand_size(), size, "{operand:?}");
}
