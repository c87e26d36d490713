//! The numbered cases, and those that are only run.

use mrc::{
    decode_at, Address, AddressingMode, DecodeError, Displacement, Immediate, Instruction, Operand,
    OperandSet, OperandSize, Operation, Reach, RegisterEncoding, Repeat, Segment,
    SizedRegisterEncoding,
};

const BUDGET: u8 = 15;
const AX: Operand = word_register(RegisterEncoding::AlAx);

const fn word_register(register: RegisterEncoding) -> Operand {
    Operand::Register(SizedRegisterEncoding(register, OperandSize::Word))
}

fn memory(segment: Segment, mode: AddressingMode, displacement: Displacement) -> Operand {
    Operand::Indirect(segment, mode, displacement, OperandSize::Word)
}

fn two(operation: Operation, destination: Operand, source: Operand) -> Instruction {
    let operands = OperandSet::DestinationAndSource(destination, source);
    Instruction::new(operation, operands)
}

fn goes(reach: Reach, operation: Operation, destination: Operand) -> Instruction {
    Instruction::new(operation, OperandSet::Destination(destination)).reaching(reach)
}

fn reads(bytes: &[u8], instruction: Instruction, taken: usize, prefixes: usize) {
    answers(bytes, BUDGET, Ok(instruction), taken, prefixes);
}

fn refuses(bytes: &[u8], budget: u8, refusal: DecodeError, taken: usize, prefixes: usize) {
    answers(bytes, budget, Err(refusal), taken, prefixes);
}

fn answers(
    bytes: &[u8],
    budget: u8,
    result: mrc::Result<Instruction>,
    taken: usize,
    prefixes: usize,
) {
    let answer = decode_at(bytes, 0, budget);
    let counts = (answer.taken, answer.prefixes);
    assert_eq!(answer.result, result, "{bytes:02X?}");
    assert_eq!(counts, (taken, prefixes), "{bytes:02X?}");
}

#[test]
fn readings_1_to_3_have_no_opcode() {
    refuses(&[], BUDGET, DecodeError::EndOfInput, 0, 0);
    refuses(&[0xF3], BUDGET, DecodeError::EndOfInput, 1, 1);
    refuses(&[0x26], BUDGET, DecodeError::InvalidPrefix(0x26), 1, 1);
}

#[test]
fn case_4_widens_with_zeros() {
    let immediate = Operand::Immediate(Immediate::Word(0x00FF));
    let add = two(Operation::ADD, AX, immediate);
    reads(&[0x83, 0xC0, 0xFF], add, 3, 0);
}

#[test]
fn case_5_has_no_operand_to_override() {
    let refusal = DecodeError::InvalidPrefix(0x26);
    refuses(&[0x26, 0xA4], BUDGET, refusal, 2, 1);
}

#[test]
fn case_6_keeps_the_first_override() {
    let source = memory(Segment::ES, AddressingMode::Bx, Displacement::None);
    let mov = two(Operation::MOV, AX, source);
    reads(&[0x26, 0x2E, 0x8B, 0x07], mov, 4, 2);
}

#[test]
fn case_7_has_no_displacement() {
    let source = memory(Segment::DS, AddressingMode::Bx, Displacement::None);
    let mov = two(Operation::MOV, AX, source).writing(1);
    reads(&[0x8B, 0x47, 0x00], mov, 3, 0);
}

#[test]
fn readings_8_to_10_are_refused_by_their_reg() {
    refuses(&[0xF6, 0xC8], BUDGET, DecodeError::InvalidOpCode(1), 2, 0);
    let cut = DecodeError::CouldNotReadExtraBytes;
    refuses(&[0x8F, 0x48], BUDGET, cut, 2, 0);
    let invalid = DecodeError::InvalidModRegRMEncoding(0x48);
    refuses(&[0x8F, 0x48, 0x00], BUDGET, invalid, 3, 0);
    let segment = DecodeError::InvalidSegmentEncoding(4);
    refuses(&[0x8E, 0xE0], BUDGET, segment, 2, 0);
}

#[test]
fn case_11_takes_six_bytes() {
    let bytes = [0x81, 0x80, 0x34, 0x12, 0x78, 0x56];
    let place = memory(
        Segment::DS,
        AddressingMode::BxSi,
        Displacement::Word(0x1234),
    );
    let immediate = Operand::Immediate(Immediate::Word(0x5678));
    let add = two(Operation::ADD, place, immediate).writing(2);
    reads(&bytes, add, 6, 0);
    let cut = DecodeError::CouldNotReadExtraBytes;
    refuses(&bytes[..5], BUDGET, cut, 5, 0);
}

#[test]
fn case_12_keeps_the_first_repeat() {
    let movsb = Instruction::with_repeat(Repeat::NotEqual, Operation::MOVSB, OperandSet::None);
    reads(&[0xF2, 0xF3, 0xA4], movsb, 3, 2);
}

#[test]
fn case_13_is_over_its_budget() {
    let refusal = DecodeError::TooManyPrefixes(0xF3);
    refuses(&[0xF3, 0x90], 0, refusal, 1, 1);
}

#[test]
fn fifteen_prefixes_are_read_and_sixteen_refused() {
    let run = |count| [vec![0x26; count], vec![0x8B, 0x07]].concat();
    let source = memory(Segment::ES, AddressingMode::Bx, Displacement::None);
    reads(&run(15), two(Operation::MOV, AX, source), 17, 15);
    let refusal = DecodeError::TooManyPrefixes(0x26);
    refuses(&run(16), BUDGET, refusal, 16, 16);
}

#[test]
fn a_jump_back_carries_a_signed_byte() {
    let back = Operand::Displacement(Displacement::Byte(-128));
    let jump = goes(Reach::Near, Operation::JMP, back);
    reads(&[0xEB, 0x80], jump, 2, 0);
}

#[test]
fn destination_stands_before_source() {
    let place = memory(Segment::DS, AddressingMode::Bx, Displacement::Byte(-2));
    let cx = word_register(RegisterEncoding::ClCx);
    for (opcode, operation, destination, source) in [
        (0x89, Operation::MOV, place, cx),
        (0x8B, Operation::MOV, cx, place),
        (0x01, Operation::ADD, place, cx),
        (0x03, Operation::ADD, cx, place),
        (0x85, Operation::TEST, place, cx),
        (0x87, Operation::XCHG, place, cx),
        (0x8D, Operation::LEA, cx, place),
    ] {
        let instruction = two(operation, destination, source).writing(1);
        reads(&[opcode, 0x4F, 0xFE], instruction, 3, 0);
    }
    let shr = two(Operation::SHR, place, cx).writing(1);
    reads(&[0xD3, 0x6F, 0xFE], shr, 3, 0);
    reads(&[0x91], two(Operation::XCHG, AX, cx), 1, 0);
    let ds = Operand::from(Segment::DS);
    reads(&[0x8C, 0xD8], two(Operation::MOV, AX, ds), 2, 0);
    reads(&[0x8E, 0xD8], two(Operation::MOV, ds, AX), 2, 0);
    let direct = Operand::Direct(Segment::DS, 0x1234, OperandSize::Word);
    reads(&[0xA1, 0x34, 0x12], two(Operation::MOV, AX, direct), 3, 0);
    reads(&[0xA3, 0x34, 0x12], two(Operation::MOV, direct, AX), 3, 0);
    let port = Operand::from(Immediate::Byte(0x20));
    reads(&[0xE5, 0x20], two(Operation::IN, AX, port), 2, 0);
    reads(&[0xE7, 0x20], two(Operation::OUT, port, AX), 2, 0);
}

#[test]
fn readings_that_look_right_are_not_given() {
    let by_bp = memory(Segment::DS, AddressingMode::Bp, Displacement::Byte(2));
    let mov = two(Operation::MOV, AX, by_bp).writing(1);
    reads(&[0x8B, 0x46, 0x02], mov, 3, 0);
    let by_bx = memory(Segment::DS, AddressingMode::Bx, Displacement::None);
    let mov = two(Operation::MOV, AX, by_bx).writing(2);
    reads(&[0x8B, 0x87, 0x00, 0x00], mov, 4, 0);
    let nowhere = Operand::Displacement(Displacement::Byte(0));
    let jump = goes(Reach::Near, Operation::JMP, nowhere);
    reads(&[0xEB, 0x00], jump, 2, 0);
    let cut = DecodeError::CouldNotReadExtraBytes;
    refuses(&[0x8B], BUDGET, cut, 1, 0);
}

#[test]
fn a_far_call_has_its_segment_and_offset() {
    let address = Operand::SegmentAndOffset(Address::new(0x5678, 0x1234));
    let call = goes(Reach::Far, Operation::CALL, address);
    reads(&[0x9A, 0x34, 0x12, 0x78, 0x56], call, 5, 0);
}

#[test]
fn a_position_counts_from_the_front() {
    let answer = decode_at(&[0x60, 0x60, 0x90], 2, 0);
    let nop = Instruction::new(Operation::NOP, OperandSet::None);
    assert_eq!((answer.result, answer.taken), (Ok(nop), 1));
    let refusal = |position| decode_at(&[0x90], position, 0).result;
    assert_eq!(refusal(1), Err(DecodeError::EndOfInput));
    assert_eq!(refusal(2), Err(DecodeError::OutsideInput));
    assert_eq!(refusal(usize::MAX), Err(DecodeError::OutsideInput));
}
