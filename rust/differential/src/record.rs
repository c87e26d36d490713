//! An answer as the forty bytes that `mrc_decode` writes, words low byte first.
//!
//! | bytes | hold |
//! |---|---|
//! | 0 | 0 for an instruction, else the refusal's number |
//! | 1 | the refusal's byte |
//! | 2, 3 | bytes taken |
//! | 4, 5 | prefixes |
//! | 8 | the operation's number in operation.rs, REP and REPNE left out |
//! | 9 | 0 no repeat, 1 Equal, 2 NotEqual |
//! | 10 | 0 neither, 1 near, 2 far, which the given Rust does not tell |
//! | 11 | 0, or 1 and the code of the segment that is kept, which the given Rust has not |
//! | 12 | the displacement bytes written behind the ModRM, which the given Rust does not tell |
//! | 13 | the number of operands |
//! | 16 to 23 | the destination |
//! | 24 to 31 | the source |
//!
//! The others are 0, and so are bytes 8 to 39 of a refusal. An operand's eight bytes are its kind, segment or register,
//! addressing mode and size, a word, and the segment of a segment-and-offset.

use crate::compare::hex;
use crate::oracle::Answer;
use crate::refusal::Refusal;
use mrc_instruction::{
    Address, AddressingMode, Displacement, Immediate, Instruction, Operand, OperandSet,
    OperandSize, Operation, Repeat, Segment,
};

pub const LENGTH: usize = 40;
/// The bytes before the third operand, which no instruction has.
pub const STORED: usize = 32;
pub type Record = [u8; LENGTH];
type OperandBytes = [u8; 8];

pub const OPERATION: usize = 8;
pub const REPEAT: usize = 9;
pub const REACH: usize = 10;
pub const KEPT: usize = 11;
pub const WRITTEN: usize = 12;
pub const OPERANDS: usize = 13;
pub const DESTINATION: usize = 16;
pub const SOURCE: usize = 24;

pub const DIRECT: u8 = 1;
pub const INDIRECT: u8 = 2;
pub const INDIRECT_BYTE: u8 = 3;
pub const INDIRECT_WORD: u8 = 4;
pub const REGISTER: u8 = 5;
pub const SEGMENT: u8 = 6;
pub const IMMEDIATE_BYTE: u8 = 7;
pub const IMMEDIATE_WORD: u8 = 8;
pub const DISPLACEMENT_NONE: u8 = 9;
pub const DISPLACEMENT_BYTE: u8 = 10;
pub const DISPLACEMENT_WORD: u8 = 11;
pub const SEGMENT_AND_OFFSET: u8 = 12;

pub fn of(answer: &Answer) -> Record {
    let mut record = [0; LENGTH];
    record[2..4].copy_from_slice(&low_word(answer.taken));
    record[4..6].copy_from_slice(&low_word(answer.prefixes));
    match &answer.result {
        Ok(instruction) => {
            write_instruction(instruction, &mut record);
            record[REACH] = answer.reach;
            record[KEPT] = answer.kept;
            record[WRITTEN] = answer.written;
        }
        Err(Refusal { number, byte }) => record[..2].copy_from_slice(&[*number, *byte]),
    }
    record
}

/// The record without near and far, what is kept and the displacement bytes, of which the given Rust has no answer.
pub fn of_the_rust(record: Record) -> Record {
    let mut record = record;
    record[REACH..=WRITTEN].fill(0);
    record
}

/// An answer's counts and number as `mrc_step` gives them: taken, 65,536 times the prefixes, and 2^32 times the refusal's
/// number.
pub fn step(answer: &Answer) -> u64 {
    let number = match answer.result {
        Ok(_) => 0,
        Err(refusal) => u64::from(refusal.number),
    };
    answer.taken as u64 + ((answer.prefixes as u64) << 16) + (number << 32)
}

/// What `spaced` has in its columns: refusal, byte, taken, prefixes, what is reserved, operation, repeat, near or far, what is
/// kept, displacement bytes written, the number of operands, what is reserved, destination, source, third operand.
pub const HEADING: &str =
    "no by tak. pre.      op re nf ke wr n       destination      source           third";

/// The record with a space between its fields.
pub fn spaced(record: &[u8]) -> String {
    let ends = [1, 2, 4, 6, 8, 9, 10, 11, 12, 13, 14, 16, 24, 32, 40];
    let starts = [0].into_iter().chain(ends);
    let fields = starts
        .zip(ends)
        .map(|(start, end)| hex(&record[start..end], ""));
    fields.collect::<Vec<String>>().join(" ")
}

fn write_instruction(instruction: &Instruction, record: &mut Record) {
    record[OPERATION] = operation_code(instruction.operation);
    record[REPEAT] = repeat_code(instruction.repeat);
    match &instruction.operands {
        OperandSet::None => {}
        OperandSet::Destination(destination) => {
            record[OPERANDS] = 1;
            record[DESTINATION..SOURCE].copy_from_slice(&operand_bytes(destination));
        }
        OperandSet::DestinationAndSource(destination, source) => {
            record[OPERANDS] = 2;
            record[DESTINATION..SOURCE].copy_from_slice(&operand_bytes(destination));
            record[SOURCE..STORED].copy_from_slice(&operand_bytes(source));
        }
    }
}

fn operation_code(operation: Operation) -> u8 {
    match operation {
        Operation::REP | Operation::REPNE => panic!("{operation} as the operation of an answer"),
        _ if (operation as u8) < Operation::REP as u8 => operation as u8,
        _ => operation as u8 - 2,
    }
}

fn repeat_code(repeat: Option<Repeat>) -> u8 {
    match repeat {
        None => 0,
        Some(Repeat::Equal) => 1,
        Some(Repeat::NotEqual) => 2,
    }
}

fn operand_bytes(operand: &Operand) -> OperandBytes {
    match *operand {
        Operand::Direct(segment, offset, size) => {
            let [low, high] = offset.to_le_bytes();
            [DIRECT, segment as u8, 0, size as u8, low, high, 0, 0]
        }
        Operand::Indirect(segment, mode, displacement, size) => {
            indirect_bytes(segment, mode, displacement, size)
        }
        Operand::Register(register) => {
            let (code, size) = (register.0 as u8, register.1 as u8);
            [REGISTER, code, 0, size, 0, 0, 0, 0]
        }
        Operand::Segment(segment) => [SEGMENT, segment as u8, 0, 0, 0, 0, 0, 0],
        Operand::Immediate(Immediate::Byte(value)) => with_word(IMMEDIATE_BYTE, value.into()),
        Operand::Immediate(Immediate::Word(value)) => with_word(IMMEDIATE_WORD, value),
        Operand::Displacement(Displacement::None) => with_word(DISPLACEMENT_NONE, 0),
        Operand::Displacement(Displacement::Byte(value)) => {
            with_word(DISPLACEMENT_BYTE, u16::from(value as u8))
        }
        Operand::Displacement(Displacement::Word(value)) => {
            with_word(DISPLACEMENT_WORD, value as u16)
        }
        Operand::SegmentAndOffset(address) => address_bytes(address),
    }
}

fn indirect_bytes(
    segment: Segment,
    mode: AddressingMode,
    displacement: Displacement,
    size: OperandSize,
) -> OperandBytes {
    let (kind, [low, high]) = match displacement {
        Displacement::None => (INDIRECT, [0, 0]),
        Displacement::Byte(value) => (INDIRECT_BYTE, [value as u8, 0]),
        Displacement::Word(value) => (INDIRECT_WORD, value.to_le_bytes()),
    };
    [kind, segment as u8, mode as u8, size as u8, low, high, 0, 0]
}

fn address_bytes(address: Address) -> OperandBytes {
    let [segment_low, segment_high] = address.segment.to_le_bytes();
    let [low, high] = address.offset.to_le_bytes();
    [
        SEGMENT_AND_OFFSET,
        0,
        0,
        0,
        low,
        high,
        segment_low,
        segment_high,
    ]
}

fn with_word(kind: u8, word: u16) -> OperandBytes {
    let [low, high] = word.to_le_bytes();
    [kind, 0, 0, 0, low, high, 0, 0]
}

fn low_word(count: usize) -> [u8; 2] {
    u16::try_from(count)
        .expect("a count of at most 65,535")
        .to_le_bytes()
}

#[cfg(test)]
mod tests {
    use super::*;
    use crate::oracle::decode;

    fn read(bytes: &[u8]) -> String {
        spaced(&of(&decode(bytes, 0, 15)))
    }

    #[test]
    fn destination_stands_before_source() {
        assert_eq!(
            read(&[0x8B, 0x07]),
            "00 00 0200 0000 0000 00 00 00 00 00 02 0000 0500000100000000 0203070100000000 0000000000000000"
        );
        assert_eq!(
            read(&[0x89, 0x07]),
            "00 00 0200 0000 0000 00 00 00 00 00 02 0000 0203070100000000 0500000100000000 0000000000000000"
        );
    }

    #[test]
    fn a_displacement_of_zero_is_told_by_its_bytes() {
        assert_eq!(
            read(&[0x8B, 0x47, 0x00]),
            "00 00 0300 0000 0000 00 00 00 00 01 02 0000 0500000100000000 0203070100000000 0000000000000000"
        );
        assert_eq!(
            read(&[0x89, 0x87, 0x00, 0x00]),
            "00 00 0400 0000 0000 00 00 00 00 02 02 0000 0203070100000000 0500000100000000 0000000000000000"
        );
    }

    #[test]
    fn what_the_rust_does_not_tell_is_left_out() {
        let record = of(&decode(&[0xFF, 0x5F, 0x00], 0, 15));
        assert_eq!(record[REACH..=WRITTEN], [2, 0, 1]);
        let left = of_the_rust(record);
        assert_eq!(left[REACH..=WRITTEN], [0; 3]);
        assert_eq!(left[..REACH], record[..REACH]);
        assert_eq!(left[OPERANDS..], record[OPERANDS..]);
    }

    #[test]
    fn displacements_keep_their_width() {
        assert_eq!(
            read(&[0xEB, 0x80]),
            "00 00 0200 0000 0000 39 00 01 00 00 01 0000 0A00000080000000 0000000000000000 0000000000000000"
        );
        assert_eq!(
            read(&[0xE9, 0x00, 0x80]),
            "00 00 0300 0000 0000 39 00 01 00 00 01 0000 0B00000000800000 0000000000000000 0000000000000000"
        );
    }

    #[test]
    fn a_far_address_has_segment_and_offset() {
        let record = read(&[0x9A, 0x34, 0x12, 0x78, 0x56]);
        assert_eq!(record, "00 00 0500 0000 0000 38 00 02 00 00 01 0000 0C00000034127856 0000000000000000 0000000000000000");
    }

    #[test]
    fn operations_skip_rep_and_repne() {
        assert_eq!(operation_code(Operation::MOV), 0);
        assert_eq!(operation_code(Operation::XOR), 45);
        assert_eq!(operation_code(Operation::MOVSB), 46);
        assert_eq!(operation_code(Operation::SALC), 96);
    }

    #[test]
    fn a_step_has_both_counts_and_the_number() {
        assert_eq!(step(&decode(&[0xF3, 0xA4], 0, 15)), 0x1_0002);
        assert_eq!(step(&decode(&[0x26, 0xA4], 0, 15)), 0x9_0001_0002);
    }

    #[test]
    fn a_refusal_has_its_number_byte_and_counts() {
        assert_eq!(
            read(&[0x26, 0xA4]),
            "09 26 0200 0100 0000 00 00 00 00 00 00 0000 0000000000000000 0000000000000000 0000000000000000"
        );
    }
}
