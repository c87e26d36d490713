//! The manual's reading, made of the given Rust's answers: on the same bytes, then amended, or on other bytes that it reads as the
//! manual reads these.

use crate::oracle::{self, prefixes, tail, Answer};
use crate::reading::MANUAL;
use crate::written;
use mrc_instruction::{
    AddressingMode, Displacement, Immediate, Instruction, Operand, OperandSet, OperandSize,
    Operation, RegisterEncoding, Segment, SizedRegisterEncoding,
};

const CL: Operand = Operand::Register(SizedRegisterEncoding(
    RegisterEncoding::ClCx,
    OperandSize::Byte,
));

pub fn decode(bytes: &[u8], at: usize, budget: u8) -> Answer {
    let rest = bytes.get(at..).unwrap_or_default();
    let answer = match *tail(rest) {
        [0xD8..=0xDF, ..] => escape(rest, budget),
        [0xA4..=0xA7 | 0xAC | 0xAD | 0xD7, ..] => keeping(rest, budget),
        _ => oracle::decode(bytes, at, budget),
    };
    let written = match answer.result {
        Ok(_) => written::of(MANUAL, rest),
        Err(_) => 0,
    };
    Answer {
        written,
        result: answer.result.map(|read| amended(rest, read)),
        ..answer
    }
}

/// ESC, read as PUSH of the same operand: FF, and 6 in the ModRM's reg.
fn escape(bytes: &[u8], budget: u8) -> Answer {
    let opcode = prefixes(bytes).len();
    let mut push = bytes.to_vec();
    push[opcode] = 0xFF;
    if let Some(modrm) = push.get_mut(opcode + 1) {
        *modrm = *modrm & 0b11_000_111 | 0b00_110_000;
    }
    let answer = oracle::decode(&push, 0, budget);
    let result = answer.result.map(|read| Instruction {
        operation: Operation::ESC,
        ..read
    });
    Answer { result, ..answer }
}

/// An operation that keeps an override: what the other prefixes make of it, and both counts with the overrides.
fn keeping(bytes: &[u8], budget: u8) -> Answer {
    let answer = oracle::decode(bytes, 0, budget);
    match overrides(bytes).next() {
        Some(segment) if answer.prefixes <= usize::from(budget) => {
            let repeats = prefixes(bytes)
                .iter()
                .filter(|byte| segment_of(**byte).is_none());
            let without: Vec<u8> = repeats.chain(tail(bytes)).copied().collect();
            Answer {
                result: oracle::decode(&without, 0, budget).result,
                kept: 1 + segment as u8,
                ..answer
            }
        }
        _ => answer,
    }
}

/// The segments of the overrides among the prefixes.
fn overrides(bytes: &[u8]) -> impl Iterator<Item = Segment> + '_ {
    prefixes(bytes).iter().filter_map(|byte| segment_of(*byte))
}

fn segment_of(prefix: u8) -> Option<Segment> {
    match prefix {
        0x26 => Some(Segment::ES),
        0x2E => Some(Segment::CS),
        0x36 => Some(Segment::SS),
        0x3E => Some(Segment::DS),
        _ => None,
    }
}

/// The instruction with what the manual has in place of an operand, and with SS where memory is found through BP and no override
/// says otherwise.
fn amended(bytes: &[u8], read: Instruction) -> Instruction {
    let operands = operands_in_place(tail(bytes)[0], read.operands);
    let operands = match overrides(bytes).next() {
        None => each(operands, in_stack),
        Some(_) => operands,
    };
    Instruction { operands, ..read }
}

fn operands_in_place(opcode: u8, operands: OperandSet) -> OperandSet {
    use OperandSet::{Destination, DestinationAndSource};
    match (opcode, operands) {
        (0x83, DestinationAndSource(destination, Operand::Immediate(Immediate::Word(byte)))) => {
            let extended = byte as u8 as i8 as u16;
            DestinationAndSource(destination, Immediate::Word(extended).into())
        }
        (0xD2 | 0xD3, DestinationAndSource(destination, _)) => {
            DestinationAndSource(destination, CL)
        }
        (0xC2, Destination(Operand::Displacement(Displacement::Word(count)))) => {
            Destination(Immediate::Word(count as u16).into())
        }
        _ => operands,
    }
}

/// The instruction with a displacement of 0 where its memory has none and as many displacement bytes were written: what a line prints.
pub fn as_written(read: Instruction, written: u8) -> Instruction {
    let zero = match written {
        1 => Displacement::Byte(0),
        2 => Displacement::Word(0),
        _ => Displacement::None,
    };
    let with_zero = |operand| match operand {
        Operand::Indirect(segment, mode, Displacement::None, size) => {
            Operand::Indirect(segment, mode, zero, size)
        }
        operand => operand,
    };
    Instruction {
        operands: each(read.operands, with_zero),
        ..read
    }
}

/// The operands, each amended.
fn each(operands: OperandSet, amend: impl Fn(Operand) -> Operand) -> OperandSet {
    match operands {
        OperandSet::None => OperandSet::None,
        OperandSet::Destination(destination) => OperandSet::Destination(amend(destination)),
        OperandSet::DestinationAndSource(destination, source) => {
            OperandSet::DestinationAndSource(amend(destination), amend(source))
        }
    }
}

fn in_stack(operand: Operand) -> Operand {
    use AddressingMode::{Bp, BpDi, BpSi};
    match operand {
        Operand::Indirect(_, mode @ (BpSi | BpDi | Bp), displacement, size) => {
            Operand::Indirect(Segment::SS, mode, displacement, size)
        }
        operand => operand,
    }
}

#[cfg(test)]
mod tests {
    use super::*;
    use crate::listing;
    use crate::reading::{GIVEN, MANUAL};
    use crate::record;

    /// What the line has behind its bytes, in the first reading and in the second.
    fn lists(bytes: &[u8], first: &str, second: &str) {
        for (reading, words) in [(GIVEN, first), (MANUAL, second)] {
            let line = listing::line(reading, bytes, 0).expect("a line");
            assert_eq!(&line.text[29..], format!("{words}\n"), "{bytes:02X?}");
            let taken = if words.starts_with("DB") {
                1
            } else {
                bytes.len()
            };
            assert_eq!(line.taken, taken, "{bytes:02X?}");
        }
    }

    fn step(bytes: &[u8], budget: u8) -> u64 {
        record::step(&decode(bytes, 0, budget))
    }

    #[test]
    fn a_byte_extends_its_sign() {
        lists(&[0x83, 0xC0, 0x80], "ADD AX, 0080", "ADD AX, FF80");
        lists(
            &[0x83, 0x3F, 0x7F],
            "CMP WORD DS:[BX], 007F",
            "CMP WORD DS:[BX], 007F",
        );
    }

    #[test]
    fn memory_through_bp_is_in_the_stack() {
        lists(
            &[0x8B, 0x46, 0x02],
            "MOV AX, WORD DS:[BP+02]",
            "MOV AX, WORD SS:[BP+02]",
        );
        lists(
            &[0x88, 0x02],
            "MOV BYTE DS:[BP+SI], AL",
            "MOV BYTE SS:[BP+SI], AL",
        );
        lists(
            &[0x8D, 0x03],
            "LEA AX, WORD DS:[BP+DI]",
            "LEA AX, WORD SS:[BP+DI]",
        );
        lists(
            &[0x3E, 0x8B, 0x46, 0x02],
            "MOV AX, WORD DS:[BP+02]",
            "MOV AX, WORD DS:[BP+02]",
        );
        lists(
            &[0x8B, 0x06, 0x34, 0x12],
            "MOV AX, WORD DS:[1234]",
            "MOV AX, WORD DS:[1234]",
        );
    }

    #[test]
    fn shifts_count_in_cl() {
        lists(&[0xD3, 0xE0], "SHL AX, CX", "SHL AX, CL");
        lists(&[0xD2, 0xE0], "SHL AL, CL", "SHL AL, CL");
        lists(&[0xD1, 0xE0], "SHL AX, 01", "SHL AX, 01");
    }

    #[test]
    fn a_return_has_an_immediate() {
        let bytes = [0xC2, 0xFC, 0xFF];
        let record = record::of(&decode(&bytes, 0, 15));
        assert_eq!(record[record::DESTINATION], record::IMMEDIATE_WORD);
        lists(&bytes, "RET FFFC", "RET FFFC");
    }

    #[test]
    fn esc_has_the_operand_of_its_modrm() {
        lists(&[0xD8, 0xC1], "ESC", "ESC CX");
        assert_eq!(step(&[0xD8, 0x46, 0xFE, 0x90], 15), 3);
        assert_eq!(step(&[0xDF, 0x3E, 0x34, 0x12], 15), 4);
        assert_eq!(step(&[0xDF, 0x3E, 0x34], 15), 0x2_0000_0003);
        assert_eq!(step(&[0xDF], 15), 0x2_0000_0001);
        assert_eq!(step(&[0x26, 0xDF], 15), 0x9_0001_0002);
        lists(&[0x26, 0xD9, 0x07], "DB 26", "ESC WORD ES:[BX]");
    }

    #[test]
    fn a_displacement_of_zero_is_printed_as_it_was_written() {
        lists(
            &[0x8B, 0x47, 0x00],
            "MOV AX, WORD DS:[BX]",
            "MOV AX, WORD DS:[BX+00]",
        );
        lists(
            &[0x26, 0x89, 0x82, 0x00, 0x00],
            "MOV WORD ES:[BP+SI], AX",
            "MOV WORD ES:[BP+SI+0000], AX",
        );
        lists(&[0xFF, 0x37], "PUSH WORD DS:[BX]", "PUSH WORD DS:[BX]");
        lists(
            &[0xFF, 0x77, 0x00],
            "PUSH WORD DS:[BX]",
            "PUSH WORD DS:[BX+00]",
        );
        lists(
            &[0x8B, 0x06, 0x00, 0x00],
            "MOV AX, WORD DS:[0000]",
            "MOV AX, WORD DS:[0000]",
        );
        lists(&[0xEB, 0x00], "JMP 0002", "JMP 0002");
    }

    #[test]
    fn displacement_bytes_of_the_second_reading() {
        let written = |bytes: &[u8]| decode(bytes, 0, 15).written;
        assert_eq!(written(&[0xD8, 0x47, 0x00]), 1);
        assert_eq!(written(&[0x3E, 0xDF, 0x3E, 0x34, 0x12]), 2);
        assert_eq!(written(&[0xD8, 0xC1]), 0);
        assert_eq!(written(&[0x83, 0x47, 0x00, 0xFF]), 1);
        assert_eq!(written(&[0x26, 0xA4]), 0);
        assert_eq!(written(&[0xDF, 0x3E, 0x34]), 0);
        assert_eq!(written(&[0x8F, 0x48, 0x00]), 0);
    }

    #[test]
    fn an_override_is_kept() {
        lists(&[0x26, 0xA4], "DB 26", "ES: MOVSB");
        lists(&[0x2E, 0xF3, 0x36, 0xF2, 0xA7], "DB 2E", "REPE CS: CMPSW");
        lists(&[0x3E, 0xD7], "DB 3E", "DS: XLATB");
        lists(&[0xD7], "XLATB", "XLATB");
        assert_eq!(decode(&[0x3E, 0xAC], 0, 15).kept, 4);
        assert_eq!(decode(&[0xAC], 0, 15).kept, 0);
        assert_eq!(step(&[0x26, 0xA4], 0), 0xA_0001_0001);
        assert_eq!(step(&[0xF3, 0x26, 0xA4], 1), 0xA_0002_0002);
        for bare in [0x90, 0x98, 0xAA, 0xAB, 0xAE, 0xAF, 0xC3, 0xCB, 0xF0] {
            assert_eq!(step(&[0x26, bare], 15), 0x9_0001_0002, "{bare:02X}");
        }
    }

    #[test]
    fn what_is_refused_stays_so() {
        for bytes in [
            &[][..],
            &[0x60],
            &[0x26],
            &[0xF3],
            &[0x83],
            &[0x26, 0x83, 0x46],
            &[0xC2, 0],
        ] {
            assert_eq!(
                step(bytes, 15),
                record::step(&oracle::decode(bytes, 0, 15)),
                "{bytes:02X?}"
            );
        }
        assert_eq!(record::step(&decode(&[0xA4], 2, 15)), 11 << 32);
    }
}
