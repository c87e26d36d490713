//! The listing line, rendered plainly from a reading's answer; near and far, and in the second reading a displacement of 0, which
//! the given Rust does not tell, from the bytes.

use crate::compare::hex;
use crate::oracle::{Answer, USUAL_BUDGET};
use crate::reach;
use crate::reading::{self, MANUAL};
use crate::refusal::Refusal;
use crate::second;
use mrc_instruction::{
    Displacement, Immediate, Instruction, Operand, OperandSet, OperandSize, Operation, Repeat,
};

pub const LONGEST_IMAGE: usize = 65_536;
const BYTES_SHOWN: usize = 7;
const BYTE_FIELD: usize = 21;

/// A line with its LF, or several, and the bytes of the image accounted for.
#[derive(Debug)]
pub struct Line {
    pub text: String,
    pub taken: usize,
}

/// The line at a position, or the refusal of a call whose buffer has `room` bytes.
pub fn call(reading: u8, image: &[u8], at: usize, room: usize) -> Result<Line, Refusal> {
    let line = line(reading, image, at)?;
    if line.text.len() > room {
        return Err(Refusal::NO_ROOM);
    }
    Ok(line)
}

/// The line at a position, or the refusal of a call with any room.
pub fn line(reading: u8, image: &[u8], at: usize) -> Result<Line, Refusal> {
    if image.len() > LONGEST_IMAGE {
        return Err(Refusal::IMAGE_TOO_LONG);
    }
    if at > image.len() {
        return Err(Refusal::OUTSIDE_INPUT);
    }
    if at == image.len() {
        return Err(Refusal::END_OF_INPUT);
    }
    Ok(line_at(reading, image, at))
}

/// The lines from a position on that fit whole into a room, and the bytes that they account for.
pub fn page(reading: u8, image: &[u8], at: usize, room: usize) -> Line {
    let mut page = Line {
        text: String::new(),
        taken: 0,
    };
    while let Ok(line) = call(reading, image, at + page.taken, room - page.text.len()) {
        page.text += &line.text;
        page.taken += line.taken;
    }
    page
}

fn line_at(reading: u8, image: &[u8], at: usize) -> Line {
    let answer = reading::decode(reading, image, at, USUAL_BUDGET);
    let (taken, words) = match &answer.result {
        Ok(read) if reading == MANUAL => {
            let read = second::as_written(*read, answer.written);
            (answer.taken, answer_text(&read, &answer, at))
        }
        Ok(read) => (answer.taken, answer_text(read, &answer, at)),
        Err(_) => (1, format!("DB {:02X}", image[at])),
    };
    let shown = hex(&image[at..at + taken.min(BYTES_SHOWN)], " ");
    Line {
        text: format!("{at:04X}  {shown:BYTE_FIELD$}  {words}\n"),
        taken,
    }
}

/// The text of an answer's instruction at an offset.
fn answer_text(instruction: &Instruction, answer: &Answer, at: usize) -> String {
    let repeat = repeat_text(instruction);
    let kept = ["", "ES: ", "CS: ", "SS: ", "DS: "][usize::from(answer.kept)];
    let words = words_text(instruction, answer.reach, at + answer.taken, 0);
    format!("{repeat}{kept}{words}")
}

/// `next` is the offset of the byte after the instruction; from `base` a displacement of RET counts.
pub fn instruction_text(instruction: &Instruction, reach: u8, next: usize, base: usize) -> String {
    let repeat = repeat_text(instruction);
    let words = words_text(instruction, reach, next, base);
    format!("{repeat}{words}")
}

fn repeat_text(instruction: &Instruction) -> &'static str {
    match instruction.repeat {
        None => "",
        Some(Repeat::Equal) => "REPE ",
        Some(Repeat::NotEqual) => "REPNE ",
    }
}

/// The name and the operands.
fn words_text(instruction: &Instruction, reach: u8, next: usize, base: usize) -> String {
    let name = instruction.operation.to_string().to_uppercase();
    let far = if reach == reach::FAR { " FAR" } else { "" };
    let operands = match &instruction.operands {
        OperandSet::None => String::new(),
        OperandSet::Destination(destination) => {
            let from = match instruction.operation {
                Operation::RET => base,
                _ => next,
            };
            format!(" {}", alone_text(destination, from))
        }
        OperandSet::DestinationAndSource(destination, source) => {
            format!(" {}, {}", operand_text(destination), operand_text(source))
        }
    };
    format!("{name}{far}{operands}")
}

fn alone_text(operand: &Operand, from: usize) -> String {
    match operand {
        Operand::Displacement(displacement) => {
            let word = from as i64 + distance(displacement);
            format!("{:04X}", word.rem_euclid(65_536))
        }
        operand => operand_text(operand),
    }
}

fn distance(displacement: &Displacement) -> i64 {
    match *displacement {
        Displacement::None => 0,
        Displacement::Byte(value) => i64::from(value),
        Displacement::Word(value) => i64::from(value),
    }
}

fn operand_text(operand: &Operand) -> String {
    match operand {
        Operand::Direct(segment, offset, size) => {
            format!("{} {}:[{offset:04X}]", size_text(*size), upper(segment))
        }
        Operand::Indirect(segment, mode, displacement, size) => format!(
            "{} {}:[{}{}]",
            size_text(*size),
            upper(segment),
            upper(mode),
            displacement_text(displacement)
        ),
        Operand::Register(register) => upper(register),
        Operand::Segment(segment) => upper(segment),
        Operand::Immediate(Immediate::Byte(value)) => format!("{value:02X}"),
        Operand::Immediate(Immediate::Word(value)) => format!("{value:04X}"),
        Operand::Displacement(displacement) => displacement_text(displacement),
        Operand::SegmentAndOffset(address) => upper(address),
    }
}

fn size_text(size: OperandSize) -> &'static str {
    match size {
        OperandSize::Byte => "BYTE",
        OperandSize::Word => "WORD",
    }
}

/// Sign and magnitude, in the digits of its width.
fn displacement_text(displacement: &Displacement) -> String {
    let sign = if distance(displacement) < 0 { '-' } else { '+' };
    match *displacement {
        Displacement::None => String::new(),
        Displacement::Byte(value) => format!("{sign}{:02X}", value.unsigned_abs()),
        Displacement::Word(value) => format!("{sign}{:04X}", value.unsigned_abs()),
    }
}

fn upper(name: &impl ToString) -> String {
    name.to_string().to_uppercase()
}

#[cfg(test)]
mod tests {
    use super::*;
    use crate::reading::GIVEN;
    use mrc_decoder::{decode_instruction, DecodedInstruction};
    use mrc_instruction::Address;

    const ROOM: usize = 128;

    fn list(image: &[u8]) -> String {
        let mut text = String::new();
        let mut at = 0;
        while let Ok(line) = call(GIVEN, image, at, ROOM) {
            text += &line.text;
            at += line.taken;
        }
        assert_eq!(at, image.len());
        text
    }

    fn refusal(image: &[u8], at: usize, room: usize) -> u8 {
        call(GIVEN, image, at, room)
            .err()
            .map_or(0, |refusal| refusal.number)
    }

    #[test]
    fn the_example_of_document_01() {
        let image = [
            0x26, 0x8B, 0x47, 0xFE, 0xF3, 0xA4, 0x75, 0xF8, 0x83, 0xC0, 0xFF, 0x60, 0x8B,
        ];
        let lines = [
            "0000  26 8B 47 FE            MOV AX, WORD ES:[BX-02]\n",
            "0004  F3 A4                  REPE MOVSB\n",
            "0006  75 F8                  JNE 0000\n",
            "0008  83 C0 FF               ADD AX, 00FF\n",
            "000B  60                     DB 60\n",
            "000C  8B                     DB 8B\n",
        ];
        assert_eq!(list(&image), lines.concat());
    }

    #[test]
    fn the_operands_of_document_01() {
        let ends = |bytes: &[u8], words: &str| {
            let text = list(bytes);
            assert!(text.ends_with(&format!("  {words}\n")), "{text}");
        };
        ends(&[0x26, 0xA1, 0x34, 0x12], "MOV AX, WORD ES:[1234]");
        ends(&[0x88, 0x40, 0x80], "MOV BYTE DS:[BX+SI-80], AL");
        ends(&[0x88, 0x80, 0x00, 0x80], "MOV BYTE DS:[BX+SI-8000], AL");
        ends(&[0xEA, 0x78, 0x56, 0x34, 0x12], "JMP FAR 1234:5678");
        ends(&[0x8E, 0xD8], "MOV DS, AX");
        ends(&[0xF2, 0xA6], "REPNE CMPSB");
    }

    #[test]
    fn a_return_prints_its_word_wherever_it_stands() {
        let ends = |at: usize, bytes: &[u8], words: &str| {
            let mut image = vec![0x90; at];
            image.extend(bytes);
            let text = call(GIVEN, &image, at, ROOM).expect("a line").text;
            assert!(text.ends_with(&format!("  {words}\n")), "{text}");
        };
        for at in [0, 0x100, 0xFFF0] {
            ends(at, &[0xC2, 0x04, 0x00], "RET 0004");
            ends(at, &[0xC2, 0xFC, 0xFF], "RET FFFC");
            ends(at, &[0xC2, 0x00, 0x80], "RET 8000");
            ends(at, &[0xCA, 0xFC, 0xFF], "RET FAR FFFC");
            ends(at, &[0xCB], "RET FAR");
        }
        ends(0x100, &[0xE9, 0x04, 0x00], "JMP 0107");
    }

    #[test]
    fn a_return_of_any_record_prints_a_word() {
        let text = |displacement| {
            let operands = OperandSet::Destination(Operand::Displacement(displacement));
            let instruction = Instruction::new(Operation::RET, operands);
            instruction_text(&instruction, reach::NEAR, 0x107, 0)
        };
        assert_eq!(text(Displacement::Byte(-2)), "RET FFFE");
        assert_eq!(text(Displacement::Word(-4)), "RET FFFC");
        assert_eq!(text(Displacement::None), "RET 0000");
    }

    #[test]
    fn at_most_seven_bytes_are_shown() {
        let text = list(&[0x26, 0x26, 0x81, 0x80, 0x34, 0x12, 0x78, 0x56]);
        assert_eq!(
            text,
            "0000  26 26 81 80 34 12 78   ADD WORD ES:[BX+SI+1234], 5678\n"
        );
    }

    #[test]
    fn a_page_has_whole_lines() {
        let image = [0x90, 0x60, 0x90];
        let page = page(GIVEN, &image, 1, 70);
        assert_eq!(page.text, list(&image)[33..]);
        assert_eq!((page.text.len(), page.taken), (68, 2));
        let page = super::page(GIVEN, &image, 1, 67);
        assert_eq!((page.text.len(), page.taken), (35, 1));
    }

    #[test]
    fn refusals_come_in_order() {
        let long = vec![0x90; LONGEST_IMAGE + 1];
        assert_eq!(refusal(&long, LONGEST_IMAGE + 2, 0), 13);
        assert_eq!(refusal(&[0x90], 2, 0), 11);
        assert_eq!(refusal(&[0x90], 1, 0), 1);
        assert_eq!(refusal(&[0x90], 0, 32), 12);
        assert_eq!(refusal(&[0x90], 0, 33), 0);
    }

    fn target_of_the_rust(bytes: &[u8], at: u16) -> String {
        let instruction = decode_instruction(&mut bytes.iter().copied()).expect("a jump");
        let address = Address::new(0, at);
        let size = bytes.len() as u8;
        DecodedInstruction::new(address, bytes, instruction, size).to_string()
    }

    fn assert_target(bytes: &[u8], at: u16) {
        let mut image = vec![0; usize::from(at)];
        image.extend(bytes);
        let ours = call(GIVEN, &image, usize::from(at), ROOM)
            .expect("a line")
            .text;
        let ours = &ours[ours.len() - 5..ours.len() - 1];
        assert!(
            target_of_the_rust(bytes, at).ends_with(&format!(" 0x{ours}")),
            "{bytes:?} at {at}"
        );
    }

    #[test]
    fn targets_are_those_of_the_rust() {
        for at in [0, 1, 0x7FFD, 0x8000, 0xFFF0] {
            for byte in 0..=255 {
                assert_target(&[0xEB, byte], at);
            }
            for word in (0..=u16::MAX).step_by(257).chain([0x7FFF, 0x8000, 0x8001]) {
                let [low, high] = word.to_le_bytes();
                assert_target(&[0xE9, low, high], at);
            }
        }
    }
}
