//! Decoding from an iterator gives the answer of the slice, and takes just its bytes.

use mrc::{decode_at, decode_instruction, DecodeError, LARGEST_BUDGET};

/// The bytes of a slice, with a count of the calls that asked for one.
struct Counted<'a> {
    bytes: &'a [u8],
    asked: usize,
}

impl Iterator for Counted<'_> {
    type Item = u8;

    fn next(&mut self) -> Option<u8> {
        let byte = self.bytes.get(self.asked).copied();
        self.asked += 1;
        byte
    }
}

fn agrees(bytes: &[u8]) {
    let mut counted = Counted { bytes, asked: 0 };
    let result = decode_instruction(&mut counted);
    let answer = decode_at(bytes, 0, LARGEST_BUDGET);
    assert_eq!(result, answer.result, "{bytes:02X?}");
    let taken = counted.asked.min(bytes.len());
    assert_eq!(taken, answer.taken, "{bytes:02X?}");
}

#[test]
fn every_first_and_second_byte_behind_prefixes_and_cut_anywhere() {
    let fronts: [&[u8]; 5] = [&[], &[0x26], &[0xF3], &[0xF2, 0x2E], &[0x3E, 0x36, 0xF3]];
    for pair in 0..=u16::MAX {
        let [first, second] = pair.to_be_bytes();
        let tail = [first, second, 0x34, 0x12, 0x78, 0x56, 0x90];
        for length in 0..=tail.len() {
            let front = fronts[usize::from(pair) % fronts.len()];
            agrees(&[front, &tail[..length]].concat());
        }
    }
}

#[test]
fn runs_of_prefixes_up_to_the_budget_and_over_it() {
    for count in (0..20).chain(250..260) {
        for tail in [&[][..], &[0x8B, 0x07, 0x90], &[0xA4, 0x90], &[0x60, 0x90]] {
            agrees(&[vec![0x26; count], tail.to_vec()].concat());
            agrees(&[vec![0xF3; count], tail.to_vec()].concat());
        }
    }
}

#[test]
fn an_ended_iterator_is_asked_once() {
    for bytes in [&[][..], &[0x8B], &[0x26], &[0x81, 0x80, 0x34]] {
        let mut counted = Counted { bytes, asked: 0 };
        assert!(decode_instruction(&mut counted).is_err());
        assert_eq!(counted.asked, bytes.len() + 1, "{bytes:02X?}");
    }
}

#[test]
fn one_instruction_after_the_other() {
    let mut bytes = [0x26, 0x8B, 0x47, 0xFE, 0xF3, 0xA4, 0x60, 0x90].into_iter();
    let names: Vec<String> = std::iter::repeat_with(|| decode_instruction(&mut bytes))
        .take_while(|result| *result != Err(DecodeError::EndOfInput))
        .map(|result| match result {
            Ok(instruction) => format!("{:?}", instruction.operation),
            Err(refusal) => refusal.to_string(),
        })
        .collect();
    assert_eq!(names, ["MOV", "MOVSB", "Invalid op code (0x60)", "NOP"]);
}
