//! What rust/mrc answers in its own types, beside the given Rust: types of the same name print alike with `Debug`.

use differential::compare::{Question, Tally};
use differential::counted::Counted;
use differential::{modrm, second};
use mrc::TryFromEncoding as _;
use mrc_decoder::TryFromEncoding as _;
use std::fmt::{Debug, Display};

/// Decoding from an iterator: the instruction or the refusal, each as `Debug` and as `Display` have it, and the bytes taken.
pub fn decode(tally: &mut Tally, bytes: &[u8]) {
    let mut counted = Counted::new(bytes);
    let read = mrc_decoder::decode_instruction(&mut counted);
    let read = read.map(|i| (i.operation, i.operation.to_string(), i.operands, i.repeat));
    let rust = text(read, counted.taken);
    let mut counted = Counted::new(bytes);
    let read = mrc::decode_instruction(&mut counted);
    let read = read.map(|i| (i.operation, i.operation.to_string(), i.operands, i.repeat));
    note(
        tally,
        "decode_instruction",
        bytes,
        rust,
        text(read, counted.taken),
    );
}

/// Decoding from an iterator in the second reading: the instruction with what it keeps and its displacement bytes, or the refusal's
/// number and byte, and the bytes taken.
pub fn decode_second(tally: &mut Tally, bytes: &[u8]) {
    let told = second::decode(bytes, 0, mrc::LARGEST_BUDGET);
    let rust = match told.result {
        Ok(i) => format!(
            "{:?}",
            (i.operation, i.operands, i.repeat, told.kept, told.written)
        ),
        Err(refusal) => format!("{:?}", (refusal.number, refusal.byte)),
    };
    let mut counted = Counted::new(bytes);
    let ours = match mrc::Reading::Two.decode_instruction(&mut counted) {
        Ok(i) => format!(
            "{:?}",
            (
                i.operation,
                i.operands,
                i.repeat,
                kept_code(i.kept),
                i.written
            )
        ),
        Err(refusal) => format!("{:?}", (refusal.number(), refusal.byte())),
    };
    note(
        tally,
        "decode_instruction in reading 2",
        bytes,
        format!("{rust}, {} taken", told.taken),
        format!("{ours}, {} taken", counted.taken),
    );
}

fn kept_code(kept: Option<mrc::Segment>) -> u8 {
    kept.map_or(0, |segment| 1 + segment as u8)
}

/// The ModRM of a first byte and what follows it, with its displacement bytes.
pub fn mrrm(tally: &mut Tally, bytes: &[u8]) {
    let mut counted = Counted::new(bytes);
    let byte = counted.next().expect("a ModRM byte");
    let read = mrc_decoder::ModRegRM::try_from_byte(byte, &mut counted);
    let written = read
        .as_ref()
        .map_or(0, |mrrm| modrm::written(&mrrm.register_or_memory));
    let rust = text(read.map(|mrrm| (mrrm, byte)), counted.taken);
    let answer = mrc::read_mrrm(bytes, 0);
    let ours = text(answer.result, answer.taken);
    note(
        tally,
        "read_mrrm",
        bytes,
        format!("{rust}, {written} written"),
        format!("{ours}, {} written", answer.written),
    );
}

/// The three readers of a field.
pub fn fields(tally: &mut Tally, field: u8) {
    macro_rules! reader {
        ($name:ident) => {
            let rust = text(mrc_instruction::$name::try_from_encoding(field), 0);
            let ours = text(mrc::$name::try_from_encoding(field), 0);
            note(tally, stringify!($name), &[field], rust, ours);
        };
    }
    reader!(RegisterEncoding);
    reader!(Segment);
    reader!(AddressingMode);
}

fn text(answer: Result<impl Debug, impl Debug + Display>, taken: usize) -> String {
    match answer {
        Ok(read) => format!("{read:?}, {taken} taken"),
        Err(refusal) => format!("{refusal:?}, {refusal}, {taken} taken"),
    }
}

fn note(tally: &mut Tally, call: &'static str, bytes: &[u8], rust: String, ours: String) {
    tally.note(rust.as_bytes(), ours.as_bytes(), || {
        Question::unread(call, bytes, 0)
    });
}
