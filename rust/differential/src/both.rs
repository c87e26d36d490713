//! One question put to both sides, and their answers noted. What reads bytes is asked in a reading, by its number.

use differential::compare::{Limit, Question, Tally};
use differential::oracle::USUAL_BUDGET;
use differential::refusal::Refusal;
use differential::{fields, listing, modrm, reading, record};
use mrc::boundary as ours;

/// A line, or the refusal of a line call with any room.
type Listed = Result<listing::Line, Refusal>;

/// What a buffer and every byte of a record hold before a call.
const UNTOUCHED: u8 = 0xA5;
const UNTOUCHED_WORD: u16 = u16::from_le_bytes([UNTOUCHED; 2]);
const NO_OPERAND: ours::Operand = ours::Operand {
    kind: UNTOUCHED,
    named: UNTOUCHED,
    mode: UNTOUCHED,
    size: UNTOUCHED,
    value: UNTOUCHED_WORD,
    far_segment: UNTOUCHED_WORD,
};
const NO_RECORD: ours::Record = ours::Record {
    refusal: UNTOUCHED,
    byte: UNTOUCHED,
    taken: UNTOUCHED_WORD,
    prefixes: UNTOUCHED_WORD,
    reserved: UNTOUCHED_WORD,
    operation: UNTOUCHED,
    repeat: UNTOUCHED,
    reach: UNTOUCHED,
    kept: UNTOUCHED,
    written: UNTOUCHED,
    operands: UNTOUCHED,
    reserved_2: [UNTOUCHED; 2],
    operand: [NO_OPERAND; 3],
};
const NO_MODRM: ours::Modrm = ours::Modrm {
    refusal: UNTOUCHED,
    byte: UNTOUCHED,
    taken: UNTOUCHED_WORD,
    register: UNTOUCHED,
    written: UNTOUCHED,
    reserved: [UNTOUCHED; 2],
    operand: NO_OPERAND,
};
/// More room than any line has.
pub const MUCH_ROOM: usize = 128;

/// A decode's record but for near and far, what is kept and the displacement bytes, these by themselves, and the counts of the same
/// decode.
pub fn decode(tally: &mut Tally, reading: u8, bytes: &[u8], at: usize, budget: u8) {
    let rust = reading::decode(reading, bytes, at, budget);
    let question = |call| Question::new(call, reading, bytes, at, Limit::Budget(budget));
    let mut out = NO_RECORD;
    ours::decode(bytes, at, budget, reading, &mut out);
    let told = record::of(&rust);
    let read = record::of_the_rust(out.bytes());
    tally.note(&record::of_the_rust(told), &read, || question("decode"));
    tally.note(
        &told[record::REACH..=record::WRITTEN],
        &[out.reach, out.kept, out.written],
        || question("near or far, kept, and displacement bytes"),
    );
    let step = ours::step(bytes, at, budget, reading);
    let rust = record::step(&rust);
    tally.note(&rust.to_be_bytes(), &step.to_be_bytes(), || {
        question("step")
    });
}

pub fn mrrm(tally: &mut Tally, bytes: &[u8], at: usize) {
    let rust = modrm::read(bytes, at);
    let mut out = NO_MODRM;
    ours::mrrm(bytes, at, &mut out);
    tally.note(&rust, &out.bytes(), || Question::unread("mrrm", bytes, at));
}

/// A decode into the second of three records, and the other two.
pub fn decode_between(tally: &mut Tally, reading: u8, bytes: &[u8]) {
    let rust = record::of(&reading::decode(reading, bytes, 0, USUAL_BUDGET));
    let mut out = [NO_RECORD; 3];
    ours::decode(bytes, 0, USUAL_BUDGET, reading, &mut out[1]);
    let out = out.map(ours::Record::bytes).concat();
    tally.note(&between_untouched(&rust), &out, || {
        Question::new("decode between records", reading, bytes, 0, Limit::None)
    });
}

/// The ModRM reader into the second of three records, and the other two.
pub fn mrrm_between(tally: &mut Tally, bytes: &[u8]) {
    let rust = modrm::read(bytes, 0);
    let mut out = [NO_MODRM; 3];
    ours::mrrm(bytes, 0, &mut out[1]);
    let out = out.map(ours::Modrm::bytes).concat();
    tally.note(&between_untouched(&rust), &out, || {
        Question::unread("mrrm between records", bytes, 0)
    });
}

fn between_untouched(record: &[u8]) -> Vec<u8> {
    let untouched = vec![UNTOUCHED; record.len()];
    [&untouched, record, &untouched].concat()
}

pub fn field_readers(tally: &mut Tally, field: u8) {
    let mut note = |call, rust: u32, ours: u32| {
        tally.note(&rust.to_be_bytes(), &ours.to_be_bytes(), || {
            Question::unread(call, &[field], 0)
        });
    };
    note("register", fields::register(field), ours::register(field));
    note("segment", fields::segment(field), ours::segment(field));
    note(
        "addressing",
        fields::addressing(field),
        ours::addressing(field),
    );
}

pub fn operand_size(tally: &mut Tally, kind: u8, size: u8) {
    let rust = fields::operand_size(kind, size);
    let ours = ours::operand_size(kind, size);
    tally.note(&[rust], &[ours], || {
        Question::unread("operand_size", &[kind, size], 0)
    });
}

/// The bytes behind a lent buffer that no call may change.
const MARGIN: usize = 16;

/// A call into a buffer of `room` bytes: its answer, and behind it the buffer and a margin.
fn called(room: usize, call: impl FnOnce(&mut [u8]) -> u64) -> Vec<u8> {
    let mut whole = vec![UNTOUCHED; 8 + room + MARGIN];
    let answer = call(&mut whole[8..8 + room]);
    whole[..8].copy_from_slice(&answer.to_be_bytes());
    whole
}

/// The line call into a buffer of `room` bytes.
pub fn line(tally: &mut Tally, reading: u8, image: &[u8], at: usize, room: usize) {
    let line = listing::line(reading, image, at);
    line_into(tally, reading, image, at, room, &line);
}

/// The line call into a buffer that is one byte too short, into one of just the line's length, into one with room for every
/// line, and into a larger one.
pub fn line_by_length(tally: &mut Tally, reading: u8, image: &[u8], at: usize) {
    let line = listing::line(reading, image, at);
    let length = line.as_ref().map_or(1, |line| line.text.len());
    for room in [length - 1, length, mrc::LONGEST_LINE, MUCH_ROOM] {
        line_into(tally, reading, image, at, room, &line);
    }
}

fn line_into(tally: &mut Tally, reading: u8, image: &[u8], at: usize, room: usize, line: &Listed) {
    let rust = called(room, |out| write_line(line, out));
    let ours = called(room, |out| ours::line(image, at, reading, out));
    tally.note(&rust, &ours, || {
        Question::new("line", reading, image, at, Limit::Room(room))
    });
}

fn write_line(line: &Listed, out: &mut [u8]) -> u64 {
    match line {
        Ok(line) if line.text.len() <= out.len() => {
            write_front(out, &line.text);
            line.text.len() as u64 + 65_536 * line.taken as u64
        }
        Ok(_) => u64::from(Refusal::NO_ROOM.number) << 32,
        Err(refusal) => u64::from(refusal.number) << 32,
    }
}

/// The page call into a buffer of `room` bytes. Answers the bytes that the page accounts for.
pub fn page(tally: &mut Tally, reading: u8, image: &[u8], at: usize, room: usize) -> usize {
    let page = listing::page(reading, image, at, room);
    let rust = called(room, |out| {
        write_front(out, &page.text);
        page.text.len() as u64 + ((page.taken as u64) << 32)
    });
    let ours = called(room, |out| ours::page(image, at, reading, out));
    tally.note(&rust, &ours, || {
        Question::new("page", reading, image, at, Limit::Room(room))
    });
    page.taken
}

/// Our pages of a whole image, joined, beside its lines.
pub fn pages(tally: &mut Tally, reading: u8, image: &[u8], room: usize) {
    let mut out = vec![UNTOUCHED; room];
    let (mut joined, mut at) = (Vec::new(), 0);
    loop {
        let page = ours::page(image, at, reading, &mut out);
        let (length, taken) = (page as u32 as usize, (page >> 32) as usize);
        joined.extend(&out[..length]);
        at += taken;
        if taken == 0 {
            break;
        }
    }
    let lines = listing::page(reading, image, 0, usize::MAX);
    tally.note(lines.text.as_bytes(), &joined, || {
        Question::new("pages", reading, image, 0, Limit::Room(room))
    });
}

fn write_front(out: &mut [u8], text: &str) {
    out[..text.len()].copy_from_slice(text.as_bytes());
}
