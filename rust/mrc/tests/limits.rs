//! Inputs at the ends of what can be asked: nothing lent, lengths beyond 2^32, and the largest positions.

use mrc::{
    boundary, decode_at, line, page, read_mrrm, record_at, DecodeError, Operation, LONGEST_LINE,
};
use std::alloc::{alloc_zeroed, Layout};

/// Taken modulo 2^32 it has no room for a line.
const OVER_FOUR_GIB: usize = (1 << 32) + 5;

/// That many zeros, of which only those that are touched need memory; none where the system gives no such range.
fn over_four_gib() -> Option<Vec<u8>> {
    let layout = Layout::array::<u8>(OVER_FOUR_GIB).expect("a length within isize");
    // SAFETY: the layout has a size that is not 0.
    let start = unsafe { alloc_zeroed(layout) };
    if start.is_null() {
        eprintln!("not tested: the system gives no {OVER_FOUR_GIB} bytes");
        return None;
    }
    // SAFETY: the global allocator gave these bytes with the layout of a Vec of this capacity, and they are 0.
    Some(unsafe { Vec::from_raw_parts(start, OVER_FOUR_GIB, OVER_FOUR_GIB) })
}

#[test]
fn nothing_lent() {
    assert_eq!(
        record_at(&[], 0, 255).refusal(),
        Some(DecodeError::EndOfInput)
    );
    let refusal = DecodeError::CouldNotReadExtraBytes;
    assert_eq!(read_mrrm(&[], 0).result, Err(refusal));
    assert_eq!(boundary::step(&[], 0, 255, 1), 1 << 32);
    assert_eq!(boundary::step(&[], 1, 255, 1), 11 << 32);
    assert_eq!(line(&[], 0, &mut []), Err(DecodeError::EndOfInput));
    assert_eq!(line(&[], 1, &mut []), Err(DecodeError::OutsideInput));
    assert_eq!(line(&[0x90], 0, &mut []), Err(DecodeError::NoRoom));
    assert_eq!(boundary::page(&[], 0, 1, &mut []), 0);
    assert_eq!(boundary::page(&[0x90], 0, 1, &mut []), 0);
}

#[test]
fn the_largest_positions() {
    let beyond = [1 << 31, 1 << 32, isize::MAX as usize, usize::MAX - 1];
    for position in beyond.into_iter().chain([usize::MAX]) {
        is_outside(&[0x90; 4], position);
    }
}

fn is_outside(bytes: &[u8], position: usize) {
    let refusal = DecodeError::OutsideInput;
    let answer = decode_at(bytes, position, 15);
    assert_eq!(answer.result, Err(refusal), "{position}");
    assert_eq!((answer.taken, answer.prefixes), (0, 0), "{position}");
    let answer = read_mrrm(bytes, position);
    assert_eq!((answer.result, answer.taken), (Err(refusal), 0));
    assert_eq!(boundary::step(bytes, position, 15, 1), 11 << 32);
    let mut out = [0xA5; LONGEST_LINE];
    assert_eq!(line(bytes, position, &mut out), Err(refusal));
    assert_eq!(boundary::page(bytes, position, 1, &mut out), 0);
    assert_eq!(out, [0xA5; LONGEST_LINE]);
}

#[test]
fn an_input_of_more_than_four_gib() {
    if let Some(mut bytes) = over_four_gib() {
        let last = bytes.len() - 2;
        bytes[last..].copy_from_slice(&[0xF3, 0xA4]);
        reads_its_last_instruction(&bytes, last);
        is_too_long(&bytes);
    }
}

fn reads_its_last_instruction(bytes: &[u8], last: usize) {
    let answer = decode_at(bytes, last, 15);
    let operation = answer.result.map(|read| read.operation);
    assert_eq!(operation, Ok(Operation::MOVSB));
    assert_eq!((answer.taken, answer.prefixes), (2, 1));
    assert_eq!(boundary::step(bytes, last, 15, 1), 2 + (1 << 16));
    let refused = |position| decode_at(bytes, position, 15).result;
    assert_eq!(refused(last + 2), Err(DecodeError::EndOfInput));
    assert_eq!(refused(last + 3), Err(DecodeError::OutsideInput));
    let mrrm = read_mrrm(bytes, last + 1);
    assert_eq!(mrrm.result, Err(DecodeError::CouldNotReadExtraBytes));
    assert_eq!(mrrm.taken, 1);
}

fn is_too_long(image: &[u8]) {
    for position in [0, 1 << 32, usize::MAX] {
        let mut out = [0xA5; LONGEST_LINE];
        let answer = line(image, position, &mut out);
        assert_eq!(answer, Err(DecodeError::ImageTooLong));
        assert_eq!(boundary::page(image, position, 1, &mut out), 0);
        assert_eq!(out, [0xA5; LONGEST_LINE]);
    }
}

#[test]
fn a_buffer_of_more_than_four_gib() {
    if let Some(mut out) = over_four_gib() {
        let written = line(&[0x90], 0, &mut out).expect("a line with much room");
        let expected = b"0000  90                     NOP\n";
        assert_eq!(&out[..written.length], expected);
        assert!(out[written.length..4096].iter().all(|byte| *byte == 0));
        let page = page(&[0x90, 0x90], 0, &mut out);
        assert_eq!((page.length, page.taken), (2 * expected.len(), 2));
    }
}
