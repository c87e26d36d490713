//! A record, field by field: what each accessor answers of an instruction with each number of operands, and of a refusal.

use mrc::{
    boundary, decode_at, record_at, Address, AddressingMode, DecodeError, Displacement, Operand,
    OperandSize, Operation, Reach, RegisterEncoding, Repeat, Segment, SizedRegisterEncoding,
};
use std::mem::{align_of, size_of};

const AX: Operand = Operand::Register(SizedRegisterEncoding(
    RegisterEncoding::AlAx,
    OperandSize::Word,
));
const MEMORY: Operand = Operand::Indirect(
    Segment::ES,
    AddressingMode::Bx,
    Displacement::Byte(-2),
    OperandSize::Word,
);

#[test]
fn a_record_is_five_machine_words_and_a_modrm_two() {
    assert_eq!(size_of::<boundary::Record>(), 40);
    assert_eq!(align_of::<boundary::Record>(), 8);
    assert_eq!(size_of::<boundary::Modrm>(), 16);
    assert_eq!(align_of::<boundary::Modrm>(), 8);
}

#[test]
fn destination_and_source_are_not_exchanged() {
    let load = record_at(&[0x26, 0x8B, 0x47, 0xFE], 0, 15);
    assert_eq!(
        (load.destination(), load.source()),
        (Some(AX), Some(MEMORY))
    );
    let store = record_at(&[0x26, 0x89, 0x47, 0xFE], 0, 15);
    assert_eq!(
        (store.destination(), store.source()),
        (Some(MEMORY), Some(AX))
    );
    for record in [load, store] {
        assert_eq!(record.refusal(), None);
        assert_eq!((record.taken(), record.prefixes()), (4, 1));
        assert_eq!(record.operation(), Some(Operation::MOV));
        assert_eq!((record.operands(), record.repeat()), (2, None));
    }
}

#[test]
fn a_far_address_is_the_destination() {
    let record = record_at(&[0x9A, 0x34, 0x12, 0x78, 0x56], 0, 15);
    let far = Operand::SegmentAndOffset(Address::new(0x5678, 0x1234));
    assert_eq!(record.operation(), Some(Operation::CALL));
    assert_eq!(record.reach(), Reach::Far);
    assert_eq!(record.operands(), 1);
    assert_eq!((record.destination(), record.source()), (Some(far), None));
}

#[test]
fn near_far_and_neither() {
    let reaches = |reach, strings: &[&[u8]]| {
        for bytes in strings {
            let record = record_at(bytes, 0, 15);
            assert_eq!(record.refusal(), None, "{bytes:X?}");
            assert_eq!(record.reach(), reach, "{bytes:X?}");
            let instruction = record.result().expect("an instruction");
            assert_eq!(instruction.reach, reach, "{bytes:X?}");
        }
    };
    reaches(
        Reach::Far,
        &[
            &[0x9A, 0, 0, 0, 0],
            &[0xEA, 0, 0, 0, 0],
            &[0xCA, 4, 0],
            &[0xCB],
            &[0xFF, 0x1F],
            &[0xFF, 0x2F],
            &[0x26, 0xFF, 0x1F],
            &[0xF3, 0x2E, 0xFF, 0x2F],
        ],
    );
    reaches(
        Reach::Near,
        &[
            &[0xE8, 0, 0],
            &[0xE9, 0, 0],
            &[0xEB, 0],
            &[0xC2, 4, 0],
            &[0xC3],
            &[0xFF, 0x17],
            &[0xFF, 0x27],
            &[0xFE, 0x17],
            &[0xFE, 0x1F],
            &[0xFE, 0x27],
            &[0xFE, 0x2F],
            &[0x26, 0xFE, 0x1F],
        ],
    );
    reaches(
        Reach::Neither,
        &[
            &[0x90],
            &[0xCF],
            &[0x74, 0],
            &[0xE2, 0],
            &[0xCD, 0x21],
            &[0xFF, 0x07],
            &[0xFF, 0x37],
            &[0xFE, 0x37],
        ],
    );
    let names = [Reach::Neither, Reach::Near, Reach::Far].map(|reach| reach.to_string());
    assert_eq!(names, ["neither", "near", "far"]);
}

#[test]
fn a_repeated_instruction_without_operands() {
    for (prefix, repeat) in [(0xF3, Repeat::Equal), (0xF2, Repeat::NotEqual)] {
        let record = record_at(&[prefix, 0xA4], 0, 15);
        assert_eq!(record.operation(), Some(Operation::MOVSB));
        assert_eq!(record.repeat(), Some(repeat));
        assert_eq!(record.operands(), 0);
        assert_eq!((record.destination(), record.source()), (None, None));
    }
}

#[test]
fn a_refusal_has_its_byte_and_counts_and_nothing_else() {
    let record = record_at(&[0xF3, 0xF2, 0x90], 0, 1);
    let refusal = DecodeError::TooManyPrefixes(0xF2);
    assert_eq!(record.refusal(), Some(refusal));
    assert_eq!(record.result(), Err(refusal));
    assert_eq!((record.taken(), record.prefixes()), (2, 2));
    assert_eq!((record.operation(), record.repeat()), (None, None));
    assert_eq!((record.reach(), record.kept()), (Reach::Neither, None));
    assert_eq!((record.written(), record.operands()), (0, 0));
    assert_eq!((record.destination(), record.source()), (None, None));
}

#[test]
fn a_record_and_an_answer_agree_on_every_first_two_bytes() {
    for first in 0..=255 {
        for second in 0..=255 {
            let bytes = [first, second, 0x34, 0x92, 0x78, 0xF6];
            let (record, answer) = (record_at(&bytes, 0, 15), decode_at(&bytes, 0, 15));
            assert_eq!(record.result(), answer.result);
            assert_eq!(record.refusal(), answer.result.err());
            let operation = answer.result.ok().map(|read| read.operation);
            assert_eq!(record.operation(), operation);
            let written = answer.result.map_or(0, |read| read.written);
            assert_eq!(record.written(), written);
            assert_eq!(
                (record.taken(), record.prefixes()),
                (answer.taken, answer.prefixes)
            );
        }
    }
}
