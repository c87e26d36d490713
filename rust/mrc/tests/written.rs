//! The displacement bytes that were written: how many, and what a line of the second reading prints of them.

mod printed;

use mrc::{record_at, Reading};
use printed::{list, words, BOTH};

#[test]
fn how_many_displacement_bytes_were_written() {
    for (bytes, written) in [
        (&[0x8B, 0x07][..], 0),
        (&[0x8B, 0x47, 0x00], 1),
        (&[0x8B, 0x47, 0xFE], 1),
        (&[0x8B, 0x87, 0x00, 0x00], 2),
        (&[0x8B, 0x87, 0x34, 0x12], 2),
        (&[0x8B, 0x06, 0x34, 0x12], 2),
        (&[0x8B, 0xC3], 0),
        (&[0x26, 0x8B, 0x47, 0x00], 1),
        (&[0xF3, 0x26, 0xFF, 0xA7, 0x00, 0x00], 2),
        (&[0x81, 0x47, 0x00, 0x34, 0x12], 1),
        (&[0xC6, 0x87, 0x00, 0x00, 0x34], 2),
        (&[0xF6, 0x47, 0x00, 0x34], 1),
        (&[0xF6, 0x5F, 0x00], 1),
        (&[0x90], 0),
        (&[0xA1, 0x34, 0x12], 0),
        (&[0xB8, 0x00, 0x00], 0),
        (&[0xEB, 0x00], 0),
        (&[0xD8, 0x47], 0),
    ] {
        let record = record_at(bytes, 0, 15);
        assert_eq!(record.taken(), bytes.len(), "{bytes:02X?}");
        assert_eq!(record.written(), written, "{bytes:02X?}");
        let instruction = record.result().expect("an instruction");
        assert_eq!(instruction.written, written, "{bytes:02X?}");
        assert_eq!(instruction.writing(written), instruction, "{bytes:02X?}");
    }
}

#[test]
fn a_displacement_of_zero_is_the_operand_that_none_is() {
    let source = |bytes: &[u8]| record_at(bytes, 0, 15).source();
    let none = source(&[0x8B, 0x07]);
    assert_eq!(source(&[0x8B, 0x47, 0x00]), none);
    assert_eq!(source(&[0x8B, 0x87, 0x00, 0x00]), none);
}

#[test]
fn a_refusal_behind_a_displacement_has_none_written() {
    for bytes in [
        &[0x8F, 0x48, 0x00][..],
        &[0xF6, 0x48, 0x00],
        &[0x8E, 0x60, 0x00],
        &[0x81, 0x40, 0x00, 0x34],
    ] {
        let record = record_at(bytes, 0, 15);
        assert!(record.refusal().is_some(), "{bytes:02X?}");
        assert_eq!(
            (record.taken(), record.written()),
            (bytes.len(), 0),
            "{bytes:02X?}"
        );
    }
}

#[test]
fn both_readings_tell_the_displacement_bytes_but_of_esc() {
    let written = |reading: Reading, bytes: &[u8]| reading.record_at(bytes, 0, 15).written();
    for first in 0..=255 {
        for second in 0..=255 {
            let bytes = [first, second, 0, 0, 0, 0];
            let both = BOTH.map(|reading| written(reading, &bytes));
            if matches!(first, 0xD8..=0xDF) {
                let modrm = mrc::read_mrrm(&bytes, 1);
                assert_eq!(both, [0, modrm.written], "{bytes:02X?}");
            } else {
                assert_eq!(both[0], both[1], "{bytes:02X?}");
            }
        }
    }
    assert_eq!(written(Reading::Two, &[0x26, 0xA4]), 0);
}

#[test]
fn a_displacement_of_zero_is_printed_as_it_was_written() {
    let modes = [
        ("DS", "BX+SI"),
        ("DS", "BX+DI"),
        ("SS", "BP+SI"),
        ("SS", "BP+DI"),
        ("DS", "SI"),
        ("DS", "DI"),
        ("SS", "BP"),
        ("DS", "BX"),
    ];
    for (rm, (segment, mode)) in (0..).zip(modes) {
        let first = format!("NEG BYTE DS:[{mode}]");
        let second = |digits| format!("NEG BYTE {segment}:[{mode}+{digits}]");
        list(&[0xF6, 0x58 + rm, 0x00], &first, &second("00"));
        list(&[0xF6, 0x98 + rm, 0x00, 0x00], &first, &second("0000"));
    }
    list(
        &[0x8B, 0x47, 0x00],
        "MOV AX, WORD DS:[BX]",
        "MOV AX, WORD DS:[BX+00]",
    );
    list(
        &[0x26, 0x89, 0x87, 0x00, 0x00],
        "MOV WORD ES:[BX], AX",
        "MOV WORD ES:[BX+0000], AX",
    );
    list(
        &[0xF3, 0xFF, 0x6F, 0x00],
        "REPE JMP FAR WORD DS:[BX]",
        "REPE JMP FAR WORD DS:[BX+00]",
    );
    list(&[0xD9, 0x47, 0x00], "ESC", "ESC WORD DS:[BX+00]");
    for bytes in [
        &[0x8B, 0x07][..],
        &[0x8B, 0x06, 0x00, 0x00],
        &[0x8B, 0x47, 0x01],
        &[0x8B, 0x87, 0x01, 0x00],
        &[0xA1, 0x00, 0x00],
        &[0xEB, 0x00],
        &[0x81, 0x07, 0x00, 0x00],
    ] {
        assert_eq!(words(Reading::One, bytes), words(Reading::Two, bytes));
    }
}
