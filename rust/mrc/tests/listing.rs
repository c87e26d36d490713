//! The line call, and the lines of an image.

use mrc::{line, lines, DecodeError, LONGEST_IMAGE, LONGEST_LINE};

const EXAMPLE: [u8; 13] = [
    0x26, 0x8B, 0x47, 0xFE, 0xF3, 0xA4, 0x75, 0xF8, 0x83, 0xC0, 0xFF, 0x60, 0x8B,
];

/// Every byte and every pair of neighbours, in a mixed order.
fn full_image() -> Vec<u8> {
    (0..LONGEST_IMAGE)
        .map(|place| (place.wrapping_mul(40_503) >> 5) as u8)
        .collect()
}

/// All lines of a short image.
fn listing(image: &[u8]) -> String {
    let lines = lines(image).expect("a short image");
    lines.map(|line| line.text).collect()
}

#[test]
fn the_example_of_document_01() {
    assert_eq!(
        listing(&EXAMPLE),
        "0000  26 8B 47 FE            MOV AX, WORD ES:[BX-02]\n\
         0004  F3 A4                  REPE MOVSB\n\
         0006  75 F8                  JNE 0000\n\
         0008  83 C0 FF               ADD AX, 00FF\n\
         000B  60                     DB 60\n\
         000C  8B                     DB 8B\n"
    );
}

#[test]
fn a_return_prints_its_word_wherever_it_stands() {
    for position in [0, 0x100, 0xFFFD] {
        let ends = |bytes: [u8; 3], words: &str| {
            let mut image = vec![0x90; position];
            image.extend(bytes);
            let mut out = [0; LONGEST_LINE];
            let written = line(&image, position, &mut out).expect("a line within the image");
            let expected = format!(
                "{position:04X}  {:02X} {:02X} {:02X}               {words}\n",
                bytes[0], bytes[1], bytes[2]
            );
            assert_eq!(&out[..written.length], expected.as_bytes());
            assert_eq!(written.taken, 3);
        };
        ends([0xC2, 0x04, 0x00], "RET 0004");
        ends([0xC2, 0xFC, 0xFF], "RET FFFC");
        ends([0xC2, 0x00, 0x80], "RET 8000");
        ends([0xCA, 0xFC, 0xFF], "RET FAR FFFC");
        let next = (position + 3) % LONGEST_IMAGE;
        ends([0xE9, 0x00, 0x00], &format!("JMP {next:04X}"));
    }
}

#[test]
fn what_is_far_says_so_behind_its_name() {
    let image = [
        0x9A, 0x78, 0x56, 0x34, 0x12, 0xCA, 0x04, 0x00, 0xCB, 0xC3, 0xFF, 0x1F, 0xFF, 0x17, 0xFE,
        0x1F, 0xF3, 0x26, 0xFF, 0x6E, 0x05,
    ];
    assert_eq!(
        listing(&image),
        "0000  9A 78 56 34 12         CALL FAR 1234:5678\n\
         0005  CA 04 00               RET FAR 0004\n\
         0008  CB                     RET FAR\n\
         0009  C3                     RET\n\
         000A  FF 1F                  CALL FAR WORD DS:[BX]\n\
         000C  FF 17                  CALL WORD DS:[BX]\n\
         000E  FE 1F                  CALL BYTE DS:[BX]\n\
         0010  F3 26 FF 6E 05         REPE JMP FAR WORD ES:[BP+05]\n"
    );
}

#[test]
fn a_displacement_of_zero_is_not_printed() {
    let image = [0x8B, 0x47, 0x00, 0x89, 0x87, 0x00, 0x00, 0xFF, 0x76, 0x00];
    assert_eq!(
        listing(&image),
        "0000  8B 47 00               MOV AX, WORD DS:[BX]\n\
         0003  89 87 00 00            MOV WORD DS:[BX], AX\n\
         0007  FF 76 00               PUSH WORD DS:[BP]\n"
    );
}

#[test]
fn a_line_call_leaves_the_bytes_behind_its_line() {
    let mut out = [0xA5; LONGEST_LINE];
    let written = line(&EXAMPLE, 4, &mut out).expect("a line within the image");
    let expected = b"0004  F3 A4                  REPE MOVSB\n";
    let length = expected.len();
    assert_eq!((written.length, written.taken), (length, 2));
    assert_eq!(&out[..length], expected);
    assert!(out[length..].iter().all(|byte| *byte == 0xA5));
}

#[test]
fn refusals_of_a_line_call_come_in_order_and_write_nothing() {
    let too_long = vec![0x90; LONGEST_IMAGE + 1];
    let refused = |image: &[u8], position, room, refusal| {
        let mut out = vec![0xA5; room];
        assert_eq!(line(image, position, &mut out), Err(refusal));
        assert_eq!(refusal.byte(), 0);
        assert!(out.iter().all(|byte| *byte == 0xA5));
    };
    refused(&too_long, usize::MAX, 0, DecodeError::ImageTooLong);
    refused(&too_long, 0, LONGEST_LINE, DecodeError::ImageTooLong);
    refused(&EXAMPLE, 14, 0, DecodeError::OutsideInput);
    refused(&EXAMPLE, 13, 0, DecodeError::EndOfInput);
    refused(&EXAMPLE, 4, 39, DecodeError::NoRoom);
}

#[test]
fn the_longest_line_has_just_room() {
    let image = [0xF2, 0x26, 0xF7, 0x80, 0x00, 0x80, 0x34, 0x12];
    let text = lines(&image)
        .expect("a short image")
        .next()
        .map(|line| line.text);
    let expected = "0000  F2 26 F7 80 00 80 34   REPNE TEST WORD ES:[BX+SI-8000], 1234\n";
    assert_eq!(text.as_deref(), Some(expected));
    assert!(expected.len() <= LONGEST_LINE);
}

#[test]
fn the_lines_of_a_full_image_account_for_each_byte_once() {
    let image = full_image();
    let mut next = 0;
    for line in lines(&image).expect("an image of full length") {
        assert_eq!(line.start, next);
        assert!(line.text.starts_with(&format!("{next:04X}  ")));
        assert!(line.text.ends_with('\n'));
        next += line.taken;
    }
    assert_eq!(next, image.len());
}

#[test]
fn an_empty_image_has_no_line() {
    assert_eq!(lines(&[]).expect("an empty image").count(), 0);
}

#[test]
fn an_image_that_is_too_long_has_no_lines() {
    let image = vec![0; LONGEST_IMAGE + 1];
    assert_eq!(lines(&image).err(), Some(DecodeError::ImageTooLong));
}
