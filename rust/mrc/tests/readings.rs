//! What the two readings answer differently, each beside the other, and what they share.

mod printed;

use mrc::{
    boundary, AddressingMode, DecodeError, Displacement, Immediate, Instruction, Operand,
    OperandSet, OperandSize, Operation, Reach, Reading, RegisterEncoding, Repeat, Result, Segment,
    SizedRegisterEncoding, LONGEST_IMAGE, LONGEST_LINE,
};
use printed::{list, words, BOTH};

fn second(bytes: &[u8]) -> Result<Instruction> {
    Reading::Two.decode_at(bytes, 0, 15).result
}

fn counts(reading: Reading, bytes: &[u8]) -> (usize, usize) {
    let answer = reading.decode_at(bytes, 0, 15);
    (answer.taken, answer.prefixes)
}

#[test]
fn a_byte_of_83_extends_its_sign_in_each_operation() {
    let names = ["ADD", "OR", "ADC", "SBB", "AND", "SUB", "XOR", "CMP"];
    for (reg, name) in (0..).zip(names) {
        for (byte, extended) in [
            (0x00, 0x0000),
            (0x7F, 0x007F),
            (0x80, 0xFF80),
            (0xFF, 0xFFFF),
        ] {
            let first = format!("{name} AX, {byte:04X}");
            list(
                &[0x83, 0xC0 + 8 * reg, byte],
                &first,
                &format!("{name} AX, {extended:04X}"),
            );
        }
    }
}

#[test]
fn memory_through_bp_is_in_the_stack_segment() {
    for (rm, mode) in [(2, "BP+SI"), (3, "BP+DI"), (6, "BP")] {
        for (opcode, front) in [(0x8B, "MOV"), (0x8D, "LEA"), (0xC4, "LES"), (0xC5, "LDS")] {
            let text = |segment| format!("{front} AX, WORD {segment}:[{mode}+02]");
            list(&[opcode, 0x40 + rm, 0x02], &text("DS"), &text("SS"));
            list(&[0x3E, opcode, 0x40 + rm, 0x02], &text("DS"), &text("DS"));
            list(
                &[0x26, 0x36, opcode, 0x40 + rm, 0x02],
                &text("ES"),
                &text("ES"),
            );
        }
    }
    list(
        &[0x88, 0x02],
        "MOV BYTE DS:[BP+SI], AL",
        "MOV BYTE SS:[BP+SI], AL",
    );
    for bytes in [
        &[0x8B, 0x06, 0x34, 0x12][..],
        &[0x8B, 0x47, 0x02],
        &[0xA1, 0x34, 0x12],
    ] {
        assert_eq!(words(Reading::One, bytes), words(Reading::Two, bytes));
    }
}

#[test]
fn d2_and_d3_count_in_cl() {
    list(&[0xD3, 0xE0], "SHL AX, CX", "SHL AX, CL");
    list(&[0xD2, 0xE0], "SHL AL, CL", "SHL AL, CL");
    list(
        &[0xD3, 0x6F, 0xFE],
        "SHR WORD DS:[BX-02], CX",
        "SHR WORD DS:[BX-02], CL",
    );
    list(&[0xD1, 0xE0], "SHL AX, 01", "SHL AX, 01");
}

#[test]
fn c2_has_an_immediate() {
    let returned = |operand| {
        let operands = OperandSet::Destination(operand);
        Ok(Instruction::new(Operation::RET, operands).reaching(Reach::Near))
    };
    let bytes = [0xC2, 0xFC, 0xFF];
    let displacement = Operand::Displacement(Displacement::Word(-4));
    assert_eq!(
        Reading::One.decode_at(&bytes, 0, 15).result,
        returned(displacement)
    );
    assert_eq!(
        second(&bytes),
        returned(Operand::Immediate(Immediate::Word(0xFFFC)))
    );
    list(&bytes, "RET FFFC", "RET FFFC");
    list(&[0xCA, 0xFC, 0xFF], "RET FAR FFFC", "RET FAR FFFC");
}

#[test]
fn esc_has_the_operand_of_its_whole_modrm() {
    for opcode in 0xD8..=0xDF {
        let bytes = [opcode, 0x46, 0xFE, 0x90, 0x90];
        list(&bytes, "ESC", "ESC WORD SS:[BP-02]");
        assert_eq!(counts(Reading::One, &bytes), (2, 0));
        assert_eq!(counts(Reading::Two, &bytes), (3, 0));
        assert_eq!(
            second(&bytes[..2]),
            Err(DecodeError::CouldNotReadExtraBytes)
        );
    }
    list(&[0xD8, 0x3E, 0x34, 0x12], "ESC", "ESC WORD DS:[1234]");
    list(&[0xDF, 0xE0], "ESC", "ESC AX");
    list(&[0x26, 0xD9, 0x07], "DB 26", "ESC WORD ES:[BX]");
    list(&[0x26, 0xDF, 0xE0], "DB 26", "ESC AX");
    assert_eq!(second(&[0x26, 0xDF]), Err(DecodeError::InvalidPrefix(0x26)));
    let place = Operand::Indirect(
        Segment::SS,
        AddressingMode::Bp,
        Displacement::Byte(-2),
        OperandSize::Word,
    );
    let esc = Instruction::new(Operation::ESC, OperandSet::Destination(place));
    assert_eq!(second(&[0xDB, 0x6E, 0xFE]), Ok(esc.writing(1)));
    let ax = SizedRegisterEncoding(RegisterEncoding::AlAx, OperandSize::Word);
    let esc = Instruction::new(Operation::ESC, OperandSet::Destination(ax.into()));
    assert_eq!(second(&[0xDF, 0xE0]), Ok(esc));
}

#[test]
fn an_override_is_kept_by_what_has_no_operand_for_it() {
    let names = [
        "MOVSB", "MOVSW", "CMPSB", "CMPSW", "LODSB", "LODSW", "XLATB",
    ];
    let opcodes = [0xA4, 0xA5, 0xA6, 0xA7, 0xAC, 0xAD, 0xD7];
    let segments = [(0x26, "ES"), (0x2E, "CS"), (0x36, "SS"), (0x3E, "DS")];
    for (opcode, name) in opcodes.into_iter().zip(names) {
        for (prefix, segment) in segments {
            let refused = format!("DB {prefix:02X}");
            list(&[prefix, opcode], &refused, &format!("{segment}: {name}"));
            list(
                &[prefix, 0x26, opcode],
                &refused,
                &format!("{segment}: {name}"),
            );
            list(
                &[0xF3, prefix, opcode],
                "DB F3",
                &format!("REPE {segment}: {name}"),
            );
            list(
                &[prefix, 0xF2, opcode],
                &refused,
                &format!("REPNE {segment}: {name}"),
            );
        }
        list(&[opcode], name, name);
        list(
            &[0xF3, opcode],
            &format!("REPE {name}"),
            &format!("REPE {name}"),
        );
    }
}

#[test]
fn the_lines_of_a_kept_override() {
    let text = |bytes: &[u8]| {
        let mut lines = Reading::Two.lines(bytes).expect("a short image");
        lines.next().map(|line| line.text)
    };
    let line = "0000  26 A4                  ES: MOVSB\n";
    assert_eq!(text(&[0x26, 0xA4]).as_deref(), Some(line));
    let line = "0000  F3 26 A4               REPE ES: MOVSB\n";
    assert_eq!(text(&[0xF3, 0x26, 0xA4]).as_deref(), Some(line));
}

#[test]
fn an_override_of_ds_differs_from_none() {
    let kept = |bytes: &[u8]| {
        let record = Reading::Two.record_at(bytes, 0, 15);
        let instruction = record.result().expect("an instruction");
        assert_eq!(record.kept(), instruction.kept);
        record.kept()
    };
    assert_eq!(kept(&[0xA4]), None);
    assert_eq!(kept(&[0x3E, 0xA4]), Some(Segment::DS));
    assert_eq!(kept(&[0x2E, 0x3E, 0xF3, 0xA4]), Some(Segment::CS));
    assert_eq!(kept(&[0x26, 0x8B, 0x07]), None);
    let movsb = Instruction::with_repeat(Repeat::Equal, Operation::MOVSB, OperandSet::None);
    assert_eq!(movsb.kept, None);
    let movsb = movsb.keeping(Some(Segment::ES));
    assert_eq!(second(&[0x26, 0xF3, 0xA4]), Ok(movsb));
    assert_eq!(counts(Reading::Two, &[0x26, 0xF3, 0xA4]), (3, 2));
}

#[test]
fn other_operations_without_operands_keep_no_override() {
    for opcode in [
        0x27, 0x60, 0x90, 0x98, 0x9B, 0xAA, 0xAB, 0xAE, 0xAF, 0xC3, 0xCB, 0xCF, 0xD6, 0xF0, 0xF4,
    ] {
        for reading in BOTH {
            let answer = reading.decode_at(&[0xF3, 0x2E, opcode], 0, 15);
            assert_eq!(
                answer.result,
                Err(DecodeError::InvalidPrefix(0x2E)),
                "{opcode:02X}"
            );
            assert_eq!((answer.taken, answer.prefixes), (3, 2), "{opcode:02X}");
        }
    }
}

/// An image in which every byte comes before every other.
fn image() -> Vec<u8> {
    (0..LONGEST_IMAGE)
        .map(|place| (place.wrapping_mul(40_503) >> 5) as u8)
        .collect()
}

#[test]
fn the_free_functions_read_as_the_first() {
    assert_eq!(Reading::default(), Reading::One);
    let image = image();
    for at in (0..image.len()).step_by(7) {
        assert_eq!(
            mrc::record_at(&image, at, 15),
            Reading::One.record_at(&image, at, 15)
        );
        assert_eq!(mrc::record_at(&image, at, 15).kept(), None);
        let (mut ours, mut first) = ([0; LONGEST_LINE], [0; LONGEST_LINE]);
        let written = mrc::line(&image, at, &mut ours);
        assert_eq!(written, Reading::One.line(&image, at, &mut first));
        assert_eq!(ours, first);
    }
}

#[test]
fn each_reading_lists_the_same_line_by_line_and_page_by_page() {
    let image = image();
    for reading in BOTH {
        let lines = reading.lines(&image).expect("an image of full length");
        let listing: String = lines.map(|line| line.text).collect();
        let mut out = vec![0; listing.len()];
        let page = reading.page(&image, 0, &mut out);
        assert_eq!((page.length, page.taken), (listing.len(), image.len()));
        assert!(out == listing.as_bytes());
    }
}

#[test]
fn each_reading_takes_the_same_from_an_iterator_as_from_a_slice() {
    let image = image();
    for reading in BOTH {
        let mut at = 0;
        while at < image.len() {
            let mut bytes = image[at..].iter().copied();
            let result = reading.decode_instruction(&mut bytes);
            let answer = reading.decode_at(&image, at, mrc::LARGEST_BUDGET);
            assert_eq!(result, answer.result, "{at}");
            assert_eq!(image.len() - at - bytes.len(), answer.taken, "{at}");
            at += answer.taken;
        }
    }
}

#[test]
fn every_number_but_2_is_the_first_reading() {
    let bytes = [0x83, 0xC0, 0xFF];
    for number in 0..=255 {
        let source = if number == 2 { 0xFFFF } else { 0x00FF };
        let mut record = boundary::Record::default();
        boundary::decode(&bytes, 0, 15, number, &mut record);
        assert_eq!(record.operand[1].value, source, "{number}");
        let esc = boundary::step(&[0xD8, 0x46, 0xFE], 0, 15, number);
        assert_eq!(esc, if number == 2 { 3 } else { 2 }, "{number}");
        let mut out = [0; LONGEST_LINE];
        let text = format!("0000  83 C0 FF               ADD AX, {source:04X}\n");
        let line = boundary::line(&bytes, 0, number, &mut out);
        assert_eq!(line, text.len() as u64 + 3 * 65_536, "{number}");
        assert_eq!(&out[..text.len()], text.as_bytes(), "{number}");
        let mut out = [0; LONGEST_LINE];
        let page = boundary::page(&bytes, 0, number, &mut out);
        assert_eq!(page, text.len() as u64 + (3 << 32), "{number}");
        assert_eq!(&out[..text.len()], text.as_bytes(), "{number}");
    }
}
