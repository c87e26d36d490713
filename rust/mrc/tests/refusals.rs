//! Each refusal by its number and in its words.

use mrc::DecodeError::{self, *};

const REFUSALS: [(DecodeError, &str); 13] = [
    (EndOfInput, "End of input reached"),
    (
        CouldNotReadExtraBytes,
        "Could not fetch extra bytes from stream",
    ),
    (
        InvalidDataSizeEncoding(3),
        "Could not determine data size from encoding (0x03)",
    ),
    (
        InvalidIndirectMemoryEncoding(9),
        "Invalid indirect memory encoding (    0b1001)",
    ),
    (
        InvalidModRegRMEncoding(0x48),
        "Invalid mod reg R/M encoding (0x48)",
    ),
    (InvalidOpCode(0x6F), "Invalid op code (0x6f)"),
    (
        InvalidRegisterEncoding(8),
        "Invalid register encoding (    0b1000)",
    ),
    (
        InvalidSegmentEncoding(4),
        "Invalid segment encoding (     0b100)",
    ),
    (
        InvalidPrefix(0x26),
        "A prefix was found, but followed by an invalid instruction (0x26)",
    ),
    (
        TooManyPrefixes(0xF3),
        "More prefixes were found than the budget allows (0xf3)",
    ),
    (OutsideInput, "Position is beyond the end of input"),
    (NoRoom, "Could not fit the line into the buffer"),
    (ImageTooLong, "Image is longer than 65536 bytes"),
];

#[test]
fn each_has_its_words() {
    for (refusal, words) in REFUSALS {
        assert_eq!(refusal.to_string(), words);
    }
}

#[test]
fn they_are_numbered_from_1() {
    for ((refusal, _), number) in REFUSALS.into_iter().zip(1..) {
        assert_eq!(refusal.number(), number);
    }
}

#[test]
fn each_carries_its_byte_or_0() {
    let bytes = REFUSALS.map(|(refusal, _)| refusal.byte());
    assert_eq!(bytes, [0, 0, 3, 9, 0x48, 0x6F, 8, 4, 0x26, 0xF3, 0, 0, 0]);
}

#[test]
fn a_refusal_is_an_error_of_rust() {
    let boxed: Box<dyn std::error::Error> = Box::new(EndOfInput);
    assert_eq!(boxed.to_string(), "End of input reached");
    let from_reading = DecodeError::from(std::io::Error::from(std::io::ErrorKind::NotFound));
    assert_eq!(from_reading, CouldNotReadExtraBytes);
}
