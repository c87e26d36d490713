//! What lines print, for the tests that hold the readings to each other.

use mrc::{Reading, LONGEST_LINE};

pub const BOTH: [Reading; 2] = [Reading::One, Reading::Two];

/// What the first line of some bytes has behind the byte field.
pub fn words(reading: Reading, bytes: &[u8]) -> String {
    let mut out = [0; LONGEST_LINE];
    let written = reading.line(bytes, 0, &mut out).expect("a line");
    String::from_utf8_lossy(&out[29..written.length - 1]).into_owned()
}

/// The first line of some bytes, in each reading.
pub fn list(bytes: &[u8], first: &str, second: &str) {
    assert_eq!(words(Reading::One, bytes), first, "{bytes:02X?}");
    assert_eq!(words(Reading::Two, bytes), second, "{bytes:02X?}");
}
