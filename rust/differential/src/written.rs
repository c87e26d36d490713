//! How many displacement bytes were written behind a ModRM, of which the given Rust says nothing: by the bytes alone, the first behind
//! the prefixes, and mod and rm of the one behind it.

use crate::oracle::tail;
use crate::reading::MANUAL;

/// The displacement bytes of the instruction whose bytes these are, in a reading: 0, 1 or 2.
pub fn of(reading: u8, bytes: &[u8]) -> u8 {
    match *tail(bytes) {
        [opcode, modrm, ..] if has_modrm(reading, opcode) => behind(modrm),
        _ => 0,
    }
}

/// Whether the byte behind an opcode is a ModRM: that of ESC in the manual's reading alone.
fn has_modrm(reading: u8, opcode: u8) -> bool {
    match opcode {
        0x00..=0x3F => opcode & 7 < 4,
        0x80..=0x8F | 0xC0 | 0xC1 | 0xC4..=0xC7 | 0xD0..=0xD3 => true,
        0xD8..=0xDF => reading == MANUAL,
        0xF6 | 0xF7 | 0xFE | 0xFF => true,
        _ => false,
    }
}

/// How many displacement bytes mod and rm call for.
pub fn behind(modrm: u8) -> u8 {
    let (mode, rm) = (modrm >> 6, modrm & 7);
    match (mode, rm) {
        (0, 6) => 2,
        (1 | 2, _) => mode,
        _ => 0,
    }
}

#[cfg(test)]
mod tests {
    use super::*;
    use crate::oracle::USUAL_BUDGET;
    use crate::reading::{self, GIVEN};

    #[test]
    fn displacements_by_their_bytes() {
        for (bytes, written) in [
            (&[0x8B, 0x07][..], 0),
            (&[0x8B, 0xC0], 0),
            (&[0x8B, 0x47, 0x00], 1),
            (&[0x8B, 0x46, 0x02], 1),
            (&[0x8B, 0x87, 0x00, 0x00], 2),
            (&[0x8B, 0x06, 0x34, 0x12], 2),
            (&[0xF3, 0x26, 0x81, 0x47, 0x00, 0x34, 0x12], 1),
            (&[0xA1, 0x34, 0x12], 0),
            (&[0xB8, 0x47, 0x00], 0),
            (&[0xEB, 0x47], 0),
            (&[0x90], 0),
        ] {
            assert_eq!(of(GIVEN, bytes), written, "{bytes:02X?}");
            assert_eq!(of(MANUAL, bytes), written, "{bytes:02X?}");
        }
    }

    #[test]
    fn esc_has_a_modrm_in_the_second_reading() {
        for opcode in 0xD8..=0xDF {
            assert_eq!(of(GIVEN, &[opcode, 0x47, 0x00]), 0);
            assert_eq!(of(MANUAL, &[opcode, 0x47, 0x00]), 1);
        }
    }

    /// With the ModRM of a register, and with one that has a word behind it.
    #[test]
    fn what_has_a_modrm_takes_as_many_bytes_more() {
        for reading in [GIVEN, MANUAL] {
            for opcode in 0..=255 {
                let read = |modrm| {
                    let bytes = [opcode, modrm, 0, 0, 0, 0];
                    reading::decode(reading, &bytes, 0, USUAL_BUDGET)
                };
                let (register, memory) = (read(0xC0), read(0x80));
                if register.result.is_ok() && memory.result.is_ok() {
                    let more = memory.taken - register.taken;
                    assert_eq!(usize::from(memory.written), more, "{opcode:02X}");
                    assert_eq!(register.written, 0, "{opcode:02X}");
                }
            }
        }
    }
}
