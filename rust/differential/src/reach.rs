//! How far a call, a jump or a return goes, of which the given Rust says nothing: by the bytes alone, the first behind the prefixes
//! and reg of the one behind it.

use crate::oracle::tail;

pub const NEITHER: u8 = 0;
pub const NEAR: u8 = 1;
pub const FAR: u8 = 2;

/// The code of `enum mrc_reach` for the instruction whose bytes these are.
pub fn of(bytes: &[u8]) -> u8 {
    let reg = |modrm: u8| modrm >> 3 & 7;
    match *tail(bytes) {
        [0x9A | 0xEA | 0xCA | 0xCB, ..] => FAR,
        [0xFF, modrm, ..] if matches!(reg(modrm), 3 | 5) => FAR,
        [0xC2 | 0xC3 | 0xE8 | 0xE9 | 0xEB, ..] => NEAR,
        [0xFE | 0xFF, modrm, ..] if (2..=5).contains(&reg(modrm)) => NEAR,
        _ => NEITHER,
    }
}

#[cfg(test)]
mod tests {
    use super::*;

    #[test]
    fn calls_jumps_and_returns_by_their_bytes() {
        for bytes in [
            [0x9A, 0],
            [0xEA, 0],
            [0xCA, 0],
            [0xCB, 0],
            [0xFF, 0x1F],
            [0xFF, 0xE8],
        ] {
            assert_eq!(of(&bytes), FAR, "{bytes:02X?}");
        }
        for bytes in [
            [0xE8, 0],
            [0xEB, 0],
            [0xC3, 0],
            [0xFF, 0x17],
            [0xFF, 0xE0],
            [0xFE, 0x1F],
        ] {
            assert_eq!(of(&bytes), NEAR, "{bytes:02X?}");
        }
        for bytes in [
            [0xCF, 0],
            [0x75, 0],
            [0xE3, 0],
            [0xCD, 0],
            [0xFE, 0xC8],
            [0xFF, 0x37],
        ] {
            assert_eq!(of(&bytes), NEITHER, "{bytes:02X?}");
        }
        assert_eq!(of(&[0xF3, 0x26, 0xFF, 0x1F]), FAR);
    }

    #[test]
    fn how_many_first_bytes_and_regs_are_far_and_near() {
        let counted = |reach| {
            let regs = |opcode| (0..8).map(move |reg| [opcode, reg << 3]);
            let found: Vec<_> = (0..=255)
                .flat_map(regs)
                .filter(|bytes| of(bytes) == reach)
                .collect();
            found.len()
        };
        assert_eq!(counted(FAR), 4 * 8 + 2);
        assert_eq!(counted(NEAR), 5 * 8 + 2 + 4);
    }
}
