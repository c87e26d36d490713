//! The ModRM reader's answer as the sixteen bytes that `mrc_mrrm` writes, words low byte first.
//!
//! | bytes | hold |
//! |---|---|
//! | 0 | 0, else the refusal's number |
//! | 1 | the ModRM byte, or the refusal's byte |
//! | 2, 3 | bytes taken |
//! | 4 | the register |
//! | 5 | the displacement bytes written, by what mod and rm name |
//! | 8 | 1 Direct, 2 Indirect, 3 DisplacementByte, 4 DisplacementWord, 5 Register |
//! | 9 | the register that mod and rm name |
//! | 10 | the addressing mode |
//! | 12, 13 | offset or displacement |
//!
//! The others are 0, and so are bytes 4 to 15 of a refusal.

use crate::counted::Counted;
use crate::refusal::Refusal;
use mrc_decoder::{ModRegRM, RegisterOrMemory};

pub const LENGTH: usize = 16;
pub type Record = [u8; LENGTH];

pub fn read(bytes: &[u8], at: usize) -> Record {
    let Some(rest) = bytes.get(at..) else {
        return refused(Refusal::OUTSIDE_INPUT, 0);
    };
    let mut counted = Counted::new(rest);
    match read_counted(&mut counted) {
        Ok((byte, mrrm)) => found(byte, counted.taken as u8, &mrrm),
        Err(refusal) => refused(refusal, counted.taken as u8),
    }
}

fn read_counted(counted: &mut Counted) -> Result<(u8, ModRegRM), Refusal> {
    let byte = counted.next().ok_or(Refusal::COULD_NOT_READ_EXTRA_BYTES)?;
    Ok((byte, ModRegRM::try_from_byte(byte, counted)?))
}

fn refused(refusal: Refusal, taken: u8) -> Record {
    let mut record = [0; LENGTH];
    record[..3].copy_from_slice(&[refusal.number, refusal.byte, taken]);
    record
}

fn found(byte: u8, taken: u8, mrrm: &ModRegRM) -> Record {
    let (kind, register, mode, [low, high]) = match mrrm.register_or_memory {
        RegisterOrMemory::Direct(offset) => (1, 0, 0, offset.to_le_bytes()),
        RegisterOrMemory::Indirect(mode) => (2, 0, mode as u8, [0, 0]),
        RegisterOrMemory::DisplacementByte(mode, value) => (3, 0, mode as u8, [value as u8, 0]),
        RegisterOrMemory::DisplacementWord(mode, value) => (4, 0, mode as u8, value.to_le_bytes()),
        RegisterOrMemory::Register(register) => (5, register as u8, 0, [0, 0]),
    };
    let written = written(&mrrm.register_or_memory);
    let mut record = [0; LENGTH];
    record[1..6].copy_from_slice(&[byte, taken, 0, mrrm.register as u8, written]);
    record[8..14].copy_from_slice(&[kind, register, mode, 0, low, high]);
    record
}

/// How many displacement bytes are written of what mod and rm name.
pub fn written(named: &RegisterOrMemory) -> u8 {
    match named {
        RegisterOrMemory::Indirect(_) | RegisterOrMemory::Register(_) => 0,
        RegisterOrMemory::DisplacementByte(..) => 1,
        RegisterOrMemory::Direct(_) | RegisterOrMemory::DisplacementWord(..) => 2,
    }
}

#[cfg(test)]
mod tests {
    use super::read;
    use crate::written;

    #[test]
    fn a_zero_displacement_is_kept() {
        assert_eq!(
            read(&[0x47, 0x00], 0),
            [0, 0x47, 2, 0, 0, 1, 0, 0, 3, 0, 7, 0, 0, 0, 0, 0]
        );
    }

    #[test]
    fn the_bytes_written_are_those_behind_the_modrm() {
        for byte in 0..=255 {
            let record = read(&[byte, 0x34, 0x12], 0);
            assert_eq!(record[5], written::behind(byte), "{byte:02X}");
            assert_eq!(record[5] + 1, record[2], "{byte:02X}");
        }
        assert_eq!(read(&[0x87, 0x00], 0)[..6], [2, 0, 2, 0, 0, 0]);
    }

    #[test]
    fn a_register_is_named() {
        assert_eq!(
            read(&[0xCA], 0),
            [0, 0xCA, 1, 0, 1, 0, 0, 0, 5, 2, 0, 0, 0, 0, 0, 0]
        );
    }

    #[test]
    fn no_byte_left_is_refusal_2_and_beyond_is_11() {
        assert_eq!(read(&[], 0)[..4], [2, 0, 0, 0]);
        assert_eq!(read(&[], 1)[..4], [11, 0, 0, 0]);
    }
}
