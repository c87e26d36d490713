use crate::{boundary, AddressingMode, DecodeError, RegisterEncoding, Result};

/// What a ModRM's mod and rm name.
#[derive(Clone, Copy, Debug, PartialEq, Eq, Hash)]
pub enum RegisterOrMemory {
    /// Memory at an offset.
    Direct(u16),
    /// Memory with no displacement.
    Indirect(AddressingMode),
    /// Memory with a signed byte, which may be 0.
    DisplacementByte(AddressingMode, i8),
    /// Memory with a signed word, which may be 0.
    DisplacementWord(AddressingMode, i16),
    /// A register.
    Register(RegisterEncoding),
}

impl RegisterOrMemory {
    /// How many displacement bytes it is written with: 0, 1 or 2.
    #[must_use]
    pub fn written(self) -> u8 {
        match self {
            Self::Indirect(_) | Self::Register(_) => 0,
            Self::DisplacementByte(..) => 1,
            Self::Direct(_) | Self::DisplacementWord(..) => 2,
        }
    }
}

/// A ModRM with its displacement.
#[derive(Clone, Copy, Debug, PartialEq, Eq, Hash)]
#[non_exhaustive]
pub struct ModRegRM {
    /// What reg names.
    pub register: RegisterEncoding,
    /// What mod and rm name.
    pub register_or_memory: RegisterOrMemory,
}

impl ModRegRM {
    /// The ModRM of a register, and of a register or memory.
    #[must_use]
    pub fn new(register: RegisterEncoding, register_or_memory: RegisterOrMemory) -> Self {
        Self {
            register,
            register_or_memory,
        }
    }
}

/// The ModRM reader's answer. It reads no prefix.
#[derive(Clone, Copy, Debug, PartialEq, Eq, Hash)]
#[must_use]
#[non_exhaustive]
pub struct MrrmAnswer {
    /// The ModRM and its byte.
    pub result: Result<(ModRegRM, u8)>,
    /// The bytes taken from the position on, the displacement included.
    pub taken: usize,
    /// The displacement bytes among them: 0, 1 or 2, and 0 of a refusal.
    pub written: u8,
}

/// Reads the ModRM byte at a position, and the displacement that follows it.
///
/// ```
/// let answer = mrc::read_mrrm(&[0x47, 0xFE], 0);
/// let (mrrm, byte) = answer.result?;
/// assert_eq!(mrrm.register, mrc::RegisterEncoding::AlAx);
/// assert_eq!((byte, answer.taken, answer.written), (0x47, 2, 1));
/// # mrc::Result::Ok(())
/// ```
pub fn read_mrrm(bytes: &[u8], position: usize) -> MrrmAnswer {
    let mut record = boundary::Modrm::default();
    boundary::mrrm(bytes, position, &mut record);
    MrrmAnswer {
        result: result_of(&record),
        taken: usize::from(record.taken),
        written: record.written,
    }
}

fn result_of(record: &boundary::Modrm) -> Result<(ModRegRM, u8)> {
    if record.refusal != 0 {
        return Err(DecodeError::from_number(record.refusal, record.byte));
    }
    let register = RegisterEncoding::from_code(record.register);
    let mrrm = ModRegRM::new(register, register_or_memory(&record.operand));
    Ok((mrrm, record.byte))
}

fn register_or_memory(named: &boundary::Operand) -> RegisterOrMemory {
    let mode = || AddressingMode::from_code(named.mode);
    let value = named.value;
    match named.kind {
        1 => RegisterOrMemory::Direct(value),
        2 => RegisterOrMemory::Indirect(mode()),
        3 => RegisterOrMemory::DisplacementByte(mode(), value as i8),
        4 => RegisterOrMemory::DisplacementWord(mode(), value as i16),
        5 => RegisterOrMemory::Register(RegisterEncoding::from_code(named.named)),
        kind => panic!("no register or memory has the code {kind}"),
    }
}
