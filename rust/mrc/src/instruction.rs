use crate::coded::coded;
use crate::{Operand, Operation, Segment};
use std::fmt::{self, Display, Formatter};

/// The operands of an instruction, the destination before the source.
#[derive(Clone, Copy, Debug, PartialEq, Eq, Hash)]
#[non_exhaustive]
pub enum OperandSet {
    /// No operand.
    None,
    /// The destination alone.
    Destination(Operand),
    /// The destination, then the source.
    DestinationAndSource(Operand, Operand),
}

/// The repeat prefix of an instruction.
#[derive(Clone, Copy, Debug, PartialEq, Eq, Hash)]
pub enum Repeat {
    /// F3: REPE.
    Equal,
    /// F2: REPNE.
    NotEqual,
}

coded! {
    /// How far a call, a jump or a return goes.
    #[derive(Default)]
    pub enum Reach {
        /// It is no CALL, JMP or RET.
        #[default]
        Neither,
        /// Within its segment.
        Near,
        /// To another segment: 9A, EA, CA, CB, and FF with reg 3 or 5.
        Far,
    }
}

/// The name in lower case, as an operation's. A listing has `FAR` behind the operation's name, and nothing for the others.
impl Display for Reach {
    fn fmt(&self, f: &mut Formatter<'_>) -> fmt::Result {
        f.pad(match self {
            Self::Neither => "neither",
            Self::Near => "near",
            Self::Far => "far",
        })
    }
}

/// An instruction, apart from the bytes that it takes.
///
/// ```
/// use mrc::{Instruction, OperandSet, Operation};
///
/// let nop = Instruction::new(Operation::NOP, OperandSet::None);
/// assert_eq!(mrc::decode_at(&[0x90], 0, 15).result, Ok(nop));
/// let far = Instruction::new(Operation::RET, OperandSet::None).reaching(mrc::Reach::Far);
/// assert_eq!(mrc::decode_at(&[0xCB], 0, 15).result, Ok(far));
/// let [none, byte, word] = [&[0xFF, 0x07][..], &[0xFF, 0x47, 0x00], &[0xFF, 0x87, 0x00, 0x00]]
///     .map(|bytes| mrc::decode_at(bytes, 0, 15).result);
/// assert_eq!((byte, word), (Ok(none?.writing(1)), Ok(none?.writing(2))));
/// # mrc::Result::Ok(())
/// ```
#[derive(Clone, Copy, Debug, PartialEq, Eq, Hash)]
#[non_exhaustive]
pub struct Instruction {
    /// What it does.
    pub operation: Operation,
    /// What it does that to, the destination first.
    pub operands: OperandSet,
    /// Its first repeat prefix.
    pub repeat: Option<Repeat>,
    /// Whether it is near, far or neither, which mrc_instruction does not tell.
    pub reach: Reach,
    /// The segment of an override before MOVS, CMPS, LODS or XLATB, which have no operand, in
    /// [`Reading::Two`](crate::Reading::Two). DS differs from none.
    pub kept: Option<Segment>,
    /// The displacement bytes written behind its ModRM, which mrc_instruction does not tell: 0, 1 or 2. Direct by a ModRM has 2,
    /// and [`Displacement::None`](crate::Displacement::None) with 1 or 2 is a displacement of 0 that was written.
    pub written: u8,
}

impl Instruction {
    /// The instruction with no repeat, no override kept and no displacement bytes, neither near nor far.
    #[must_use]
    pub fn new(operation: Operation, operands: OperandSet) -> Self {
        Self {
            operation,
            operands,
            repeat: None,
            reach: Reach::Neither,
            kept: None,
            written: 0,
        }
    }

    /// The instruction with a repeat, no override kept and no displacement bytes, neither near nor far.
    #[must_use]
    pub fn with_repeat(repeat: Repeat, operation: Operation, operands: OperandSet) -> Self {
        Self {
            repeat: Some(repeat),
            ..Self::new(operation, operands)
        }
    }

    /// The same instruction, near, far or neither.
    #[must_use]
    pub fn reaching(self, reach: Reach) -> Self {
        Self { reach, ..self }
    }

    /// The same instruction, with an override that is kept, or none.
    #[must_use]
    pub fn keeping(self, kept: Option<Segment>) -> Self {
        Self { kept, ..self }
    }

    /// The same instruction, with the displacement bytes that it was written with.
    #[must_use]
    pub fn writing(self, written: u8) -> Self {
        Self { written, ..self }
    }
}
