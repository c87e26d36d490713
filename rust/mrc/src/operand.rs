use crate::coded::coded;
use crate::{boundary, Address, Segment, SizedRegisterEncoding};

coded! {
    /// The size of an operand.
    pub enum OperandSize {
        /// Eight bits.
        Byte,
        /// Sixteen bits.
        Word,
    }
}

coded! {
    /// The registers whose sum an indirect operand's offset starts from.
    pub enum AddressingMode {
        /// BX and SI.
        BxSi,
        /// BX and DI.
        BxDi,
        /// BP and SI.
        BpSi,
        /// BP and DI.
        BpDi,
        /// SI alone.
        Si,
        /// DI alone.
        Di,
        /// BP alone.
        Bp,
        /// BX alone.
        Bx,
    }
}

/// What is added to an offset.
#[derive(Clone, Copy, Debug, PartialEq, Eq, Hash)]
pub enum Displacement {
    /// Nothing: in memory also a written displacement of 0.
    None,
    /// A signed byte.
    Byte(i8),
    /// A signed word.
    Word(i16),
}

/// A number in the instruction itself.
#[derive(Clone, Copy, Debug, PartialEq, Eq, Hash)]
pub enum Immediate {
    /// Of eight bits.
    Byte(u8),
    /// Of sixteen bits.
    Word(u16),
}

/// What an instruction works on.
#[derive(Clone, Copy, Debug, PartialEq, Eq, Hash)]
pub enum Operand {
    /// Memory at an offset of a segment.
    Direct(Segment, u16, OperandSize),
    /// Memory at the sum of registers and a displacement.
    Indirect(Segment, AddressingMode, Displacement, OperandSize),
    /// A register.
    Register(SizedRegisterEncoding),
    /// A segment register.
    Segment(Segment),
    /// A number.
    Immediate(Immediate),
    /// A distance from the instruction's end, as of a jump. That of a RET counts bytes of the stack.
    Displacement(Displacement),
    /// A far address.
    SegmentAndOffset(Address),
}

coded! {
    /// What an operand is, by the first of its fields.
    pub(crate) enum Kind {
        Absent,
        Direct,
        Indirect,
        IndirectByte,
        IndirectWord,
        Register,
        Segment,
        ImmediateByte,
        ImmediateWord,
        DisplacementNone,
        DisplacementByte,
        DisplacementWord,
        SegmentAndOffset,
    }
}

impl Operand {
    /// The operand's size. A segment-and-offset has none, nor has `Displacement::None`.
    #[must_use]
    pub fn operand_size(&self) -> Option<OperandSize> {
        let own = self.own_size().unwrap_or(OperandSize::Byte);
        match boundary::operand_size(self.kind() as u8, own as u8) {
            boundary::NO_SIZE => None,
            code => Some(OperandSize::from_code(code)),
        }
    }

    /// The size that the operand itself holds.
    fn own_size(&self) -> Option<OperandSize> {
        match *self {
            Operand::Direct(_, _, size) | Operand::Indirect(_, _, _, size) => Some(size),
            Operand::Register(SizedRegisterEncoding(_, size)) => Some(size),
            _ => None,
        }
    }

    fn kind(&self) -> Kind {
        match self {
            Operand::Direct(..) => Kind::Direct,
            Operand::Indirect(_, _, Displacement::None, _) => Kind::Indirect,
            Operand::Indirect(_, _, Displacement::Byte(_), _) => Kind::IndirectByte,
            Operand::Indirect(_, _, Displacement::Word(_), _) => Kind::IndirectWord,
            Operand::Register(_) => Kind::Register,
            Operand::Segment(_) => Kind::Segment,
            Operand::Immediate(Immediate::Byte(_)) => Kind::ImmediateByte,
            Operand::Immediate(Immediate::Word(_)) => Kind::ImmediateWord,
            Operand::Displacement(Displacement::None) => Kind::DisplacementNone,
            Operand::Displacement(Displacement::Byte(_)) => Kind::DisplacementByte,
            Operand::Displacement(Displacement::Word(_)) => Kind::DisplacementWord,
            Operand::SegmentAndOffset(_) => Kind::SegmentAndOffset,
        }
    }
}

impl From<SizedRegisterEncoding> for Operand {
    fn from(register: SizedRegisterEncoding) -> Self {
        Operand::Register(register)
    }
}

impl From<Segment> for Operand {
    fn from(segment: Segment) -> Self {
        Operand::Segment(segment)
    }
}

impl From<Immediate> for Operand {
    fn from(immediate: Immediate) -> Self {
        Operand::Immediate(immediate)
    }
}
