use crate::operand::Kind;
use crate::{
    boundary, Address, AddressingMode, DecodeError, Displacement, Immediate, Instruction, Operand,
    OperandSet, OperandSize, Operation, Reach, Reading, RegisterEncoding, Repeat, Result, Segment,
    SizedRegisterEncoding,
};

/// A decode's answer as the proved library writes it, from which each field is read by itself: cheaper than the whole
/// [`Answer`](crate::Answer) where not all of it is wanted.
///
/// A refusal has no operation, no repeat and no operand, is neither near nor far, keeps no override, and has no displacement
/// bytes.
#[derive(Clone, Copy, Debug, PartialEq, Eq, Hash)]
#[must_use]
pub struct Record(boundary::Record);

/// Decodes the instruction at a position, as [`decode_at`](crate::decode_at) does, and answers its record.
///
/// ```
/// use mrc::{Immediate, Operand, Operation};
///
/// let record = mrc::record_at(&[0xB8, 0x34, 0x12], 0, 15);
/// assert_eq!(record.operation(), Some(Operation::MOV));
/// assert_eq!(record.source(), Some(Operand::Immediate(Immediate::Word(0x1234))));
/// assert_eq!((record.refusal(), record.taken(), record.prefixes()), (None, 3, 0));
/// ```
#[inline]
pub fn record_at(bytes: &[u8], position: usize, budget: u8) -> Record {
    Reading::One.record_at(bytes, position, budget)
}

impl Reading {
    /// Decodes the instruction at a position in this reading, as [`record_at`] does in the first.
    #[inline]
    pub fn record_at(self, bytes: &[u8], position: usize, budget: u8) -> Record {
        let mut record = Record(boundary::Record::default());
        boundary::decode(bytes, position, budget, self.number(), &mut record.0);
        record
    }
}

impl Record {
    /// The instruction, or why there is none.
    #[inline]
    pub fn result(&self) -> Result<Instruction> {
        match self.refusal() {
            Some(refusal) => Err(refusal),
            None => Ok(Instruction {
                operation: Operation::from_code(self.0.operation),
                operands: self.operand_set(),
                repeat: self.repeat(),
                reach: self.reach(),
                kept: self.kept(),
                written: self.written(),
            }),
        }
    }

    /// Why there is no instruction.
    #[inline]
    #[must_use]
    pub fn refusal(&self) -> Option<DecodeError> {
        match self.0.refusal {
            0 => None,
            number => Some(DecodeError::from_number(number, self.0.byte)),
        }
    }

    /// The bytes taken from the position on, prefixes included.
    #[inline]
    #[must_use]
    pub fn taken(&self) -> usize {
        usize::from(self.0.taken)
    }

    /// The prefix bytes among them.
    #[inline]
    #[must_use]
    pub fn prefixes(&self) -> usize {
        usize::from(self.0.prefixes)
    }

    /// What the instruction does.
    #[inline]
    #[must_use]
    pub fn operation(&self) -> Option<Operation> {
        match self.0.refusal {
            0 => Some(Operation::from_code(self.0.operation)),
            _ => None,
        }
    }

    /// The instruction's first repeat prefix.
    #[inline]
    #[must_use]
    pub fn repeat(&self) -> Option<Repeat> {
        match self.0.repeat {
            0 => None,
            1 => Some(Repeat::Equal),
            2 => Some(Repeat::NotEqual),
            code => panic!("no repeat has the code {code}"),
        }
    }

    /// Whether the instruction is near, far or neither.
    #[inline]
    #[must_use]
    pub fn reach(&self) -> Reach {
        Reach::from_code(self.0.reach)
    }

    /// The segment of the first override, where the instruction has no operand that it is for and keeps it: MOVS, CMPS, LODS
    /// and XLATB in [`Reading::Two`]. DS differs from none.
    #[inline]
    #[must_use]
    pub fn kept(&self) -> Option<Segment> {
        match self.0.kept {
            0 => None,
            kept => Some(Segment::from_code(kept - 1)),
        }
    }

    /// The displacement bytes written behind the instruction's ModRM: 0, 1 or 2. They tell a displacement of 0 from none, which
    /// are one operand.
    ///
    /// ```
    /// let (none, byte) = (mrc::record_at(&[0x8B, 0x07], 0, 15), mrc::record_at(&[0x8B, 0x47, 0x00], 0, 15));
    /// assert_eq!(none.source(), byte.source());
    /// assert_eq!((none.written(), byte.written()), (0, 1));
    /// ```
    #[inline]
    #[must_use]
    pub fn written(&self) -> u8 {
        self.0.written
    }

    /// How many operands the instruction has.
    #[inline]
    #[must_use]
    pub fn operands(&self) -> usize {
        usize::from(self.0.operands)
    }

    /// The operand that the instruction writes to, or its only one.
    #[inline]
    #[must_use]
    pub fn destination(&self) -> Option<Operand> {
        (self.0.operands >= 1).then(|| operand(&self.0.operand[0]))
    }

    /// The operand that the instruction reads from.
    #[inline]
    #[must_use]
    pub fn source(&self) -> Option<Operand> {
        (self.0.operands >= 2).then(|| operand(&self.0.operand[1]))
    }

    #[inline]
    fn operand_set(&self) -> OperandSet {
        let [destination, source, _] = &self.0.operand;
        match self.0.operands {
            0 => OperandSet::None,
            1 => OperandSet::Destination(operand(destination)),
            2 => OperandSet::DestinationAndSource(operand(destination), operand(source)),
            count => panic!("no instruction has {count} operands"),
        }
    }
}

fn operand(fields: &boundary::Operand) -> Operand {
    let segment = || Segment::from_code(fields.named);
    let size = || OperandSize::from_code(fields.size);
    let value = fields.value;
    let indirect = |displacement| {
        let mode = AddressingMode::from_code(fields.mode);
        Operand::Indirect(segment(), mode, displacement, size())
    };
    match Kind::from_code(fields.kind) {
        Kind::Absent => panic!("an operand that is absent"),
        Kind::Direct => Operand::Direct(segment(), value, size()),
        Kind::Indirect => indirect(Displacement::None),
        Kind::IndirectByte => indirect(Displacement::Byte(value as i8)),
        Kind::IndirectWord => indirect(Displacement::Word(value as i16)),
        Kind::Register => {
            let register = RegisterEncoding::from_code(fields.named);
            Operand::Register(SizedRegisterEncoding(register, size()))
        }
        Kind::Segment => Operand::Segment(segment()),
        Kind::ImmediateByte => Operand::Immediate(Immediate::Byte(value as u8)),
        Kind::ImmediateWord => Operand::Immediate(Immediate::Word(value)),
        Kind::DisplacementNone => Operand::Displacement(Displacement::None),
        Kind::DisplacementByte => Operand::Displacement(Displacement::Byte(value as i8)),
        Kind::DisplacementWord => Operand::Displacement(Displacement::Word(value as i16)),
        Kind::SegmentAndOffset => {
            Operand::SegmentAndOffset(Address::new(fields.far_segment, value))
        }
    }
}
