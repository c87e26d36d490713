use crate::coded::coded;
use crate::OperandSize;

coded! {
    /// A register by its field: as a byte and as a word.
    pub enum RegisterEncoding {
        /// AL or AX.
        AlAx,
        /// CL or CX.
        ClCx,
        /// DL or DX.
        DlDx,
        /// BL or BX.
        BlBx,
        /// AH or SP.
        AhSp,
        /// CH or BP.
        ChBp,
        /// DH or SI.
        DhSi,
        /// BH or DI.
        BhDi,
    }
}

/// A register, as a byte or as a word.
#[derive(Clone, Copy, Debug, PartialEq, Eq, Hash)]
pub struct SizedRegisterEncoding(pub RegisterEncoding, pub OperandSize);

coded! {
    /// A segment register.
    pub enum Segment {
        /// The extra segment.
        ES,
        /// The code segment.
        CS,
        /// The stack segment.
        SS,
        /// The data segment.
        DS,
    }
}
