use crate::coded::coded;
use std::fmt::{self, Display, Formatter};

coded! {
    /// What an instruction does. REP and REPNE are no operations: see [`Repeat`](crate::Repeat).
    #[non_exhaustive]
    pub enum Operation {
        /// Copies the source to the destination.
        MOV,
        /// Puts its operand on the stack.
        PUSH,
        /// Takes its operand off the stack.
        POP,
        /// Exchanges its operands.
        XCHG,
        /// Reads a port.
        IN,
        /// Writes a port.
        OUT,
        /// Looks AL up in the table at BX.
        XLATB,
        /// Loads the offset of its source, not what is stored there.
        LEA,
        /// Loads a register, and DS, from memory.
        LDS,
        /// Loads a register, and ES, from memory.
        LES,
        /// Copies flags to AH.
        LAHF,
        /// Copies AH to flags.
        SAHF,
        /// Puts the flags on the stack.
        PUSHF,
        /// Takes the flags off the stack.
        POPF,
        /// Adds.
        ADD,
        /// Adds, the carry too.
        ADC,
        /// Adds one.
        INC,
        /// Corrects AL after a sum of unpacked decimals.
        AAA,
        /// Corrects AL after a sum of packed decimals.
        DAA,
        /// Subtracts.
        SUB,
        /// Subtracts, the borrow too.
        SBB,
        /// Subtracts one.
        DEC,
        /// Subtracts from zero.
        NEG,
        /// Subtracts for the flags alone.
        CMP,
        /// Corrects AL after a difference of unpacked decimals.
        AAS,
        /// Corrects AL after a difference of packed decimals.
        DAS,
        /// Multiplies without sign.
        MUL,
        /// Multiplies with sign.
        IMUL,
        /// Corrects AX after a product of unpacked decimals.
        AAM,
        /// Divides without sign.
        DIV,
        /// Divides with sign.
        IDIV,
        /// Prepares AX for a quotient of unpacked decimals.
        AAD,
        /// Widens AL to AX by its sign.
        CBW,
        /// Widens AX to DX and AX by its sign.
        CWD,
        /// Inverts each bit.
        NOT,
        /// Shifts left.
        SHL,
        /// Shifts right, zeros in.
        SHR,
        /// Shifts right, copies of the sign in.
        SAR,
        /// Rotates left.
        ROL,
        /// Rotates right.
        ROR,
        /// Rotates left through the carry.
        RCL,
        /// Rotates right through the carry.
        RCR,
        /// Keeps the bits that both have.
        AND,
        /// Does as AND for the flags alone.
        TEST,
        /// Keeps the bits that either has.
        OR,
        /// Keeps the bits that one alone has.
        XOR,
        /// Copies a byte of a string.
        MOVSB,
        /// Copies a word of a string.
        MOVSW,
        /// Compares a byte of two strings.
        CMPSB,
        /// Compares a word of two strings.
        CMPSW,
        /// Compares AL with a byte of a string.
        SCASB,
        /// Compares AX with a word of a string.
        SCASW,
        /// Loads AL from a string.
        LODSB,
        /// Loads AX from a string.
        LODSW,
        /// Stores AL to a string.
        STOSB,
        /// Stores AX to a string.
        STOSW,
        /// Calls a procedure.
        CALL,
        /// Jumps always.
        JMP,
        /// Returns from a procedure.
        RET,
        /// Jumps if equal, or zero.
        JE,
        /// Jumps if less, with sign.
        JL,
        /// Jumps if less or equal, with sign.
        JLE,
        /// Jumps if below, without sign; or on a carry.
        JB,
        /// Jumps if below or equal, without sign.
        JBE,
        /// Jumps on even parity.
        JP,
        /// Jumps on an overflow.
        JO,
        /// Jumps if negative.
        JS,
        /// Jumps unless equal, or zero.
        JNE,
        /// Jumps unless less, with sign.
        JNL,
        /// Jumps unless less or equal, with sign.
        JNLE,
        /// Jumps unless below, without sign; or on no carry.
        JNB,
        /// Jumps unless below or equal, without sign.
        JNBE,
        /// Jumps on odd parity.
        JNP,
        /// Jumps on no overflow.
        JNO,
        /// Jumps unless negative.
        JNS,
        /// Counts CX down, and jumps unless it is 0.
        LOOP,
        /// Counts CX down, and jumps unless it is 0 while the zero flag is set.
        LOOPZ,
        /// Counts CX down, and jumps unless it is 0 while the zero flag is clear.
        LOOPNZ,
        /// Jumps if CX is 0.
        JCXZ,
        /// Interrupts by a number.
        INT,
        /// Interrupts by 1, in one byte.
        INT1,
        /// Interrupts by 3, in one byte.
        INT3,
        /// Interrupts by 4 on an overflow.
        INTO,
        /// Returns from an interrupt.
        IRET,
        /// Clears the carry.
        CLC,
        /// Inverts the carry.
        CMC,
        /// Sets the carry.
        STC,
        /// Lets strings run upwards.
        CLD,
        /// Lets strings run downwards.
        STD,
        /// Holds interrupts off.
        CLI,
        /// Lets interrupts in.
        STI,
        /// Halts until an interrupt.
        HLT,
        /// Waits for the coprocessor.
        WAIT,
        /// Leaves its bytes to a coprocessor.
        ESC,
        /// Locks the bus for what follows.
        LOCK,
        /// Does nothing.
        NOP,
        /// Fills AL with the carry.
        SALC,
    }
}

impl Operation {
    /// Every operation, in the order of the codes that include/mrc.h gives them.
    #[must_use]
    pub fn all() -> &'static [Self] {
        Self::ALL
    }
}

/// The name in lower case, as mrc_instruction prints it. A listing has it in upper case, as `Debug` does.
impl Display for Operation {
    fn fmt(&self, f: &mut Formatter<'_>) -> fmt::Result {
        f.pad(&format!("{self:?}").to_ascii_lowercase())
    }
}
