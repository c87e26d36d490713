#![doc = include_str!("../README.md")]
#![deny(unsafe_code)]
#![warn(missing_docs)]

mod address;
#[doc(hidden)]
pub mod boundary;
mod coded;
mod decode;
mod errors;
mod fields;
mod instruction;
mod line;
mod mrrm;
mod operand;
mod operation;
mod page;
mod reading;
mod record;
mod register;
mod stream;

pub use address::Address;
pub use decode::{decode_at, Answer};
pub use errors::{DecodeError, Result};
pub use fields::TryFromEncoding;
pub use instruction::{Instruction, OperandSet, Reach, Repeat};
pub use line::{line, lines, Line, Lines, Written, LONGEST_IMAGE, LONGEST_LINE};
pub use mrrm::{read_mrrm, ModRegRM, MrrmAnswer, RegisterOrMemory};
pub use operand::{AddressingMode, Displacement, Immediate, Operand, OperandSize};
pub use operation::Operation;
pub use page::{page, Page};
pub use reading::Reading;
pub use record::{record_at, Record};
pub use register::{RegisterEncoding, Segment, SizedRegisterEncoding};
pub use stream::{decode_instruction, LARGEST_BUDGET};
