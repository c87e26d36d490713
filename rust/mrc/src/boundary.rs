//! The functions that `crates/mrc_c_abi` exports, wrapped so that no caller can break their boundary. include/mrc.h says what
//! each answers and what it writes.
#![allow(unsafe_code)]

use std::mem::size_of;

/// What `operand_size` answers for an operand without a size.
pub const NO_SIZE: u8 = 2;

/// An operand's fields: `struct mrc_operand` of include/mrc.h, which says what each is.
#[derive(Clone, Copy, Debug, Default, PartialEq, Eq, Hash)]
#[repr(C)]
pub struct Operand {
    pub kind: u8,
    pub named: u8,
    pub mode: u8,
    pub size: u8,
    pub value: u16,
    pub far_segment: u16,
}

/// The fields of a decode's answer: `struct mrc_record`.
#[derive(Clone, Copy, Debug, Default, PartialEq, Eq, Hash)]
#[repr(C, align(8))]
pub struct Record {
    pub refusal: u8,
    pub byte: u8,
    pub taken: u16,
    pub prefixes: u16,
    pub reserved: u16,
    pub operation: u8,
    pub repeat: u8,
    pub reach: u8,
    pub kept: u8,
    pub written: u8,
    pub operands: u8,
    pub reserved_2: [u8; 2],
    pub operand: [Operand; 3],
}

/// The fields of the ModRM reader's answer: `struct mrc_modrm`.
#[derive(Clone, Copy, Debug, Default, PartialEq, Eq, Hash)]
#[repr(C, align(8))]
pub struct Modrm {
    pub refusal: u8,
    pub byte: u8,
    pub taken: u16,
    pub register: u8,
    pub written: u8,
    pub reserved: [u8; 2],
    pub operand: Operand,
}

impl Record {
    /// The bytes of the record, as they stand in memory.
    pub fn bytes(self) -> [u8; size_of::<Self>()] {
        // SAFETY: every byte of a record is of a field that is a number.
        unsafe { std::mem::transmute(self) }
    }
}

impl Modrm {
    /// The bytes of the record, as they stand in memory.
    pub fn bytes(self) -> [u8; size_of::<Self>()] {
        // SAFETY: as in `Record::bytes`.
        unsafe { std::mem::transmute(self) }
    }
}

/// A lent slice passes as its pointer and its length, a record as its pointer.
mod exported {
    use super::{Modrm, Record};

    extern "C" {
        pub fn mrc_decode(
            bytes: *const u8,
            length: usize,
            position: usize,
            budget: u8,
            reading: u8,
            record: *mut Record,
        );
        pub fn mrc_mrrm(bytes: *const u8, length: usize, position: usize, record: *mut Modrm);
        pub fn mrc_register(field: u8) -> u32;
        pub fn mrc_segment(field: u8) -> u32;
        pub fn mrc_addressing(field: u8) -> u32;
        pub fn mrc_operand_size(kind: u8, size: u8) -> u8;
        pub fn mrc_step(
            bytes: *const u8,
            length: usize,
            position: usize,
            budget: u8,
            reading: u8,
        ) -> u64;
        pub fn mrc_line(
            image: *const u8,
            length: usize,
            position: usize,
            reading: u8,
            out: *mut u8,
            room: usize,
        ) -> u64;
        pub fn mrc_page(
            image: *const u8,
            length: usize,
            position: usize,
            reading: u8,
            out: *mut u8,
            room: usize,
        ) -> u64;
    }
}

#[inline]
pub fn decode(bytes: &[u8], position: usize, budget: u8, reading: u8, record: &mut Record) {
    let (input, length) = (bytes.as_ptr(), bytes.len());
    // SAFETY: the slice is valid for its length, and `record`, which has the size and the alignment of five machine words of
    // which any is a value, is lent to this call alone.
    unsafe { exported::mrc_decode(input, length, position, budget, reading, record) }
}

#[inline]
pub fn mrrm(bytes: &[u8], position: usize, record: &mut Modrm) {
    // SAFETY: as in `decode`, with two machine words.
    unsafe { exported::mrc_mrrm(bytes.as_ptr(), bytes.len(), position, record) }
}

#[inline]
pub fn register(field: u8) -> u32 {
    // SAFETY: a function on numbers that asks nothing of its caller.
    unsafe { exported::mrc_register(field) }
}

#[inline]
pub fn segment(field: u8) -> u32 {
    // SAFETY: as in `register`.
    unsafe { exported::mrc_segment(field) }
}

#[inline]
pub fn addressing(field: u8) -> u32 {
    // SAFETY: as in `register`.
    unsafe { exported::mrc_addressing(field) }
}

#[inline]
pub fn operand_size(kind: u8, size: u8) -> u8 {
    // SAFETY: as in `register`.
    unsafe { exported::mrc_operand_size(kind, size) }
}

#[inline]
pub fn line(image: &[u8], position: usize, reading: u8, out: &mut [u8]) -> u64 {
    let (input, length, room) = (image.as_ptr(), image.len(), out.len());
    // SAFETY: both slices are valid for their lengths, and `out` is lent to this call alone.
    unsafe { exported::mrc_line(input, length, position, reading, out.as_mut_ptr(), room) }
}

/// The length of a page's text, and 2^32 times the bytes of the image that its lines account for.
#[inline]
pub fn page(image: &[u8], position: usize, reading: u8, out: &mut [u8]) -> u64 {
    let (input, length, room) = (image.as_ptr(), image.len(), out.len());
    // SAFETY: as in `line`.
    unsafe { exported::mrc_page(input, length, position, reading, out.as_mut_ptr(), room) }
}

/// The bytes taken by a decode, 65,536 times its prefixes, and 2^32 times its refusal's number.
#[inline]
pub fn step(bytes: &[u8], position: usize, budget: u8, reading: u8) -> u64 {
    // SAFETY: the slice is valid for its length.
    unsafe { exported::mrc_step(bytes.as_ptr(), bytes.len(), position, budget, reading) }
}
