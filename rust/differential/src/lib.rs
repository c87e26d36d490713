//! The given Rust's answers, in the form in which the proved library gives its own, those of the manual's reading made of them, and
//! the questions to put to both sides.

pub mod case;
pub mod cases;
pub mod compare;
pub mod counted;
pub mod fields;
pub mod listing;
pub mod modrm;
pub mod oracle;
pub mod random;
pub mod reach;
pub mod reading;
pub mod record;
pub mod refusal;
pub mod sample;
pub mod sample_second;
pub mod second;
pub mod written;
