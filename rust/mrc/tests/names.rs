//! The operations have the same names in the same order in the proved library, in this crate and in the C header.

use mrc::Operation;
use std::fs;

fn names() -> Vec<String> {
    let debug = |operation: &Operation| format!("{operation:?}");
    Operation::all().iter().map(debug).collect()
}

/// The words between `start` and the closing brace of a file below the project's root.
fn words(file: &str, start: &str) -> Vec<String> {
    let path = format!("{}/../../{file}", env!("CARGO_MANIFEST_DIR"));
    let text = fs::read_to_string(&path).unwrap_or_else(|error| panic!("{path}: {error}"));
    let (_, rest) = text.split_once(start).expect("the enum's first line");
    let (body, _) = rest.split_once('}').expect("the enum's end");
    let separator = |letter: char| letter == ',' || letter.is_whitespace();
    let words = body.split(separator).filter(|word| !word.is_empty());
    words.map(String::from).collect()
}

#[test]
fn an_operation_is_shown_as_by_mrc_instruction() {
    assert_eq!(Operation::MOV.to_string(), "mov");
    assert_eq!(format!("{:6}|", Operation::JNE), "jne   |");
}

#[test]
fn as_in_the_proved_library() {
    let file = "crates/mrc_instruction/src/operation.rt";
    assert_eq!(words(file, "pub enum Operation {"), names());
}

#[test]
fn as_in_the_header() {
    let prefixed: Vec<String> = names()
        .iter()
        .map(|name| format!("MRC_OP_{name}"))
        .collect();
    assert_eq!(words("include/mrc.h", "enum mrc_operation {"), prefixed);
}
