//! What the given Rust alone answers over the image on standard input, with no budget. A refusal moves one byte on.
//!
//!     given lines     prints offset, bytes taken, whether they were read, and the answer of each step, with tabs between
//!     given count     decodes only, and prints the number of steps
//!
//! An instruction's text is the plain rendering of `differential::listing`, where RET's displacement is a distance and nothing is far, as
//! in the Rust's own text; a refusal's is its name.

use differential::listing::instruction_text;
use differential::reach::NEITHER;
use mrc_decoder::{decode_instruction, Result};
use mrc_instruction::Instruction;
use std::hint::black_box;
use std::io::{self, BufWriter, Read, Write};

fn main() -> io::Result<()> {
    let mut image = Vec::new();
    io::stdin().read_to_end(&mut image)?;
    let mut out = BufWriter::new(io::stdout());
    match std::env::args().nth(1).as_deref() {
        Some("lines") => steps(&image).try_for_each(|step| print(&mut out, step)),
        Some("count") => writeln!(out, "{}", steps(&image).map(black_box).count()),
        _ => Err(io::Error::other("wants lines or count")),
    }
}

/// Offset, bytes taken and answer.
type Step = (usize, usize, Result<Instruction>);

fn steps(image: &[u8]) -> impl Iterator<Item = Step> + '_ {
    let mut at = 0;
    std::iter::from_fn(move || {
        let rest = image.get(at..).filter(|rest| !rest.is_empty())?;
        let mut bytes = rest.iter().copied();
        let answer = decode_instruction(&mut bytes);
        let taken = answer.as_ref().map_or(1, |_| rest.len() - bytes.len());
        at += taken;
        Some((at - taken, taken, answer))
    })
}

fn print(out: &mut impl Write, (at, taken, answer): Step) -> io::Result<()> {
    match answer {
        Ok(read) => writeln!(
            out,
            "{at}\t{taken}\tread\t{}",
            instruction_text(&read, NEITHER, at + taken, at + taken)
        ),
        Err(refusal) => writeln!(out, "{at}\t{taken}\trefused\t{refusal:02X?}"),
    }
}
