//! Compares the proved library with the given Rust, family by family, and in the second reading with what `second` makes of the
//! given Rust's answers. The argument is the seed of the random cases.

mod both;
mod families;
mod own_types;

use differential::compare::Tally;
use differential::reading::{GIVEN, MANUAL};
use std::env;
use std::process::ExitCode;
use std::time::Instant;

const FIRST_SEED: u64 = 1;

fn main() -> ExitCode {
    let Some(seed) = seed() else {
        eprintln!("differential: the seed is a number");
        return ExitCode::from(2);
    };
    let start = Instant::now();
    println!("seed {seed}");
    println!("the Rust does not tell near and far nor displacement bytes and keeps no override: records leave the three out, the first two are held to the bytes by themselves, and what is kept to 0 in reading 1");
    let total = run(seed);
    println!(
        "{} compared, {} differ, in {} s",
        total.compared,
        total.differ,
        start.elapsed().as_secs()
    );
    ExitCode::from(u8::from(total.differ > 0))
}

fn seed() -> Option<u64> {
    match env::args().nth(1) {
        None => Some(FIRST_SEED),
        Some(word) => word.parse().ok(),
    }
}

fn run(seed: u64) -> Tally {
    let mut total = Tally::default();
    let mut family = |what: &str, tally: Tally| {
        println!(
            "{what}: {} compared, {} differ",
            tally.compared, tally.differ
        );
        if let Some(difference) = &tally.smallest {
            println!("{difference}");
        }
        total.add(tally);
    };
    family("field readers on 0 to 255", families::field_readers());
    family(
        "operand_size of every kind and size",
        families::operand_size(),
    );
    family("the types of rust/mrc", families::own_types(seed));
    family("a record between records", families::between_records());
    family("the ModRM reader", families::modrm_reader(seed));
    family("every number of a reading", families::reading_numbers());
    for reading in [GIVEN, MANUAL] {
        let mut family = |what: &str, tally| family(&format!("reading {reading}, {what}"), tally);
        decodes(reading, seed, &mut family);
        lines(reading, seed, &mut family);
    }
    total
}

fn decodes(reading: u8, seed: u64, family: &mut impl FnMut(&str, Tally)) {
    family(
        "every string of up to three bytes",
        families::short_strings(reading),
    );
    family(
        "every opcode with every ModRM byte, tails, prefixes and cuts",
        families::every_modrm_cut(reading),
    );
    family(
        "random strings at every position with every budget",
        families::random_strings(reading, seed),
    );
    family(
        "prefix runs of 0 to 300 with every budget",
        families::prefix_runs(reading, seed),
    );
}

fn lines(reading: u8, seed: u64, family: &mut impl FnMut(&str, Tally)) {
    family(
        "a line of every opcode with every ModRM byte, in four rooms",
        families::lines(reading),
    );
    family(
        "a line at every position of an image, in four rooms",
        families::lines_of_an_image(reading, seed),
    );
    family(
        "line buffers of 0 to 128 bytes",
        families::line_rooms(reading, seed),
    );
    family(
        "pages of an image, and joined",
        families::pages(reading, seed),
    );
    family(
        "page buffers of 0 to 511 bytes",
        families::page_rooms(reading, seed),
    );
}
