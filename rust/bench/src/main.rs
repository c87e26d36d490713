//! What tools/bench measures:
//!
//!     bench PASS IMAGE               runs one pass and prints its number of steps
//!     bench times IMAGE              prints each pass and the nanoseconds of its fastest run
//!     bench program IMAGE WORDS      prints the nanoseconds of a program's fastest run
//!     bench image                    writes an image of pseudo-random bytes

mod passes;
mod times;

use differential::random::Random;
use passes::PASSES;
use std::io::{self, Write};
use std::{env, fs, process};

fn main() {
    let words: Vec<String> = env::args().skip(1).collect();
    if let Err(error) = run(&words) {
        eprintln!("bench: {error}");
        process::exit(1);
    }
}

fn run(words: &[String]) -> io::Result<()> {
    let names: Vec<&str> = words.iter().map(String::as_str).collect();
    match names[..] {
        ["image"] => io::stdout().write_all(&pseudo_random_image()),
        ["times", image] => print_times(&fs::read(image)?),
        ["program", image, _, ..] => print_time_of_program(image, &words[2..]),
        [pass, image] => print_steps(pass, &fs::read(image)?),
        _ => Err(io::Error::other("unknown words; src/main.rs lists them")),
    }
}

fn pseudo_random_image() -> Vec<u8> {
    let mut random = Random::new(1, 0);
    (0..mrc::LONGEST_IMAGE).map(|_| random.byte()).collect()
}

fn print_steps(name: &str, image: &[u8]) -> io::Result<()> {
    let pass = PASSES.iter().find(|pass| pass.0 == name);
    let (_, run) = pass.ok_or_else(|| io::Error::other(format!("there is no pass {name}")))?;
    println!("{}", run(image));
    Ok(())
}

fn print_times(image: &[u8]) -> io::Result<()> {
    let fastest = times::of_passes(&PASSES, image);
    for ((name, _), fastest) in PASSES.iter().zip(fastest) {
        println!("{name} {}", fastest.as_nanos());
    }
    Ok(())
}

fn print_time_of_program(image: &str, words: &[String]) -> io::Result<()> {
    println!("{}", times::of_program(words, image)?.as_nanos());
    Ok(())
}
