//! The fastest of many runs, of passes and of whole programs.

use crate::passes::Pass;
use std::fs::File;
use std::process::{Command, Stdio};
use std::time::{Duration, Instant};

const ROUNDS: usize = 40;

/// The fastest run of each pass; in a round each of them runs once.
pub fn of_passes(passes: &[Pass], image: &[u8]) -> Vec<Duration> {
    let mut fastest = vec![Duration::MAX; passes.len()];
    for _ in 0..ROUNDS {
        for ((_, run), best) in passes.iter().zip(&mut fastest) {
            let start = Instant::now();
            std::hint::black_box(run(image));
            *best = start.elapsed().min(*best);
        }
    }
    fastest
}

/// The fastest run of a program with the image as its standard input, from its start to its end.
pub fn of_program(words: &[String], image: &str) -> std::io::Result<Duration> {
    let mut fastest = Duration::MAX;
    for _ in 0..ROUNDS {
        let mut command = Command::new(&words[0]);
        command.args(&words[1..]).stdin(File::open(image)?);
        command.stdout(Stdio::null()).stderr(Stdio::null());
        let start = Instant::now();
        command.status()?;
        fastest = start.elapsed().min(fastest);
    }
    Ok(fastest)
}
