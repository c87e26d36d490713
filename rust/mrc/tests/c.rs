//! The header and the example from C: built with `cc`, and run.

use mrc::Reading;
use std::fs::{self, File};
use std::path::{Path, PathBuf};
use std::process::{Command, Output};

const LONGEST_IMAGE: usize = 65_536;

fn root() -> PathBuf {
    Path::new(env!("CARGO_MANIFEST_DIR")).join("../..")
}

fn scratch(name: &str) -> PathBuf {
    Path::new(env!("CARGO_TARGET_TMPDIR")).join(name)
}

/// The program that `cc` makes of a source with the header and the archive.
fn built(source: PathBuf, name: &str) -> PathBuf {
    let program = scratch(name);
    let output = Command::new("cc")
        .args(["-std=c99", "-Wall", "-Wextra", "-pedantic", "-Werror", "-I"])
        .arg(root().join("include"))
        .arg(source)
        .arg(env!("MRC_C_ARCHIVE"))
        .arg("-o")
        .arg(&program)
        .output()
        .expect("a C compiler named cc on the PATH");
    let said = String::from_utf8_lossy(&output.stderr);
    assert!(output.status.success(), "cc says:\n{said}");
    program
}

fn run(program: &Path, words: &[&str], image: &Path) -> Output {
    let mut command = Command::new(program);
    let output = command.args(words).arg(image).output();
    output.expect("the program runs")
}

#[test]
fn each_function_answers_c() {
    let here = Path::new(env!("CARGO_MANIFEST_DIR"));
    let program = built(here.join("tests/c/boundary.c"), "boundary");
    let output = Command::new(program).output().expect("the program runs");
    let said = String::from_utf8_lossy(&output.stdout);
    assert!(output.status.success(), "{said}");
}

#[test]
fn each_call_that_decodes_keeps_to_the_stack_of_the_header() {
    let here = Path::new(env!("CARGO_MANIFEST_DIR"));
    let program = built(here.join("tests/c/stack.c"), "stack");
    let output = Command::new(program).output().expect("the program runs");
    let said = String::from_utf8_lossy(&output.stdout);
    assert!(output.status.success(), "{said}{:?}", output.status);
}

#[test]
fn the_example_lists_a_file() {
    let program = built(root().join("examples/list.c"), "list");
    let bytes: Vec<u8> = (0..LONGEST_IMAGE).map(|place| (place / 7) as u8).collect();
    for length in [0, 13, LONGEST_IMAGE] {
        let image = scratch(&format!("{length}.bin"));
        fs::write(&image, &bytes[..length]).expect("an image");
        for (words, reading) in [
            (&[][..], Reading::One),
            (&["--reading", "1"], Reading::One),
            (&["--reading", "2"], Reading::Two),
        ] {
            let output = run(&program, words, &image);
            let lines = reading.lines(&bytes[..length]).expect("lines");
            let expected: String = lines.map(|line| line.text).collect();
            assert!(output.status.success());
            assert!(
                output.stdout == expected.as_bytes(),
                "{length} bytes, {words:?}"
            );
        }
    }
}

#[test]
fn the_example_says_in_one_line_what_it_does_not_know() {
    let program = built(root().join("examples/list.c"), "list-unknown");
    let image = scratch("known.bin");
    fs::write(&image, [0x90]).expect("an image");
    let usage = "list: usage: list [--reading 1|2] IMAGE\n";
    for (words, expected) in [
        (
            &["--reading", "3"][..],
            "list: 3: no reading; there are 1 and 2\n",
        ),
        (
            &["--reading", ""],
            "list: : no reading; there are 1 and 2\n",
        ),
        (
            &["--reading", "02"],
            "list: 02: no reading; there are 1 and 2\n",
        ),
        (&["--reading"], usage),
        (&["--readings", "2"], usage),
        (&["2"], usage),
    ] {
        let output = run(&program, words, &image);
        assert_eq!(output.status.code(), Some(1), "{words:?}");
        assert!(output.stdout.is_empty(), "{words:?}");
        assert_eq!(
            String::from_utf8_lossy(&output.stderr),
            expected,
            "{words:?}"
        );
    }
}

#[test]
fn the_example_says_in_one_line_what_it_cannot_list() {
    let program = built(root().join("examples/list.c"), "list-refused");
    let too_long = scratch("too-long.bin");
    fs::write(&too_long, vec![0; LONGEST_IMAGE + 1]).expect("an image");
    for image in [too_long, scratch("missing.bin")] {
        let output = run(&program, &[], &image);
        assert_eq!(output.status.code(), Some(1));
        assert!(output.stdout.is_empty());
        let said = String::from_utf8_lossy(&output.stderr);
        assert_eq!(said.lines().count(), 1, "{said}");
    }
}

#[test]
fn the_example_says_that_it_cannot_write() {
    let program = built(root().join("examples/list.c"), "list-unwritten");
    let image = scratch("unwritten.bin");
    for length in [1, 4_096, LONGEST_IMAGE] {
        fs::write(&image, vec![0x90; length]).expect("an image");
        let full = File::create("/dev/full").expect("a full device");
        let mut command = Command::new(&program);
        let output = command.arg(&image).stdout(full).output();
        let output = output.expect("the program runs");
        assert_eq!(output.status.code(), Some(1), "{length} bytes");
        let said = String::from_utf8_lossy(&output.stderr);
        assert_eq!(said, "list: standard output: can't be written\n");
    }
}
