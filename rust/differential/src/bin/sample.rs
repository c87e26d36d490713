//! Prints the stored answers of the given Rust, one case a line; the columns are those of `differential::case`.

use differential::case::Case;
use differential::sample;

fn main() {
    let lines: String = sample::all().iter().map(Case::line).collect();
    print!("{lines}");
}
