// The map program, with the Rust's figures: a filter from standard input to standard output. It says what the papers ask of
// the program, so that any other can be held against it. ../../../README.md describes it.
mod fitted;
mod program;
#[allow(dead_code)]
#[path = "../../shared/mod.rs"]
mod shared;
mod text;

use program::program;
use std::io::{Read, Write};

fn main() {
    let mut input = Vec::new();
    std::io::stdin().read_to_end(&mut input).expect("standard input cannot be read");
    std::io::stdout().write_all(program(&input).as_bytes()).expect("standard output is closed");
}
