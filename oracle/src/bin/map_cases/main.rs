// Writes the fixed list of inputs of the map program, with what the reference prints for each, to standard output, and its
// counts to standard error. Nothing here depends on the time, the environment or the machine. ../../../README.md describes
// the list.
#[path = "../map_inputs/exact.rs"]
mod exact;
#[path = "../map_reference/fitted.rs"]
mod fitted;
#[allow(dead_code)]
#[path = "../map_inputs/input.rs"]
mod input;
mod list;
mod maps;
#[path = "../map_reference/program.rs"]
mod program;
mod readings;
mod scope_lines;
mod scope_printed;
#[allow(dead_code)]
#[path = "../../shared/mod.rs"]
mod shared;
#[path = "../map_reference/text.rs"]
mod text;

use list::List;
use shared::random::Random;
use std::io::Write;

const SEED: u64 = 0x26_574e_b570;

fn main() {
    let mut list = List::new();
    let mut random = Random::new(SEED);
    scope_lines::add(&mut list);
    scope_printed::add(&mut list, &mut random);
    readings::add(&mut list, &mut random);
    std::io::stdout().write_all(list.text()).expect("standard output is closed");
    list.tell_counts();
}
