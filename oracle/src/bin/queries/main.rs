// Writes the fixed list of queries on maps and their answers to standard output, and its counts to standard error. Nothing
// here depends on the time, the environment or the machine. ../../../README.md describes the list.
mod list;
mod maps;
mod rectilinear_maps;
mod rectilinear_refusals;
mod refusals;
#[allow(dead_code)]
#[path = "../../shared/mod.rs"]
mod shared;

use list::List;
use std::io::Write;

fn main() {
    let mut list = List::new();
    maps::add(&mut list);
    refusals::add(&mut list);
    rectilinear_maps::add(&mut list);
    rectilinear_refusals::add(&mut list);
    std::io::stdout().write_all(list.text()).expect("standard output is closed");
    list.tell_counts();
}
