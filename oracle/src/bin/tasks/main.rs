// Writes the fixed list of stepwise fits, their task lists and what comes of them to standard output, and its counts to
// standard error. Nothing here depends on the time, the environment or the machine. ../../../README.md describes the list.
mod list;
mod lists;
mod orders;
mod refusals;
#[allow(dead_code)]
#[path = "../../shared/mod.rs"]
mod shared;

use list::List;
use std::io::Write;

fn main() {
    let mut list = List::new();
    for rectilinear in [false, true] {
        lists::add(&mut list, rectilinear);
        refusals::add(&mut list, rectilinear);
        orders::add(&mut list, rectilinear);
    }
    std::io::stdout().write_all(list.text()).expect("standard output is closed");
    list.tell_counts();
}
