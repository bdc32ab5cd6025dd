// Counts the instructions of the library and of the Rust on small fixed cases, and prints them and their ratios. It runs
// itself under valgrind's callgrind, once for each side of each row, with only `measured` counted.
use bench::Work;
use bench::table::{Figures, SMALL, measure};
use std::process::Command;

const QUERIES: usize = 200;

fn main() {
    let words: Vec<String> = std::env::args().skip(1).collect();
    if let [side, work, dims, grid] = &words[..] {
        return side_of(side, work, dims, grid);
    }
    println!("instructions of one call, batches and single values of {QUERIES} queries");
    println!();
    measure(&SMALL, "instructions", 0, |work, dims, rectilinear| Figures {
        library: count("library", work, dims, rectilinear),
        rust: count("rust", work, dims, rectilinear),
    });
}

// One side of one row, counted by valgrind.
fn count(side: &str, work: Work, dims: &[u64], rectilinear: bool) -> f64 {
    let dims: Vec<String> = dims.iter().map(u64::to_string).collect();
    let output = Command::new("valgrind")
        .args(["--tool=callgrind", "--callgrind-out-file=/dev/null", "--toggle-collect=measured"])
        .arg(std::env::current_exe().expect("the program has no place"))
        .args([side, work.name(), &dims.join(","), if rectilinear { "rectilinear" } else { "regular" }])
        .output()
        .expect("valgrind does not run");
    let text = String::from_utf8_lossy(&output.stderr);
    assert!(output.status.success(), "{text}");
    let line = text.lines().find(|line| line.contains("Collected :")).unwrap_or_else(|| panic!("no count in: {text}"));
    line.split_whitespace().last().and_then(|word| word.parse().ok()).expect("the count is no number")
}

fn side_of(side: &str, work: &str, dims: &str, grid: &str) {
    let work = Work::ALL.into_iter().find(|known| known.name() == work).expect("no such work");
    let dims: Vec<u64> = dims.split(',').map(|n| n.parse().expect("a length")).collect();
    let mut pair = work.pair(&dims, grid == "rectilinear", QUERIES);
    measured(if side == "library" { &mut pair.library } else { &mut pair.rust });
}

// What valgrind counts, by this name.
#[unsafe(no_mangle)]
#[inline(never)]
fn measured(work: &mut dyn FnMut()) {
    work();
}
