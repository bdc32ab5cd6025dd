// Times the library and the Rust on the same inputs and prints their medians and ratios. The argument is the number of
// rounds, 9 without it. ../docs/PERFORMANCE.md has figures.
use bench::clock::now;
use bench::table::{Figures, MAPS, measure};
use bench::{Pair, Work};

const QUERIES: usize = 100_000;
const SINGLE: usize = 1_000;

// A side is repeated until a round of it takes so many microseconds.
const ROUND: f64 = 20_000.0;

fn main() {
    let rounds = std::env::args().nth(1).map_or(9, |text| text.parse().expect("the argument is the number of rounds"));
    println!(
        "medians of {rounds} rounds, library and Rust in turn; microseconds a call, or for {SINGLE} single values"
    );
    println!();
    measure(&MAPS, "us", 1, |work, dims, rectilinear| {
        let queries = if work == Work::Value { SINGLE } else { QUERIES };
        medians(work.pair(dims, rectilinear, queries), rounds)
    });
}

// Rounds of both sides in turn, the first of them by turns, so that drift of the machine hits both.
fn medians(mut pair: Pair, rounds: usize) -> Figures {
    let library_times = repeats(&mut pair.library);
    let rust_times = repeats(&mut pair.rust);
    let (mut library, mut rust) = (Vec::new(), Vec::new());
    for round in 0..rounds {
        if round % 2 == 0 {
            library.push(time(&mut pair.library, library_times));
            rust.push(time(&mut pair.rust, rust_times));
        } else {
            rust.push(time(&mut pair.rust, rust_times));
            library.push(time(&mut pair.library, library_times));
        }
    }
    let calls = pair.calls as f64;
    Figures { library: median(library) / calls, rust: median(rust) / calls }
}

// How often the work fits into a round.
fn repeats(work: &mut dyn FnMut()) -> usize {
    ((ROUND / time(work, 1)) as usize).clamp(1, 1_000_000)
}

// Microseconds of one time, over so many.
fn time(work: &mut dyn FnMut(), times: usize) -> f64 {
    let started = now();
    (0..times).for_each(|_| work());
    (now() - started) / times as f64
}

fn median(mut times: Vec<f64>) -> f64 {
    times.sort_by(f64::total_cmp);
    let middle = times.len() / 2;
    if times.len() % 2 == 1 { times[middle] } else { (times[middle - 1] + times[middle]) / 2.0 }
}
