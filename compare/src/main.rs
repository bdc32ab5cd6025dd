// Compares the library with the unchanged Rust on drawn inputs until its time is over, and stops at the first difference.
// ../docs/COMPARISON.md describes it.
mod arguments;
mod big;
mod buffers;
mod case;
mod counts;
mod difference;
mod draw;
mod fits;
mod line;
mod queries;
mod query_draw;
mod shape;
#[allow(dead_code)]
#[path = "../../oracle/src/shared/mod.rs"]
mod shared;
mod show;
mod steps;
mod subject;

use arguments::Arguments;
use case::{draw, run};
use counts::Counts;
use std::process::ExitCode;
use std::time::{Duration, Instant};

fn main() -> ExitCode {
    let arguments = Arguments::read();
    match arguments.case {
        Some(number) => one(&arguments, number),
        None => many(&arguments),
    }
}

// One case, with its inputs in full.
fn one(arguments: &Arguments, number: u64) -> ExitCode {
    tell_where(arguments.seed, number);
    let case = draw(arguments.seed, number);
    case.show();
    finish(run(&*case, &mut Counts::default()), arguments.seed, number)
}

// Cases until the time is over.
fn many(arguments: &Arguments) -> ExitCode {
    let started = Instant::now();
    let mut counts = Counts::default();
    let mut number = arguments.from;
    let mut told = 0;
    while started.elapsed() < Duration::from_secs(arguments.seconds) {
        tell_where(arguments.seed, number);
        if let Err(difference) = run(&*draw(arguments.seed, number), &mut counts) {
            return finish(Err(difference), arguments.seed, number);
        }
        number += 1;
        if started.elapsed().as_secs() / 60 > told {
            told = started.elapsed().as_secs() / 60;
            eprintln!("{told} minutes, {number} cases");
        }
    }
    counts.tell();
    println!("seed,{}", arguments.seed);
    println!("seconds,{}", started.elapsed().as_secs());
    println!("cases,{}", number - arguments.from);
    println!("differ,0");
    ExitCode::SUCCESS
}

fn finish(outcome: difference::Outcome, seed: u64, number: u64) -> ExitCode {
    match outcome {
        Ok(()) => {
            println!("case {number} of seed {seed}: no difference");
            ExitCode::SUCCESS
        }
        Err(difference) => {
            println!("case {number} of seed {seed}: {}", difference.0);
            println!("to run just this case: cargo run --release -- --seed {seed} --case {number}");
            println!("differ,1");
            ExitCode::FAILURE
        }
    }
}

// A panic, of the Rust or of what judges it, names the case too.
fn tell_where(seed: u64, number: u64) {
    static HOOK: std::sync::Once = std::sync::Once::new();
    static NUMBER: std::sync::atomic::AtomicU64 = std::sync::atomic::AtomicU64::new(0);
    NUMBER.store(number, std::sync::atomic::Ordering::Relaxed);
    HOOK.call_once(|| {
        let usual = std::panic::take_hook();
        std::panic::set_hook(Box::new(move |info| {
            let number = NUMBER.load(std::sync::atomic::Ordering::Relaxed);
            eprintln!("case {number} of seed {seed} ends in a panic");
            usual(info);
        }));
    });
}
