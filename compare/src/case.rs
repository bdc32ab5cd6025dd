// A case: its inputs follow from the seed and its number alone.
use crate::big;
use crate::counts::Counts;
use crate::difference::{Difference, Outcome};
use crate::fits::FitCase;
use crate::line::LineCase;
use crate::queries::QueryCase;
use crate::shape::ShapeCase;
use crate::shared::random::Random;
use crate::steps::StepCase;
use std::hint::black_box;

// One case in so many is as large as a map may be, or just too large.
const BIG_EVERY: u64 = 6_000;
const FIRST_BIG: u64 = 1_000;

pub trait Case {
    // Prints every input.
    fn show(&self);
    fn compare(&self, counts: &mut Counts) -> Outcome;
    // The floats that the library is lent to read.
    fn lent(&self) -> Vec<&[f64]>;
}

// Compares a case, and that nothing that was lent to be read has changed.
pub fn run(case: &dyn Case, counts: &mut Counts) -> Outcome {
    let before = digest(case);
    case.compare(counts)?;
    if digest(case) == before { Ok(()) } else { Err(Difference("an input has changed".to_string())) }
}

fn digest(case: &dyn Case) -> u64 {
    let floats = case.lent();
    let words = black_box(&floats).iter().flat_map(|part| part.iter());
    words.fold(0, |sum: u64, x| (sum ^ x.to_bits()).wrapping_mul(0x9e37_79b9_7f4a_7c15).rotate_left(23))
}

pub fn draw(seed: u64, number: u64) -> Box<dyn Case> {
    let mut random = Random::new(Random::new(seed).bits() ^ Random::new(!number).bits());
    if number % BIG_EVERY == FIRST_BIG {
        return big::draw(&mut random, number / BIG_EVERY);
    }
    match random.below(16) {
        0..5 => Box::new(FitCase::draw(&mut random)),
        5..10 => Box::new(QueryCase::draw(&mut random)),
        10..12 => Box::new(StepCase::draw(&mut random)),
        12..15 => Box::new(LineCase::draw(&mut random)),
        _ => Box::new(ShapeCase::draw(&mut random)),
    }
}
