// The accepted fits on regular grids: shapes of one to four axes, each with every kind of samples.
use crate::list::List;
use crate::shared::call::call;
use crate::shared::random::Random;
use crate::shared::samples::KINDS;

const SEED: u64 = 0x26_574e_b562;

pub fn add(list: &mut List) {
    let mut random = Random::new(SEED);
    for kind in KINDS {
        for n in 4..=9 {
            fit(list, &mut random, kind, &[n]);
        }
        for &count in axis_counts(kind) {
            let dims = drawn(&mut random, count);
            fit(list, &mut random, kind, &dims);
        }
    }
    chosen(list, &mut random);
}

// The axis counts of a kind's drawn shapes. Samples of which one makes every coefficient NaN need fewer.
fn axis_counts(kind: &str) -> &'static [usize] {
    match kind {
        "infinities" | "nans" | "any bits" | "huge" => &[1, 2, 2, 2, 2, 2, 2, 3, 3, 3, 4],
        _ => &[1, 2, 2, 2, 2, 2, 2, 2, 2, 3, 3, 3, 3, 4, 4],
    }
}

// Random lengths. On three and four axes one of them is from 4 to 9 and the others are small, which keeps the list short.
pub fn drawn(random: &mut Random, count: usize) -> Vec<u64> {
    let long = random.below(count as u64) as usize;
    (0..count).map(|axis| length(random, count, axis == long)).collect()
}

fn length(random: &mut Random, count: usize, long: bool) -> u64 {
    match (count, long) {
        (1, _) => random.between(10, 20),
        (2, _) => random.between(4, 9),
        (3, true) => random.between(4, 9),
        (3, false) => random.between(4, 5),
        (_, true) => random.pick(&[4, 4, 4, 5, 6, 7, 8, 9]),
        (_, false) => random.pick(&[4, 4, 4, 5]),
    }
}

// Lengths that the draws above leave out: longer axes, nines among small ones, and the other way round.
fn chosen(list: &mut List, random: &mut Random) {
    let shapes: [&[u64]; 20] = [
        &[10],
        &[16],
        &[33],
        &[64],
        &[129],
        &[200],
        &[33, 4],
        &[4, 33],
        &[17, 5],
        &[5, 18],
        &[19, 19],
        &[9, 4, 4],
        &[4, 9, 4],
        &[4, 4, 9],
        &[9, 9, 9],
        &[9, 4, 4, 4],
        &[4, 9, 4, 4],
        &[4, 4, 9, 4],
        &[4, 4, 4, 9],
        &[9, 4, 9, 4],
    ];
    for dims in shapes {
        fit(list, random, "ordinary", dims);
    }
    fit(list, random, "mixture", &[9, 9, 9]);
    fit(list, random, "mixture", &[4, 5, 6, 7]);
    fit(list, random, "wide", &[7, 6, 5, 4]);
    fit(list, random, "huge", &[64]);
    fit(list, random, "any bits", &[64]);
}

fn fit(list: &mut List, random: &mut Random, kind: &str, dims: &[u64]) {
    let call = call(random, kind, dims, None);
    list.fit(&format!("fit, {} axes, {kind}", dims.len()), &call);
}
