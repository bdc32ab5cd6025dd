// The accepted fits on rectilinear grids: every kind of grid, and every kind of samples.
use crate::fits::drawn;
use crate::list::List;
use crate::shared::call::call;
use crate::shared::grids::{GRIDS, joined};
use crate::shared::random::Random;
use crate::shared::samples::KINDS;

const SEED: u64 = 0x26_574e_b566;

// The grids on which a fit tells most.
const PLAIN: [&str; 8] = ["whole", "equal", "nearly equal", "uneven", "growing", "falling", "long gap", "short gap"];

pub fn add(list: &mut List) {
    let mut random = Random::new(SEED);
    for grid in GRIDS {
        every_length(list, &mut random, grid);
        for &count in axis_counts(grid) {
            let dims = drawn(&mut random, count);
            let kind = random.pick(&["ordinary", "ordinary", "whole", "steps", "wide"]);
            fit(list, &mut random, grid, kind, &dims);
        }
    }
    for kind in KINDS {
        for &count in sample_counts(kind) {
            let dims = drawn(&mut random, count);
            let grid = random.pick(&PLAIN);
            fit(list, &mut random, grid, kind, &dims);
        }
    }
    chosen(list, &mut random);
}

// One axis of each length from 4 to 9.
fn every_length(list: &mut List, random: &mut Random, grid: &str) {
    for n in 4..=9 {
        fit(list, random, grid, "ordinary", &[n]);
    }
}

// The axis counts of a grid's drawn shapes. Grids on which nearly every coefficient is NaN need fewer.
fn axis_counts(grid: &str) -> &'static [usize] {
    match grid {
        "tiny" | "subnormal" | "huge" | "infinite first" | "infinite last" | "infinite ends" => &[2, 2, 3],
        _ => &[2, 2, 2, 2, 2, 3, 3, 3, 4],
    }
}

// The axis counts of a kind of samples, likewise.
fn sample_counts(kind: &str) -> &'static [usize] {
    match kind {
        "infinities" | "nans" | "any bits" | "huge" => &[1, 1, 2, 2, 3],
        _ => &[1, 1, 2, 2, 2, 3, 3, 4],
    }
}

// Longer axes, nines on each axis, and several grids at once.
fn chosen(list: &mut List, random: &mut Random) {
    let shapes: [(&str, &[u64]); 14] = [
        ("uneven", &[33]),
        ("nearly equal", &[64]),
        ("whole", &[129]),
        ("uneven", &[200]),
        ("uneven", &[33, 4]),
        ("long gap", &[4, 33]),
        ("uneven", &[17, 5]),
        ("uneven", &[9, 4, 4]),
        ("growing", &[4, 9, 4]),
        ("falling", &[4, 4, 9]),
        ("uneven", &[9, 4, 4, 4]),
        ("nearly equal", &[4, 9, 4, 4]),
        ("short gap", &[4, 4, 9, 4]),
        ("uneven", &[4, 4, 4, 9]),
    ];
    for (grid, dims) in shapes {
        fit(list, random, grid, "ordinary", dims);
    }
    fit(list, random, "uneven", "mixture", &[9, 9, 9]);
    fit(list, random, "uneven", "mixture", &[4, 5, 6, 7]);
    fit(list, random, "uneven", "any bits", &[64]);
}

fn fit(list: &mut List, random: &mut Random, grid: &str, kind: &str, dims: &[u64]) {
    let knots = joined(random, grid, dims);
    let call = call(random, kind, dims, Some(knots));
    list.fit(&format!("fit, {} axes, {grid}", dims.len()), &call);
}
