// Drawn maps: shapes of every size, grids and samples of every kind, and what can be wrong with them.
use crate::shared::axis::{REGULAR, bad_step, start_and_step};
use crate::shared::call::{call, padded};
use crate::shared::fit::Fit;
use crate::shared::grids::{GRIDS, joined};
use crate::shared::random::Random;
use crate::shared::samples::KINDS;
use crate::shared::shapes::{LARGE, MOST, large, wrapped};
use crate::shared::spoils::{CHECKS, Check, spoil_check};
use crate::subject::Subject;

// The kinds of knots that an axis of any length can have; the others run out of floats.
pub const LONG: [&str; 11] = [
    "whole",
    "equal",
    "nearly equal",
    "uneven",
    "long gap",
    "short gap",
    "wide",
    "huge",
    "infinite first",
    "infinite last",
    "infinite ends",
];

// The kinds of samples after whose fit few coefficients are NaN.
pub const TELLING: [&str; 11] =
    ["ordinary", "whole", "wide", "tiny", "subnormal", "large", "zeros", "constant", "ramp", "single", "steps"];

// Lengths about powers of two, where a solve by blocks of lines would have its ends.
const EDGES: [u64; 24] = [4, 5, 6, 7, 8, 9, 11, 12, 13, 15, 16, 17, 23, 24, 25, 31, 32, 33, 63, 64, 65, 127, 128, 129];

// Lengths with no more points than this in all.
pub fn dims(random: &mut Random, count: usize, most: u64) -> Vec<u64> {
    let mut out = vec![4; count];
    for axis in 0..count {
        let others: u64 = out.iter().enumerate().filter(|&(i, _)| i != axis).map(|(_, n)| n).product();
        let most = (most / others).max(4);
        let length = match random.below(3) {
            0 => random.between(4, 9),
            1 => random.pick(&EDGES),
            _ => 4 + random.below(most) / (1 << random.below(12)),
        };
        out[axis] = length.clamp(4, most);
    }
    for i in (1..count).rev() {
        out.swap(i, random.below(i as u64 + 1) as usize);
    }
    out
}

// The most points of a drawn map: mostly few.
pub fn most(random: &mut Random) -> u64 {
    match random.below(4000) {
        0 => 1 << 20,
        1..20 => 1 << 16,
        20..200 => 1 << 12,
        200..1000 => 1 << 10,
        _ => 300,
    }
}

pub fn samples_kind(random: &mut Random) -> &'static str {
    if random.below(2) == 0 { random.pick(&TELLING) } else { random.pick(&KINDS) }
}

// Knots for these lengths: their kind, and the joined grid.
pub fn knots(random: &mut Random, dims: &[u64]) -> (&'static str, Vec<f64>) {
    let kind = if dims.iter().all(|&n| n <= 8) { random.pick(&GRIDS) } else { random.pick(&LONG) };
    (kind, joined(random, kind, dims))
}

// Starts and then steps, of one kind.
pub fn starts_and_steps(random: &mut Random, count: usize) -> (&'static str, Vec<f64>) {
    let kind = random.pick(&REGULAR);
    let axes: Vec<(f64, f64)> = (0..count).map(|_| start_and_step(random, kind)).collect();
    (kind, axes.iter().map(|axis| axis.0).chain(axes.iter().map(|axis| axis.1)).collect())
}

// A map that every fitting call accepts.
pub fn good(random: &mut Random, dims: &[u64], rectilinear: bool, samples: &'static str) -> Subject {
    if rectilinear {
        let (grid, knots) = knots(random, dims);
        return Subject { fit: Fit::new(call(random, samples, dims, Some(knots))), regular: Vec::new(), samples, grid };
    }
    let (grid, regular) = starts_and_steps(random, dims.len());
    Subject { fit: Fit::new(call(random, samples, dims, None)), regular, samples, grid }
}

pub fn any_good(random: &mut Random, most: u64) -> Subject {
    let count = random.between(1, 4) as usize;
    let dims = dims(random, count, most);
    let samples = samples_kind(random);
    let rectilinear = random.below(2) == 0;
    good(random, &dims, rectilinear, samples)
}

// A map that is wrong in one or more ways.
pub fn spoilt(random: &mut Random) -> Subject {
    let mut subject = any_good(random, 300);
    let checks = if random.below(2) == 0 { vec![random.pick(&CHECKS)] } else { random.some(&CHECKS) };
    for check in checks {
        spoil_check(random, &mut subject.fit, check);
        if check == Check::Grid || check == Check::Knots {
            spoil_regular(random, &mut subject.regular);
        }
    }
    match random.below(6) {
        0 => short_axis(random, &mut subject.fit),
        1 => many_points(random, &mut subject.fit),
        2 => subject.fit.call.count = axis_count(random),
        _ => (),
    }
    subject
}

// A step that is not above zero, or another length.
pub fn spoil_regular(random: &mut Random, regular: &mut Vec<f64>) {
    if regular.len() < 2 {
        return;
    }
    if random.below(2) == 0 {
        let steps = regular.len() / 2;
        let axis = random.below(steps as u64) as usize;
        regular[steps + axis] = bad_step(random);
    } else {
        let length = random.pick(&[0, 1, regular.len() - 1, regular.len() + 1, 2 * regular.len()]);
        regular.resize(length, 1.0);
    }
}

pub fn axis_count(random: &mut Random) -> u64 {
    random.pick(&[0, 0, 5, 5, 6, 8, 255, 256, 257, 1 << 24, 1 << 32, (1 << 32) + 1, 1 << 63, u64::MAX])
}

// An axis of 0 to 3 points, with as many knots or not.
fn short_axis(random: &mut Random, fit: &mut Fit) {
    let axis = random.below(fit.call.count) as usize;
    let before = std::mem::replace(&mut fit.call.dims[axis], random.below(4));
    if random.below(2) == 0 {
        let fewer = (before - fit.call.dims[axis]) as usize;
        if let Some(grid) = &mut fit.call.grid {
            grid.truncate(grid.len().saturating_sub(fewer));
        }
        let points = fit.call.lengths().iter().product::<u64>() as usize;
        fit.call.samples.resize(points, 1.5);
        (fit.call.coefs, fit.ledger) = (points, points);
    }
}

// More points than a map may have, or as many with buffers that are too short.
pub fn many(random: &mut Random) -> Vec<u64> {
    match random.below(4) {
        0 => random.pick(&LARGE).to_vec(),
        1 => large(random),
        2 => wrapped(random),
        _ => random.pick(&MOST).to_vec(),
    }
}

fn many_points(random: &mut Random, fit: &mut Fit) {
    let dims = many(random);
    fit.call.count = dims.len() as u64;
    fit.call.dims = padded(random, &dims);
}
