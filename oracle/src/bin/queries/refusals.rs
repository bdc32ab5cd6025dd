// The records on regular grids that are refused as a whole: each refusal by itself, and several at once, where the first in
// the fixed order is the answer.
use crate::list::List;
use crate::maps::bare;
use crate::shared::axis::bad_step;
use crate::shared::map::{Map, ask};
use crate::shared::random::Random;

const SEED: u64 = 0x26_574e_b565;
pub const EACH: usize = 24;

// More than 16,777,216 points, also past 64 bits.
pub const LARGE: [&[u64]; 8] = [
    &[16_777_217],
    &[u64::MAX],
    &[4096, 4097],
    &[1 << 32, 1 << 32],
    &[(1 << 62) + 4, 4],
    &[256, 256, 257],
    &[1 << 22, 1 << 21, 1 << 21],
    &[64, 64, 64, 65],
];

pub fn add(list: &mut List) {
    let mut random = Random::new(SEED);
    axis_counts(list, &mut random);
    short_axes(list, &mut random);
    too_many_points(list, &mut random);
    coefficient_lengths(list, &mut random);
    steps(list, &mut random);
    lengths(list, &mut random, good);
}

fn good(random: &mut Random) -> Map {
    let count = random.pick(&[1, 1, 2, 2, 3]);
    let linear = random.below(2) == 0;
    let mut map = bare(random, "ordinary", "ordinary", count, linear);
    ask(random, &mut map, 2);
    map
}

// What is wrong later in the fixed order does not show.
fn spoil_coefs(random: &mut Random, map: &mut Map) {
    if random.below(3) == 0 {
        let n = map.coefs.len();
        map.coefs.truncate(random.pick(&[0, 1, n - 1]));
    }
    spoil_steps(random, map);
}

fn spoil_steps(random: &mut Random, map: &mut Map) {
    if random.below(3) == 0 {
        let axis = random.below(map.count.clamp(1, 4)) as usize;
        map.steps[axis] = bad_step(random);
    }
    spoil_lengths(random, map);
}

pub fn spoil_lengths(random: &mut Random, map: &mut Map) {
    if random.below(3) == 0 {
        map.values += 1;
    }
    if random.below(3) == 0 {
        map.parts += 1;
    }
    if random.below(3) == 0 {
        map.xs[0] = f64::NAN;
    }
}

// 1: no axes, or more than four. The Rust has no counterpart.
fn axis_counts(list: &mut List, random: &mut Random) {
    for i in 0..EACH {
        let mut map = good(random);
        map.count = [0, 5, 6, 8, 1 << 32, 1 << 63, u64::MAX, 0][i % 8];
        spoil_coefs(random, &mut map);
        list.papers_refusal("1, axis count", 1, &map);
    }
}

// 2: an axis of 0 to 3 points.
fn short_axes(list: &mut List, random: &mut Random) {
    for i in 0..EACH {
        let mut map = good(random);
        let axis = random.below(map.count) as usize;
        map.dims[axis] = i as u64 % 4;
        spoil_coefs(random, &mut map);
        list.refusal("2, short axis", 2, &map);
    }
}

// 3: too many points. The Rust finds too few coefficients and says 2.
fn too_many_points(list: &mut List, random: &mut Random) {
    for i in 0..EACH {
        let dims = LARGE[i % 8];
        let linear = random.below(2) == 0;
        let mut map = bare(random, "ordinary", "ordinary", dims.len(), linear);
        ask(random, &mut map, 2);
        map.dims[..dims.len()].copy_from_slice(dims);
        map.coefs.truncate(16);
        spoil_coefs(random, &mut map);
        list.papers_refusal("3, too many points", 3, &map);
    }
}

// 2: coefficients: one short, one more, none, one, twice as many.
fn coefficient_lengths(list: &mut List, random: &mut Random) {
    for i in 0..EACH {
        let mut map = good(random);
        let n = map.coefs.len();
        map.coefs.resize([n - 1, n + 1, 0, 1, 2 * n][i % 5], 1.0);
        spoil_steps(random, &mut map);
        list.refusal("2, coefficients", 2, &map);
    }
}

// 5: a step that is zero, negative or NaN.
fn steps(list: &mut List, random: &mut Random) {
    for _ in 0..2 * EACH {
        let mut map = good(random);
        let axis = random.below(map.count) as usize;
        map.steps[axis] = bad_step(random);
        spoil_lengths(random, &mut map);
        list.refusal("5, step", 5, &map);
    }
}

// 2: coordinates that are too few or too many, so that neither output fits, or both outputs of a wrong length.
pub fn lengths(list: &mut List, random: &mut Random, good: fn(&mut Random) -> Map) {
    for i in 0..2 * EACH {
        let mut map = good(random);
        let n = map.xs.len();
        match i % 6 {
            0 => map.xs.truncate(n - 1),
            1 => map.xs.push(0.5),
            2 => map.xs.clear(),
            3 => map.xs.extend(vec![0.5; map.count as usize]),
            4 => (map.values, map.parts) = (0, 0),
            _ => (map.values, map.parts) = (map.values + 1, map.parts + 1),
        }
        if !map.xs.is_empty() && random.below(3) == 0 {
            map.xs[0] = f64::NAN;
        }
        list.refusal("2, coordinates and outputs", 2, &map);
    }
}
