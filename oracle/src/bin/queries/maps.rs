// The regular maps whose queries are answered: every axis count, grid, kind of coefficients and place.
use crate::list::List;
use crate::shared::axis::{REGULAR, TWO_63, start_and_step};
use crate::shared::map::{Map, ask};
use crate::shared::random::Random;
use crate::shared::samples::{KINDS, samples};
use crate::shared::words::junk;

const SEED: u64 = 0x26_574e_b564;

pub fn add(list: &mut List) {
    let mut random = Random::new(SEED);
    for grid in REGULAR {
        for count in 1..=4 {
            for turn in 0..turns(grid, count) {
                let kind = coefficients(&mut random, turn);
                one(list, &mut random, grid, kind, count, turn % 2 == 1);
            }
        }
    }
    for kind in KINDS {
        for (i, &count) in [1, 1, 2, 2, 3].iter().enumerate() {
            one(list, &mut random, "ordinary", kind, count, i % 2 == 1);
        }
    }
    far(list, &mut random);
    bad_starts(list, &mut random);
    stopped(list, &mut random);
    mixed_lengths(list, &mut random, |random, count, linear| bare(random, "ordinary", "ordinary", count, linear));
    empty(list, &mut random, |random, count, linear| bare(random, "ordinary", "any bits", count, linear));
    overflows(list, &mut random);
}

// How many maps of a grid have this many axes.
fn turns(grid: &str, count: usize) -> usize {
    match (grid, count) {
        ("unit" | "ordinary", 4) => 4,
        ("unit" | "ordinary", _) => 6,
        (_, 4) => 2,
        (_, _) => 4,
    }
}

pub fn coefficients(random: &mut Random, turn: usize) -> &'static str {
    if turn < 2 { "ordinary" } else { random.pick(&KINDS) }
}

fn one(list: &mut List, random: &mut Random, grid: &str, kind: &str, count: usize, linear: bool) {
    let map = bare(random, grid, kind, count, linear);
    asked(list, random, grid, map);
}

// The map is asked as many queries as one of its axis count has.
pub fn asked(list: &mut List, random: &mut Random, grid: &str, mut map: Map) {
    let n = [28, 20, 14, 12][map.count as usize - 1];
    ask(random, &mut map, n);
    list.map(&format!("{} axes, {grid}", map.count), &map);
}

// A map with no queries yet.
pub fn bare(random: &mut Random, grid: &str, kind: &str, count: usize, linear: bool) -> Map {
    let most = [7, 7, 5, 4][count - 1];
    let mut dims = if random.below(3) == 0 { junk(random) } else { [0; 4] };
    let mut starts = if random.below(3) == 0 { junk(random).map(f64::from_bits) } else { [0.0; 4] };
    let mut steps = if random.below(3) == 0 { [0.0, -1.0, f64::NAN, 1.0] } else { [0.0; 4] };
    for axis in 0..count {
        dims[axis] = random.between(4, most);
        (starts[axis], steps[axis]) = start_and_step(random, grid);
    }
    let size: u64 = dims[..count].iter().product();
    let coefs = samples(random, kind, size as usize);
    Map { count: count as u64, dims, starts, steps, grid: None, linear, coefs, xs: Vec::new(), values: 0, parts: 0 }
}

// Quotients about the ends of the signed 64-bit range, NaN and infinite queries.
fn far(list: &mut List, random: &mut Random) {
    let ends = [
        TWO_63,
        TWO_63.next_down(),
        TWO_63.next_up(),
        (-TWO_63).next_up(),
        (-TWO_63).next_down(),
        TWO_63 / 2.0,
        -TWO_63 / 2.0,
        f64::NAN,
        f64::from_bits(0xfff8_0000_0000_0001),
        f64::INFINITY,
        f64::NEG_INFINITY,
        f64::MAX,
        f64::MIN,
    ];
    for count in 1..=4 {
        for linear in [false, true] {
            for step in [1.0, 0.25, 1024.0] {
                let mut map = bare(random, "unit", "ordinary", count, linear);
                map.starts[..count].fill(0.0);
                map.steps[..count].fill(step);
                ask(random, &mut map, ends.len());
                let axis = random.below(count as u64) as usize;
                for (i, end) in ends.iter().enumerate() {
                    map.xs[axis * ends.len() + i] = end * step;
                }
                list.map(&format!("{count} axes, far and not finite"), &map);
            }
        }
    }
}

// Starts that are NaN or infinite: every query is refused.
fn bad_starts(list: &mut List, random: &mut Random) {
    for count in 1..=4 {
        for start in [f64::NAN, f64::INFINITY, f64::NEG_INFINITY] {
            let linear = random.below(2) == 0;
            let mut map = bare(random, "ordinary", "ordinary", count, linear);
            let axis = random.below(count as u64) as usize;
            map.starts[axis] = start;
            ask(random, &mut map, 3);
            map.xs[axis * 3] = start;
            list.map(&format!("{count} axes, start not finite"), &map);
        }
    }
}

// Batches that a query stops: at the first, at the last, and between.
fn stopped(list: &mut List, random: &mut Random) {
    for count in 1..=4 {
        let n = 6;
        for at in 0..n {
            let mut map = bare(random, "ordinary", "mixture", count, at % 2 == 1);
            ask(random, &mut map, n);
            for axis in 0..count {
                for i in 0..n {
                    map.xs[axis * n + i] = map.starts[axis] + map.steps[axis] * random.unit() * 8.0;
                }
            }
            let axis = random.below(count as u64) as usize;
            map.xs[axis * n + at] = random.pick(&[f64::NAN, f64::INFINITY, f64::NEG_INFINITY, 1e300]);
            list.map(&format!("{count} axes, stopped"), &map);
        }
    }
}

// One of the two outputs has a wrong length: that batch alone is refused.
pub fn mixed_lengths(list: &mut List, random: &mut Random, bare: fn(&mut Random, usize, bool) -> Map) {
    for count in 1..=4 {
        for turn in 0..6 {
            let mut map = bare(random, count, turn % 2 == 1);
            ask(random, &mut map, 3);
            match turn {
                0 => map.values += 1,
                1 => map.values -= 1,
                2 => map.values = 0,
                3 => map.parts += 1,
                4 => map.parts -= 1,
                _ => map.parts += count,
            }
            list.map(&format!("{count} axes, one output of a wrong length"), &map);
        }
    }
}

// No queries: accepted, and nothing is written.
pub fn empty(list: &mut List, random: &mut Random, bare: fn(&mut Random, usize, bool) -> Map) {
    for count in 1..=4 {
        for linear in [false, true] {
            let mut map = bare(random, count, linear);
            ask(random, &mut map, 0);
            list.map(&format!("{count} axes, no queries"), &map);
        }
    }
}

// Queries at which the Rust overflows: a floor of -2^63. The papers say 6.
fn overflows(list: &mut List, random: &mut Random) {
    for count in 1..=4 {
        for (turn, step) in [1.0, 0.5, 4096.0].into_iter().enumerate() {
            let mut map = bare(random, "unit", "ordinary", count, turn % 2 == 1);
            map.starts[..count].fill(0.0);
            map.steps[..count].fill(step);
            ask(random, &mut map, 5);
            let axis = random.below(count as u64) as usize;
            map.xs[axis * 5 + turn + 1] = -TWO_63 * step;
            list.papers_map(&format!("{count} axes, floor -2^63"), &map);
        }
    }
}
