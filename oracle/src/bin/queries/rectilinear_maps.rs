// The rectilinear maps, whose queries are all answered: every axis count, grid, kind of coefficients and place.
use crate::list::List;
use crate::maps::{asked, coefficients, empty, mixed_lengths};
use crate::shared::axis::between;
use crate::shared::grids::{GRIDS, joined};
use crate::shared::map::{Map, ask};
use crate::shared::random::Random;
use crate::shared::samples::{KINDS, samples};
use crate::shared::words::junk;

const SEED: u64 = 0x26_574e_b568;

pub fn add(list: &mut List) {
    let mut random = Random::new(SEED);
    for grid in GRIDS {
        for count in 1..=4 {
            for turn in 0..turns(grid, count) {
                let kind = coefficients(&mut random, turn);
                one(list, &mut random, grid, kind, count, (turn + count) % 2 == 1);
            }
        }
    }
    for kind in KINDS {
        for (i, &count) in [1, 1, 2, 3].iter().enumerate() {
            one(list, &mut random, "uneven", kind, count, i % 2 == 1);
        }
    }
    every_knot(list, &mut random);
    special(list, &mut random);
    mixed_lengths(list, &mut random, |random, count, linear| bare(random, "uneven", "ordinary", count, linear));
    empty(list, &mut random, |random, count, linear| bare(random, "uneven", "any bits", count, linear));
}

// How many maps of a grid have this many axes.
fn turns(grid: &str, count: usize) -> usize {
    match (grid, count) {
        ("whole" | "nearly equal" | "uneven", 4) => 4,
        ("whole" | "nearly equal" | "uneven", _) => 5,
        (_, 4) => 1,
        (_, 3) => 2,
        (_, _) => 3,
    }
}

fn one(list: &mut List, random: &mut Random, grid: &str, kind: &str, count: usize, linear: bool) {
    let map = bare(random, grid, kind, count, linear);
    asked(list, random, grid, map);
}

// A map with no queries yet. Of four axes one may be longer than the others.
pub fn bare(random: &mut Random, grid: &str, kind: &str, count: usize, linear: bool) -> Map {
    let most = [7, 7, 5, 4][count - 1];
    let mut dims = if random.below(3) == 0 { junk(random) } else { [0; 4] };
    dims[..count].fill_with(|| random.between(4, most));
    if count == 4 {
        dims[random.below(4) as usize] = random.between(4, 6);
    }
    let size: u64 = dims[..count].iter().product();
    let knots = joined(random, grid, &dims[..count]);
    let coefs = samples(random, kind, size as usize);
    let [starts, steps] = [[0.0; 4]; 2];
    Map {
        count: count as u64,
        dims,
        starts,
        steps,
        grid: Some(knots),
        linear,
        coefs,
        xs: Vec::new(),
        values: 0,
        parts: 0,
    }
}

// Every knot of an axis, and the floats beside it.
fn every_knot(list: &mut List, random: &mut Random) {
    for count in 1..=4 {
        for axis in 0..count {
            for linear in [false, true] {
                let grid = random.pick(&["whole", "uneven", "nearly equal", "infinite ends", "subnormal"]);
                let mut map = bare(random, grid, "ordinary", count, linear);
                let knots = map.knots(axis).unwrap();
                let xs: Vec<f64> = knots.iter().flat_map(|x| [x.next_down(), *x, x.next_up()]).collect();
                put(random, &mut map, axis, &xs);
                list.map(&format!("{count} axes, every knot"), &map);
            }
        }
    }
}

// Coordinates that are NaN, infinite, zero or as large as can be.
fn special(list: &mut List, random: &mut Random) {
    let xs = [
        f64::NAN,
        f64::from_bits(0xfff8_0000_0000_0001),
        f64::from_bits(0x7ff0_0000_0000_0001),
        f64::INFINITY,
        f64::NEG_INFINITY,
        f64::MAX,
        f64::MIN,
        0.0,
        -0.0,
        5e-324,
    ];
    for count in 1..=4 {
        for axis in 0..count {
            for linear in [false, true] {
                let grid = random.pick(&["whole", "uneven", "uneven", "infinite last", "coarse"]);
                let mut map = bare(random, grid, "ordinary", count, linear);
                put(random, &mut map, axis, &xs);
                list.map(&format!("{count} axes, special coordinates"), &map);
            }
        }
    }
}

// The map is asked these coordinates on one axis, and on the others inner ones, or any.
fn put(random: &mut Random, map: &mut Map, axis: usize, xs: &[f64]) {
    let n = xs.len();
    ask(random, map, n);
    for other in 0..map.count as usize {
        for i in 0..n {
            let knots = map.knots(other).unwrap();
            if other == axis {
                map.xs[other * n + i] = xs[i];
            } else if random.below(4) != 0 {
                map.xs[other * n + i] = between(random, knots[1], knots[2]);
            }
        }
    }
}
