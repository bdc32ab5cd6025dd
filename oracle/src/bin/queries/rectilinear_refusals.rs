// The records on rectilinear grids that are refused as a whole: each refusal by itself, and several at once, where the first
// in the fixed order is the answer.
use crate::list::List;
use crate::rectilinear_maps::bare;
use crate::refusals::{EACH, LARGE, lengths, spoil_lengths};
use crate::shared::grids::{FAULTS, joined, knots, places, resize, spoil, spoil_any};
use crate::shared::map::{Map, ask};
use crate::shared::random::Random;

const SEED: u64 = 0x26_574e_b569;

// The checks that come after the lengths of the axes, in their order.
#[derive(Clone, Copy, PartialEq, PartialOrd)]
enum Check {
    Grid,
    Coefs,
    Knots,
    Lengths,
}

const CHECKS: [Check; 4] = [Check::Grid, Check::Coefs, Check::Knots, Check::Lengths];

pub fn add(list: &mut List) {
    let mut random = Random::new(SEED);
    axis_counts(list, &mut random);
    short_axes(list, &mut random);
    too_many_points(list, &mut random);
    grid_lengths(list, &mut random);
    coefficient_lengths(list, &mut random);
    faults(list, &mut random);
    lengths(list, &mut random, any_good);
}

fn good(random: &mut Random, count: usize) -> Map {
    let grid = random.pick(&["whole", "uneven", "growing", "infinite ends"]);
    let linear = random.below(2) == 0;
    let mut map = bare(random, grid, "ordinary", count, linear);
    ask(random, &mut map, 2);
    map
}

fn any_good(random: &mut Random) -> Map {
    let count = random.pick(&[1, 1, 2, 2, 3]);
    good(random, count)
}

// Every other record is wrong in more: in some of the checks that come later. It does not show.
fn spoilt(random: &mut Random, turn: usize, mut map: Map, from: Check) -> Map {
    if turn % 2 == 1 {
        let later: Vec<Check> = CHECKS.into_iter().filter(|&check| check >= from).collect();
        for check in random.some(&later) {
            spoil_check(random, &mut map, check);
        }
    }
    map
}

fn spoil_check(random: &mut Random, map: &mut Map, check: Check) {
    match check {
        Check::Grid => resize(random, &map.dims, map.grid.as_mut().unwrap()),
        Check::Coefs => {
            let n = map.coefs.len();
            map.coefs.resize(random.pick(&[0, 1, n.saturating_sub(1), n + 1]), 1.0);
        }
        Check::Knots => spoil_any(random, map.count, &map.dims, map.grid.as_mut().unwrap()),
        Check::Lengths => spoil_lengths(random, map),
    }
}

// A refusal that the Rust gives where it can be asked.
fn refuse(list: &mut List, class: &str, number: u64, map: &Map) {
    if map.can_ask() {
        list.refusal(class, number, map);
    } else {
        list.papers_refusal(&format!("{class}, papers"), number, map);
    }
}

// 1: no axes, or more than four. The Rust has no counterpart.
fn axis_counts(list: &mut List, random: &mut Random) {
    for i in 0..EACH {
        let map = any_good(random);
        let mut map = spoilt(random, i, map, Check::Grid);
        map.count = [0, 5, 6, 8, 1 << 32, 1 << 63, u64::MAX, 0][i % 8];
        refuse(list, "1, axis count", 1, &map);
    }
}

// 2: an axis of 0 to 3 points.
fn short_axes(list: &mut List, random: &mut Random) {
    for i in 0..EACH {
        let mut map = any_good(random);
        let axis = random.below(map.count) as usize;
        map.dims[axis] = i as u64 % 4;
        let short = &map.dims[..map.count as usize];
        map.grid = Some(short.iter().flat_map(|&n| knots(random, "uneven", n as usize)).collect());
        let map = spoilt(random, i / 2, map, Check::Grid);
        refuse(list, "2, short axis", 2, &map);
    }
}

// 3: too many points. Where the joined grid has as many knots, the Rust finds too few coefficients and says 2; most grids are
// shorter.
fn too_many_points(list: &mut List, random: &mut Random) {
    for i in 0..EACH {
        let dims = LARGE[i % 8];
        let mut map = good(random, dims.len());
        map.dims[..dims.len()].copy_from_slice(dims);
        map.coefs.truncate(16);
        let map = spoilt(random, i / 8, map, Check::Grid);
        refuse(list, "3, points", 3, &map);
    }
    for i in 0..4 {
        let dims = [64, 64, 64, 65];
        let mut map = good(random, 4);
        map.dims = dims;
        map.grid = Some(joined(random, "uneven", &dims));
        map.coefs.truncate(16);
        let map = spoilt(random, i, map, Check::Coefs);
        list.papers_refusal("3, points, with as many knots", 3, &map);
    }
}

// 2: a joined grid of another length. The Rust has no counterpart.
fn grid_lengths(list: &mut List, random: &mut Random) {
    for i in 0..EACH + 12 {
        let mut map = any_good(random);
        resize(random, &map.dims, map.grid.as_mut().unwrap());
        assert!(!map.can_ask());
        let map = spoilt(random, i, map, Check::Coefs);
        refuse(list, "2, joined grid", 2, &map);
    }
}

// 2: coefficients: one short, one more, none, one, twice as many.
fn coefficient_lengths(list: &mut List, random: &mut Random) {
    for i in 0..EACH {
        let mut map = any_good(random);
        let n = map.coefs.len();
        map.coefs.resize([n - 1, n + 1, 0, 1, 2 * n][i % 5], 1.0);
        let map = spoilt(random, i, map, Check::Knots);
        refuse(list, "2, coefficients", 2, &map);
    }
}

// 5: each fault on each axis of one to four, at the first, an inner and the last pair of knots in turn, and NaN at each knot
// of one axis.
fn faults(list: &mut List, random: &mut Random) {
    let mut turn = 0;
    for count in 1..=4 {
        for axis in 0..count {
            for fault in FAULTS {
                let map = good(random, count);
                let last = map.dims[axis] as usize - 1;
                let at = if fault == "nan" { [0, last - 1, last] } else { [1, last - 1, last] }[(turn + axis) % 3];
                fault_at(list, random, turn, map, axis, fault, at);
                turn += 1;
            }
        }
    }
    for at in 0..4 {
        let map = good(random, 1);
        fault_at(list, random, at, map, 0, "nan", at);
    }
}

fn fault_at(list: &mut List, random: &mut Random, turn: usize, mut map: Map, axis: usize, fault: &str, at: usize) {
    let knots = &mut map.grid.as_mut().unwrap()[places(&map.dims, axis)];
    spoil(random, knots, fault, at);
    let map = spoilt(random, turn, map, Check::Lengths);
    refuse(list, &format!("5, {fault}"), 5, &map);
}
