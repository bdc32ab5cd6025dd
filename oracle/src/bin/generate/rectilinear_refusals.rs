// The refused calls on rectilinear grids: each refusal by itself, and several at once, where the first in the fixed order is
// the answer.
use crate::list::List;
use crate::refusals::shorten_samples;
use crate::shared::call::{Call, call, padded};
use crate::shared::grids::{FAULTS, joined, knots, places, resize, spoil, spoil_any};
use crate::shared::random::Random;
use crate::shared::shapes::{LARGE, MOST, large, wrapped};

const SEED: u64 = 0x26_574e_b567;
const EACH: usize = 42;

// The checks that come after the lengths of the axes, in their order.
#[derive(Clone, Copy, PartialEq, PartialOrd)]
enum Check {
    Grid,
    Coefs,
    Knots,
    Samples,
    Scratch,
}

const CHECKS: [Check; 5] = [Check::Grid, Check::Coefs, Check::Knots, Check::Samples, Check::Scratch];

pub fn add(list: &mut List) {
    let mut random = Random::new(SEED);
    axis_counts(list, &mut random);
    short_axes(list, &mut random);
    too_many_points(list, &mut random);
    most_points(list, &mut random);
    grid_lengths(list, &mut random);
    coefficient_lengths(list, &mut random);
    faults(list, &mut random);
    sample_lengths(list, &mut random);
    scratch_lengths(list, &mut random);
}

// A call that would be accepted.
fn good(random: &mut Random, count: usize) -> Call {
    let most = [9, 5, 4, 4][count - 1];
    let dims: Vec<u64> = (0..count).map(|_| random.between(4, most)).collect();
    on(random, &dims)
}

fn any_good(random: &mut Random) -> Call {
    let count = random.pick(&[1, 1, 1, 2, 2, 2, 3]);
    good(random, count)
}

fn on(random: &mut Random, dims: &[u64]) -> Call {
    let grid = random.pick(&["whole", "uneven", "growing", "infinite ends"]);
    let grid = joined(random, grid, dims);
    let kind = random.pick(&["ordinary", "mixture"]);
    call(random, kind, dims, Some(grid))
}

// Every other call is wrong in more: in some of the checks that come later. It does not show.
fn spoilt(random: &mut Random, turn: usize, mut call: Call, from: Check) -> Call {
    if turn % 2 == 1 {
        let later: Vec<Check> = CHECKS.into_iter().filter(|&check| check >= from).collect();
        for check in random.some(&later) {
            spoil_check(random, &mut call, check);
        }
    }
    call
}

fn spoil_check(random: &mut Random, call: &mut Call, check: Check) {
    match check {
        Check::Grid => resize(random, &call.dims, call.grid.as_mut().unwrap()),
        Check::Coefs => call.coefs = random.pick(&[0, 1, 3, call.coefs + 1, 17]),
        Check::Knots => spoil_any(random, call.count, &call.dims, call.grid.as_mut().unwrap()),
        Check::Samples if call.samples.is_empty() => call.samples.push(1.5),
        Check::Samples => shorten_samples(random, call),
        Check::Scratch => call.scratch = random.pick(&[0, 1, 7]),
    }
}

// A refusal that the Rust gives where it can be asked.
fn refuse(list: &mut List, class: &str, number: u64, call: &Call) {
    if call.can_ask() {
        list.refusal(class, number, call);
    } else {
        list.papers_refusal(&format!("{class}, papers"), number, call);
    }
}

// 1: no axes, or more than four. The Rust has no counterpart.
fn axis_counts(list: &mut List, random: &mut Random) {
    for i in 0..EACH {
        let mut call = spoilt_good(random, i, Check::Grid);
        call.count = match i {
            0..14 => 0,
            14..28 => 5,
            _ => random.pick(&[6, 8, 256, 1 << 24, 1 << 32, (1 << 32) + 1, 1 << 63, u64::MAX]),
        };
        if i % 4 == 1 {
            call.dims = [4, 4, 4, 4];
        }
        refuse(list, "1, axis count", 1, &call);
    }
}

fn spoilt_good(random: &mut Random, turn: usize, from: Check) -> Call {
    let call = any_good(random);
    spoilt(random, turn, call, from)
}

// 2: an axis of 0 to 3 points, with lengths of the buffers that go with it and others.
fn short_axes(list: &mut List, random: &mut Random) {
    for i in 0..EACH {
        let mut call = any_good(random);
        let axis = random.below(call.count) as usize;
        call.dims[axis] = [3, 3, 0, 1, 2][i % 5];
        let mut grid = Vec::new();
        for &n in call.lengths() {
            grid.extend(knots(random, "uneven", n as usize));
        }
        call.grid = Some(grid);
        if i % 3 == 0 {
            let n: u64 = call.lengths().iter().product();
            call.samples.resize(n as usize, 1.0);
            call.coefs = n as usize;
        }
        let call = spoilt(random, i, call, Check::Grid);
        refuse(list, "2, short axis", 2, &call);
    }
}

// 3: more than 16,777,216 points. Where the joined grid has as many knots, the Rust says 2, as the buffers do not have that
// length; most grids are shorter.
fn too_many_points(list: &mut List, random: &mut Random) {
    let few: [&[u64]; 4] = [&[64, 64, 64, 65], &[65, 64, 64, 64], &[64, 65, 64, 64], &[97, 100, 80, 22]];
    for (i, dims) in few.into_iter().enumerate() {
        let mut call = with_dims(random, dims);
        call.grid = Some(joined(random, "uneven", dims));
        let call = spoilt(random, i, call, Check::Coefs);
        list.papers_refusal("3, points, with as many knots", 3, &call);
    }
    for (i, dims) in LARGE.into_iter().enumerate() {
        let call = with_dims(random, dims);
        let call = spoilt(random, i, call, Check::Grid);
        refuse(list, "3, points", 3, &call);
    }
    for i in 0..EACH - LARGE.len() {
        let dims = if i % 3 == 2 { wrapped(random) } else { large(random) };
        let call = with_dims(random, &dims);
        let call = spoilt(random, i, call, Check::Grid);
        refuse(list, "3, points", 3, &call);
    }
}

fn with_dims(random: &mut Random, dims: &[u64]) -> Call {
    let mut call = any_good(random);
    call.count = dims.len() as u64;
    call.dims = padded(random, dims);
    call
}

// 2: shapes of just 16,777,216 points, and a few less, are not too large; their grids and buffers are.
fn most_points(list: &mut List, random: &mut Random) {
    for (i, dims) in MOST.into_iter().enumerate() {
        let mut call = with_dims(random, dims);
        if dims.iter().sum::<u64>() <= 400 {
            call.grid = Some(joined(random, "uneven", dims));
        }
        let call = spoilt(random, i, call, Check::Coefs);
        refuse(list, "2, most points with short buffers", 2, &call);
    }
}

// 2: a joined grid of another length. The Rust has no counterpart.
fn grid_lengths(list: &mut List, random: &mut Random) {
    for i in 0..EACH + 6 {
        let mut call = any_good(random);
        resize(random, &call.dims, call.grid.as_mut().unwrap());
        assert!(!call.can_ask());
        let call = spoilt(random, i, call, Check::Coefs);
        refuse(list, "2, joined grid", 2, &call);
    }
}

// 2: coefficients of another length.
fn coefficient_lengths(list: &mut List, random: &mut Random) {
    for i in 0..EACH {
        let mut call = any_good(random);
        let n = call.coefs;
        call.coefs = [n - 1, n + 1, 0, n - 1, n + 1, 1, 2 * n][i % 7];
        if i % 6 == 0 {
            call.samples.resize(call.coefs, 0.5);
        }
        let call = spoilt(random, i, call, Check::Knots);
        refuse(list, "2, coefficients", 2, &call);
    }
}

// 5: each fault on each axis of one to four, at the first, an inner and the last pair of knots in turn; NaN at the first, an
// inner and the last knot of each; and NaN at each knot of one axis.
fn faults(list: &mut List, random: &mut Random) {
    let mut turn = 0;
    for count in 1..=4 {
        for axis in 0..count {
            for fault in FAULTS.into_iter().chain(["nan"; 3]) {
                let call = good(random, count);
                let last = call.dims[axis] as usize - 1;
                let at = if fault == "nan" { [0, last - 1, last] } else { [1, last - 1, last] }[turn % 3];
                fault_at(list, random, turn, call, axis, fault, at);
                turn += 1;
            }
        }
    }
    for at in 0..6 {
        let call = on(random, &[6]);
        fault_at(list, random, at, call, 0, "nan", at);
    }
}

fn fault_at(list: &mut List, random: &mut Random, turn: usize, mut call: Call, axis: usize, fault: &str, at: usize) {
    let knots = &mut call.grid.as_mut().unwrap()[places(&call.dims, axis)];
    spoil(random, knots, fault, at);
    let call = spoilt(random, turn, call, Check::Samples);
    refuse(list, &format!("5, {fault}"), 5, &call);
}

// 2: samples of another length.
fn sample_lengths(list: &mut List, random: &mut Random) {
    for i in 0..EACH {
        let mut call = any_good(random);
        let n = call.coefs;
        call.samples.resize([n - 1, n + 1, 0, n - 1, n + 1, 1, n + 4][i % 7], -2.25);
        let call = spoilt(random, i, call, Check::Scratch);
        refuse(list, "2, samples", 2, &call);
    }
}

// 4: scratch shorter than twice the longest axis.
fn scratch_lengths(list: &mut List, random: &mut Random) {
    for i in 0..EACH {
        let mut call = any_good(random);
        let enough = 2 * *call.lengths().iter().max().unwrap() as usize;
        call.scratch = [enough - 1, 0, enough - 1, 1, enough / 2, enough - 2, enough / 2 - 1][i % 7];
        refuse(list, "4, scratch", 4, &call);
    }
}
