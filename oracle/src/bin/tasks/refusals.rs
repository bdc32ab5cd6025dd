// Begins that are refused: each refusal by itself, and with more that is wrong later in the order of the checks.
use crate::list::List;
use crate::shared::call::{call, padded};
use crate::shared::fit::Fit;
use crate::shared::grids::{FAULTS, joined, knots, places, spoil};
use crate::shared::random::Random;
use crate::shared::shapes::{LARGE, MOST};
use crate::shared::spoils::{CHECKS, Check, spoil_check};

const SEEDS: [u64; 2] = [0x26_574e_b56c, 0x26_574e_b56d];
const EACH: usize = 12;

pub fn add(list: &mut List, rectilinear: bool) {
    let mut random = Random::new(SEEDS[usize::from(rectilinear)]);
    axis_counts(list, &mut random, rectilinear);
    short_axes(list, &mut random, rectilinear);
    points(list, &mut random, rectilinear);
    lengths(list, &mut random, rectilinear);
    if rectilinear {
        faults(list, &mut random);
    }
}

// A begin that would be accepted.
fn good(random: &mut Random, rectilinear: bool) -> Fit {
    let count = random.pick(&[1, 1, 1, 2, 2, 2, 3]);
    let most = [9, 5, 4][count - 1];
    let dims: Vec<u64> = (0..count).map(|_| random.between(4, most)).collect();
    let grid = rectilinear.then(|| joined(random, "uneven", &dims));
    Fit::new(call(random, "ordinary", &dims, grid))
}

// Every other begin is wrong in more: in some of the checks that come later. It does not show.
fn spoilt(random: &mut Random, turn: usize, mut fit: Fit, from: Check) -> Fit {
    if turn % 2 == 1 {
        let later: Vec<Check> = CHECKS.into_iter().filter(|&check| check >= from).collect();
        for check in random.some(&later) {
            spoil_check(random, &mut fit, check);
        }
    }
    fit
}

// 1: no axes, or more than four.
fn axis_counts(list: &mut List, random: &mut Random, rectilinear: bool) {
    for turn in 0..EACH {
        let fit = good(random, rectilinear);
        let mut fit = spoilt(random, turn, fit, Check::Grid);
        fit.call.count = match turn {
            0..3 => 0,
            3..7 => 5,
            _ => random.pick(&[6, 255, 256, 257, 1 << 32, (1 << 32) + 1, 1 << 63, u64::MAX]),
        };
        list.refusal("1, axis count", 1, &fit);
    }
}

// 2: an axis of 0 to 3 points, with lengths of the buffers that go with it and others.
fn short_axes(list: &mut List, random: &mut Random, rectilinear: bool) {
    for turn in 0..EACH {
        let mut fit = good(random, rectilinear);
        let axis = random.below(fit.call.count) as usize;
        fit.call.dims[axis] = [3, 3, 0, 1, 2][turn % 5];
        let dims = fit.call.lengths().to_vec();
        if rectilinear {
            fit.call.grid = Some(dims.iter().flat_map(|&n| knots(random, "uneven", n as usize)).collect());
        }
        let n = dims.iter().product::<u64>() as usize;
        fit.call.samples.resize(n, 1.0);
        (fit.call.coefs, fit.ledger) = (n, n);
        let fit = spoilt(random, turn, fit, Check::Grid);
        list.refusal("2, short axis", 2, &fit);
    }
}

// 3: more than 16,777,216 points; and 2: as many or a few less, with buffers that are too short.
fn points(list: &mut List, random: &mut Random, rectilinear: bool) {
    for (class, number, all) in [("3, points", 3, &LARGE[..]), ("2, most points with short buffers", 2, &MOST[..])] {
        for turn in 0..EACH {
            let mut fit = good(random, rectilinear);
            let dims = random.pick(all);
            fit.call.count = dims.len() as u64;
            fit.call.dims = padded(random, dims);
            if rectilinear && dims.iter().all(|&n| n <= 300) {
                fit.call.grid = Some(joined(random, "uneven", dims));
            }
            let fit = spoilt(random, turn, fit, Check::Coefs);
            list.refusal(class, number, &fit);
        }
    }
}

// 2 and 4: each buffer of another length.
fn lengths(list: &mut List, random: &mut Random, rectilinear: bool) {
    let checks = [
        (Check::Grid, "2, joined grid", 2),
        (Check::Coefs, "2, coefficients", 2),
        (Check::Ledger, "2, ledger", 2),
        (Check::Samples, "2, samples", 2),
        (Check::Scratch, "4, scratch", 4),
    ];
    for (check, class, number) in checks {
        if check == Check::Grid && !rectilinear {
            continue;
        }
        for turn in 0..EACH {
            let mut fit = good(random, rectilinear);
            spoil_check(random, &mut fit, check);
            if check == Check::Scratch {
                let enough = 2 * *fit.call.lengths().iter().max().unwrap() as usize;
                fit.call.scratch = [enough - 1, 0, enough / 2, enough - 2, 1][turn % 5];
            }
            let later = CHECKS.into_iter().find(|&later| later > check);
            let fit = match later {
                Some(later) => spoilt(random, turn, fit, later),
                None => fit,
            };
            list.refusal(class, number, &fit);
        }
    }
}

// 5: each fault of the knots.
fn faults(list: &mut List, random: &mut Random) {
    for (turn, fault) in FAULTS.into_iter().chain(FAULTS).enumerate() {
        let mut fit = good(random, true);
        let axis = random.below(fit.call.count) as usize;
        let last = fit.call.dims[axis] as usize - 1;
        let knots = &mut fit.call.grid.as_mut().unwrap()[places(&fit.call.dims, axis)];
        spoil(random, knots, fault, [1, last - 1, last][turn % 3]);
        let fit = spoilt(random, turn, fit, Check::Samples);
        list.refusal("5, knots", 5, &fit);
    }
}
