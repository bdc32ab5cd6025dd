// Task lists on maps of one to four axes: in order, in drawn orders, with refused calls of every kind among them, finished and
// unfinished.
use crate::list::List;
use crate::shared::call::call;
use crate::shared::fit::Fit;
use crate::shared::grids::{GRIDS, joined};
use crate::shared::random::Random;
use crate::shared::samples::KINDS;
use crate::shared::walk::{ends, tasks};

const SEEDS: [u64; 2] = [0x26_574e_b56a, 0x26_574e_b56b];

// The grids and samples on which a fit of several axes tells most.
const PLAIN: [&str; 6] = ["uneven", "growing", "nearly equal", "whole", "short gap", "falling"];
const TELLING: [&str; 8] = ["ordinary", "mixture", "wide", "subnormal", "nans", "large", "infinities", "tiny"];

// How many lists of each style there are, by the number of axes. The styles that are no single draw are told in `tasks`.
const STYLES: [(&str, [usize; 4]); 12] = [
    ("empty", [2, 3, 2, 2]),
    ("in order", [3, 4, 2, 1]),
    ("axis by axis", [0, 6, 3, 1]),
    ("as soon as due", [0, 6, 4, 1]),
    ("again and again", [0, 8, 4, 0]),
    ("to the end", [4, 8, 4, 1]),
    ("past the end", [4, 5, 3, 1]),
    ("not to the end", [0, 6, 4, 3]),
    ("nothing accepted", [3, 4, 2, 2]),
    ("short scratch, to the end", [3, 5, 3, 1]),
    ("short scratch, not to the end", [0, 5, 3, 2]),
    ("short scratch, nothing accepted", [3, 3, 1, 1]),
];

pub fn add(list: &mut List, rectilinear: bool) {
    let mut random = Random::new(SEEDS[usize::from(rectilinear)]);
    for count in 1..=4 {
        let mut turn = 0;
        for (style, counts) in STYLES {
            for _ in 0..counts[count - 1] {
                let mut fit = fit(&mut random, count, turn, rectilinear);
                fit.tasks = tasks(&mut random, style, fit.call.lengths());
                let is_finished = list.ran(&format!("{count} axes, {style}"), &fit);
                assert_eq!(is_finished, ends(style), "{style}");
                turn += 1;
            }
        }
    }
}

// A map, with every kind of samples and grids on one and two axes, and lengths that keep the list short.
fn fit(random: &mut Random, count: usize, turn: usize, rectilinear: bool) -> Fit {
    let dims: Vec<u64> = match count {
        1 => vec![random.between(4, 12)],
        2 => vec![random.between(4, 7), random.between(4, 7)],
        3 => random.pick(&[[4, 4, 4], [5, 4, 4], [4, 5, 4], [4, 4, 5], [6, 4, 4]]).to_vec(),
        _ => random.pick(&[[4; 4], [4; 4], [4; 4], [4; 4], [4; 4], [5, 4, 4, 4], [4, 4, 5, 4]]).to_vec(),
    };
    let (kind, grid) = match (count, rectilinear) {
        (1 | 2, false) => (KINDS[turn % KINDS.len()], ""),
        (1 | 2, true) if turn % 2 == 0 => ("ordinary", GRIDS[turn / 2 % GRIDS.len()]),
        (1 | 2, true) => (KINDS[turn / 2 % KINDS.len()], PLAIN[turn / 2 % PLAIN.len()]),
        _ => (TELLING[turn % TELLING.len()], PLAIN[turn % PLAIN.len()]),
    };
    let grid = rectilinear.then(|| joined(random, grid, &dims));
    Fit::new(call(random, kind, &dims, grid))
}
