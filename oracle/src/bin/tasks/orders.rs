// Complete orders on a map of 4 by 4 points: for each of the 576 orders in which its eight lines can be solved, two lists of
// calls after which all are, no two lists alike.
use crate::list::List;
use crate::shared::book::{Book, Task};
use crate::shared::call::call;
use crate::shared::fit::Fit;
use crate::shared::grids::joined;
use crate::shared::random::Random;
use std::collections::BTreeSet;

const SEEDS: [u64; 2] = [0x26_574e_b56e, 0x26_574e_b56f];
const DIMS: [u64; 2] = [4, 4];

pub fn add(list: &mut List, rectilinear: bool) {
    let mut random = Random::new(SEEDS[usize::from(rectilinear)]);
    let grid = rectilinear.then(|| joined(&mut random, "uneven", &DIMS));
    let mut fit = Fit::new(call(&mut random, "ordinary", &DIMS, grid));
    let (mut orders, mut solved) = (BTreeSet::new(), BTreeSet::new());
    for first in permutations() {
        for second in permutations() {
            for _ in 0..2 {
                let lines = another(&mut random, &orders, first, second);
                assert_eq!(accepted(&lines), [first.map(|line| (0, line)), second.map(|line| (1, line))].concat());
                fit.tasks = lines.iter().map(|&line| task(line)).collect();
                assert!(list.ran("complete order of 4 by 4 points", &fit), "not complete");
                solved.insert(accepted(&lines));
                orders.insert(lines);
            }
        }
    }
    assert_eq!((orders.len(), solved.len()), (1152, 576));
}

fn task((axis, line): (u64, u64)) -> Task {
    Task { axis, line, scratch: 8 }
}

fn permutations() -> Vec<[u64; 4]> {
    let all = (0..256).map(|n| [n / 64, n / 16 % 4, n / 4 % 4, n % 4]);
    all.filter(|p| (0..4).all(|line| p.contains(&line))).collect()
}

// A list that is not there yet.
fn another(
    random: &mut Random,
    orders: &BTreeSet<Vec<(u64, u64)>>,
    first: [u64; 4],
    second: [u64; 4],
) -> Vec<(u64, u64)> {
    loop {
        let lines = order(random, first, second);
        if !orders.contains(&lines) {
            return lines;
        }
    }
}

// A permutation of the eight lines, and then the ones left over, such that the lines of axis 0 and of axis 1 are solved in these
// orders: up to four lines of axis 1 are called too early at first. In every fourth list some line is called again.
fn order(random: &mut Random, first: [u64; 4], second: [u64; 4]) -> Vec<(u64, u64)> {
    let mut out: Vec<(u64, u64)> = first.iter().map(|&line| (0, line)).collect();
    let late = random.below(5) as usize;
    for &line in &second[4 - late..] {
        let at = random.below(out.len() as u64) as usize;
        out.insert(at, (1, line));
    }
    out.extend(second.iter().map(|&line| (1, line)));
    if random.below(4) == 0 {
        let at = random.between(1, out.len() as u64) as usize;
        let solved = accepted(&out[..at]);
        if !solved.is_empty() {
            out.insert(at, random.pick(&solved));
        }
    }
    out
}

// The lines that are solved by these calls, in their order.
fn accepted(lines: &[(u64, u64)]) -> Vec<(u64, u64)> {
    let mut book = Book::new(&DIMS);
    lines.iter().copied().filter(|&line| book.call(task(line)) == 0).collect()
}
