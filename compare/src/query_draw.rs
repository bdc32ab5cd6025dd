// Drawn maps with their coefficients and queries, and what can be wrong with them.
use crate::draw::{axis_count, dims, knots, many, most, samples_kind, spoil_regular, starts_and_steps};
use crate::queries::QueryCase;
use crate::shared::axis::TWO_63;
use crate::shared::call::padded;
use crate::shared::grids::{resize, spoil_any};
use crate::shared::map::{Map, ask};
use crate::shared::random::Random;
use crate::shared::samples::samples;

pub fn draw(random: &mut Random) -> QueryCase {
    let count = random.between(1, 4) as usize;
    let most = most(random);
    let lengths = dims(random, count, most);
    let rectilinear = random.below(2) == 0;
    let kind = samples_kind(random);
    let coefs = samples(random, kind, lengths.iter().product::<u64>() as usize);
    let mut case = on(random, &lengths, rectilinear, coefs);
    case.samples = kind;
    let n = random.pick(&[0, 1, 2, 5, 12, 12, 28, 28, 60, 300]);
    ask(random, &mut case.map, n);
    special(random, &mut case.map);
    if random.below(4) == 0 {
        spoil(random, &mut case);
    }
    case
}

// A map of these lengths with these coefficients, and no queries yet.
pub fn on(random: &mut Random, lengths: &[u64], rectilinear: bool, coefs: Vec<f64>) -> QueryCase {
    let count = lengths.len();
    let (grid, mut numbers) = if rectilinear { knots(random, lengths) } else { starts_and_steps(random, count) };
    if !rectilinear && random.below(40) == 0 {
        numbers[random.below(count as u64) as usize] =
            random.pick(&[f64::NAN, f64::INFINITY, f64::NEG_INFINITY, f64::MAX]);
    }
    let [mut starts, mut steps] = [[0.0; 4]; 2];
    if !rectilinear {
        starts[..count].copy_from_slice(&numbers[..count]);
        steps[..count].copy_from_slice(&numbers[count..]);
    }
    let flag = random.pick(&[0, 0, 0, 1, 1, 2, 1 << 8, 1 << 31, u32::MAX]);
    let map = Map {
        count: count as u64,
        dims: padded(random, lengths),
        starts,
        steps,
        grid: rectilinear.then(|| numbers.clone()),
        linear: flag != 0,
        coefs,
        xs: Vec::new(),
        values: 0,
        parts: 0,
    };
    let regular = if rectilinear { Vec::new() } else { numbers };
    QueryCase { map, regular, flag, singles: usize::MAX, samples: "", grid }
}

// Coordinates that are not finite, about the ends of the signed 64-bit range, or past them.
fn special(random: &mut Random, map: &mut Map) {
    if map.xs.is_empty() || random.below(4) != 0 {
        return;
    }
    for _ in 0..random.between(1, 3) {
        let at = random.below(map.xs.len() as u64) as usize;
        let axis = at / map.queries();
        let (start, step) = if map.grid.is_none() { (map.starts[axis], map.steps[axis]) } else { (0.0, 1.0) };
        let cells = random.pick(&[TWO_63, TWO_63.next_down(), -TWO_63, (-TWO_63).next_up(), (-TWO_63).next_down()]);
        map.xs[at] = match random.below(3) {
            0 => start + step * cells,
            1 => step * cells,
            _ => random.pick(&[f64::NAN, f64::INFINITY, f64::NEG_INFINITY, f64::MAX, f64::MIN, -0.0, 5e-324]),
        };
    }
}

// Wrong in one or more ways. Where the Rust would overflow the lengths of queries and outputs are left right.
fn spoil(random: &mut Random, case: &mut QueryCase) {
    let map = &mut case.map;
    let overflows = (0..map.queries()).any(|i| map.overflows(i));
    let ways = random.some(&[0, 1, 2, 3, 4, 5]);
    for way in ways {
        match way {
            0 if map.grid.is_none() => spoil_regular(random, &mut case.regular),
            0 => resize(random, &map.dims, map.grid.as_mut().unwrap()),
            1 if map.grid.is_some() => spoil_any(random, map.count, &map.dims, map.grid.as_mut().unwrap()),
            2 => {
                let n = map.coefs.len();
                map.coefs.resize(random.pick(&[0, 1, n - 1, n + 1, 2 * n]), 1.0);
            }
            3 if !overflows => map.values = random.pick(&[map.values + 1, map.values.saturating_sub(1), 0]),
            4 if !overflows => map.parts = random.pick(&[map.parts + 1, map.parts.saturating_sub(1), 0, 2 * map.parts]),
            5 if !overflows => map.xs.resize(random.pick(&[map.xs.len() + 1, map.xs.len() / 2, 0]), 0.5),
            _ => (),
        }
    }
    follow_steps(case);
    match random.below(8) {
        0 => case.map.dims[random.below(case.map.count) as usize] = random.below(4),
        1 => {
            let lengths = many(random);
            (case.map.count, case.map.dims) = (lengths.len() as u64, padded(random, &lengths));
        }
        2 => case.map.count = axis_count(random),
        _ => (),
    }
}

// The Rust's steps are those of the spoilt grid, where it has its length.
fn follow_steps(case: &mut QueryCase) {
    let count = case.map.count as usize;
    if case.map.grid.is_none() && case.regular.len() == 2 * count {
        case.map.steps[..count].copy_from_slice(&case.regular[count..]);
    }
}
