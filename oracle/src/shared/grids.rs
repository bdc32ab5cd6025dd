// Rectilinear grids: the knots of an axis, each above the one before, and the faults that an axis can have.
use super::random::Random;

pub const GRIDS: [&str; 18] = [
    "whole",
    "equal",
    "nearly equal",
    "uneven",
    "growing",
    "falling",
    "long gap",
    "short gap",
    "fine",
    "coarse",
    "tiny",
    "subnormal",
    "lost digits",
    "wide",
    "huge",
    "infinite first",
    "infinite last",
    "infinite ends",
];

// What can be wrong with knots `at - 1` and `at`.
pub const FAULTS: [&str; 9] = [
    "equal",
    "one unit below",
    "far below",
    "nan",
    "zeros",
    "zeros, the negative one first",
    "equal infinities",
    "infinity before its time",
    "minus infinity after its time",
];

const NANS: [u64; 4] = [0x7ff8_0000_0000_0000, 0xfff8_0000_0000_0000, 0x7fff_ffff_ffff_ffff, 0x7ff0_0000_0000_0001];

// Whether each knot is above the one before.
pub fn rises(knots: &[f64]) -> bool {
    knots.windows(2).all(|w| w[1] > w[0])
}

// n knots of a kind. What rounding makes equal is drawn again.
pub fn knots(random: &mut Random, kind: &str, n: usize) -> Vec<f64> {
    loop {
        let out = drawn(random, kind, n);
        if rises(&out) {
            return out;
        }
    }
}

fn drawn(random: &mut Random, kind: &str, n: usize) -> Vec<f64> {
    match kind {
        "whole" => whole(random, n),
        "equal" => {
            let (start, step) = (random.unit() * 10.0, random.unit().abs() * 3.0 + 0.01);
            (0..n).map(|i| start + step * i as f64).collect()
        }
        "nearly equal" => {
            let out = if random.below(2) == 0 { whole(random, n) } else { drawn(random, "equal", n) };
            out.into_iter().map(|x| beside(random, x)).collect()
        }
        "uneven" => chain(random.unit() * 10.0, n, |x| x + random.unit().abs() * 3.0 + 0.001),
        "growing" => {
            let (first, ratio) = (random.pick(&[1.0, 0.001, 0.3]), random.pick(&[1.01, 1.5, 2.0, 10.0]));
            geometric(random.unit() * first, n, first, ratio)
        }
        "falling" => {
            let (first, ratio) = (random.pick(&[1.0, 1000.0, 0.3]), random.pick(&[0.99, 0.7, 0.5, 0.1]));
            geometric(random.unit() * first, n, first, ratio)
        }
        "long gap" => long_gap(random, n),
        "short gap" => {
            let mut out = drawn(random, "uneven", n);
            let at = random.between(1, n as u64 - 1) as usize;
            out[at] = match random.below(3) {
                0 => out[at - 1].next_up(),
                1 => out[at - 1] + 1e-6,
                _ => out[at - 1] + 1e-12,
            };
            out
        }
        "fine" => chain(0.0, n, |x| x + random.float(-340, -200).abs()),
        "coarse" => chain(random.unit(), n, |x| x + random.float(200, 350).abs()),
        "tiny" => chain(random.float(-1022, -1016), n, |x| x + random.float(-1022, -1015).abs()),
        "subnormal" => subnormal(random, n),
        "lost digits" => {
            let start = random.float(52, 56);
            let units = random.pick(&[3, 40, 1000]);
            chain(start, n, |x| up(x, random.between(1, units)))
        }
        "wide" => {
            let most = random.pick(&[60, 300, 1022]);
            sorted(n, || random.float(-most, most))
        }
        "huge" => {
            let low = random.pick(&[1015, 1022]);
            sorted(n, || random.float(low, 1023))
        }
        "infinite first" => ends(random, n, true, false),
        "infinite last" => ends(random, n, false, true),
        "infinite ends" => ends(random, n, true, true),
        _ => panic!("no grid of kind {kind}"),
    }
}

// Equal gaps that are whole numbers. A knot at zero has either sign.
fn whole(random: &mut Random, n: usize) -> Vec<f64> {
    let (start, step) = (random.between(0, 8) as f64 - 4.0, random.pick(&[1.0, 1.0, 2.0, 5.0]));
    let zero = random.pick(&[0.0, -0.0]);
    (0..n).map(|i| start + step * i as f64).map(|x| if x == 0.0 { zero } else { x }).collect()
}

// x, or a float one to three units in the last place beside it.
fn beside(random: &mut Random, x: f64) -> f64 {
    let units = random.between(1, 3);
    match random.below(4) {
        0 => up(x, units),
        1 => -up(-x, units),
        _ => x,
    }
}

// The float that many units in the last place above.
fn up(x: f64, units: u64) -> f64 {
    (0..units).fold(x, |x, _| x.next_up())
}

// n floats, each made from the one before.
fn chain(start: f64, n: usize, mut next: impl FnMut(f64) -> f64) -> Vec<f64> {
    let mut out = Vec::new();
    let mut x = start;
    for _ in 0..n {
        out.push(x);
        x = next(x);
    }
    out
}

// Each gap is the ratio times the one before.
fn geometric(start: f64, n: usize, first: f64, ratio: f64) -> Vec<f64> {
    let mut gap = first / ratio;
    chain(start, n, |x| {
        gap *= ratio;
        x + gap
    })
}

// Gaps that are subnormal, or one among whole ones, with a finite reciprocal.
fn subnormal(random: &mut Random, n: usize) -> Vec<f64> {
    if random.below(2) == 0 {
        let zero = random.between(1, n as u64 - 3) as usize;
        let mut out: Vec<f64> = (0..n).map(|i| i as f64 - zero as f64).collect();
        out[zero + 1] = random.pick(&[6e-309, 1e-308, 2e-308]);
        return out;
    }
    let start = random.pick(&[0.0, -0.0, -5e-324, 1e-320, -1e-322]);
    let gaps = random.pick(&[[5e-324; 4], [5e-324, 1e-323, 5e-323, 1e-320], [5e-324, 1e-310, 6e-309, 2e-308]]);
    chain(start, n, |x| x + random.pick(&gaps))
}

// Uneven gaps and a long one: before the last knot, after the first, or between two, where it must not lose the others' digits.
fn long_gap(random: &mut Random, n: usize) -> Vec<f64> {
    let mut out = drawn(random, "uneven", n);
    let most = random.pick(&[40, 40, 300, 1000]);
    match random.below(3) {
        0 => out[n - 1] = random.float(10, most).abs(),
        1 => out[0] = -random.float(10, most).abs(),
        _ => {
            let at = random.between(1, n as u64 - 1) as usize;
            let long = random.float(10, 30).abs();
            out[at..].iter_mut().for_each(|x| *x += long);
        }
    }
    out
}

fn sorted(n: usize, mut draw: impl FnMut() -> f64) -> Vec<f64> {
    let mut out: Vec<f64> = (0..n).map(|_| draw()).collect();
    out.sort_by(f64::total_cmp);
    out
}

fn ends(random: &mut Random, n: usize, first: bool, last: bool) -> Vec<f64> {
    let kind = random.pick(&["uneven", "uneven", "whole"]);
    let mut out = drawn(random, kind, n);
    if first {
        out[0] = f64::NEG_INFINITY;
    }
    if last {
        out[n - 1] = f64::INFINITY;
    }
    out
}

// The joined grid of these lengths, axis after axis. An axis has the kind, and another one has it or a plain one. Lengths
// below two have any knots.
pub fn joined(random: &mut Random, kind: &str, dims: &[u64]) -> Vec<f64> {
    let lead = random.below(dims.len() as u64) as usize;
    let mut out = Vec::new();
    for (axis, &n) in dims.iter().enumerate() {
        let own = axis == lead || random.below(2) == 0;
        let kind = if own { kind } else { random.pick(&["whole", "equal", "uneven"]) };
        out.extend(knots(random, kind, n as usize));
    }
    out
}

// Whether a joined grid has as many knots as these lengths ask for.
pub fn agrees(dims: &[u64], grid: &[f64]) -> bool {
    dims.iter().map(|&n| u128::from(n)).sum::<u128>() == grid.len() as u128
}

// Whether the Rust can be asked: not with another axis count than 1 to 4, and not with knots of another number than the
// lengths say, as there the lengths are those of its slices.
pub fn can_ask(count: u64, dims: &[u64; 4], grid: Option<&[f64]>) -> bool {
    (1..=4).contains(&count) && grid.is_none_or(|grid| agrees(&dims[..count as usize], grid))
}

// The knots of each axis, of a grid that agrees.
pub fn axes<'a, const N: usize>(dims: &[u64; 4], grid: &'a [f64]) -> [&'a [f64]; N] {
    assert!(agrees(&dims[..N], grid));
    let mut rest = grid;
    std::array::from_fn(|axis| {
        let (knots, more) = rest.split_at(dims[axis] as usize);
        rest = more;
        knots
    })
}

// The places of an axis's knots in the joined grid.
pub fn places(dims: &[u64; 4], axis: usize) -> std::ops::Range<usize> {
    let start: u64 = dims[..axis].iter().sum();
    start as usize..(start + dims[axis]) as usize
}

// Gives the grid another length: one short, one more, none, one, twice as many, or as many as if all four axes were in use.
pub fn resize(random: &mut Random, dims: &[u64; 4], grid: &mut Vec<f64>) {
    let n = grid.len();
    let four = dims.iter().fold(0, |sum: u64, &n| sum.saturating_add(n)).min(40) as usize;
    let length = random.pick(&[n.saturating_sub(1), n + 1, 0, 1, 2 * n, four]);
    grid.resize(if length == n { n + 1 } else { length }, 100.0);
}

// Spoils an axis of three knots or more, so that knot `at` is not above the one before; for a NaN, `at` may be 0.
pub fn spoil(random: &mut Random, knots: &mut [f64], fault: &str, at: usize) {
    let last = knots.len() - 1;
    match fault {
        "equal" => knots[at] = knots[at - 1],
        "one unit below" => knots[at] = knots[at - 1].next_down(),
        "far below" => knots[at] = knots[at - 1] - 1e300,
        "nan" => knots[at] = f64::from_bits(random.pick(&NANS)),
        "zeros" => count_to(knots, at, 0.0, -0.0),
        "zeros, the negative one first" => count_to(knots, at, -0.0, 0.0),
        "equal infinities" if at <= last / 2 => knots[..=at].fill(f64::NEG_INFINITY),
        "equal infinities" => knots[at - 1..].fill(f64::INFINITY),
        "infinity before its time" => knots[at - 1] = f64::INFINITY,
        "minus infinity after its time" => knots[at] = f64::NEG_INFINITY,
        _ => panic!("no fault {fault}"),
    }
    assert!(!rises(knots), "{fault}");
}

// Whole numbers that rise by one, but for two zeros.
fn count_to(knots: &mut [f64], at: usize, first: f64, second: f64) {
    for (i, knot) in knots.iter_mut().enumerate() {
        *knot = if i < at { i as f64 + 1.0 - at as f64 } else { (i - at) as f64 };
    }
    (knots[at - 1], knots[at]) = (first, second);
}

// Spoils some axis in some way. Where no axis can be told, a NaN is put among the knots.
pub fn spoil_any(random: &mut Random, count: u64, dims: &[u64; 4], grid: &mut [f64]) {
    if can_ask(count, dims, Some(grid)) && dims[..count as usize].iter().all(|&n| n > 2) {
        let knots = &mut grid[places(dims, random.below(count) as usize)];
        let fault = random.pick(&FAULTS);
        let at = random.between(1, knots.len() as u64 - 1) as usize;
        spoil(random, knots, fault, at);
    } else if !grid.is_empty() {
        let at = random.below(grid.len() as u64) as usize;
        grid[at] = f64::NAN;
    }
}
