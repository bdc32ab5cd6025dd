// One axis of a map: the place of a coordinate on it, by the papers' rule, and coordinates that are worth asking.
use super::random::Random;

pub const PLACES: [&str; 5] = ["OutsideLow", "InsideLow", "None", "InsideHigh", "OutsideHigh"];

// The kinds of regular axes: starts and steps.
pub const REGULAR: [&str; 10] =
    ["unit", "ordinary", "fine", "coarse", "tiny", "subnormal", "huge", "lost digits", "infinite step", "any step"];

pub const TWO_63: f64 = 9223372036854775808.0;

#[derive(Clone, Copy)]
pub enum Axis<'a> {
    Regular { n: u64, start: f64, step: f64 },
    Rectilinear(&'a [f64]),
}

impl Axis<'_> {
    // The place of a coordinate that is answered.
    pub fn place(self, x: f64) -> &'static str {
        let (n, cell) = match self {
            Axis::Regular { n, start, step } => (n as f64, floor(start, step, x) - 1.0),
            Axis::Rectilinear(knots) => {
                (knots.len() as f64, knots.iter().filter(|&&knot| knot < x).count() as f64 - 2.0)
            }
        };
        if cell < -1.0 {
            "OutsideLow"
        } else if cell == -1.0 {
            "InsideLow"
        } else if cell > n - 3.0 {
            "OutsideHigh"
        } else if cell == n - 3.0 {
            "InsideHigh"
        } else {
            "None"
        }
    }

    // Whether the papers refuse the coordinate with 6: its cell is no signed 64-bit number.
    pub fn refuses(self, x: f64) -> bool {
        match self {
            Axis::Regular { start, step, .. } => !(-TWO_63 < floor(start, step, x) && floor(start, step, x) < TWO_63),
            Axis::Rectilinear(_) => false,
        }
    }

    // Whether the Rust's subtraction overflows there, at a floor of -2^63: it is not asked, and the papers say 6.
    pub fn overflows(self, x: f64) -> bool {
        match self {
            Axis::Regular { start, step, .. } => floor(start, step, x) == -TWO_63,
            Axis::Rectilinear(_) => false,
        }
    }

    // A coordinate that the Rust answers, or refuses: one at which it overflows is drawn again.
    pub fn coordinate(self, random: &mut Random) -> f64 {
        match self {
            Axis::Regular { n, start, step } => on_regular(random, n, start, step),
            Axis::Rectilinear(knots) => on_knots(random, knots),
        }
    }

    // A grid point.
    pub fn point(self, random: &mut Random) -> f64 {
        match self {
            Axis::Regular { n, start, step } => start + step * random.below(n) as f64,
            Axis::Rectilinear(knots) => random.pick(knots),
        }
    }

    // The first and the last grid point.
    pub fn first(self) -> f64 {
        match self {
            Axis::Regular { start, .. } => start,
            Axis::Rectilinear(knots) => knots[0],
        }
    }

    pub fn last(self) -> f64 {
        match self {
            Axis::Regular { n, start, step } => start + step * (n as f64 - 1.0),
            Axis::Rectilinear(knots) => knots[knots.len() - 1],
        }
    }

    // A coordinate between two grid points.
    pub fn inner(self, random: &mut Random) -> f64 {
        match self {
            Axis::Regular { n, start, step } => start + step * (random.unit().abs() * (n as f64 - 1.0)),
            Axis::Rectilinear(knots) => {
                let i = random.between(1, knots.len() as u64 - 1) as usize;
                between(random, knots[i - 1], knots[i])
            }
        }
    }
}

// The floor of a coordinate's quotient.
fn floor(start: f64, step: f64, x: f64) -> f64 {
    ((x - start) / step).floor()
}

// Start and step of a regular axis.
pub fn start_and_step(random: &mut Random, kind: &str) -> (f64, f64) {
    match kind {
        "unit" => (random.between(0, 4) as f64 - 2.0, 1.0),
        "ordinary" => (random.unit() * 10.0, random.unit().abs() * 3.0 + 0.01),
        "fine" => (random.unit(), random.float(-40, -20).abs()),
        "coarse" => (random.unit() * 100.0, random.float(20, 60).abs()),
        "tiny" => (random.float(-1015, -1010), random.float(-1022, -1010).abs()),
        "subnormal" => (random.pick(&[0.0, -0.0, 5e-324, -1e-320]), random.pick(&[5e-324, 1e-323, 1e-310, 2e-308])),
        "huge" => (random.float(900, 1020), random.float(1000, 1022).abs()),
        "lost digits" => (random.float(52, 56), random.pick(&[0.1, 0.7, 1.0, 3.0])),
        "infinite step" => (random.unit(), random.pick(&[f64::INFINITY, f64::MAX, f64::INFINITY])),
        _ => (random.pick(&[0.0, -0.0, 1.0, f64::MAX, f64::MIN]), random.float(-1022, 1023).abs()),
    }
}

// A step that is zero, negative or NaN.
pub fn bad_step(random: &mut Random) -> f64 {
    random.pick(&[0.0, -0.0, -1.0, -5e-324, f64::NAN, -f64::NAN, f64::NEG_INFINITY, f64::MIN])
}

fn on_regular(random: &mut Random, n: u64, start: f64, step: f64) -> f64 {
    loop {
        let x = drawn(random, n, start, step);
        let floor = floor(start, step, x);
        let refused = !(-TWO_63..TWO_63).contains(&floor);
        if floor != -TWO_63 && (!refused || random.below(12) == 0) {
            return x;
        }
        if refused && !start.is_finite() {
            return x;
        }
        if refused && random.below(8) == 0 {
            return start;
        }
    }
}

fn drawn(random: &mut Random, n: u64, start: f64, step: f64) -> f64 {
    let last = n as f64 - 1.0;
    let part = random.unit().abs();
    let at = |cells: f64| start + step * cells;
    match random.below(16) {
        0 | 1 => at(part),
        2 | 3 => at(1.0 + part * (last - 2.0)),
        4 => at(last - part),
        5 => at(-3.0 * part),
        6 => at(last + 3.0 * part),
        7 | 8 => at(random.between(0, last as u64) as f64),
        9 => at(random.between(0, last as u64) as f64).next_up(),
        10 => at(random.between(0, last as u64) as f64).next_down(),
        11 => at(random.between(0, last as u64 + 6) as f64 - 3.0),
        12 => at(random.pick(&[0.0, 1.0, last - 1.0, last])),
        13 => at(random.float(3, 30)),
        14 => at(random.float(30, 62)),
        _ => random.pick(&[0.0, -0.0, 1.0, -1.0, 5e-324, f64::MIN_POSITIVE, -1e300]),
    }
}

fn on_knots(random: &mut Random, knots: &[f64]) -> f64 {
    let last = knots.len() - 1;
    let some = random.below(knots.len() as u64) as usize;
    let inner = random.between(1, last as u64 - 2) as usize;
    match random.below(16) {
        0 | 1 => between(random, knots[0], knots[1]),
        2 | 3 => between(random, knots[inner], knots[inner + 1]),
        4 | 5 => between(random, knots[last - 1], knots[last]),
        6 => knots[0] - (knots[1] - knots[0]) * random.unit().abs() * 3.0,
        7 => knots[last] + (knots[last] - knots[last - 1]) * random.unit().abs() * 3.0,
        8 | 9 => knots[some],
        10 => knots[some].next_up(),
        11 => knots[some].next_down(),
        12 => knots[random.pick(&[0, 1, last - 1, last])],
        13 => random.float(3, 60),
        14 if random.below(3) == 0 => random.float(60, 1023),
        14 => between(random, knots[inner], knots[inner + 1]),
        _ => {
            random.pick(&[0.0, -0.0, 1.0, -1.0, 5e-324, f64::MIN_POSITIVE, f64::INFINITY, f64::NEG_INFINITY, f64::NAN])
        }
    }
}

// A coordinate between two knots, of which one may be infinite.
pub fn between(random: &mut Random, low: f64, high: f64) -> f64 {
    let part = random.unit().abs();
    if low.is_infinite() {
        return high - random.float(-4, 20).abs();
    }
    if high.is_infinite() {
        return low + random.float(-4, 20).abs();
    }
    let x = low + (high - low) * part;
    if x.is_finite() { x } else { low * (1.0 - part) + high * part }
}
