// The kinds of samples that the fits are tried with.
use super::random::Random;

pub const KINDS: [&str; 16] = [
    "ordinary",
    "whole",
    "wide",
    "tiny",
    "subnormal",
    "large",
    "huge",
    "infinities",
    "nans",
    "zeros",
    "constant",
    "ramp",
    "single",
    "steps",
    "mixture",
    "any bits",
];

const NANS: [u64; 8] = [
    0x7ff8_0000_0000_0000,
    0xfff8_0000_0000_0000,
    0x7ff8_0000_0000_0001,
    0xffff_ffff_ffff_ffff,
    0x7fff_ffff_ffff_ffff,
    0x7ff0_0000_0000_0001,
    0xfff0_0000_0000_0001,
    0x7ff4_dead_beef_cafe,
];

const EDGES: [f64; 12] = [
    0.0,
    -0.0,
    f64::INFINITY,
    f64::NEG_INFINITY,
    f64::MAX,
    f64::MIN,
    f64::MIN_POSITIVE,
    -f64::MIN_POSITIVE,
    f64::EPSILON,
    1.0,
    -1.0,
    1.5,
];

// n samples of a kind.
pub fn samples(random: &mut Random, kind: &str, n: usize) -> Vec<f64> {
    match kind {
        "constant" => vec![constant(random); n],
        "ramp" => ramp(random, n),
        "single" => single(random, n),
        "infinities" => among(random, n, |r| r.pick(&[f64::INFINITY, f64::NEG_INFINITY])),
        "nans" => among(random, n, |r| f64::from_bits(r.pick(&NANS))),
        _ => (0..n).map(|i| sample(random, kind, i)).collect(),
    }
}

// Sample i of a kind that needs no more than that.
fn sample(random: &mut Random, kind: &str, i: usize) -> f64 {
    match kind {
        "ordinary" => random.unit() * 10.0,
        "whole" => random.between(0, 18) as f64 - 9.0,
        "wide" => random.float(-300, 300),
        "tiny" => random.float(-1022, -1016),
        "subnormal" => subnormal(random),
        "large" => random.float(1000, 1019),
        "huge" => random.float(1019, 1023),
        "zeros" => random.pick(&[0.0, -0.0]),
        "steps" => {
            if (i / 3).is_multiple_of(2) {
                1.0
            } else {
                -1.0
            }
        }
        "mixture" => mixed(random),
        "any bits" => f64::from_bits(random.bits()),
        _ => panic!("no samples of kind {kind}"),
    }
}

// The smallest ones are few bits long, so that halves of them are lost.
fn subnormal(random: &mut Random) -> f64 {
    let bits = random.bits();
    let digits = (bits & 0x000f_ffff_ffff_ffff) >> random.pick(&[0, 0, 20, 40, 48, 51]);
    f64::from_bits(digits | bits & 1 << 63)
}

fn mixed(random: &mut Random) -> f64 {
    match random.below(8) {
        0 => random.pick(&EDGES),
        1 => subnormal(random),
        2 => random.float(-60, -40),
        3 => random.float(40, 60),
        4 => random.between(0, 6) as f64 - 3.0,
        _ => random.unit() * 100.0,
    }
}

fn constant(random: &mut Random) -> f64 {
    match random.below(5) {
        0 => random.pick(&EDGES),
        1 => random.float(-1022, 1023),
        2 => subnormal(random),
        _ => random.unit() * 10.0,
    }
}

fn ramp(random: &mut Random, n: usize) -> Vec<f64> {
    let start = random.unit() * 4.0;
    let step = random.pick(&[1.0, -1.0, 0.1, -0.3, 1.0 / (1u64 << 30) as f64, 1e10]);
    (0..n).map(|i| start + step * i as f64).collect()
}

// Zeros, and one cell that is not.
fn single(random: &mut Random, n: usize) -> Vec<f64> {
    let mut out = vec![0.0; n];
    out[random.below(n as u64) as usize] = random.pick(&[1.0, -1.0, 6.0, 0.1]);
    out
}

// Ordinary samples, and one to three cells that are special.
fn among(random: &mut Random, n: usize, special: impl Fn(&mut Random) -> f64) -> Vec<f64> {
    let mut out = samples(random, "ordinary", n);
    for _ in 0..random.between(1, 3) {
        out[random.below(n as u64) as usize] = special(random);
    }
    out
}
