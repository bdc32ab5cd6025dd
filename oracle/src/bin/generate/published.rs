// Published figures on cubic B-splines: the README cites them. The coefficients here are the published ones, and the Rust's
// answer is only held against them.
use crate::list::List;
use crate::shared::call::Call;

pub fn add(list: &mut List) {
    for n in 7..=16 {
        for knot in 3..=n - 4 {
            line(list, "published, knot values", n, |i| knot_value(i, knot), |i| one_at(i, knot));
        }
    }
    for n in [4, 5, 6, 7, 8, 9, 11, 16] {
        let last = n - 1;
        line(list, "published, Marsden 1", n, |i| i as f64, |i| i as f64);
        line(list, "published, Marsden 1", n, |i| (last - i) as f64, |i| (last - i) as f64);
        line(list, "published, Marsden 2", n, square, |i| square(i) - 1.0 / 3.0);
        line(list, "published, Marsden 2", n, |i| square(last - i), |i| square(last - i) - 1.0 / 3.0);
        for value in [1.0, -2.5, 0.1, 77.0] {
            line(list, "published, constant", n, |_| value, |_| value);
        }
    }
    planes(list);
}

// The same on two axes, where a tensor product of lines fits to the tensor product of their coefficients.
fn planes(list: &mut List) {
    for (n, m) in [(7, 8), (9, 7), (8, 8)] {
        let (a, b) = (3, m - 4);
        let class = "published, knot values on two axes";
        plane(list, class, n, m, |i, j| knot_value(i, a) * knot_value(j, b), |i, j| one_at(i, a) * one_at(j, b));
    }
    for (n, m) in [(4, 4), (5, 9), (9, 5), (6, 4)] {
        let class = "published, Marsden on two axes";
        plane(list, class, n, m, |i, j| (i * j) as f64, |i, j| (i * j) as f64);
        plane(list, class, n, m, |i, j| square(i) * j as f64, |i, j| (square(i) - 1.0 / 3.0) * j as f64);
        plane(list, class, n, m, |i, j| i as f64 + square(j), |i, j| i as f64 + square(j) - 1.0 / 3.0);
    }
}

// The cardinal cubic B-spline of a knot has the values 1/6, 4/6, 1/6 at the knot and its two neighbours, and 0 at the others.
fn knot_value(i: usize, knot: usize) -> f64 {
    match i.abs_diff(knot) {
        0 => 4.0 / 6.0,
        1 => 1.0 / 6.0,
        _ => 0.0,
    }
}

fn one_at(i: usize, knot: usize) -> f64 {
    if i == knot { 1.0 } else { 0.0 }
}

fn square(i: usize) -> f64 {
    (i * i) as f64
}

fn line(list: &mut List, class: &str, n: usize, sample: impl Fn(usize) -> f64, coef: impl Fn(usize) -> f64) {
    let samples = (0..n).map(sample).collect();
    let coefs = (0..n).map(coef).collect();
    figure(list, class, &[n], samples, coefs);
}

fn plane(
    list: &mut List,
    class: &str,
    n: usize,
    m: usize,
    sample: impl Fn(usize, usize) -> f64,
    coef: impl Fn(usize, usize) -> f64,
) {
    let samples = (0..n * m).map(|c| sample(c / m, c % m)).collect();
    let coefs = (0..n * m).map(|c| coef(c / m, c % m)).collect();
    figure(list, class, &[n, m], samples, coefs);
}

// The tolerance is 2^-48 of the next power of two from the largest coefficient on, and of 1 at least.
fn figure(list: &mut List, class: &str, dims: &[usize], samples: Vec<f64>, coefs: Vec<f64>) {
    let mut size = 1.0;
    while coefs.iter().any(|c: &f64| c.abs() > size) {
        size *= 2.0;
    }
    let mut four = [0; 4];
    for (axis, &n) in dims.iter().enumerate() {
        four[axis] = n as u64;
    }
    let scratch = 2 * dims.iter().max().unwrap();
    let call = Call { count: dims.len() as u64, dims: four, grid: None, samples, coefs: coefs.len(), scratch };
    list.figure(class, &call, size / (1u64 << 48) as f64, coefs);
}
