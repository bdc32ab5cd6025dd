//! Holds the crate to the Rust's answers in crates/replay_queries/data: every value and gradient, to the bit.
//! oracle/README.md describes the list. Any NaN counts as any other.

use corvezan::{Rectilinear, Refusal, Regular, Result};

/// The words of one record, taken one after the other.
struct Words(std::vec::IntoIter<u64>);

impl Words {
    fn read(line: &str) -> Words {
        let words: Vec<u64> = line.split_whitespace().map(|word| u64::from_str_radix(word, 16).unwrap()).collect();
        Words(words.into_iter())
    }

    fn one(&mut self) -> usize {
        self.0.next().unwrap() as usize
    }

    fn floats(&mut self, n: usize) -> Vec<f64> {
        self.0.by_ref().take(n).map(f64::from_bits).collect()
    }
}

/// A map of either kind.
enum Map {
    Even(Regular),
    Uneven(Rectilinear),
}

impl Map {
    fn value(&self, coeffs: &[f64], x: &[f64]) -> Result<f64> {
        match self {
            Map::Even(map) => map.value(coeffs, x),
            Map::Uneven(map) => map.value(coeffs, x),
        }
    }

    fn gradient(&self, coeffs: &[f64], x: &[f64], slopes: &mut [f64]) -> Result<()> {
        match self {
            Map::Even(map) => map.gradient(coeffs, x, slopes),
            Map::Uneven(map) => map.gradient(coeffs, x, slopes),
        }
    }

    fn values(&self, coeffs: &[f64], x: &[f64], out: &mut [f64]) -> Result<()> {
        match self {
            Map::Even(map) => map.values(coeffs, x, out),
            Map::Uneven(map) => map.values(coeffs, x, out),
        }
    }

    fn gradients(&self, coeffs: &[f64], x: &[f64], out: &mut [f64]) -> Result<()> {
        match self {
            Map::Even(map) => map.gradients(coeffs, x, out),
            Map::Uneven(map) => map.gradients(coeffs, x, out),
        }
    }
}

fn same(a: f64, b: f64) -> bool {
    a.to_bits() == b.to_bits() || (a.is_nan() && b.is_nan())
}

fn number(answer: Result<()>) -> usize {
    answer.err().map_or(0, |refusal: Refusal| refusal.number() as usize)
}

/// The cells that a batch has written, and the others as they were.
fn check_batch(found: &[f64], expected: &[f64], axes: usize, written: usize) {
    let n = found.len() / axes;
    for (i, cell) in found.iter().enumerate() {
        let before = i as f64 + 0.5;
        assert!(same(*cell, if i % n < written { expected[i] } else { before }), "cell {i}");
    }
}

/// What the outputs hold before a batch.
fn filled(n: usize) -> Vec<f64> {
    (0..n).map(|i| i as f64 + 0.5).collect()
}

/// A map of the list: kind 4 and 5 are regular, with four starts and four steps.
fn make_map(kind: usize, dims: &[usize], grid: &[f64], linear: bool) -> Map {
    let axes = dims.len().min(4);
    match kind {
        4 | 5 => Map::Even(Regular::new(dims, &grid[..axes], &grid[4..4 + axes]).with_linear(linear)),
        _ => Map::Uneven(Rectilinear::joined(dims, grid).with_linear(linear)),
    }
}

/// One record; gives how many queries it has.
fn replay(line: &str) -> usize {
    let mut words = Words::read(line);
    let (kind, _, axes) = (words.one(), words.one(), words.one());
    let lengths: Vec<usize> = (0..4).map(|_| words.one()).collect();
    let linear = words.one() == 1;
    let [floats, cells, coordinates, values, parts, answer, written, slopes_answer, slopes_written] =
        std::array::from_fn(|_| words.one());
    let (grid, coeffs, x) = (words.floats(floats), words.floats(cells), words.floats(coordinates));
    let dims = if axes <= 4 { lengths[..axes].to_vec() } else { vec![4; 5] };
    let map = make_map(kind, &dims, &grid, linear);
    let (mut out, mut slopes) = (filled(values), filled(parts));
    assert_eq!(number(map.values(&coeffs, &x, &mut out)), answer);
    assert_eq!(number(map.gradients(&coeffs, &x, &mut slopes)), slopes_answer);
    if ![answer, slopes_answer].iter().any(|n| [0, 6].contains(n)) {
        assert_eq!((out, slopes), (filled(values), filled(parts)));
        return 0;
    }
    let n = coordinates / axes;
    let answers: Vec<usize> = (0..n).map(|_| words.one()).collect();
    let (each, gradients) = (words.floats(n), words.floats(axes * n));
    check_batch(&out, &each, 1, written);
    check_batch(&slopes, &gradients, axes, slopes_written);
    for i in 0..n {
        let at = |row: &[f64]| row.iter().skip(i).step_by(n).copied().collect::<Vec<f64>>();
        check_query(&map, &coeffs, &at(&x), answers[i], each[i], &at(&gradients));
    }
    n
}

/// One query by itself.
fn check_query(map: &Map, coeffs: &[f64], x: &[f64], answer: usize, value: f64, gradient: &[f64]) {
    let mut slopes = vec![0.5; x.len()];
    assert_eq!(number(map.gradient(coeffs, x, &mut slopes)), answer);
    match map.value(coeffs, x) {
        Ok(found) => {
            assert!(answer == 0 && same(found, value));
            assert!(slopes.iter().zip(gradient).all(|(a, b)| same(*a, *b)));
        }
        Err(refusal) => {
            assert_eq!(refusal.number() as usize, answer);
            assert_eq!(slopes, vec![0.5; x.len()]);
        }
    }
}

#[test]
fn queries() {
    let path = concat!(env!("CARGO_MANIFEST_DIR"), "/../../crates/replay_queries/data/queries.txt");
    let text = std::fs::read_to_string(path).unwrap();
    let queries: usize = text.lines().map(replay).sum();
    assert_eq!((text.lines().count(), queries), (1138, 11222));
}
