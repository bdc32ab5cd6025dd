// Fits and line calls.
use crate::Pair;
use crate::map::Map;
use crate::shared::words::same;
use interpn::multibspline::{rectilinear, regular};
use std::hint::black_box;

// The Rust's fit, as its user calls it: with buffers of his own.
fn rust_fit<const N: usize>(map: &Map<N>, coefs: &mut [f64], scratch: &mut [f64]) -> Result<(), &'static str> {
    if map.rectilinear {
        rectilinear::coefficients(map.knots(), black_box(map.samples), coefs, scratch)
    } else {
        regular::coefficients(map.dims, black_box(map.samples), coefs, scratch)
    }
}

// The coefficients of a map, from the Rust.
pub fn coefficients<const N: usize>(map: &Map<N>) -> &'static [f64] {
    let mut coefs = vec![0.0; map.samples.len()];
    rust_fit(map, &mut coefs, &mut map.scratch()).expect("a fit is refused");
    coefs.leak()
}

pub fn fit<const N: usize>(map: Map<N>) -> Pair {
    let lent = map.lent();
    let (samples, n) = (map.samples, map.samples.len());
    let (mut coefs, mut scratch) = (vec![0.0; n], map.scratch());
    assert_eq!(lent.fit(samples, &mut coefs, &mut scratch), 0);
    assert!(same(&coefs, coefficients(&map)), "the fits differ");
    let library = move || {
        let answer = lent.fit(black_box(samples), black_box(&mut coefs), &mut scratch);
        assert_eq!(answer, 0);
    };
    let (knots, dims) = (if map.rectilinear { Some(map.knots()) } else { None }, map.dims);
    let (mut coefs, mut scratch) = (vec![0.0; n], map.scratch());
    let rust = move || {
        let coefs = black_box(&mut coefs);
        let answer = match knots {
            Some(knots) => rectilinear::coefficients(knots, black_box(samples), coefs, &mut scratch),
            None => regular::coefficients(dims, black_box(samples), coefs, &mut scratch),
        };
        assert_eq!(answer, Ok(()));
    };
    Pair::warm(library, rust)
}

// Begin, and then every line of axis 0, a call each, as a controller makes them. The Rust has no such calls; what stands beside
// them is as many fits of one axis of that length, whose samples stand in one piece.
pub fn lines<const N: usize>(map: Map<N>) -> Pair {
    let (n, lent, samples) = (map.dims[0], map.lent(), map.samples);
    let count = samples.len() / n;
    let (mut coefs, mut ledger, mut scratch) = (vec![0.0; samples.len()], vec![0; samples.len()], map.scratch());
    let library = move || {
        assert_eq!(lent.begin(black_box(samples), &mut coefs, &mut ledger, scratch.len()), 0);
        for line in 0..count {
            let answer = lent.line(0, line, black_box(&mut coefs), black_box(&mut ledger), &mut scratch);
            assert_eq!(answer, 0);
        }
    };
    let pieces: Vec<f64> = (0..count).flat_map(|line| (0..n).map(move |i| samples[i * count + line])).collect();
    let (mut coefs, fit) = (vec![0.0; samples.len()], rust_line(&map));
    let mut scratch = vec![0.0; 2 * n];
    let rust = move || {
        for (piece, into) in pieces.chunks_exact(n).zip(coefs.chunks_exact_mut(n)) {
            fit(black_box(piece), black_box(into), &mut scratch);
        }
    };
    Pair::warm(library, rust).of(count)
}

// Line 0 of axis 0, alone: its samples are put into place, its ledger bytes zeroed, and it is solved. Putting it into place, which
// is no part of the call, is timed with it.
pub fn line<const N: usize>(map: Map<N>) -> Pair {
    let (n, lent, all) = (map.dims[0], map.lent(), map.samples);
    let stride = map.samples.len() / n;
    let samples: Vec<f64> = (0..n).map(|i| all[i * stride]).collect();
    let mut coefs = all.to_vec();
    let (mut ledger, mut scratch, line) = (vec![0; all.len()], map.scratch(), samples.clone());
    let library = move || {
        for (i, &sample) in line.iter().enumerate() {
            coefs[i * stride] = sample;
            ledger[i * stride] = 0;
        }
        let answer = lent.line(0, 0, black_box(&mut coefs), black_box(&mut ledger), &mut scratch);
        assert_eq!(answer, 0);
    };
    let (mut coefs, mut scratch, fit) = (vec![0.0; n], vec![0.0; 2 * n], rust_line(&map));
    Pair::warm(library, move || fit(black_box(&samples), black_box(&mut coefs), &mut scratch))
}

// The Rust's fit of one axis, the first of the map.
fn rust_line<const N: usize>(map: &Map<N>) -> impl Fn(&[f64], &mut [f64], &mut [f64]) + use<N> {
    let n = map.dims[0];
    let knots = if map.rectilinear { Some([map.knots()[0]]) } else { None };
    move |samples, coefs, scratch| {
        let answer = match &knots {
            Some(knots) => rectilinear::coefficients(knots, samples, coefs, scratch),
            None => regular::coefficients([n], samples, coefs, scratch),
        };
        assert_eq!(answer, Ok(()));
    }
}
