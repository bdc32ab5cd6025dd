//! Each refusal by its number, the order of the checks, and buffers that a refused call leaves as they were.

use corvezan::{check_shape, first_cell, lines, points, scratch_len, stride, Rectilinear, Refusal, Regular};

/// Numbers that no call writes.
fn filled(n: usize) -> Vec<f64> {
    (0..n).map(|i| i as f64 + 0.5).collect()
}

/// Buffers of a fit of 4 by 5 points, of these lengths, which a refused call must leave as they were.
struct Buffers {
    coeffs: Vec<f64>,
    ledger: Vec<u8>,
    scratch: Vec<f64>,
}

impl Buffers {
    fn new(coeffs: usize, ledger: usize, scratch: usize) -> Buffers {
        Buffers { coeffs: filled(coeffs), ledger: vec![170; ledger], scratch: filled(scratch) }
    }

    fn untouched(&self) -> bool {
        self.coeffs == filled(self.coeffs.len())
            && self.ledger.iter().all(|byte| *byte == 170)
            && self.scratch == filled(self.scratch.len())
    }
}

/// Dims, samples, coefficients, scratch, and the number of the answer: for a regular fit.
#[test]
fn regular_fits() {
    for (dims, vals, coeffs, scratch, number) in [
        (&[][..], 20, 20, 10, 1),
        (&[4; 5], 20, 20, 10, 1),
        (&[4, 3], 12, 12, 8, 2),
        (&[4096, 4097], 20, 20, 10, 3),
        (&[usize::MAX, usize::MAX], 20, 20, 10, 3),
        (&[4, 5], 20, 19, 10, 2),
        (&[4, 5], 19, 20, 10, 2),
        (&[4, 5], 20, 20, 9, 4),
        (&[4, 5], 20, 20, 0, 4),
    ] {
        let map = Regular::new(dims, &vec![0.0; dims.len()], &vec![1.0; dims.len()]);
        let mut b = Buffers::new(coeffs, 0, scratch);
        let vals = vec![1.0; vals];
        assert_eq!(map.fit(&vals, &mut b.coeffs, &mut b.scratch).unwrap_err().number(), number);
        assert_eq!(map.from_values(&vals, &mut b.coeffs, &mut b.scratch).unwrap_err().number(), number);
        assert!(b.untouched());
    }
}

#[test]
fn steps() {
    for step in [0.0, -0.0, -1.0, f64::NAN] {
        let map = Regular::new(&[4], &[0.0], &[step]);
        let mut b = Buffers::new(4, 0, 8);
        assert_eq!(map.check(4), Err(Refusal::NotIncreasing));
        assert_eq!(map.value(&[1.0; 4], &[0.0]), Err(Refusal::NotIncreasing));
        assert!(b.untouched());
        // The first exception to untouched buffers: the map is fitted before its steps are looked at.
        assert_eq!(map.from_values(&[1.0; 4], &mut b.coeffs, &mut b.scratch), Err(Refusal::NotIncreasing));
        assert_ne!(b.coeffs, filled(4));
        assert_eq!(Ok(b.coeffs), map.fitted(&[1.0; 4]));
    }
}

/// Grid length, knot 6, samples, coefficients, scratch, and the number of the answer: for a rectilinear fit.
#[test]
fn rectilinear_fits() {
    for (dims, knots, knot, vals, coeffs, scratch, number) in [
        (&[][..], 9, 45.0, 20, 20, 10, 1),
        (&[4, 3], 7, 45.0, 12, 12, 8, 2),
        (&[4096, 4097], 9, 35.0, 20, 20, 10, 3),
        (&[4, 5], 8, 35.0, 20, 20, 9, 2),
        (&[4, 5], 9, 35.0, 20, 19, 9, 2),
        (&[4, 5], 9, 35.0, 19, 20, 9, 5),
        (&[4, 5], 9, f64::NAN, 20, 20, 10, 5),
        (&[4, 5], 9, 45.0, 19, 20, 9, 2),
        (&[4, 5], 9, 45.0, 20, 20, 9, 4),
    ] {
        let grid = [-20.0, -15.0, -9.0, 7.0, 30.0, 35.0, knot, 55.0, 65.0];
        let map = Rectilinear::joined(dims, &grid[..knots]);
        let mut b = Buffers::new(coeffs, coeffs, scratch);
        let vals = vec![1.0; vals];
        assert_eq!(map.fit(&vals, &mut b.coeffs, &mut b.scratch).unwrap_err().number(), number);
        assert_eq!(map.begin(&vals, &mut b.coeffs, &mut b.ledger, scratch).unwrap_err().number(), number);
        assert!(b.untouched());
    }
}

#[test]
fn queries() {
    let map = Regular::new(&[4, 5], &[100.0, 200.0], &[2.0, 0.5]);
    let mut out = filled(4);
    for x in [f64::NAN, f64::INFINITY, f64::NEG_INFINITY, 1e300] {
        assert_eq!(map.value(&[1.0; 20], &[101.0, x]), Err(Refusal::Unrepresentable));
        assert_eq!(map.gradient(&[1.0; 20], &[x, 201.0], &mut out[..2]), Err(Refusal::Unrepresentable));
    }
    assert_eq!(map.value(&[1.0; 19], &[101.0, 201.0]), Err(Refusal::DimensionMismatch));
    assert_eq!(map.value(&[1.0; 20], &[101.0]), Err(Refusal::DimensionMismatch));
    assert_eq!(map.gradient(&[1.0; 20], &[101.0, 201.0], &mut out[..3]), Err(Refusal::DimensionMismatch));
    assert_eq!(map.values(&[1.0; 20], &[101.0, 201.0], &mut out), Err(Refusal::DimensionMismatch));
    assert_eq!(map.gradients(&[1.0; 20], &[101.0, 201.0], &mut out[..3]), Err(Refusal::DimensionMismatch));
    assert_eq!(out, filled(4));
    let uneven = Rectilinear::joined(&[4], &[0.0, 1.0, 1.0, 2.0]);
    assert_eq!(uneven.check(4), Err(Refusal::NotIncreasing));
    assert_eq!(uneven.values(&[1.0; 4], &[0.5], &mut out[..1]), Err(Refusal::NotIncreasing));
    assert_eq!(uneven.gradients(&[1.0; 4], &[0.5], &mut out[..1]), Err(Refusal::NotIncreasing));
    assert_eq!(out, filled(4));
}

/// The second exception to untouched buffers: a batch keeps the entries before the one that is refused.
#[test]
fn batches_keep_what_is_before_the_refused_entry() {
    let map = Regular::new(&[4], &[0.0], &[1.0]);
    let coeffs = map.fitted(&[5.0; 4]).unwrap();
    let x = [1.0, 2.0, f64::NAN, 1.0];
    let (mut values, mut slopes) = (filled(4), filled(4));
    assert_eq!(map.values(&coeffs, &x, &mut values), Err(Refusal::Unrepresentable));
    assert_eq!(map.gradients(&coeffs, &x, &mut slopes), Err(Refusal::Unrepresentable));
    for i in 0..2 {
        assert_eq!(Ok(values[i]), map.value(&coeffs, &x[i..=i]));
        assert!(slopes[i].abs() < 1e-9);
    }
    assert_eq!((&values[2..], &slopes[2..]), (&[2.5, 3.5][..], &[2.5, 3.5][..]));
}

#[test]
fn lines_of_a_stepwise_fit() {
    let map = Rectilinear::new(&[&[0.0, 1.0, 3.0, 7.0], &[0.0, 1.0, 2.0, 3.0, 5.0]]);
    let mut b = Buffers::new(20, 20, 10);
    assert_eq!(map.begin(&filled(20), &mut b.coeffs, &mut b.ledger, 10), Ok(()));
    for (axis, line, scratch, number) in
        [(0, 0, 9, 4), (2, 0, 10, 7), (0, 5, 10, 7), (usize::MAX, 0, 10, 7), (0, usize::MAX, 10, 7), (1, 0, 10, 9)]
    {
        let refused = map.line(axis, line, &mut b.coeffs, &mut b.ledger, &mut b.scratch[..scratch]);
        assert_eq!(refused.unwrap_err().number(), number);
        assert_eq!((&b.coeffs, &b.ledger), (&filled(20), &vec![0; 20]));
        assert_eq!(b.scratch, filled(10));
    }
    assert_eq!(map.line(0, 3, &mut b.coeffs, &mut b.ledger, &mut b.scratch), Ok(()));
    let refused = map.line(0, 3, &mut b.coeffs, &mut b.ledger, &mut b.scratch);
    assert_eq!(refused.unwrap_err().number(), 8);
    assert_eq!(map.line(0, 3, &mut b.coeffs, &mut b.ledger[..19], &mut b.scratch), Err(Refusal::DimensionMismatch));
}

#[test]
fn shapes() {
    assert_eq!(check_shape(&[4096, 4096]), Ok(()));
    assert_eq!(check_shape(&[]), Err(Refusal::AxisCount));
    assert_eq!(check_shape(&[3, 1 << 60]), Err(Refusal::DimensionMismatch));
    assert_eq!(check_shape(&[4, 1 << 60]), Err(Refusal::TooManyPoints));
    assert_eq!(first_cell(&[4, 5], 0, 5), Err(Refusal::NoSuchLine));
    assert_eq!(first_cell(&[4, 5], 2, 0), Err(Refusal::NoSuchLine));
    assert_eq!((points(&[3]), scratch_len(&[3]), stride(&[3], 0), lines(&[3], 0)), (0, 0, 0, 0));
    assert_eq!((stride(&[4, 5], 2), lines(&[4, 5], 2)), (0, 0));
}

#[test]
fn numbers_and_words() {
    for number in 1..=12 {
        let refusal = Refusal::from_number(number).unwrap();
        assert_eq!(refusal.number(), number);
        assert!(refusal.to_string().starts_with(&format!("refused ({number}): ")));
        assert_eq!(matches!(refusal, Refusal::Other(_)), number > 9);
    }
    assert_eq!(Refusal::from_number(0), None);
}
