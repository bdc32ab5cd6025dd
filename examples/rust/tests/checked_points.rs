//! The checked points of the scope that can be seen from outside, and maps whose values are known by reasoning.

use corvezan::{check_shape, first_cell, lines, points, scratch_len, stride, Rectilinear, Refusal, Regular};

/// Point i: lengths 4, 5, 6 have the strides 30, 6, 1, and axis 1 line 7 begins at 31.
#[test]
fn strides_and_lines() {
    let dims = [4, 5, 6];
    assert_eq!(check_shape(&dims), Ok(()));
    assert_eq!([0, 1, 2].map(|axis| stride(&dims, axis)), [30, 6, 1]);
    assert_eq!([0, 1, 2].map(|axis| lines(&dims, axis)), [30, 24, 20]);
    assert_eq!(first_cell(&dims, 1, 7), Ok(31));
    assert_eq!((points(&dims), scratch_len(&dims)), (120, 12));
}

/// Point j: coefficients 0, 1, 2, 3, start 0, step 1 have the gradient 1 at 1, and, flag set, 1 at -2.
#[test]
fn gradient_of_a_ramp() {
    let map = Regular::new(&[4], &[0.0], &[1.0]);
    let coeffs = [0.0, 1.0, 2.0, 3.0];
    let mut slope = [9.0];
    assert_eq!(map.gradient(&coeffs, &[1.0], &mut slope), Ok(()));
    assert_eq!(slope, [1.0]);
    slope = [9.0];
    assert_eq!(map.with_linear(true).gradient(&coeffs, &[-2.0], &mut slope), Ok(()));
    assert_eq!(slope, [1.0]);
}

/// Point k: on lengths 4, 4, 4 axis 1 line 0 is due once axis 0 lines 0, 4, 8, 12 are solved, 9 before.
#[test]
fn due_once_the_crossing_lines_are_solved() {
    let map = Regular::new(&[4, 4, 4], &[0.0; 3], &[1.0; 3]);
    let (mut coeffs, mut ledger, mut scratch) = ([0.0; 64], [7; 64], [0.0; 8]);
    assert_eq!(map.begin(&[1.0; 64], &mut coeffs, &mut ledger, scratch.len()), Ok(()));
    for line in [0, 4, 8, 12] {
        assert_eq!(map.line(1, 0, &mut coeffs, &mut ledger, &mut scratch), Err(Refusal::NotDue));
        assert_eq!(map.line(0, line, &mut coeffs, &mut ledger, &mut scratch), Ok(()));
    }
    assert_eq!(map.line(1, 0, &mut coeffs, &mut ledger, &mut scratch), Ok(()));
}

/// Point l, and the example of the map program: zero samples fit to zeros, with value and gradient zero at 1.
#[test]
fn zero_samples() {
    let map = Regular::new(&[4], &[0.0], &[1.0]);
    let coeffs = map.fitted(&[0.0; 4]).unwrap();
    assert_eq!(coeffs.iter().map(|c| c.to_bits()).collect::<Vec<_>>(), [0; 4]);
    assert_eq!(map.value(&coeffs, &[1.0]).map(f64::to_bits), Ok(0));
    let mut slope = [9.0];
    assert_eq!(map.gradient(&coeffs, &[1.0], &mut slope), Ok(()));
    assert_eq!(slope[0].to_bits(), 0);
}

fn near(a: f64, b: f64) {
    assert!((a - b).abs() < 1e-9, "{a} is not near {b}");
}

/// Samples that are linear in the axes: a cubic spline gives them back between the points and outside.
#[test]
fn linear_samples_on_a_regular_grid() {
    let map = Regular::new(&[4, 5], &[100.0, 200.0], &[2.0, 0.5]);
    let vals: Vec<f64> = (0..20).map(|i| (10 * (i / 5) + i % 5) as f64).collect();
    let coeffs = map.fitted(&vals).unwrap();
    let x = [103.0, 90.0, 106.0, 201.125, 210.0, 202.0];
    let (mut values, mut slopes) = ([0.0; 3], [0.0; 6]);
    assert_eq!(map.check(20), Ok(()));
    assert_eq!(map.values(&coeffs, &x, &mut values), Ok(()));
    assert_eq!(map.gradients(&coeffs, &x, &mut slopes), Ok(()));
    for i in 0..3 {
        near(values[i], 5.0 * (x[i] - 100.0) + 2.0 * (x[3 + i] - 200.0));
        near(slopes[i], 5.0);
        near(slopes[3 + i], 2.0);
    }
}

#[test]
fn linear_samples_on_a_rectilinear_grid() {
    let (rows, columns) = ([-20.0, -15.0, -9.0, 7.0], [30.0, 35.0, 45.0, 55.0, 65.0]);
    let map = Rectilinear::new(&[&rows, &columns]).with_linear(true);
    let vals: Vec<f64> = (0..20).map(|i| 3.0 * rows[i / 5] - 2.0 * columns[i % 5]).collect();
    let coeffs = map.fitted(&vals).unwrap();
    near(map.value(&coeffs, &[-3.0, 41.5]).unwrap(), -92.0);
    near(map.value(&coeffs, &[-30.0, 80.0]).unwrap(), -250.0);
    let mut slopes = [0.0; 2];
    assert_eq!(map.gradient(&coeffs, &[-3.0, 41.5], &mut slopes), Ok(()));
    near(slopes[0], 3.0);
    near(slopes[1], -2.0);
    assert_eq!((map.dims(), map.grid().len()), (&[4, 5][..], 9));
}
