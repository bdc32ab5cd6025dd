//! Calls on different buffers may run at the same time: the library has no state of its own.

use corvezan::{Rectilinear, Regular};

/// The coefficients of samples that differ from thread to thread, on both grids.
fn work(seed: usize) -> (Vec<u64>, Vec<u64>) {
    let vals: Vec<f64> = (0..6 * 7 * 8).map(|i| ((i * i + seed * 31) % 97) as f64 - 48.0).collect();
    let knots: Vec<f64> = [6, 7, 8].iter().flat_map(|n| 0..*n).map(|i| (i * i + 1) as f64).collect();
    let even = Regular::new(&[6, 7, 8], &[0.0; 3], &[1.0; 3]).fitted(&vals).unwrap();
    let uneven = Rectilinear::joined(&[6, 7, 8], &knots).fitted(&vals).unwrap();
    let bits = |floats: Vec<f64>| floats.into_iter().map(f64::to_bits).collect();
    (bits(even), bits(uneven))
}

#[test]
fn many_at_a_time() {
    let alone: Vec<_> = (0..8).map(work).collect();
    for _ in 0..20 {
        let together: Vec<_> = std::thread::scope(|scope| {
            let threads: Vec<_> = (0..8).map(|seed| scope.spawn(move || work(seed))).collect();
            threads.into_iter().map(|thread| thread.join().unwrap()).collect()
        });
        assert_eq!(together, alone);
    }
}
