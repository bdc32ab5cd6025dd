//! Order never shows: a map that is fitted line by line, in any order, ends in the bits of the whole fit.

use corvezan::{lines, Rectilinear, Refusal, Regular};

/// splitmix64.
struct Draw(u64);

impl Draw {
    fn next(&mut self) -> u64 {
        self.0 = self.0.wrapping_add(0x9e37_79b9_7f4a_7c15);
        let z = (self.0 ^ (self.0 >> 30)).wrapping_mul(0xbf58_476d_1ce4_e5b9);
        let z = (z ^ (z >> 27)).wrapping_mul(0x94d0_49bb_1331_11eb);
        z ^ (z >> 31)
    }

    fn float(&mut self) -> f64 {
        (self.next() >> 11) as f64 / (1u64 << 53) as f64
    }

    fn shuffle<T>(&mut self, list: &mut [T]) {
        for i in (1..list.len()).rev() {
            list.swap(i, (self.next() % (i as u64 + 1)) as usize);
        }
    }
}

fn bits(floats: &[f64]) -> Vec<u64> {
    floats.iter().map(|x| x.to_bits()).collect()
}

/// All lines of a map, shuffled.
fn tasks(dims: &[usize], draw: &mut Draw) -> Vec<(usize, usize)> {
    let mut all: Vec<_> =
        (0..dims.len()).flat_map(|axis| (0..lines(dims, axis)).map(move |line| (axis, line))).collect();
    draw.shuffle(&mut all);
    all
}

/// Works a shuffled list off: a line that is not due goes to the end.
fn work_off(mut list: Vec<(usize, usize)>, mut line: impl FnMut(usize, usize) -> corvezan::Result<()>) {
    while !list.is_empty() {
        let before = list.len();
        list.retain(|&(axis, number)| match line(axis, number) {
            Ok(()) => false,
            refused => {
                assert_eq!(refused, Err(Refusal::NotDue));
                true
            }
        });
        assert!(list.len() < before, "no line is due");
    }
}

const SHAPES: [&[usize]; 5] = [&[6], &[4, 5], &[7, 4], &[4, 6, 5], &[5, 4, 4, 6]];

#[test]
fn regular_in_any_order() {
    let mut draw = Draw(1);
    for dims in SHAPES.iter().cycle().take(40) {
        let n: usize = dims.iter().product();
        let map = Regular::new(dims, &vec![0.0; dims.len()], &vec![1.0; dims.len()]);
        let vals: Vec<f64> = (0..n).map(|_| draw.float() - 0.5).collect();
        let (mut coeffs, mut ledger, mut scratch) = (vec![0.0; n], vec![9; n], vec![f64::NAN; 14]);
        map.begin(&vals, &mut coeffs, &mut ledger, scratch.len()).unwrap();
        let list = tasks(dims, &mut draw);
        work_off(list, |axis, line| map.line(axis, line, &mut coeffs, &mut ledger, &mut scratch));
        assert_eq!(bits(&coeffs), bits(&map.fitted(&vals).unwrap()));
        assert!(ledger.iter().all(|byte| *byte as usize == dims.len()));
    }
}

#[test]
fn rectilinear_in_any_order() {
    let mut draw = Draw(2);
    for dims in SHAPES.iter().cycle().take(40) {
        let n: usize = dims.iter().product();
        let knots: Vec<f64> = dims.iter().flat_map(|n| 0..*n).map(|i| (i * i) as f64 + 0.25).collect();
        let map = Rectilinear::joined(dims, &knots);
        let vals: Vec<f64> = (0..n).map(|_| draw.float() - 0.5).collect();
        let (mut coeffs, mut ledger, mut scratch) = (vec![0.0; n], vec![9; n], vec![f64::NAN; 14]);
        map.begin(&vals, &mut coeffs, &mut ledger, scratch.len()).unwrap();
        let list = tasks(dims, &mut draw);
        work_off(list, |axis, line| map.line(axis, line, &mut coeffs, &mut ledger, &mut scratch));
        assert_eq!(bits(&coeffs), bits(&map.fitted(&vals).unwrap()));
        assert!(ledger.iter().all(|byte| *byte as usize == dims.len()));
    }
}

/// A list by one call answers, and ends, as its line calls do one by one.
#[test]
fn lists_by_one_call() {
    let mut draw = Draw(3);
    for _ in 0..50 {
        let map = Regular::new(&[4, 5], &[0.0; 2], &[1.0; 2]);
        let uneven = Rectilinear::new(&[&[0.0, 1.0, 3.0, 7.0], &[0.0, 1.0, 2.0, 3.0, 5.0]]);
        let vals: Vec<f64> = (0..20).map(|_| draw.float()).collect();
        let mut list = tasks(&[4, 5], &mut draw);
        list.extend([(0, 0), (1, 4), (2, 0)]);
        let (axes, numbers): (Vec<_>, Vec<_>) = list.iter().copied().unzip();
        let mut ends = [Vec::new(), Vec::new()];
        for (uneven_grid, end) in ends.iter_mut().enumerate() {
            let (mut c, mut l, mut s, mut answers) = (vec![0.0; 20], vec![9; 20], vec![0.0; 10], vec![99; list.len()]);
            let listed = match uneven_grid {
                0 => map.list(&vals, &axes, &numbers, &mut c, &mut l, &mut s, &mut answers),
                _ => uneven.list(&vals, &axes, &numbers, &mut c, &mut l, &mut s, &mut answers),
            };
            assert_eq!(listed, Ok(()));
            let (mut one, mut ledger) = (vec![0.0; 20], vec![9; 20]);
            one.copy_from_slice(&vals);
            ledger.fill(0);
            for (i, (axis, line)) in list.iter().enumerate() {
                let answer = match uneven_grid {
                    0 => map.line(*axis, *line, &mut one, &mut ledger, &mut s),
                    _ => uneven.line(*axis, *line, &mut one, &mut ledger, &mut s),
                };
                assert_eq!(answers[i] as u32, answer.err().map_or(0, Refusal::number));
            }
            assert_eq!((bits(&c), &l), (bits(&one), &ledger));
            *end = answers;
        }
        // The book does not look at the grid: both kinds of map answer a list alike.
        assert_eq!(ends[0], ends[1]);
    }
}

#[test]
fn lists_of_other_lengths() {
    let map = Regular::new(&[4], &[0.0], &[1.0]);
    let (mut c, mut l, mut s, mut answers) = ([7.0; 4], [7; 4], [7.0; 8], [99; 2]);
    for (axes, numbers, n) in [(&[0, 0][..], &[0][..], 2), (&[0], &[0, 0], 1), (&[0], &[0], 2), (&[], &[], 1)] {
        let refused = map.list(&[1.0; 4], axes, numbers, &mut c, &mut l, &mut s, &mut answers[..n]);
        assert_eq!(refused, Err(Refusal::DimensionMismatch));
        assert_eq!((c, l, s, answers), ([7.0; 4], [7; 4], [7.0; 8], [99; 2]));
    }
}
