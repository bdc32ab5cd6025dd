// Maps that are accepted, with queries that can be read: every letter, flag and axis count, grid, kind of samples and place.
use crate::folder::Folder;
use crate::input::{Input, lengths};
use crate::shared::axis::{Axis, REGULAR, TWO_63};
use crate::shared::grids::GRIDS;
use crate::shared::random::Random;
use crate::shared::samples::KINDS;

// Maps of each letter, flag and axis count.
const EACH: usize = 12;

// The lengths with exactly 512 points that are tried.
const FULL: [&[u64]; 6] = [&[512], &[64, 8], &[4, 128], &[8, 8, 8], &[4, 4, 4, 8], &[8, 4, 4, 4]];

pub fn add(folder: &mut Folder, random: &mut Random) {
    example(folder);
    for regular in [true, false] {
        ordinary(folder, random, regular);
        every_point(folder, random, regular);
        no_queries(folder, random, regular);
        full(folder, random, regular);
        special(folder, random, regular);
    }
    far(folder, random);
    bad_starts(folder, random);
}

// Each axis count with each flag.
fn each(mut f: impl FnMut(usize, bool)) {
    for count in 1..=4 {
        for linear in [false, true] {
            f(count, linear);
        }
    }
}

fn letter(regular: bool) -> char {
    if regular { 'E' } else { 'R' }
}

// The papers' example.
fn example(folder: &mut Folder) {
    let (dims, grid, samples) = (vec![4], vec![0.0, 1.0], vec![0.0; 4]);
    let input = Input { regular: true, linear: false, dims, grid, samples, queries: vec![vec![1.0]] };
    folder.put_valid("the papers' example", &input);
}

// Grids and samples of all kinds in turn; the first two maps are plain.
fn ordinary(folder: &mut Folder, random: &mut Random, regular: bool) {
    let kinds: &[&str] = if regular { &REGULAR } else { &GRIDS };
    let mut turn = 0;
    each(|count, linear| {
        for i in 0..EACH {
            let kind = if i < 2 { "ordinary" } else { kinds[turn % kinds.len()] };
            let of_samples = if i % 2 == 0 { "ordinary" } else { KINDS[turn / 2 % KINDS.len()] };
            let dims = lengths(random, count);
            let mut input = Input::new(random, regular, linear, &dims, kind, of_samples);
            input.ask(random, [20, 20, 24, 28][count - 1]);
            folder.put_valid(&format!("{}, {count} axes", letter(regular)), &input);
            turn += 1;
        }
    });
}

// Every grid point of an axis, and the floats beside it.
fn every_point(folder: &mut Folder, random: &mut Random, regular: bool) {
    each(|count, linear| {
        let kind = random.pick(&["ordinary", if regular { "unit" } else { "whole" }]);
        let dims = lengths(random, count);
        let mut input = Input::new(random, regular, linear, &dims, kind, "ordinary");
        let lead = random.below(count as u64) as usize;
        let points: Vec<f64> = match input.axis(lead) {
            Axis::Regular { n, start, step } => (0..n).map(|i| start + step * i as f64).collect(),
            Axis::Rectilinear(knots) => knots.to_vec(),
        };
        let xs: Vec<f64> = points.iter().flat_map(|x| [x.next_down(), *x, x.next_up()]).collect();
        input.ask_on(random, lead, &xs);
        folder.put_valid(&format!("{}, every grid point", letter(regular)), &input);
    });
}

fn no_queries(folder: &mut Folder, random: &mut Random, regular: bool) {
    each(|count, linear| {
        let dims = lengths(random, count);
        let input = Input::new(random, regular, linear, &dims, "ordinary", "any bits");
        folder.put_valid(&format!("{}, no queries", letter(regular)), &input);
    });
}

// 512 points.
fn full(folder: &mut Folder, random: &mut Random, regular: bool) {
    for dims in FULL {
        let linear = random.below(2) == 0;
        let mut input = Input::new(random, regular, linear, dims, "ordinary", "ordinary");
        input.ask(random, 12);
        folder.put_valid(&format!("{}, 512 points", letter(regular)), &input);
    }
}

// Coordinates that are NaN, infinite, zero, subnormal or as large as can be.
fn special(folder: &mut Folder, random: &mut Random, regular: bool) {
    let nans = [f64::NAN, f64::from_bits(0xfff8_0000_0000_0001), f64::from_bits(0x7ff0_0000_0000_0001)];
    let large = [f64::INFINITY, f64::NEG_INFINITY, f64::MAX, f64::MIN];
    let small = [0.0, -0.0, 5e-324, -5e-324, f64::MIN_POSITIVE, 1e-310];
    let xs = [&nans[..], &large, &small].concat();
    each(|count, linear| {
        let kind = if regular { "ordinary" } else { random.pick(&["uneven", "whole", "infinite ends"]) };
        let dims = lengths(random, count);
        let mut input = Input::new(random, regular, linear, &dims, kind, "ordinary");
        let lead = random.below(count as u64) as usize;
        input.ask_on(random, lead, &xs);
        folder.put_valid(&format!("{}, special coordinates", letter(regular)), &input);
    });
}

// Quotients about the ends of the signed 64-bit range, with the floor -2^63 among them.
fn far(folder: &mut Folder, random: &mut Random) {
    let high = [TWO_63, TWO_63.next_down(), TWO_63.next_up(), TWO_63 / 2.0];
    let xs: Vec<f64> = high.iter().flat_map(|&x| [x, -x]).collect();
    each(|count, linear| {
        let dims = lengths(random, count);
        let mut input = Input::new(random, true, linear, &dims, "unit", "ordinary");
        let step = random.pick(&[1.0, 0.25, 1024.0]);
        input.grid[..count].fill(0.0);
        input.grid[count..].fill(step);
        let lead = random.below(count as u64) as usize;
        input.ask_on(random, lead, &xs.iter().map(|x| x * step).collect::<Vec<_>>());
        folder.put_valid("E, quotients about 2^63", &input);
    });
}

// Starts that are NaN or infinite: the map is accepted and every query refused.
fn bad_starts(folder: &mut Folder, random: &mut Random) {
    for start in [f64::NAN, f64::INFINITY, f64::NEG_INFINITY] {
        for count in 1..=2 {
            let dims = lengths(random, count);
            let mut input = Input::new(random, true, count == 1, &dims, "ordinary", "ordinary");
            let lead = random.below(count as u64) as usize;
            input.grid[lead] = start;
            input.ask_on(random, lead, &[0.0, 1.0, start, f64::MAX]);
            folder.put_valid("E, start not finite", &input);
        }
    }
}
