// An input of the map program before it is damaged: a map and its queries.
use crate::shared::axis::{Axis, start_and_step};
use crate::shared::grids::joined;
use crate::shared::random::Random;
use crate::shared::samples::samples;

const MOST_POINTS: u64 = 512;

#[derive(Clone)]
pub struct Input {
    pub regular: bool,
    pub linear: bool,
    pub dims: Vec<u64>,
    // starts then steps, or all knots
    pub grid: Vec<f64>,
    pub samples: Vec<f64>,
    pub queries: Vec<Vec<f64>>,
}

// Lengths from 4 to 9, with at most 512 points.
pub fn lengths(random: &mut Random, count: usize) -> Vec<u64> {
    loop {
        let dims: Vec<u64> = (0..count).map(|_| random.between(4, 9)).collect();
        if dims.iter().product::<u64>() <= MOST_POINTS {
            return dims;
        }
    }
}

// A plain map of either letter with a few queries.
pub fn plain(random: &mut Random, count: usize) -> Input {
    let (regular, linear) = (random.below(2) == 0, random.below(2) == 0);
    let dims = lengths(random, count);
    let mut input = Input::new(random, regular, linear, &dims, "ordinary", "ordinary");
    let n = random.between(3, 6) as usize;
    input.ask(random, n);
    input
}

// Lines with the newline after each.
pub fn joined_lines(lines: &[Vec<u8>]) -> Vec<u8> {
    lines.iter().flat_map(|line| [&line[..], b"\n"].concat()).collect()
}

fn hexadecimal(xs: &[f64]) -> String {
    xs.iter().map(|x| format!("{:016x}", x.to_bits())).collect::<Vec<_>>().join(",")
}

impl Input {
    // A map without queries. The kinds are those of regular axes, or of grids, and of samples; an ordinary grid of knots is
    // an uneven one.
    pub fn new(random: &mut Random, regular: bool, linear: bool, dims: &[u64], kind: &str, of_samples: &str) -> Input {
        let grid = if regular {
            let axes: Vec<(f64, f64)> = dims.iter().map(|_| start_and_step(random, kind)).collect();
            axes.iter().map(|axis| axis.0).chain(axes.iter().map(|axis| axis.1)).collect()
        } else {
            joined(random, if kind == "ordinary" { "uneven" } else { kind }, dims)
        };
        let samples = samples(random, of_samples, dims.iter().product::<u64>() as usize);
        Input { regular, linear, dims: dims.to_vec(), grid, samples, queries: Vec::new() }
    }

    pub fn axis(&self, axis: usize) -> Axis<'_> {
        if self.regular {
            let (start, step) = (self.grid[axis], self.grid[self.dims.len() + axis]);
            Axis::Regular { n: self.dims[axis], start, step }
        } else {
            let start = self.dims[..axis].iter().sum::<u64>() as usize;
            Axis::Rectilinear(&self.grid[start..start + self.dims[axis] as usize])
        }
    }

    // n queries more: with any coordinates, between grid points, so but for one axis, or at grid points.
    pub fn ask(&mut self, random: &mut Random, n: usize) {
        let count = self.dims.len();
        for _ in 0..n {
            let form = random.below(4);
            let lead = random.below(count as u64) as usize;
            let query = (0..count).map(|axis| match form {
                0 => self.axis(axis).coordinate(random),
                1 if axis == lead => self.axis(axis).coordinate(random),
                1 | 2 => self.axis(axis).inner(random),
                _ => self.axis(axis).point(random),
            });
            let query = query.collect();
            self.queries.push(query);
        }
    }

    // A query for each of these coordinates on one axis, with coordinates between grid points on the others.
    pub fn ask_on(&mut self, random: &mut Random, lead: usize, xs: &[f64]) {
        for &x in xs {
            let axes = 0..self.dims.len();
            let query = axes.map(|axis| if axis == lead { x } else { self.axis(axis).inner(random) }).collect();
            self.queries.push(query);
        }
    }

    pub fn head(&self) -> String {
        let letter = if self.regular { 'E' } else { 'R' };
        let dims: String = self.dims.iter().map(|n| format!(",{n}")).collect();
        format!("{letter},{},{}{dims}", u8::from(self.linear), self.dims.len())
    }

    pub fn lines(&self) -> Vec<Vec<u8>> {
        let map = [self.head(), hexadecimal(&self.grid), hexadecimal(&self.samples)];
        map.into_iter().chain(self.queries.iter().map(|query| hexadecimal(query))).map(String::into_bytes).collect()
    }

    pub fn text(&self) -> Vec<u8> {
        joined_lines(&self.lines())
    }
}
