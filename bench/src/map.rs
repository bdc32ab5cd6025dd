// A map to work on. It lives until the program ends, as the Rust's maps borrow from it.
use crate::shared::axis::Axis;
use crate::shared::grids::{joined, places};
use crate::shared::random::Random;
use crate::shared::samples::samples;
use bindings::{Grid, Shape};

const SEED: u64 = 0x26_574e_b570;

pub struct Map<const N: usize> {
    pub dims: [usize; N],
    // starts and then steps, or all knots
    pub grid: &'static [f64],
    pub rectilinear: bool,
    pub samples: &'static [f64],
}

impl<const N: usize> Map<N> {
    // Ordinary samples, on ordinary steps or uneven knots.
    pub fn draw(dims: &[u64], rectilinear: bool) -> Map<N> {
        let mut random = Random::new(SEED);
        let points = dims.iter().product::<u64>() as usize;
        let grid = if rectilinear {
            joined(&mut random, "uneven", dims)
        } else {
            let starts: Vec<f64> = (0..N).map(|_| random.unit() * 10.0).collect();
            let steps = (0..N).map(|_| random.unit().abs() * 3.0 + 0.01);
            starts.iter().copied().chain(steps).collect()
        };
        Map {
            dims: std::array::from_fn(|axis| dims[axis] as usize),
            grid: grid.leak(),
            rectilinear,
            samples: samples(&mut random, "ordinary", points).leak(),
        }
    }

    fn four(&self) -> [u64; 4] {
        std::array::from_fn(|axis| self.dims.get(axis).map_or(0, |&n| n as u64))
    }

    // The map as the library is lent it.
    pub fn lent(&self) -> bindings::Map<'static> {
        let shape = Shape { dims: self.four().map(|n| n as usize), axes: N };
        let grid = if self.rectilinear { Grid::Rectilinear(self.grid) } else { Grid::Regular(self.grid) };
        bindings::Map { shape, grid }
    }

    // The knots of each axis, as the Rust is lent them.
    pub fn knots(&self) -> &'static [&'static [f64]; N] {
        let dims = self.four();
        let axes: [&'static [f64]; N] = std::array::from_fn(|axis| &self.grid[places(&dims, axis)]);
        Box::leak(Box::new(axes))
    }

    pub fn starts(&self) -> [f64; N] {
        std::array::from_fn(|axis| self.grid[axis])
    }

    pub fn steps(&self) -> [f64; N] {
        std::array::from_fn(|axis| self.grid[N + axis])
    }

    // Twice the longest axis.
    pub fn scratch(&self) -> Vec<f64> {
        vec![0.0; 2 * self.dims.iter().max().unwrap()]
    }

    // Queries, axis after axis: inside, but one coordinate in fifty, which is outside by up to half the axis.
    pub fn queries(&self, n: usize) -> &'static [f64] {
        let mut random = Random::new(SEED + 1);
        let mut out = Vec::new();
        for axis in 0..N {
            let low = self.axis(axis).first();
            let high = self.axis(axis).last();
            for _ in 0..n {
                let x = self.axis(axis).inner(&mut random);
                out.push(if random.below(50) == 0 { x + random.unit() * 0.5 * (high - low) } else { x });
            }
        }
        out.leak()
    }

    fn axis(&self, axis: usize) -> Axis<'static> {
        if self.rectilinear {
            return Axis::Rectilinear(&self.grid[places(&self.four(), axis)]);
        }
        Axis::Regular { n: self.dims[axis] as u64, start: self.grid[axis], step: self.grid[N + axis] }
    }
}
