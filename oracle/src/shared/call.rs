// One call of `coefficients`, and what the Rust answers to it.
use super::grids::{axes, can_ask};
use super::papers::{Checks, Lent};
use super::random::Random;
use super::samples::samples;
use super::words::{junk, number};
use interpn::multibspline::regular::MultiBsplineRegular;
use interpn::multibspline::{rectilinear, regular};

// A method of one to four axes.
macro_rules! by_count {
    ($count:expr, $self:ident.$run:ident($($argument:expr),*)) => {
        match $count {
            1 => $self.$run::<1>($($argument),*),
            2 => $self.$run::<2>($($argument),*),
            3 => $self.$run::<3>($($argument),*),
            4 => $self.$run::<4>($($argument),*),
            count => panic!("the Rust is not run with {count} axes"),
        }
    };
}
pub(crate) use by_count;

#[derive(Clone)]
pub struct Call {
    pub count: u64,
    // lengths past the axis count are not looked at
    pub dims: [u64; 4],
    // the joined knots of a rectilinear grid
    pub grid: Option<Vec<f64>>,
    pub samples: Vec<f64>,
    // lengths of the two buffers
    pub coefs: usize,
    pub scratch: usize,
}

// The answer's number, 0 where the call is accepted, and the two buffers after the call.
pub struct Answer {
    pub number: u64,
    pub coefs: Vec<f64>,
    pub scratch: Vec<f64>,
}

// What the buffers hold before the call.
pub fn coefs_before(n: usize) -> Vec<f64> {
    (0..n).map(|i| i as f64 + 0.5).collect()
}

pub fn scratch_before(n: usize) -> Vec<f64> {
    (0..n).map(|i| -(i as f64) - 0.25).collect()
}

impl Call {
    // The lengths in use, where the axis count is 1 to 4.
    pub fn lengths(&self) -> &[u64] {
        &self.dims[..self.count as usize]
    }

    // Whether the Rust can be asked.
    pub fn can_ask(&self) -> bool {
        can_ask(self.count, &self.dims, self.grid.as_deref())
    }

    // What `coefficients` checks.
    pub fn checks(&self) -> Checks<'_> {
        Checks {
            grid: self.grid.as_deref().map(Lent::Rectilinear),
            coefs: Some(self.coefs),
            samples: Some(self.samples.len()),
            scratch: Some(self.scratch),
            ..Checks::shape(self.count, self.dims)
        }
    }

    // The Rust's answer. A refusal must leave the buffers as they were.
    pub fn answer(&self) -> Answer {
        let mut coefs = coefs_before(self.coefs);
        let mut scratch = scratch_before(self.scratch);
        let result = by_count!(self.count, self.run(&mut coefs, &mut scratch));
        let number = number(&result);
        if number != 0 {
            assert_eq!(coefs, coefs_before(self.coefs), "a refusal changed the coefficients");
            assert_eq!(scratch, scratch_before(self.scratch), "a refusal changed scratch");
        }
        Answer { number, coefs, scratch }
    }

    // The Rust's answer to `from_values_with_workspace`, of a regular map with these starts and then steps. Where it refuses
    // a step it has written both buffers.
    pub fn built(&self, grid: &[f64]) -> Answer {
        let mut coefs = coefs_before(self.coefs);
        let mut scratch = scratch_before(self.scratch);
        let number = by_count!(self.count, self.build(grid, &mut coefs, &mut scratch));
        Answer { number, coefs, scratch }
    }

    fn build<const N: usize>(&self, grid: &[f64], coefs: &mut [f64], scratch: &mut [f64]) -> u64 {
        let dims: [usize; N] = std::array::from_fn(|axis| self.dims[axis] as usize);
        let starts: [f64; N] = std::array::from_fn(|axis| grid[axis]);
        let steps: [f64; N] = std::array::from_fn(|axis| grid[N + axis]);
        let samples = &self.samples;
        number(&MultiBsplineRegular::from_values_with_workspace(dims, starts, steps, samples, coefs, scratch, false))
    }

    fn run<const N: usize>(&self, coefs: &mut [f64], scratch: &mut [f64]) -> Result<(), &'static str> {
        match &self.grid {
            None => {
                let dims: [usize; N] = std::array::from_fn(|axis| self.dims[axis] as usize);
                regular::coefficients(dims, &self.samples, coefs, scratch)
            }
            Some(grid) => {
                let grids: [&[f64]; N] = axes(&self.dims, grid);
                rectilinear::coefficients(&grids, &self.samples, coefs, scratch)
            }
        }
    }
}

// A call that is accepted, with enough scratch or some more.
pub fn call(random: &mut Random, kind: &str, dims: &[u64], grid: Option<Vec<f64>>) -> Call {
    let n: u64 = dims.iter().product();
    let longest = *dims.iter().max().unwrap();
    let more = random.pick(&[0, 0, 1, 2, 7]);
    Call {
        count: dims.len() as u64,
        dims: padded(random, dims),
        grid,
        samples: samples(random, kind, n as usize),
        coefs: n as usize,
        scratch: (2 * longest + more) as usize,
    }
}

// Four lengths. Those of no axis are zero, or anything at all: they are not to be looked at.
pub fn padded(random: &mut Random, dims: &[u64]) -> [u64; 4] {
    let mut out = if random.below(3) == 0 { junk(random) } else { [0; 4] };
    out[..dims.len()].copy_from_slice(dims);
    out
}
