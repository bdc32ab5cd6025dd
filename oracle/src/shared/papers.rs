// The checks of the papers, in their order, on what a call is lent.
use super::grids::{agrees, rises};

// The most points that a map may have.
pub const MOST_POINTS: u64 = 16_777_216;

// The grid of a call. A regular one is starts and then steps.
#[derive(Clone, Copy)]
pub enum Lent<'a> {
    Regular(&'a [f64]),
    Rectilinear(&'a [f64]),
}

// What a call is lent; what it has no use for is None.
#[derive(Clone, Copy)]
pub struct Checks<'a> {
    pub count: u64,
    pub dims: [u64; 4],
    pub grid: Option<Lent<'a>>,
    pub coefs: Option<usize>,
    pub ledger: Option<usize>,
    pub samples: Option<usize>,
    pub scratch: Option<usize>,
}

// The number of points, where it is not too large.
pub fn points(dims: &[u64]) -> Option<u64> {
    let points = dims.iter().try_fold(1u64, |n, &d| n.checked_mul(d));
    points.filter(|&n| n <= MOST_POINTS)
}

impl Checks<'_> {
    // A call that looks at the shape alone.
    pub fn shape(count: u64, dims: [u64; 4]) -> Checks<'static> {
        Checks { count, dims, grid: None, coefs: None, ledger: None, samples: None, scratch: None }
    }

    // The number of the first check that fails, or 0.
    pub fn first(&self) -> u64 {
        match self.lengths() {
            0 if !self.increases() => 5,
            0 => self.late(),
            number => number,
        }
    }

    // The same for building a regular map from samples, which looks at the steps after all else.
    pub fn first_with_steps_last(&self) -> u64 {
        match (self.lengths(), self.late()) {
            (0, 0) if !self.increases() => 5,
            (0, number) => number,
            (number, _) => number,
        }
    }

    // 1, 2 and 3: the shape; 2 for the lengths of grid, coefficients and ledger.
    fn lengths(&self) -> u64 {
        if !(1..=4).contains(&self.count) {
            return 1;
        }
        let dims = &self.dims[..self.count as usize];
        if dims.iter().any(|&n| n < 4) {
            return 2;
        }
        let Some(points) = points(dims) else { return 3 };
        let is_wrong = |length: Option<usize>| length.is_some_and(|n| n as u64 != points);
        let is_grid_wrong = match self.grid {
            None => false,
            Some(Lent::Regular(grid)) => grid.len() != 2 * dims.len(),
            Some(Lent::Rectilinear(grid)) => !agrees(dims, grid),
        };
        if is_grid_wrong || is_wrong(self.coefs) || is_wrong(self.ledger) { 2 } else { 0 }
    }

    // 5: knots, or steps. The lengths are right.
    fn increases(&self) -> bool {
        let dims = &self.dims[..self.count as usize];
        match self.grid {
            None => true,
            Some(Lent::Regular(grid)) => grid[dims.len()..].iter().all(|&step| step > 0.0),
            Some(Lent::Rectilinear(grid)) => {
                let mut rest = grid;
                dims.iter().all(|&n| rises(rest.split_off(..n as usize).unwrap()))
            }
        }
    }

    // 2 for samples, and 4. The shape is right.
    fn late(&self) -> u64 {
        if self.lengths() != 0 {
            return 0;
        }
        let dims = &self.dims[..self.count as usize];
        if self.samples.is_some_and(|n| Some(n as u64) != points(dims)) {
            return 2;
        }
        if self.scratch.is_some_and(|n| (n as u64) < 2 * dims.iter().max().unwrap()) { 4 } else { 0 }
    }
}
