// One map with a batch of queries, and what the Rust answers to it.
use super::asked::Asked;
use super::axis::Axis;
use super::call::by_count;
use super::grids::{axes, can_ask, places};
use super::random::Random;
use super::words::{number, same};
use interpn::multibspline::rectilinear::MultiBsplineRectilinear;
use interpn::multibspline::regular::MultiBsplineRegular;

#[derive(Clone)]
pub struct Map {
    pub count: u64,
    // lengths, starts and steps past the axis count are not looked at
    pub dims: [u64; 4],
    // of a regular grid; zeros on a rectilinear one
    pub starts: [f64; 4],
    pub steps: [f64; 4],
    // the joined knots of a rectilinear grid
    pub grid: Option<Vec<f64>>,
    pub linear: bool,
    pub coefs: Vec<f64>,
    // coordinates, axis after axis
    pub xs: Vec<f64>,
    // lengths of the two output buffers
    pub values: usize,
    pub parts: usize,
}

// A call of a batch: the answer's number, 0 where it is accepted, and how many queries' answers it writes.
#[derive(Clone, Copy, PartialEq, Debug)]
pub struct Batch {
    pub number: u64,
    pub written: usize,
}

// A query by itself: 0 and its value and gradient, or 6 and zeros.
#[derive(Clone)]
pub struct One {
    pub number: u64,
    pub value: f64,
    pub parts: Vec<f64>,
}

pub struct Answer {
    pub values: Batch,
    pub parts: Batch,
    // every query by itself; none where both batches are refused as a whole
    pub ones: Vec<One>,
}

// What output cell i holds before a call.
pub fn before(n: usize) -> Vec<f64> {
    (0..n).map(|i| i as f64 + 0.5).collect()
}

// n cells in `count` parts, as even as can be, the longer ones first: where they are uneven, no call accepts them.
fn ends(n: usize, count: usize) -> Vec<usize> {
    (0..count).map(|k| n / count + usize::from(k < n % count)).collect()
}

impl Map {
    pub fn axis(&self, axis: usize) -> Axis<'_> {
        match self.knots(axis) {
            None => Axis::Regular { n: self.dims[axis], start: self.starts[axis], step: self.steps[axis] },
            Some(knots) => Axis::Rectilinear(knots),
        }
    }

    // The knots of an axis of a rectilinear grid, which has as many as the lengths say.
    pub fn knots(&self, axis: usize) -> Option<&[f64]> {
        self.grid.as_ref().map(|grid| &grid[places(&self.dims, axis)])
    }

    pub fn queries(&self) -> usize {
        self.xs.len() / self.count as usize
    }

    // Coordinate of query i.
    pub fn x(&self, axis: usize, i: usize) -> f64 {
        self.xs[axis * self.queries() + i]
    }

    // Whether the Rust's subtraction overflows at query i: there it is not asked.
    pub fn overflows(&self, i: usize) -> bool {
        (0..self.count as usize).any(|axis| self.axis(axis).overflows(self.x(axis, i)))
    }

    // Whether the Rust can be asked.
    pub fn can_ask(&self) -> bool {
        can_ask(self.count, &self.dims, self.grid.as_deref())
    }

    // The Rust's answer, where it can be asked.
    pub fn answer(&self) -> Answer {
        by_count!(self.count, self.run())
    }

    fn run<const N: usize>(&self) -> Answer {
        match &self.grid {
            None => {
                let dims: [usize; N] = std::array::from_fn(|axis| self.dims[axis] as usize);
                let starts: [f64; N] = std::array::from_fn(|axis| self.starts[axis]);
                let steps: [f64; N] = std::array::from_fn(|axis| self.steps[axis]);
                self.asked(MultiBsplineRegular::new(dims, starts, steps, &self.coefs, self.linear))
            }
            Some(grid) => {
                let grids: [&[f64]; N] = axes(&self.dims, grid);
                self.asked(MultiBsplineRectilinear::new(&grids, &self.coefs, self.linear))
            }
        }
    }

    fn asked<const N: usize>(&self, built: Result<impl Asked<N>, &'static str>) -> Answer {
        let number = number(&built);
        let Ok(map) = built else {
            let refused = Batch { number, written: 0 };
            return Answer { values: refused, parts: refused, ones: Vec::new() };
        };
        let fits = self.values * N == self.xs.len() || self.parts == self.xs.len() && self.parts.is_multiple_of(N);
        let ones: Vec<One> = if fits { (0..self.queries()).map(|i| self.one(&map, i)).collect() } else { Vec::new() };
        if (0..ones.len()).any(|i| self.overflows(i)) {
            return self.joined(ones);
        }
        Answer { values: self.value_batch(&map, &ones), parts: self.part_batch(&map, &ones), ones }
    }

    // Query i by itself.
    fn one<const N: usize>(&self, map: &impl Asked<N>, i: usize) -> One {
        let refused = One { number: 6, value: 0.0, parts: vec![0.0; N] };
        if self.overflows(i) {
            return refused;
        }
        let x: [f64; N] = std::array::from_fn(|axis| self.x(axis, i));
        let value = map.value(x);
        let parts = map.gradient(x);
        assert_eq!(number(&value), number(&parts), "value and gradient are refused together");
        match (value, parts) {
            (Ok(value), Ok(parts)) => One { number: 0, value, parts: parts.to_vec() },
            (refusal, _) => {
                assert_eq!(number(&refusal), 6);
                refused
            }
        }
    }

    // The batches of a record in which the Rust overflows, from the answers of the queries.
    fn joined(&self, ones: Vec<One>) -> Answer {
        let batch = expected(&ones);
        assert!(self.values == ones.len() && self.parts == self.xs.len());
        Answer { values: batch, parts: batch, ones }
    }

    // The batch of values, held against the queries by themselves.
    fn value_batch<const N: usize>(&self, map: &impl Asked<N>, ones: &[One]) -> Batch {
        let mut out = before(self.values);
        let number = number(&map.values(&self.split(), &mut out));
        if number != 0 && number != 6 {
            assert_eq!(out, before(self.values), "a refusal changed the output");
            return Batch { number, written: 0 };
        }
        let batch = expected(ones);
        assert_eq!(number, batch.number);
        let mut wanted = before(self.values);
        for (i, one) in ones[..batch.written].iter().enumerate() {
            wanted[i] = one.value;
        }
        assert!(same(&out, &wanted), "the batch answers otherwise");
        batch
    }

    // The batch of gradients, likewise.
    fn part_batch<const N: usize>(&self, map: &impl Asked<N>, ones: &[One]) -> Batch {
        let mut out = before(self.parts);
        let mut rest: &mut [f64] = &mut out;
        let mut pieces = Vec::new();
        for length in ends(self.parts, N) {
            let (piece, more) = rest.split_at_mut(length);
            pieces.push(piece);
            rest = more;
        }
        let mut pieces: [&mut [f64]; N] = pieces.try_into().unwrap();
        let number = number(&map.gradients(&self.split(), &mut pieces));
        if number != 0 && number != 6 {
            assert_eq!(out, before(self.parts), "a refusal changed the output");
            return Batch { number, written: 0 };
        }
        let batch = expected(ones);
        assert_eq!(number, batch.number);
        let mut wanted = before(self.parts);
        for (i, one) in ones[..batch.written].iter().enumerate() {
            for (axis, part) in one.parts.iter().enumerate() {
                wanted[axis * ones.len() + i] = *part;
            }
        }
        assert!(same(&out, &wanted), "the batch answers otherwise");
        batch
    }

    // The coordinates, axis by axis.
    fn split<const N: usize>(&self) -> [&[f64]; N] {
        let mut rest: &[f64] = &self.xs;
        let lengths = ends(self.xs.len(), N);
        std::array::from_fn(|axis| {
            let (piece, more) = rest.split_at(lengths[axis]);
            rest = more;
            piece
        })
    }
}

// The map is asked n queries.
pub fn ask(random: &mut Random, map: &mut Map, n: usize) {
    let count = map.count as usize;
    map.xs = vec![0.0; count * n];
    for axis in 0..count {
        for i in 0..n {
            map.xs[axis * n + i] = map.axis(axis).coordinate(random);
        }
    }
    map.values = n;
    map.parts = count * n;
}

// A batch whose lengths are right: it writes what stands before the first query that is refused.
fn expected(ones: &[One]) -> Batch {
    match ones.iter().position(|one| one.number != 0) {
        Some(i) => Batch { number: 6, written: i },
        None => Batch { number: 0, written: ones.len() },
    }
}
