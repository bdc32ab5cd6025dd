// The calls that look at a shape alone.
use crate::buffers::Guarded;
use crate::case::Case;
use crate::counts::Counts;
use crate::difference::{Outcome, guards, numbers, untouched};
use crate::draw::{axis_count, dims, many};
use crate::shared::call::padded;
use crate::shared::lines::{cells, exists, lines};
use crate::shared::papers::Checks;
use crate::shared::random::Random;
use crate::show;
use bindings::Shape;

pub struct ShapeCase {
    count: u64,
    dims: [u64; 4],
    // pairs of axis and line
    places: Vec<(u64, u64)>,
}

impl ShapeCase {
    pub fn draw(random: &mut Random) -> ShapeCase {
        let axes = random.between(1, 4) as usize;
        let most = random.pick(&[256, 4096, 1 << 20, 1 << 24]);
        let mut lengths = if random.below(3) == 0 { many(random) } else { dims(random, axes, most) };
        if random.below(6) == 0 {
            let axis = random.below(lengths.len() as u64) as usize;
            lengths[axis] = random.below(4);
        }
        let count = if random.below(6) == 0 { axis_count(random) } else { lengths.len() as u64 };
        let places = (0..6).map(|_| place(random, &lengths)).collect();
        ShapeCase { count, dims: padded(random, &lengths), places }
    }
}

fn place(random: &mut Random, dims: &[u64]) -> (u64, u64) {
    let axis = random.pick(&[0, 1, 2, 3, 3, dims.len() as u64 - 1, dims.len() as u64, 4, 256, 1 << 32, u64::MAX]);
    let points = dims.iter().fold(1u64, |n, &d| n.saturating_mul(d));
    let count = dims.get(axis as usize).map_or(9, |&n| points / n.max(1)).max(1);
    let line = random.below(count);
    (axis, random.pick(&[0, 1, line, line, count - 1, count, count.saturating_add(1), u64::MAX]))
}

impl Case for ShapeCase {
    fn lent(&self) -> Vec<&[f64]> {
        Vec::new()
    }

    fn show(&self) {
        show::numbers("axis count", [self.count]);
        show::numbers("lengths", self.dims);
        show::numbers("axis and line", self.places.iter().map(|(axis, line)| format!("({axis} {line})")));
    }

    fn compare(&self, counts: &mut Counts) -> Outcome {
        let shape = Shape { dims: self.dims.map(|n| n as usize), axes: self.count as usize };
        let number = Checks::shape(self.count, self.dims).first();
        numbers("check_shape", number, u64::from(shape.check()))?;
        counts.call("check_shape", "any", self.count, number);
        let dims = if number == 0 { &self.dims[..self.count as usize] } else { &[] };
        let (points, scratch) =
            if number == 0 { (dims.iter().product(), 2 * dims.iter().max().unwrap()) } else { (0, 0) };
        numbers("points", points, shape.points() as u64)?;
        numbers("scratch_len", scratch, shape.scratch_len() as u64)?;
        self.places.iter().try_for_each(|&(axis, line)| self.place(&shape, number, dims, (axis, line), counts))
    }
}

impl ShapeCase {
    fn place(
        &self,
        shape: &Shape,
        number: u64,
        dims: &[u64],
        (axis, line): (u64, u64),
        counts: &mut Counts,
    ) -> Outcome {
        let is_axis = axis < dims.len() as u64;
        let at = axis as usize;
        let (stride, count) = if is_axis { (dims[at + 1..].iter().product(), lines(dims, at)) } else { (0, 0) };
        numbers("stride", stride, shape.stride(at) as u64)?;
        numbers("lines", count, shape.lines(at) as u64)?;
        let is_line = exists(dims, axis, line);
        let number = if number == 0 && !is_line { 7 } else { number };
        let mut cell = Guarded::new(1, |_| 99);
        let got = shape.first_cell(at, line as usize, &mut cell.lent()[0]);
        numbers("first_cell", number, u64::from(got))?;
        counts.call("first_cell", "any", self.count, number);
        if number != 0 {
            return untouched("first_cell", 0, &cell);
        }
        guards("first_cell", &cell)?;
        numbers("first_cell, cell", cells(dims, at, line)[0] as u64, cell.inside()[0] as u64)
    }
}
