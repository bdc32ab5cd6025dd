// Evaluation: the check of a map, values and gradients of single queries and of batches.
use crate::buffers::Guarded;
use crate::case::Case;
use crate::counts::Counts;
use crate::difference::{Outcome, floats, guards, numbers, untouched};
use crate::query_draw;
use crate::shared::map::{Answer, Batch, Map, One};
use crate::shared::papers::{Checks, Lent};
use crate::shared::random::Random;
use crate::show;
use bindings::{Fitted, Grid, Shape};

pub struct QueryCase {
    pub map: Map,
    // starts and then steps of a regular map, as the library is lent them
    pub regular: Vec<f64>,
    // the flag: not 0 where the Rust's is set
    pub flag: u32,
    // how many queries are also asked by themselves: such a call looks at every knot
    pub singles: usize,
    pub samples: &'static str,
    pub grid: &'static str,
}

// What output cell i holds before a call.
fn output(n: usize) -> Guarded<f64> {
    Guarded::new(n, |i| i as f64 + 0.5)
}

impl QueryCase {
    pub fn draw(random: &mut Random) -> QueryCase {
        query_draw::draw(random)
    }

    fn name(&self) -> &'static str {
        if self.map.grid.is_none() { "regular" } else { "rectilinear" }
    }

    fn grid(&self) -> Lent<'_> {
        match &self.map.grid {
            None => Lent::Regular(&self.regular),
            Some(knots) => Lent::Rectilinear(knots),
        }
    }

    fn fitted(&self) -> Fitted<'_> {
        let grid = match &self.map.grid {
            None => Grid::Regular(&self.regular),
            Some(knots) => Grid::Rectilinear(knots),
        };
        let shape = Shape { dims: self.map.dims.map(|n| n as usize), axes: self.map.count as usize };
        Fitted { map: bindings::Map { shape, grid }, linear: self.flag, coeffs: &self.map.coefs }
    }

    // The papers' number of the map with so many coefficients.
    fn number(&self, coefs: usize) -> u64 {
        Checks { grid: Some(self.grid()), coefs: Some(coefs), ..Checks::shape(self.map.count, self.map.dims) }.first()
    }

    // The Rust's answers. Where the map is refused it must say the same, if it can be asked, and there are none.
    fn answer(&self, number: u64) -> Option<Answer> {
        let can_say = match self.grid() {
            Lent::Regular(grid) => Some(grid.len()) == (self.map.count as usize).checked_mul(2),
            Lent::Rectilinear(_) => true,
        };
        if number == 3 || !can_say || !self.map.can_ask() {
            assert!(number != 0);
            return None;
        }
        let answer = self.map.answer();
        if number != 0 {
            let refused = Batch { number, written: 0 };
            assert_eq!((answer.values, answer.parts), (refused, refused), "the Rust says otherwise than the papers");
            return None;
        }
        Some(answer)
    }
}

impl Case for QueryCase {
    fn lent(&self) -> Vec<&[f64]> {
        vec![&self.map.coefs, &self.map.xs, &self.regular, self.map.grid.as_deref().unwrap_or(&[])]
    }

    fn show(&self) {
        let map = &self.map;
        show::text("grid", &format!("{}, {}", self.name(), self.grid));
        show::numbers("axis count", [map.count]);
        show::numbers("lengths", map.dims);
        show::floats("starts and steps", &self.regular);
        show::floats("knots", map.grid.as_deref().unwrap_or(&[]));
        show::numbers("flag", [self.flag]);
        show::floats(&format!("coefficients, {}", self.samples), &map.coefs);
        show::floats("queries", &map.xs);
        show::numbers("lengths of values and gradients", [map.values, map.parts]);
    }

    fn compare(&self, counts: &mut Counts) -> Outcome {
        self.checks(counts)?;
        let number = self.number(self.map.coefs.len());
        let answer = self.answer(number);
        self.values(number, answer.as_ref(), counts)?;
        self.gradients(number, answer.as_ref(), counts)?;
        let Some(answer) = answer else { return self.refused_ones(number, counts) };
        counts.class("coefficients", self.samples);
        counts.class(if self.map.grid.is_some() { "knots" } else { "starts and steps" }, self.grid);
        counts.size(self.name(), &self.map.dims[..self.map.count as usize]);
        for (i, one) in answer.ones.iter().enumerate().take(self.singles) {
            self.one(i, one, counts)?;
        }
        self.wrong_ones(counts)
    }
}

impl QueryCase {
    fn count(&self, counts: &mut Counts, call: &'static str, answer: u64) {
        counts.call(call, self.name(), self.map.count, answer);
    }

    // The check alone, with any number of coefficients.
    fn checks(&self, counts: &mut Counts) -> Outcome {
        let n = self.map.coefs.len();
        for coefs in [n, n.wrapping_sub(1), 0, usize::MAX] {
            let number = self.number(coefs);
            numbers("check", number, u64::from(self.fitted().map.check(coefs)))?;
            self.count(counts, "check", number);
        }
        Ok(())
    }

    // The batch of values: where a query is refused those before it are written.
    fn values(&self, number: u64, answer: Option<&Answer>, counts: &mut Counts) -> Outcome {
        let is_length_wrong = || self.map.xs.len() as u64 != self.map.count * self.map.values as u64;
        let batch = match answer {
            None => Batch { number, written: 0 },
            Some(_) if is_length_wrong() => Batch { number: 2, written: 0 },
            Some(answer) => answer.values,
        };
        assert!(answer.is_none_or(|answer| answer.values == batch), "the Rust says otherwise than the papers");
        let mut out = output(self.map.values);
        let got = self.fitted().values(&self.map.xs, out.lent());
        numbers("values", batch.number, u64::from(got))?;
        self.count(counts, "values", batch.number);
        untouched("values", batch.written, &out)?;
        let written = answer.map_or(&[][..], |answer| &answer.ones[..batch.written]);
        let wanted: Vec<f64> = written.iter().map(|one| one.value).collect();
        counts.outputs(&wanted);
        floats("values", &wanted, &out.inside()[..batch.written])
    }

    // The batch of gradients, likewise: the slope of query i along axis k stands at k * n + i.
    fn gradients(&self, number: u64, answer: Option<&Answer>, counts: &mut Counts) -> Outcome {
        let (parts, count) = (self.map.parts, self.map.count as usize);
        let batch = match answer {
            None => Batch { number, written: 0 },
            Some(_) if parts % count != 0 || self.map.xs.len() != parts => Batch { number: 2, written: 0 },
            Some(answer) => answer.parts,
        };
        assert!(answer.is_none_or(|answer| answer.parts == batch), "the Rust says otherwise than the papers");
        let mut out = output(parts);
        let got = self.fitted().gradients(&self.map.xs, out.lent());
        numbers("gradients", batch.number, u64::from(got))?;
        self.count(counts, "gradients", batch.number);
        let mut wanted = output(parts);
        if let Some(answer) = answer.filter(|_| batch.written > 0) {
            let n = parts / count;
            for (i, one) in answer.ones[..batch.written].iter().enumerate() {
                one.parts.iter().enumerate().for_each(|(axis, &part)| wanted.lent()[axis * n + i] = part);
                counts.outputs(&one.parts);
            }
        }
        floats("gradients", wanted.inside(), out.inside())?;
        guards("gradients", &out)
    }

    // Query i by itself.
    fn one(&self, i: usize, one: &One, counts: &mut Counts) -> Outcome {
        let count = self.map.count as usize;
        let x: Vec<f64> = (0..count).map(|axis| self.map.x(axis, i)).collect();
        let (value, slopes) = self.ask_one(&x, count, one.number, counts)?;
        if one.number != 0 {
            return Ok(());
        }
        floats("value", &[one.value], &value)?;
        floats("gradient", &one.parts, &slopes)
    }

    // A value and a gradient with this answer; a refused call leaves its output as it was.
    fn ask_one(
        &self,
        x: &[f64],
        slopes: usize,
        number: u64,
        counts: &mut Counts,
    ) -> Result<(Vec<f64>, Vec<f64>), crate::difference::Difference> {
        let (mut value, mut out) = (output(1), output(slopes));
        numbers("value", number, u64::from(self.fitted().value(x, &mut value.lent()[0])))?;
        numbers("gradient", number, u64::from(self.fitted().gradient(x, out.lent())))?;
        self.count(counts, "value", number);
        self.count(counts, "gradient", number);
        let written = usize::from(number == 0);
        untouched("value", written, &value)?;
        untouched("gradient", written * slopes, &out)?;
        Ok((value.inside().to_vec(), out.inside().to_vec()))
    }

    // Single queries on a map that is refused: of any lengths.
    fn refused_ones(&self, number: u64, counts: &mut Counts) -> Outcome {
        let count = self.map.count.min(5) as usize;
        for (x, slopes) in [(count, count), (count + 1, 0), (0, count + 2)] {
            self.ask_one(&vec![f64::NAN; x], slopes, number, counts)?;
        }
        Ok(())
    }

    // Single queries of wrong lengths on a map that is not.
    fn wrong_ones(&self, counts: &mut Counts) -> Outcome {
        let count = self.map.count as usize;
        for (x, slopes) in [(count - 1, count), (count + 1, count), (0, 0), (2 * count, 2 * count)] {
            self.ask_one(&vec![f64::NAN; x], slopes, 2, counts)?;
        }
        let mut out = output(count + 1);
        let got = self.fitted().gradient(&vec![0.5; count], out.lent());
        numbers("gradient", 2, u64::from(got))?;
        untouched("gradient", 0, &out)
    }
}
