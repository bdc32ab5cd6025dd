// A map to be fitted: what every fitting call is lent, and what the papers and the Rust answer to it.
use crate::buffers::{self, Guarded};
use crate::counts::Counts;
use crate::difference::{Outcome, floats, guards, numbers, untouched};
use crate::shared::call::Answer;
use crate::shared::fit::Fit;
use crate::show;
use bindings::{Grid, Map, Shape};

pub struct Subject {
    pub fit: Fit,
    // starts and then steps of a regular map; none on a rectilinear one
    pub regular: Vec<f64>,
    pub samples: &'static str,
    pub grid: &'static str,
}

// An answer's number, and what the buffers hold after the call where it has written them.
pub struct Wanted {
    pub number: u64,
    pub written: Option<(Vec<f64>, Vec<f64>)>,
}

impl Wanted {
    pub fn refused(number: u64) -> Wanted {
        Wanted { number, written: None }
    }

    pub fn of(answer: Answer, is_written: bool) -> Wanted {
        Wanted { number: answer.number, written: is_written.then_some((answer.coefs, answer.scratch)) }
    }
}

// The two buffers of a fit.
pub struct Buffers {
    pub coefs: Guarded<f64>,
    pub scratch: Guarded<f64>,
}

impl Buffers {
    pub fn new(coefs: usize, scratch: usize) -> Buffers {
        Buffers { coefs: buffers::coefs(coefs), scratch: buffers::scratch(scratch) }
    }

    pub fn judge(&self, call: &str, wanted: &Wanted, got: u32) -> Outcome {
        numbers(call, wanted.number, u64::from(got))?;
        let (of_coefs, of_scratch) = (format!("{call}, coefficients"), format!("{call}, scratch"));
        let Some((coefs, scratch)) = &wanted.written else {
            untouched(&of_coefs, 0, &self.coefs)?;
            return untouched(&of_scratch, 0, &self.scratch);
        };
        floats(&of_coefs, coefs, self.coefs.inside())?;
        floats(&of_scratch, scratch, self.scratch.inside())?;
        guards(&of_coefs, &self.coefs)?;
        guards(&of_scratch, &self.scratch)
    }
}

impl Subject {
    pub fn shape(&self) -> Shape {
        Shape { dims: self.fit.call.dims.map(|n| n as usize), axes: self.fit.call.count as usize }
    }

    pub fn map(&self) -> Map<'_> {
        let grid = match &self.fit.call.grid {
            None => Grid::Regular(&self.regular),
            Some(knots) => Grid::Rectilinear(knots),
        };
        Map { shape: self.shape(), grid }
    }

    pub fn axes(&self) -> u64 {
        self.fit.call.count
    }

    pub fn count(&self, counts: &mut Counts, call: &'static str, answer: u64) {
        counts.call(call, self.fit.name(), self.axes(), answer);
    }

    // The classes of an accepted map.
    pub fn count_classes(&self, counts: &mut Counts) {
        counts.class("samples", self.samples);
        counts.class(if self.fit.is_rectilinear() { "knots" } else { "starts and steps" }, self.grid);
        counts.size(self.fit.name(), self.fit.call.lengths());
    }

    // The papers' number, and the Rust's buffers. The Rust is asked where it can say the same, and must.
    pub fn wanted(&self, number: u64, ask: impl FnOnce() -> Answer, is_written: bool) -> Wanted {
        if number == 3 || !self.fit.call.can_ask() {
            return Wanted::refused(number);
        }
        let answer = ask();
        assert_eq!(answer.number, number, "the Rust says otherwise than the papers");
        Wanted::of(answer, is_written)
    }

    pub fn lent(&self) -> Vec<&[f64]> {
        vec![&self.fit.call.samples, &self.regular, self.fit.call.grid.as_deref().unwrap_or(&[])]
    }

    pub fn show(&self) {
        let call = &self.fit.call;
        show::text("grid", &format!("{}, {}", self.fit.name(), self.grid));
        show::numbers("axis count", [call.count]);
        show::numbers("lengths", call.dims);
        show::floats("starts and steps", &self.regular);
        show::floats("knots", call.grid.as_deref().unwrap_or(&[]));
        show::numbers("lengths of coefficients, ledger, scratch", [call.coefs, self.fit.ledger, call.scratch]);
        show::floats(&format!("samples, {}", self.samples), &call.samples);
    }
}
