// Single calls: one line, one query.
use crate::ask::{Regular, shape};
use crate::from_the_rust::Sides;
use crate::given::Given::{self, Float, NotBuilt, Number, Panics, Said, Unsayable};
use bindings::{Fitted, Grid, Map};
use interpn::multibspline::MultiBsplineRectilinear;
use interpn::multibspline::regular::{MultiBsplineRegular, doors};
use std::panic;

const COEFS: [f64; 4] = [0.0, 1.0, 2.0, 3.0];

// The library for C has no `solve_line`. The nearest call is the line call, of line 0 of axis 0 of lengths 4, 8, which is this
// line: it is refused by the length of the coefficients, before `solve_line` is reached.
pub fn line_past_the_coefficients() -> Sides {
    let usual = panic::take_hook();
    panic::set_hook(Box::new(|_| ()));
    let rust = panic::catch_unwind(|| doors::solve_line(0, 8, 4, &mut [0.0; 24], &mut [0.0; 4], &mut [0.0; 4]));
    panic::set_hook(usual);
    let map = Map { shape: shape(&[4, 8]), grid: Grid::Regular(&[]) };
    let here = map.line(0, 0, &mut [0.0; 24], &mut [0; 32], &mut [0.0; 16]);
    (rust.map_or(Panics, Said), Number(here))
}

// Asked of the release build: the slope is that past the high end. In a debug build the Rust's subtraction panics.
pub fn lowest_floor() -> Sides {
    let x = -9_223_372_036_854_775_808.0;
    let map = MultiBsplineRegular::new([4], [0.0], [1.0], &[0.0, 0.0, 1.0, 0.0], true).unwrap();
    let slope = |x: f64| map.interp_one_grad([x]);
    assert!(slope(x) == slope(9.0) && slope(x) != slope(-9.0), "x is taken for OutsideHigh");
    (Said(map.interp_one([x]).map(|_| ())), value(Grid::Regular(&[0.0, 1.0]), x))
}

pub fn step_of_0() -> Sides {
    let rust = MultiBsplineRegular::new([4], [0.0], [0.0], &COEFS, false);
    (built(rust.and_then(|map| map.interp_one([1.0]))), value(Grid::Regular(&[0.0, 0.0]), 1.0))
}

pub fn knots_that_fall() -> Sides {
    let knots: &[f64] = &[0.0, 1.0, 3.0, 2.0];
    let rust = MultiBsplineRectilinear::new(&[knots], &COEFS, false).and_then(|map| map.interp_one([1.0]));
    (built(rust), value(Grid::Rectilinear(knots), 1.0))
}

// A refusal of `new`: the query is not to blame.
fn built(rust: Result<f64, &'static str>) -> Given {
    rust.map_or_else(NotBuilt, Float)
}

// The library's answer to a query on a map of four points.
fn value(grid: Grid, x: f64) -> Given {
    let map = Map { shape: shape(&[4]), grid };
    Number(Fitted { map, linear: 0, coeffs: &COEFS }.value(&[x], &mut 0.5))
}

// Any flag but 0 is on.
pub fn flag_of_2() -> Sides {
    let coefs = &[0.0, 0.0, 1.0, 0.0];
    let on = Regular { start: 0.0, step: 1.0, coefs, x: -1.0, linear: true };
    let off = Regular { linear: false, ..on };
    let map = Map { shape: shape(&[4]), grid: Grid::Regular(&[0.0, 1.0]) };
    let mut here = 0.5;
    assert_eq!(Fitted { map, linear: 2, coeffs: coefs }.value(&[-1.0], &mut here), 0);
    assert!(here == on.value().here && here != off.value().here, "2 is as 1 is");
    (Unsayable, Float(here))
}
