// A query on a map of one axis, or the fit of one, asked of the Rust and of the library.
use crate::given::{float, floats};
use bindings::{Fitted, Grid, Map, Shape};
use interpn::multibspline::{MultiBsplineRectilinear, MultiBsplineRegular, regular};

// What both give.
#[derive(Clone, Copy)]
pub struct Both {
    pub rust: f64,
    pub here: f64,
}

#[derive(Clone, Copy)]
pub struct Regular<'a> {
    pub start: f64,
    pub step: f64,
    pub coefs: &'a [f64],
    pub x: f64,
    pub linear: bool,
}

#[derive(Clone, Copy)]
pub struct Rectilinear<'a> {
    pub knots: &'a [f64],
    pub coefs: &'a [f64],
    pub x: f64,
}

// A shape of one to four axes.
pub fn shape(lengths: &[usize]) -> Shape {
    let mut dims = [0; 4];
    dims[..lengths.len()].copy_from_slice(lengths);
    Shape { dims, axes: lengths.len() }
}

fn library_value(map: Map, linear: bool, coefs: &[f64], x: f64) -> f64 {
    let mut value = f64::NAN;
    let answer = Fitted { map, linear: linear.into(), coeffs: coefs }.value(&[x], &mut value);
    assert_eq!(answer, 0, "the library refuses the query");
    value
}

fn library_slope(map: Map, linear: bool, coefs: &[f64], x: f64) -> f64 {
    let mut slope = [f64::NAN];
    let answer = Fitted { map, linear: linear.into(), coeffs: coefs }.gradient(&[x], &mut slope);
    assert_eq!(answer, 0, "the library refuses the query");
    slope[0]
}

impl Regular<'_> {
    pub fn input(&self) -> String {
        let Regular { start, step, coefs, x, linear } = *self;
        let grid = format!("{} points, start {}, step {}", coefs.len(), float(start), float(step));
        let flag = if linear { ", flag set" } else { "" };
        format!("{grid}, coefficients {}{flag}, x {}", floats(coefs), float(x))
    }

    pub fn value(&self) -> Both {
        let rust = self.rust().interp_one([self.x]).unwrap();
        Both { rust, here: library_value(self.map(&[self.start, self.step]), self.linear, self.coefs, self.x) }
    }

    pub fn slope(&self) -> Both {
        let [rust] = self.rust().interp_one_grad([self.x]).unwrap();
        Both { rust, here: library_slope(self.map(&[self.start, self.step]), self.linear, self.coefs, self.x) }
    }

    fn rust(&self) -> MultiBsplineRegular<'_, f64, 1> {
        MultiBsplineRegular::new([self.coefs.len()], [self.start], [self.step], self.coefs, self.linear).unwrap()
    }

    fn map<'a>(&self, grid: &'a [f64]) -> Map<'a> {
        Map { shape: shape(&[self.coefs.len()]), grid: Grid::Regular(grid) }
    }
}

impl Rectilinear<'_> {
    pub fn input(&self) -> String {
        format!("knots {}, coefficients {}, x {}", floats(self.knots), floats(self.coefs), float(self.x))
    }

    pub fn value(&self) -> Both {
        let rust = MultiBsplineRectilinear::new(&[self.knots], self.coefs, false).unwrap().interp_one([self.x]);
        Both { rust: rust.unwrap(), here: library_value(self.map(), false, self.coefs, self.x) }
    }

    pub fn slope(&self) -> Both {
        let rust = MultiBsplineRectilinear::new(&[self.knots], self.coefs, false).unwrap().interp_one_grad([self.x]);
        Both { rust: rust.unwrap()[0], here: library_slope(self.map(), false, self.coefs, self.x) }
    }

    fn map(&self) -> Map<'_> {
        Map { shape: shape(&[self.knots.len()]), grid: Grid::Rectilinear(self.knots) }
    }
}

// What cell i of scratch holds before a fit.
pub fn scratch_before(i: usize) -> f64 {
    -(i as f64) - 0.25
}

// The fit of one regular line: coefficients, and then scratch, by the Rust and by the library.
pub fn regular_fit(samples: &[f64]) -> Vec<Both> {
    let n = samples.len();
    let mut rust = vec![0.5; n];
    let mut rust_scratch: Vec<f64> = (0..2 * n).map(scratch_before).collect();
    let (mut here, mut here_scratch) = (rust.clone(), rust_scratch.clone());
    regular::coefficients([n], samples, &mut rust, &mut rust_scratch).unwrap();
    let map = Map { shape: shape(&[n]), grid: Grid::Regular(&[]) };
    assert_eq!(map.fit(samples, &mut here, &mut here_scratch), 0, "the library refuses the fit");
    rust.extend(rust_scratch);
    here.extend(here_scratch);
    rust.into_iter().zip(here).map(|(rust, here)| Both { rust, here }).collect()
}
