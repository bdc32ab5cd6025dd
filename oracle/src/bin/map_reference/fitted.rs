// The map that the Rust fits, and its answers to the queries.
use crate::shared::asked::Asked;
use crate::shared::axis::Axis;
use crate::shared::grids::axes;
use crate::shared::words::{number, written};
use crate::text::{Head, floats};
use interpn::multibspline::rectilinear::MultiBsplineRectilinear;
use interpn::multibspline::regular::MultiBsplineRegular;
use std::fmt::Write;

// What is printed from M on: the map is read, and its shape accepted.
pub fn answers(head: &Head, grid: &[f64], samples: &[f64], queries: &[&[u8]]) -> String {
    match head.dims.len() {
        1 => run::<1>(head, grid, samples, queries),
        2 => run::<2>(head, grid, samples, queries),
        3 => run::<3>(head, grid, samples, queries),
        4 => run::<4>(head, grid, samples, queries),
        count => panic!("the Rust is not run with {count} axes"),
    }
}

fn run<const N: usize>(head: &Head, grid: &[f64], samples: &[f64], queries: &[&[u8]]) -> String {
    let dims: [usize; N] = std::array::from_fn(|axis| head.dims[axis] as usize);
    let mut coefs = vec![0.0; samples.len()];
    let mut scratch = vec![0.0; 2 * dims.iter().max().unwrap()];
    if head.regular {
        let starts: [f64; N] = std::array::from_fn(|axis| grid[axis]);
        let steps: [f64; N] = std::array::from_fn(|axis| grid[N + axis]);
        let axes =
            std::array::from_fn(|axis| Axis::Regular { n: head.dims[axis], start: starts[axis], step: steps[axis] });
        let built = MultiBsplineRegular::from_values_with_workspace(
            dims,
            starts,
            steps,
            samples,
            &mut coefs,
            &mut scratch,
            head.linear,
        );
        printed(built, axes, queries)
    } else {
        let lengths = std::array::from_fn(|axis| head.dims.get(axis).copied().unwrap_or(0));
        let knots: [&[f64]; N] = axes(&lengths, grid);
        let built =
            MultiBsplineRectilinear::from_values_with_workspace(&knots, samples, &mut coefs, &mut scratch, head.linear);
        printed(built, knots.map(Axis::Rectilinear), queries)
    }
}

// M, then a V for each query, then T. An unreadable query ends the run.
fn printed<const N: usize>(built: Result<impl Asked<N>, &'static str>, axes: [Axis; N], queries: &[&[u8]]) -> String {
    let mut out = format!("M,{}\n", number(&built));
    let Ok(map) = built else { return out };
    let mut outside = 0;
    for (i, line) in queries.iter().enumerate() {
        let Some(x) = floats(line, N) else {
            writeln!(out, "X,{}", i + 4).unwrap();
            return out;
        };
        let x: [f64; N] = x.try_into().unwrap();
        match one(&map, &axes, x) {
            Ok(figures) => {
                let figures: Vec<String> = figures.iter().map(|&figure| format!("{:016x}", written(figure))).collect();
                writeln!(out, "V,0,{}", figures.join(",")).unwrap();
                outside += usize::from((0..N).any(|axis| axes[axis].place(x[axis]).starts_with("Outside")));
            }
            Err(number) => writeln!(out, "V,{number}").unwrap(),
        }
    }
    writeln!(out, "T,{},{outside}", queries.len()).unwrap();
    out
}

// Value and gradient, or the refusal's number.
fn one<const N: usize>(map: &impl Asked<N>, axes: &[Axis; N], x: [f64; N]) -> Result<Vec<f64>, u64> {
    if (0..N).any(|axis| axes[axis].overflows(x[axis])) {
        return Err(6);
    }
    let value = map.value(x);
    let gradient = map.gradient(x);
    assert_eq!(number(&value), number(&gradient), "value and gradient are refused together");
    match (value, gradient) {
        (Ok(value), Ok(gradient)) => Ok([&[value][..], &gradient[..]].concat()),
        (refusal, _) => Err(number(&refusal)),
    }
}
