// Values and gradients, in batches and one by one.
use crate::Pair;
use crate::fitting::coefficients;
use crate::map::Map;
use crate::shared::asked::Asked;
use crate::shared::words::same;
use bindings::Fitted;
use interpn::multibspline::rectilinear::MultiBsplineRectilinear;
use interpn::multibspline::regular::MultiBsplineRegular;
use std::hint::black_box;

// What both sides are asked.
struct Asking<const N: usize> {
    fitted: Fitted<'static>,
    xs: &'static [f64],
    // the queries of each axis
    split: [&'static [f64]; N],
    n: usize,
}

impl<const N: usize> Asking<N> {
    fn new(map: &Map<N>, n: usize) -> Asking<N> {
        let fitted = Fitted { map: map.lent(), linear: 0, coeffs: coefficients(map) };
        let xs = map.queries(n);
        Asking { fitted, xs, split: std::array::from_fn(|axis| &xs[axis * n..(axis + 1) * n]), n }
    }

    fn query(&self, i: usize) -> [f64; N] {
        std::array::from_fn(|axis| self.split[axis][i])
    }
}

// Does the work on the Rust's map of either grid.
macro_rules! on_either {
    ($map:ident, $n:ident, $work:ident) => {{
        let asking = Asking::new(&$map, $n);
        if $map.rectilinear {
            let rust = MultiBsplineRectilinear::new($map.knots(), asking.fitted.coeffs, false);
            $work(asking, rust.expect("the map is refused"))
        } else {
            let coefs = asking.fitted.coeffs;
            let rust = MultiBsplineRegular::new($map.dims, $map.starts(), $map.steps(), coefs, false);
            $work(asking, rust.expect("the map is refused"))
        }
    }};
}

pub fn values<const N: usize>(map: Map<N>, n: usize) -> Pair {
    on_either!(map, n, value_batches)
}

fn value_batches<const N: usize>(asking: Asking<N>, rust: impl Asked<N> + 'static) -> Pair {
    let Asking { fitted, xs, split, n } = asking;
    let (mut ours, mut theirs) = (vec![0.0; n], vec![0.0; n]);
    assert_eq!(fitted.values(xs, &mut ours), 0);
    assert_eq!(rust.values(&split, &mut theirs), Ok(()));
    assert!(same(&ours, &theirs), "the values differ");
    Pair::warm(
        move || assert_eq!(fitted.values(black_box(xs), black_box(&mut ours)), 0),
        move || assert_eq!(rust.values(black_box(&split), black_box(&mut theirs)), Ok(())),
    )
}

pub fn gradients<const N: usize>(map: Map<N>, n: usize) -> Pair {
    on_either!(map, n, gradient_batches)
}

// The parts of an output, one for each axis.
fn parts<const N: usize>(out: &mut [f64]) -> [&mut [f64]; N] {
    let n = out.len() / N;
    let mut chunks = out.chunks_exact_mut(n);
    std::array::from_fn(|_| chunks.next().unwrap())
}

fn gradient_batches<const N: usize>(asking: Asking<N>, rust: impl Asked<N> + 'static) -> Pair {
    let Asking { fitted, xs, split, n } = asking;
    let (mut ours, mut theirs) = (vec![0.0; N * n], vec![0.0; N * n]);
    assert_eq!(fitted.gradients(xs, &mut ours), 0);
    assert_eq!(rust.gradients(&split, &mut parts(&mut theirs)), Ok(()));
    assert!(same(&ours, &theirs), "the gradients differ");
    Pair::warm(
        move || assert_eq!(fitted.gradients(black_box(xs), black_box(&mut ours)), 0),
        move || assert_eq!(rust.gradients(black_box(&split), &mut parts(black_box(&mut theirs))), Ok(())),
    )
}

pub fn single<const N: usize>(map: Map<N>, n: usize) -> Pair {
    on_either!(map, n, single_values)
}

// A call for each query.
fn single_values<const N: usize>(asking: Asking<N>, rust: impl Asked<N> + 'static) -> Pair {
    let queries: Vec<[f64; N]> = (0..asking.n).map(|i| asking.query(i)).collect();
    let (fitted, ours) = (asking.fitted, queries.clone());
    let library = move || {
        for x in &ours {
            let mut value = 0.0;
            assert_eq!(fitted.value(black_box(x), &mut value), 0);
            black_box(value);
        }
    };
    let rust = move || {
        for x in &queries {
            black_box(rust.value(black_box(*x)).expect("a query is refused"));
        }
    };
    Pair::warm(library, rust)
}
