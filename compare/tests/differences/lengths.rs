// Lengths that disagree. Most of them cannot be said in the Rust, which has arrays of as many as there are axes, and a slice
// for each axis.
use crate::ask::shape;
use crate::from_the_rust::Sides;
use crate::given::Given::{Number, Said, Unsayable};
use bindings::{Fitted, Grid, Map};
use interpn::multibspline::MultiBsplineRegular;

const ZEROS: [f64; 16] = [0.0; 16];

fn one_axis() -> Fitted<'static> {
    let map = Map { shape: shape(&[4]), grid: Grid::Regular(&[0.0, 1.0]) };
    Fitted { map, linear: 0, coeffs: &ZEROS[..4] }
}

fn two_axes() -> Fitted<'static> {
    let map = Map { shape: shape(&[4, 4]), grid: Grid::Regular(&[0.0, 0.0, 1.0, 1.0]) };
    Fitted { map, linear: 0, coeffs: &ZEROS }
}

pub fn joined_grid() -> Sides {
    let map = Map { shape: shape(&[4, 4]), grid: Grid::Rectilinear(&[0.0, 1.0, 2.0, 3.0, 0.0, 1.0, 2.0]) };
    (Unsayable, Number(map.fit(&ZEROS, &mut [0.5; 16], &mut [0.5; 8])))
}

pub fn regular_grid() -> Sides {
    let map = Map { grid: Grid::Regular(&[0.0, 1.0, 1.0]), ..one_axis().map };
    (Unsayable, Number(map.check(4)))
}

pub fn single_query() -> Sides {
    let here = one_axis().value(&[1.0, 2.0], &mut 0.5);
    assert_eq!(one_axis().gradient(&[1.0, 2.0], &mut [0.5]), here, "the gradient is refused likewise");
    (Unsayable, Number(here))
}

pub fn single_gradient() -> Sides {
    (Unsayable, Number(two_axes().gradient(&[1.0, 1.0], &mut [0.5; 3])))
}

pub fn gradient_batch() -> Sides {
    (Unsayable, Number(two_axes().gradients(&[1.0; 3], &mut [0.5; 3])))
}

// Here four coordinates are two of each axis, and four slopes too.
pub fn uneven_batch() -> Sides {
    let map = MultiBsplineRegular::new([4, 4], [0.0; 2], [1.0; 2], &ZEROS, false).unwrap();
    let (two, three, one) = ([1.0; 2], [1.0; 3], [1.0]);
    let rust = map.interp(&[&three, &one], &mut [0.5; 2]);
    assert_eq!(rust, map.interp_grad(&[&three, &one], &mut [&mut [0.5; 2], &mut [0.5; 2]]), "uneven coordinates");
    assert_eq!(rust, map.interp_grad(&[&two, &two], &mut [&mut [0.5; 3], &mut [0.5]]), "uneven slopes");
    let here = two_axes().values(&[1.0; 4], &mut [0.5; 2]);
    assert_eq!(here, two_axes().gradients(&[1.0; 4], &mut [0.5; 4]), "the gradients");
    (Said(rust), Number(here))
}
