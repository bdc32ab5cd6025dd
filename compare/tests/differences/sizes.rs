// Axis counts, numbers of points, and the sizes of buffers.
use crate::ask::shape;
use crate::from_the_rust::Sides;
use crate::given::Given::{Number, Said, Size};
use bindings::{Grid, Map, Shape};
use interpn::multibspline::{MultiBsplineRectilinear, MultiBsplineRegular, rectilinear, regular};

const LONG: [usize; 2] = [4096, 4097];
const POINTS: usize = 16_781_312;
const PAST_64_BITS: [usize; 2] = [1 << 32, 1 << 32];

// More axes than the library has: their lengths are not looked at.
const FIVE: Shape = Shape { dims: [4; 4], axes: 5 };

fn regular(shape: Shape) -> Map<'static> {
    Map { shape, grid: Grid::Regular(&[]) }
}

pub fn no_axes() -> Sides {
    let rust = regular::coefficients::<f64, 0>([], &[], &mut [], &mut []);
    (Said(rust), Number(regular(shape(&[])).fit(&[], &mut [], &mut [])))
}

// Fitted and asked by the Rust.
pub fn five_axes() -> Sides {
    let (samples, mut coefs, mut scratch) = (vec![1.0; 1024], vec![0.0; 1024], vec![0.0; 8]);
    let here = regular(FIVE).fit(&samples, &mut coefs, &mut scratch);
    let (dims, starts, steps) = ([4; 5], [0.0; 5], [1.0; 5]);
    let built =
        MultiBsplineRegular::from_values_with_workspace(dims, starts, steps, &samples, &mut coefs, &mut scratch, false);
    (Said(built.and_then(|map| map.interp_one([1.5; 5])).map(|_| ())), Number(here))
}

pub fn five_axes_and_a_short_one() -> Sides {
    let rust = regular::coefficients([4, 4, 4, 4, 3], &[0.0; 768], &mut [0.0; 768], &mut [0.0; 8]);
    (Said(rust), Number(regular(FIVE).fit(&[0.0; 768], &mut [0.0; 768], &mut [0.0; 8])))
}

// Fitted and asked likewise.
pub fn too_many() -> Sides {
    let (samples, mut coefs, mut scratch) = (vec![0.0; POINTS], vec![0.0; POINTS], vec![0.0; 8194]);
    let here = regular(shape(&LONG)).fit(&samples, &mut coefs, &mut scratch);
    let (starts, steps) = ([0.0; 2], [1.0; 2]);
    let built =
        MultiBsplineRegular::from_values_with_workspace(LONG, starts, steps, &samples, &mut coefs, &mut scratch, false);
    (Said(built.and_then(|map| map.interp_one([1.5; 2])).map(|_| ())), Number(here))
}

pub fn past_64_bits() -> Sides {
    let rust = regular::coefficients::<f64, 2>(PAST_64_BITS, &[], &mut [], &mut []);
    (Said(rust), Number(regular(shape(&PAST_64_BITS)).fit(&[], &mut [], &mut [])))
}

pub fn too_many_and_a_buffer() -> Sides {
    fit_long(4, 8194)
}

pub fn too_many_and_scratch() -> Sides {
    fit_long(POINTS, 8193)
}

// Samples and coefficients of one length.
fn fit_long(coefs: usize, scratch: usize) -> Sides {
    let (samples, mut coefs, mut scratch) = (vec![0.0; coefs], vec![0.0; coefs], vec![0.0; scratch]);
    let rust = regular::coefficients(LONG, &samples, &mut coefs, &mut scratch);
    (Said(rust), Number(regular(shape(&LONG)).fit(&samples, &mut coefs, &mut scratch)))
}

pub fn too_many_and_knots() -> Sides {
    let (samples, mut coefs, mut scratch) = (vec![0.0; POINTS], vec![0.0; POINTS], vec![0.0; 8194]);
    let grid = vec![0.0; LONG[0] + LONG[1]];
    let (first, second) = grid.split_at(LONG[0]);
    let rust = rectilinear::coefficients(&[first, second], &samples, &mut coefs, &mut scratch);
    let map = Map { shape: shape(&LONG), grid: Grid::Rectilinear(&grid) };
    (Said(rust), Number(map.fit(&samples, &mut coefs, &mut scratch)))
}

// The sizing functions of both grids are one here, and agree in the Rust.
fn storage<const N: usize>(dims: [usize; N]) -> usize {
    let size = MultiBsplineRegular::<f64, N>::coeff_storage_len(dims);
    assert_eq!(size, MultiBsplineRectilinear::<f64, N>::coeff_storage_len(dims));
    size
}

fn scratch<const N: usize>(dims: [usize; N]) -> usize {
    let size = MultiBsplineRegular::<f64, N>::construction_scratch_len(dims);
    assert_eq!(size, MultiBsplineRectilinear::<f64, N>::construction_scratch_len(dims));
    size
}

pub fn storage_above_the_limit() -> Sides {
    (Size(storage(LONG)), Size(shape(&LONG).points()))
}

pub fn scratch_above_the_limit() -> Sides {
    (Size(scratch(LONG)), Size(shape(&LONG).scratch_len()))
}

pub fn scratch_past_64_bits() -> Sides {
    (Size(scratch(PAST_64_BITS)), Size(shape(&PAST_64_BITS).scratch_len()))
}

pub fn storage_of_five_axes() -> Sides {
    (Size(storage([4; 5])), Size(FIVE.points()))
}

pub fn scratch_of_five_axes() -> Sides {
    (Size(scratch([4; 5])), Size(FIVE.scratch_len()))
}
