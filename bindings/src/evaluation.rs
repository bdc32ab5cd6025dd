// Values and gradients of a map with its coefficients.
use crate::{Grid, Map, c};

#[derive(Clone, Copy)]
pub struct Fitted<'a> {
    pub map: Map<'a>,
    // 0 goes on as the cubic of the last cell, anything else in a straight line
    pub linear: u32,
    pub coeffs: &'a [f64],
}

// A call of the header, with the arguments that all evaluations begin with.
macro_rules! evaluate {
    ($map:expr, $regular:ident, $rectilinear:ident, $x:ident, $($out:expr),*) => {{
        let Fitted { map: Map { shape, grid }, linear, coeffs } = $map;
        let (dims, axes, coeffs, coeffs_len) = (shape.dims.as_ptr(), shape.axes, coeffs.as_ptr(), coeffs.len());
        let (x, x_len) = ($x.as_ptr(), $x.len());
        match grid {
            Grid::Regular(grid) => unsafe {
                c::$regular(dims, axes, grid.as_ptr(), grid.len(), *linear, coeffs, coeffs_len, x, x_len, $($out),*)
            },
            Grid::Rectilinear(grid) => unsafe {
                c::$rectilinear(dims, axes, grid.as_ptr(), grid.len(), *linear, coeffs, coeffs_len, x, x_len, $($out),*)
            },
        }
    }};
}

impl Fitted<'_> {
    pub fn value(&self, x: &[f64], value: &mut f64) -> u32 {
        evaluate!(self, corvezan_regular_value, corvezan_rectilinear_value, x, value)
    }

    pub fn gradient(&self, x: &[f64], slopes: &mut [f64]) -> u32 {
        let (out, len) = (slopes.as_mut_ptr(), slopes.len());
        evaluate!(self, corvezan_regular_gradient, corvezan_rectilinear_gradient, x, out, len)
    }

    pub fn values(&self, x: &[f64], values: &mut [f64]) -> u32 {
        let (out, len) = (values.as_mut_ptr(), values.len());
        evaluate!(self, corvezan_regular_values, corvezan_rectilinear_values, x, out, len)
    }

    pub fn gradients(&self, x: &[f64], slopes: &mut [f64]) -> u32 {
        let (out, len) = (slopes.as_mut_ptr(), slopes.len());
        evaluate!(self, corvezan_regular_gradients, corvezan_rectilinear_gradients, x, out, len)
    }
}
