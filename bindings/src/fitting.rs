// Fits, whole and stepwise.
use crate::{Grid, Map, c};

// The line calls of a list: call i is of line lines[i] of axis axes[i].
#[derive(Clone, Copy)]
pub struct Tasks<'a> {
    pub axes: &'a [usize],
    pub lines: &'a [usize],
}

// A call of the header: shape, grid where it is rectilinear, and the other arguments, a slice as pointer and length.
macro_rules! call {
    ($map:expr, $regular:ident, $rectilinear:ident, $($argument:expr),*) => {{
        let Map { shape, grid } = $map;
        match grid {
            Grid::Regular(_) => unsafe { c::$regular(shape.dims.as_ptr(), shape.axes, $($argument),*) },
            Grid::Rectilinear(grid) => unsafe {
                c::$rectilinear(shape.dims.as_ptr(), shape.axes, grid.as_ptr(), grid.len(), $($argument),*)
            },
        }
    }};
}

impl Map<'_> {
    pub fn fit(&self, vals: &[f64], coeffs: &mut [f64], scratch: &mut [f64]) -> u32 {
        call!(
            self,
            corvezan_regular_fit,
            corvezan_rectilinear_fit,
            vals.as_ptr(),
            vals.len(),
            coeffs.as_mut_ptr(),
            coeffs.len(),
            scratch.as_mut_ptr(),
            scratch.len()
        )
    }

    pub fn check(&self, coeffs_len: usize) -> u32 {
        let (dims, axes) = (self.shape.dims.as_ptr(), self.shape.axes);
        match self.grid {
            Grid::Regular(grid) => unsafe {
                c::corvezan_regular_check(dims, axes, grid.as_ptr(), grid.len(), coeffs_len)
            },
            Grid::Rectilinear(grid) => unsafe {
                c::corvezan_rectilinear_check(dims, axes, grid.as_ptr(), grid.len(), coeffs_len)
            },
        }
    }

    // Only regular maps have this call.
    pub fn from_values(&self, vals: &[f64], coeffs: &mut [f64], scratch: &mut [f64]) -> u32 {
        let Grid::Regular(grid) = self.grid else { panic!("from_values is of regular maps") };
        unsafe {
            c::corvezan_regular_from_values(
                self.shape.dims.as_ptr(),
                self.shape.axes,
                grid.as_ptr(),
                grid.len(),
                vals.as_ptr(),
                vals.len(),
                coeffs.as_mut_ptr(),
                coeffs.len(),
                scratch.as_mut_ptr(),
                scratch.len(),
            )
        }
    }

    pub fn begin(&self, vals: &[f64], coeffs: &mut [f64], ledger: &mut [u8], scratch_len: usize) -> u32 {
        call!(
            self,
            corvezan_regular_begin,
            corvezan_rectilinear_begin,
            vals.as_ptr(),
            vals.len(),
            coeffs.as_mut_ptr(),
            coeffs.len(),
            ledger.as_mut_ptr(),
            ledger.len(),
            scratch_len
        )
    }

    pub fn line(&self, axis: usize, line: usize, coeffs: &mut [f64], ledger: &mut [u8], scratch: &mut [f64]) -> u32 {
        call!(
            self,
            corvezan_regular_line,
            corvezan_rectilinear_line,
            axis,
            line,
            coeffs.as_mut_ptr(),
            coeffs.len(),
            ledger.as_mut_ptr(),
            ledger.len(),
            scratch.as_mut_ptr(),
            scratch.len()
        )
    }

    pub fn list(
        &self,
        vals: &[f64],
        tasks: Tasks,
        coeffs: &mut [f64],
        ledger: &mut [u8],
        scratch: &mut [f64],
        answers: &mut [u8],
    ) -> u32 {
        call!(
            self,
            corvezan_regular_list,
            corvezan_rectilinear_list,
            vals.as_ptr(),
            vals.len(),
            tasks.axes.as_ptr(),
            tasks.axes.len(),
            tasks.lines.as_ptr(),
            tasks.lines.len(),
            coeffs.as_mut_ptr(),
            coeffs.len(),
            ledger.as_mut_ptr(),
            ledger.len(),
            scratch.as_mut_ptr(),
            scratch.len(),
            answers.as_mut_ptr(),
            answers.len()
        )
    }
}
