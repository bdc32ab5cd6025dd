//! Maps on rectilinear grids: any increasing knots on each axis.

use crate::ffi;
use crate::refusal::{answer, Result};

/// A map on a rectilinear grid: its shape and knots, and how it goes on outside. Nothing is checked here: each call
/// looks at every knot once.
#[derive(Clone, Debug, PartialEq)]
pub struct Rectilinear {
    dims: Vec<usize>,
    grid: Vec<f64>,
    linear: bool,
}

evaluation!(
    Rectilinear,
    corvezan_rectilinear_check,
    corvezan_rectilinear_value,
    corvezan_rectilinear_gradient,
    corvezan_rectilinear_values,
    corvezan_rectilinear_gradients
);

impl Rectilinear {
    /// A map with these knots, a slice for each axis.
    pub fn new(knots: &[&[f64]]) -> Rectilinear {
        let dims = knots.iter().map(|axis| axis.len()).collect();
        Rectilinear { dims, grid: knots.concat(), linear: false }
    }

    /// A map with these lengths and knots, axis after axis. Where they disagree each call refuses with 2.
    pub fn joined(dims: &[usize], grid: &[f64]) -> Rectilinear {
        Rectilinear { dims: dims.to_vec(), grid: grid.to_vec(), linear: false }
    }

    /// Fits: the coefficients of the samples. 1, 2, 3; 2 for the grid, then coeffs; 5; 2 for vals; 4.
    pub fn fit(&self, vals: &[f64], coeffs: &mut [f64], scratch: &mut [f64]) -> Result<()> {
        answer(unsafe {
            ffi::corvezan_rectilinear_fit(
                self.dims.as_ptr(),
                self.dims.len(),
                self.grid.as_ptr(),
                self.grid.len(),
                vals.as_ptr(),
                vals.len(),
                coeffs.as_mut_ptr(),
                coeffs.len(),
                scratch.as_mut_ptr(),
                scratch.len(),
            )
        })
    }

    /// Begins a stepwise fit: copies the samples and zeroes the ledger. 1, 2, 3; 2 for the grid, coeffs, ledger; 5;
    /// 2 for vals; 4.
    pub fn begin(&self, vals: &[f64], coeffs: &mut [f64], ledger: &mut [u8], scratch_len: usize) -> Result<()> {
        answer(unsafe {
            ffi::corvezan_rectilinear_begin(
                self.dims.as_ptr(),
                self.dims.len(),
                self.grid.as_ptr(),
                self.grid.len(),
                vals.as_ptr(),
                vals.len(),
                coeffs.as_mut_ptr(),
                coeffs.len(),
                ledger.as_mut_ptr(),
                ledger.len(),
                scratch_len,
            )
        })
    }

    /// Solves one line of a stepwise fit. 1, 2, 3; 2 for the grid, coeffs, then ledger; 5; 4; 7; 8; 9.
    pub fn line(
        &self, axis: usize, line: usize, coeffs: &mut [f64], ledger: &mut [u8], scratch: &mut [f64],
    ) -> Result<()> {
        answer(unsafe {
            ffi::corvezan_rectilinear_line(
                self.dims.as_ptr(),
                self.dims.len(),
                self.grid.as_ptr(),
                self.grid.len(),
                axis,
                line,
                coeffs.as_mut_ptr(),
                coeffs.len(),
                ledger.as_mut_ptr(),
                ledger.len(),
                scratch.as_mut_ptr(),
                scratch.len(),
            )
        })
    }

    /// Begins a stepwise fit and makes a list of line calls; the number that each answers goes into `answers`.
    #[allow(clippy::too_many_arguments)]
    pub fn list(
        &self, vals: &[f64], task_axes: &[usize], task_lines: &[usize], coeffs: &mut [f64], ledger: &mut [u8],
        scratch: &mut [f64], answers: &mut [u8],
    ) -> Result<()> {
        answer(unsafe {
            ffi::corvezan_rectilinear_list(
                self.dims.as_ptr(),
                self.dims.len(),
                self.grid.as_ptr(),
                self.grid.len(),
                vals.as_ptr(),
                vals.len(),
                task_axes.as_ptr(),
                task_axes.len(),
                task_lines.as_ptr(),
                task_lines.len(),
                coeffs.as_mut_ptr(),
                coeffs.len(),
                ledger.as_mut_ptr(),
                ledger.len(),
                scratch.as_mut_ptr(),
                scratch.len(),
                answers.as_mut_ptr(),
                answers.len(),
            )
        })
    }
}
