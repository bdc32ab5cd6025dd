//! Maps on regular grids: a start and a step for each axis.

use crate::ffi;
use crate::refusal::{answer, Result};

/// A map on a regular grid: its shape and grid, and how it goes on outside. Nothing is checked here: each call does.
#[derive(Clone, Debug, PartialEq)]
pub struct Regular {
    dims: Vec<usize>,
    grid: Vec<f64>,
    linear: bool,
}

evaluation!(
    Regular,
    corvezan_regular_check,
    corvezan_regular_value,
    corvezan_regular_gradient,
    corvezan_regular_values,
    corvezan_regular_gradients
);

impl Regular {
    /// A map with these lengths, starts and steps.
    pub fn new(dims: &[usize], starts: &[f64], steps: &[f64]) -> Regular {
        Regular { dims: dims.to_vec(), grid: [starts, steps].concat(), linear: false }
    }

    /// Fits: the coefficients of the samples. Steps do not matter to it. 1, 2, 3; 2 for coeffs, then vals; 4.
    pub fn fit(&self, vals: &[f64], coeffs: &mut [f64], scratch: &mut [f64]) -> Result<()> {
        answer(unsafe {
            ffi::corvezan_regular_fit(
                self.dims.as_ptr(),
                self.dims.len(),
                vals.as_ptr(),
                vals.len(),
                coeffs.as_mut_ptr(),
                coeffs.len(),
                scratch.as_mut_ptr(),
                scratch.len(),
            )
        })
    }

    /// Fits, and then checks the steps: where it refuses them, with 5, coefficients and scratch are written.
    pub fn from_values(&self, vals: &[f64], coeffs: &mut [f64], scratch: &mut [f64]) -> Result<()> {
        answer(unsafe {
            ffi::corvezan_regular_from_values(
                self.dims.as_ptr(),
                self.dims.len(),
                self.grid.as_ptr(),
                self.grid.len(),
                vals.as_ptr(),
                vals.len(),
                coeffs.as_mut_ptr(),
                coeffs.len(),
                scratch.as_mut_ptr(),
                scratch.len(),
            )
        })
    }

    /// Begins a stepwise fit: copies the samples and zeroes the ledger. 1, 2, 3; 2 for coeffs, ledger, vals; 4.
    pub fn begin(&self, vals: &[f64], coeffs: &mut [f64], ledger: &mut [u8], scratch_len: usize) -> Result<()> {
        answer(unsafe {
            ffi::corvezan_regular_begin(
                self.dims.as_ptr(),
                self.dims.len(),
                vals.as_ptr(),
                vals.len(),
                coeffs.as_mut_ptr(),
                coeffs.len(),
                ledger.as_mut_ptr(),
                ledger.len(),
                scratch_len,
            )
        })
    }

    /// Solves one line of a stepwise fit. 1, 2, 3; 2 for coeffs, then ledger; 4; 7; 8; 9.
    pub fn line(
        &self, axis: usize, line: usize, coeffs: &mut [f64], ledger: &mut [u8], scratch: &mut [f64],
    ) -> Result<()> {
        answer(unsafe {
            ffi::corvezan_regular_line(
                self.dims.as_ptr(),
                self.dims.len(),
                axis,
                line,
                coeffs.as_mut_ptr(),
                coeffs.len(),
                ledger.as_mut_ptr(),
                ledger.len(),
                scratch.as_mut_ptr(),
                scratch.len(),
            )
        })
    }

    /// Begins a stepwise fit and makes a list of line calls; the number that each answers goes into `answers`.
    #[allow(clippy::too_many_arguments)]
    pub fn list(
        &self, vals: &[f64], task_axes: &[usize], task_lines: &[usize], coeffs: &mut [f64], ledger: &mut [u8],
        scratch: &mut [f64], answers: &mut [u8],
    ) -> Result<()> {
        answer(unsafe {
            ffi::corvezan_regular_list(
                self.dims.as_ptr(),
                self.dims.len(),
                vals.as_ptr(),
                vals.len(),
                task_axes.as_ptr(),
                task_axes.len(),
                task_lines.as_ptr(),
                task_lines.len(),
                coeffs.as_mut_ptr(),
                coeffs.len(),
                ledger.as_mut_ptr(),
                ledger.len(),
                scratch.as_mut_ptr(),
                scratch.len(),
                answers.as_mut_ptr(),
                answers.len(),
            )
        })
    }
}
