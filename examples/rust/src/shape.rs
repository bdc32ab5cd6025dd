//! The shape of a map, and the sizes of its buffers. `dims` has the number of points on each axis, axis 0 first.

use crate::ffi;
use crate::refusal::{answer, Result};

/// Whether a map may have this shape: 1, 2, 3.
pub fn check_shape(dims: &[usize]) -> Result<()> {
    answer(unsafe { ffi::corvezan_check_shape(dims.as_ptr(), dims.len()) })
}

/// How many samples, coefficients and ledger bytes the map has. 0 where the shape is refused.
pub fn points(dims: &[usize]) -> usize {
    unsafe { ffi::corvezan_points(dims.as_ptr(), dims.len()) }
}

/// How much scratch a fit needs: twice the longest axis. 0 where the shape is refused.
pub fn scratch_len(dims: &[usize]) -> usize {
    unsafe { ffi::corvezan_scratch_len(dims.as_ptr(), dims.len()) }
}

/// How far apart two neighbours on an axis are. 0 where the shape is refused or has no such axis.
pub fn stride(dims: &[usize], axis: usize) -> usize {
    unsafe { ffi::corvezan_stride(dims.as_ptr(), dims.len(), axis) }
}

/// How many lines an axis has. 0 where the shape is refused or has no such axis.
pub fn lines(dims: &[usize], axis: usize) -> usize {
    unsafe { ffi::corvezan_lines(dims.as_ptr(), dims.len(), axis) }
}

/// The first cell of a line; the others follow, a stride apart. 1, 2, 3, 7.
pub fn first_cell(dims: &[usize], axis: usize, line: usize) -> Result<usize> {
    let mut cell = 0;
    answer(unsafe { ffi::corvezan_first_cell(dims.as_ptr(), dims.len(), axis, line, &mut cell) })?;
    Ok(cell)
}
