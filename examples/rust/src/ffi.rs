//! The functions of corvezan.h, as they are declared there.

unsafe extern "C" {
    pub fn corvezan_check_shape(dims: *const usize, axes: usize) -> u32;
    pub fn corvezan_points(dims: *const usize, axes: usize) -> usize;
    pub fn corvezan_scratch_len(dims: *const usize, axes: usize) -> usize;
    pub fn corvezan_stride(dims: *const usize, axes: usize, axis: usize) -> usize;
    pub fn corvezan_lines(dims: *const usize, axes: usize, axis: usize) -> usize;
    pub fn corvezan_first_cell(dims: *const usize, axes: usize, axis: usize, line: usize, cell: *mut usize) -> u32;
}

/// Declares the calls of evaluation, which are of one form on both grids.
macro_rules! evaluation_calls {
    ($check:ident, $value:ident, $gradient:ident, $values:ident, $gradients:ident) => {
        unsafe extern "C" {
            pub fn $check(dims: *const usize, axes: usize, grid: *const f64, grid_len: usize, coeffs_len: usize)
                -> u32;
            pub fn $value(
                dims: *const usize, axes: usize, grid: *const f64, grid_len: usize, linear: u32, coeffs: *const f64,
                coeffs_len: usize, x: *const f64, x_len: usize, value: *mut f64,
            ) -> u32;
            pub fn $gradient(
                dims: *const usize, axes: usize, grid: *const f64, grid_len: usize, linear: u32, coeffs: *const f64,
                coeffs_len: usize, x: *const f64, x_len: usize, slopes: *mut f64, slopes_len: usize,
            ) -> u32;
            pub fn $values(
                dims: *const usize, axes: usize, grid: *const f64, grid_len: usize, linear: u32, coeffs: *const f64,
                coeffs_len: usize, x: *const f64, x_len: usize, values: *mut f64, values_len: usize,
            ) -> u32;
            pub fn $gradients(
                dims: *const usize, axes: usize, grid: *const f64, grid_len: usize, linear: u32, coeffs: *const f64,
                coeffs_len: usize, x: *const f64, x_len: usize, slopes: *mut f64, slopes_len: usize,
            ) -> u32;
        }
    };
}

evaluation_calls!(
    corvezan_regular_check,
    corvezan_regular_value,
    corvezan_regular_gradient,
    corvezan_regular_values,
    corvezan_regular_gradients
);
evaluation_calls!(
    corvezan_rectilinear_check,
    corvezan_rectilinear_value,
    corvezan_rectilinear_gradient,
    corvezan_rectilinear_values,
    corvezan_rectilinear_gradients
);

unsafe extern "C" {
    pub fn corvezan_regular_fit(
        dims: *const usize, axes: usize, vals: *const f64, vals_len: usize, coeffs: *mut f64, coeffs_len: usize,
        scratch: *mut f64, scratch_len: usize,
    ) -> u32;
    pub fn corvezan_regular_from_values(
        dims: *const usize, axes: usize, grid: *const f64, grid_len: usize, vals: *const f64, vals_len: usize,
        coeffs: *mut f64, coeffs_len: usize, scratch: *mut f64, scratch_len: usize,
    ) -> u32;
    pub fn corvezan_regular_begin(
        dims: *const usize, axes: usize, vals: *const f64, vals_len: usize, coeffs: *mut f64, coeffs_len: usize,
        ledger: *mut u8, ledger_len: usize, scratch_len: usize,
    ) -> u32;
    pub fn corvezan_regular_line(
        dims: *const usize, axes: usize, axis: usize, line: usize, coeffs: *mut f64, coeffs_len: usize,
        ledger: *mut u8, ledger_len: usize, scratch: *mut f64, scratch_len: usize,
    ) -> u32;
    pub fn corvezan_regular_list(
        dims: *const usize, axes: usize, vals: *const f64, vals_len: usize, task_axes: *const usize,
        task_axes_len: usize, task_lines: *const usize, task_lines_len: usize, coeffs: *mut f64, coeffs_len: usize,
        ledger: *mut u8, ledger_len: usize, scratch: *mut f64, scratch_len: usize, answers: *mut u8,
        answers_len: usize,
    ) -> u32;
    pub fn corvezan_rectilinear_fit(
        dims: *const usize, axes: usize, grid: *const f64, grid_len: usize, vals: *const f64, vals_len: usize,
        coeffs: *mut f64, coeffs_len: usize, scratch: *mut f64, scratch_len: usize,
    ) -> u32;
    pub fn corvezan_rectilinear_begin(
        dims: *const usize, axes: usize, grid: *const f64, grid_len: usize, vals: *const f64, vals_len: usize,
        coeffs: *mut f64, coeffs_len: usize, ledger: *mut u8, ledger_len: usize, scratch_len: usize,
    ) -> u32;
    pub fn corvezan_rectilinear_line(
        dims: *const usize, axes: usize, grid: *const f64, grid_len: usize, axis: usize, line: usize, coeffs: *mut f64,
        coeffs_len: usize, ledger: *mut u8, ledger_len: usize, scratch: *mut f64, scratch_len: usize,
    ) -> u32;
    pub fn corvezan_rectilinear_list(
        dims: *const usize, axes: usize, grid: *const f64, grid_len: usize, vals: *const f64, vals_len: usize,
        task_axes: *const usize, task_axes_len: usize, task_lines: *const usize, task_lines_len: usize,
        coeffs: *mut f64, coeffs_len: usize, ledger: *mut u8, ledger_len: usize, scratch: *mut f64, scratch_len: usize,
        answers: *mut u8, answers_len: usize,
    ) -> u32;
}
