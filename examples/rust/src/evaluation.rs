//! The calls that both kinds of map have in the same form: sizes, checks, values and gradients.

/// Gives a map type the calls of evaluation. The type has the fields `dims`, `grid` and `linear`.
macro_rules! evaluation {
    ($map:ident, $check:ident, $value:ident, $gradient:ident, $values:ident, $gradients:ident) => {
        impl $map {
            /// The same map, which goes on in a straight line outside its grid, or as the cubic of its last cell.
            pub fn with_linear(mut self, linear: bool) -> Self {
                self.linear = linear;
                self
            }

            /// The number of points on each axis.
            pub fn dims(&self) -> &[usize] {
                &self.dims
            }

            /// The joined grid, as the library takes it.
            pub fn grid(&self) -> &[f64] {
                &self.grid
            }

            /// Whether this map, with so many coefficients, can be evaluated: 1, 2, 3; 2; 5.
            pub fn check(&self, coeffs_len: usize) -> Result<()> {
                let (dims, grid) = (&self.dims, &self.grid);
                answer(unsafe { ffi::$check(dims.as_ptr(), dims.len(), grid.as_ptr(), grid.len(), coeffs_len) })
            }

            /// The value at one query, a coordinate for each axis.
            pub fn value(&self, coeffs: &[f64], x: &[f64]) -> Result<f64> {
                let (dims, grid) = (&self.dims, &self.grid);
                let mut value = 0.0;
                answer(unsafe {
                    ffi::$value(
                        dims.as_ptr(),
                        dims.len(),
                        grid.as_ptr(),
                        grid.len(),
                        self.linear as u32,
                        coeffs.as_ptr(),
                        coeffs.len(),
                        x.as_ptr(),
                        x.len(),
                        &mut value,
                    )
                })?;
                Ok(value)
            }

            /// The slope along each axis at one query.
            pub fn gradient(&self, coeffs: &[f64], x: &[f64], slopes: &mut [f64]) -> Result<()> {
                let (dims, grid) = (&self.dims, &self.grid);
                answer(unsafe {
                    ffi::$gradient(
                        dims.as_ptr(),
                        dims.len(),
                        grid.as_ptr(),
                        grid.len(),
                        self.linear as u32,
                        coeffs.as_ptr(),
                        coeffs.len(),
                        x.as_ptr(),
                        x.len(),
                        slopes.as_mut_ptr(),
                        slopes.len(),
                    )
                })
            }

            /// The values at several queries: all coordinates of axis 0, then all of axis 1, and so on.
            pub fn values(&self, coeffs: &[f64], x: &[f64], values: &mut [f64]) -> Result<()> {
                let (dims, grid) = (&self.dims, &self.grid);
                answer(unsafe {
                    ffi::$values(
                        dims.as_ptr(),
                        dims.len(),
                        grid.as_ptr(),
                        grid.len(),
                        self.linear as u32,
                        coeffs.as_ptr(),
                        coeffs.len(),
                        x.as_ptr(),
                        x.len(),
                        values.as_mut_ptr(),
                        values.len(),
                    )
                })
            }

            /// The slopes at several queries: all along axis 0, then all along axis 1, and so on.
            pub fn gradients(&self, coeffs: &[f64], x: &[f64], slopes: &mut [f64]) -> Result<()> {
                let (dims, grid) = (&self.dims, &self.grid);
                answer(unsafe {
                    ffi::$gradients(
                        dims.as_ptr(),
                        dims.len(),
                        grid.as_ptr(),
                        grid.len(),
                        self.linear as u32,
                        coeffs.as_ptr(),
                        coeffs.len(),
                        x.as_ptr(),
                        x.len(),
                        slopes.as_mut_ptr(),
                        slopes.len(),
                    )
                })
            }

            /// The coefficients of these samples, in memory of their own.
            pub fn fitted(&self, vals: &[f64]) -> Result<Vec<f64>> {
                let mut coeffs = vec![0.0; crate::points(&self.dims)];
                let mut scratch = vec![0.0; crate::scratch_len(&self.dims)];
                self.fit(vals, &mut coeffs, &mut scratch)?;
                Ok(coeffs)
            }
        }
    };
}
