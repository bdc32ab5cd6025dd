//! Cubic B-spline maps of one to four axes: a safe wrapper over `corvezan.h`.
//!
//! A [`Regular`] or [`Rectilinear`] holds the shape and the grid of a map. Samples, coefficients and all other buffers
//! stay with the caller, as they do in C: the library allocates nothing. Every call answers with a [`Result`], and the
//! error is the numbered [`Refusal`] of the header.
//!
//! ```
//! use corvezan::Regular;
//!
//! // The samples 0, 1, 2, 3 at 10, 20, 30, 40.
//! let map = Regular::new(&[4], &[10.0], &[10.0]);
//! let coeffs = map.fitted(&[0.0, 1.0, 2.0, 3.0])?;
//! let value = map.value(&coeffs, &[25.0])?;
//! assert!((value - 1.5).abs() < 1e-12);
//! # Ok::<(), corvezan::Refusal>(())
//! ```
//!
//! What the header asks of the caller is seen to by Rust's own rules: a slice is never null and reaches as far as its
//! length says, and one that is lent as `&mut` overlaps no other. What is left is the processor's mode, which must
//! round to nearest and keep subnormal numbers, as it does unless it was told otherwise.

#[macro_use]
mod evaluation;
mod ffi;
mod rectilinear;
mod refusal;
mod regular;
mod shape;

/// The code in the crate's page is compiled with the tests.
#[cfg(doctest)]
#[doc = include_str!("../README.md")]
struct ReadMe;

pub use rectilinear::Rectilinear;
pub use refusal::{Refusal, Result};
pub use regular::Regular;
pub use shape::{check_shape, first_cell, lines, points, scratch_len, stride};
