// The library's calls over slices. Every argument may be wrong in any way that slices can be: the library refuses it.
// The header's functions are declared once for all Rust of the repository, in the example.
#[path = "../../examples/rust/src/ffi.rs"]
mod c;
mod evaluation;
mod fitting;
mod shape;

pub use evaluation::Fitted;
pub use fitting::Tasks;
pub use shape::Shape;

// The grid of a map: starts and then steps, or all knots.
#[derive(Clone, Copy)]
pub enum Grid<'a> {
    Regular(&'a [f64]),
    Rectilinear(&'a [f64]),
}

// A shape and its grid. A fit of a regular map does not look at the grid.
#[derive(Clone, Copy)]
pub struct Map<'a> {
    pub shape: Shape,
    pub grid: Grid<'a>,
}
