// The lines of a map: the cells that differ only on one axis, numbered by the other axes, the last of them fastest.

// How many cells one step on the axis is: the last axis has 1.
fn stride(dims: &[u64], axis: usize) -> u64 {
    dims[axis + 1..].iter().product()
}

// How many lines an axis has.
pub fn lines(dims: &[u64], axis: usize) -> u64 {
    dims.iter().product::<u64>() / dims[axis]
}

// Whether there is such a line.
pub fn exists(dims: &[u64], axis: u64, line: u64) -> bool {
    axis < dims.len() as u64 && line < lines(dims, axis as usize)
}

// The cells of a line, from its first on.
pub fn cells(dims: &[u64], axis: usize, line: u64) -> Vec<usize> {
    let (n, stride) = (dims[axis], stride(dims, axis));
    let first = line / stride * n * stride + line % stride;
    (0..n).map(|place| (first + place * stride) as usize).collect()
}

// The line of an axis that a cell lies on.
pub fn line_through(dims: &[u64], axis: usize, cell: usize) -> u64 {
    let (n, stride, cell) = (dims[axis], stride(dims, axis), cell as u64);
    cell / (n * stride) * stride + cell % stride
}

// Every line, by axis and number.
pub fn all_lines(dims: &[u64]) -> Vec<(u64, u64)> {
    (0..dims.len()).flat_map(|axis| (0..lines(dims, axis)).map(move |line| (axis as u64, line))).collect()
}
