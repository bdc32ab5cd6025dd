// The steps of the texts, each rounded: elimination as Thomas has it, basis functions and their derivatives as The NURBS Book
// does, the cardinal B-spline in closed form.

// A row of a system with three diagonals.
#[derive(Clone, Copy)]
pub struct Row {
    pub lower: f64,
    pub diagonal: f64,
    pub upper: f64,
    pub right: f64,
}

// Thomas: each row is divided by its diagonal, the first one too; the last one has no upper number.
pub fn thomas(rows: &[Row]) -> Vec<f64> {
    let (mut upper, mut out) = (vec![rows[0].upper / rows[0].diagonal], vec![rows[0].right / rows[0].diagonal]);
    for (i, row) in rows.iter().enumerate().skip(1) {
        let diagonal = row.diagonal - row.lower * upper[i - 1];
        out.push((row.right - row.lower * out[i - 1]) / diagonal);
        if i + 1 < rows.len() {
            upper.push(row.upper / diagonal);
        }
    }
    for i in (0..rows.len() - 1).rev() {
        out[i] -= upper[i] * out[i + 1];
    }
    out
}

// Algorithm A2.2 of degree 3: the four basis functions that are not 0 on span i.
pub fn basis(knot: &dyn Fn(isize) -> f64, i: isize, x: f64) -> [f64; 4] {
    let (mut out, mut left, mut right) = ([1.0, 0.0, 0.0, 0.0], [0.0; 4], [0.0; 4]);
    for j in 1..4 {
        left[j] = x - knot(i + 1 - j as isize);
        right[j] = knot(i + j as isize) - x;
        let mut saved = 0.0;
        for r in 0..j {
            let temp = out[r] / (right[r + 1] + left[j - r]);
            out[r] = saved + right[r + 1] * temp;
            saved = left[j - r] * temp;
        }
        out[j] = saved;
    }
    out
}

// Equations 2.5 and 2.9: derivative k of basis function i of degree p, on a span.
pub fn derivative(knot: &dyn Fn(isize) -> f64, (i, p, k): (isize, isize, u32), span: isize, x: f64) -> f64 {
    let (low, high) = (knot(i + p) - knot(i), knot(i + p + 1) - knot(i + 1));
    match (p, k) {
        (0, 0) => f64::from(i == span),
        (0, _) => 0.0,
        (_, 0) => {
            let first = (x - knot(i)) / low * derivative(knot, (i, p - 1, 0), span, x);
            first + (knot(i + p + 1) - x) / high * derivative(knot, (i + 1, p - 1, 0), span, x)
        }
        _ => {
            let first = derivative(knot, (i, p - 1, k - 1), span, x) / low;
            p as f64 * (first - derivative(knot, (i + 1, p - 1, k - 1), span, x) / high)
        }
    }
}

// The knots of a grid, going on by the end spacing past its ends.
pub fn spaced(grid: &[f64], i: isize) -> f64 {
    let last = grid.len() - 1;
    match usize::try_from(i) {
        Err(_) => grid[0] + i as f64 * (grid[1] - grid[0]),
        Ok(i) if i > last => grid[last] + (i - last) as f64 * (grid[last] - grid[last - 1]),
        Ok(i) => grid[i],
    }
}

// The book's knot vector of a grid: its ends are repeated.
pub fn repeated(grid: &[f64], i: isize) -> f64 {
    grid[i.clamp(0, grid.len() as isize - 1) as usize]
}

// Four coefficients with their weights, in pairs.
pub fn sum(weights: [f64; 4], coefs: &[f64]) -> f64 {
    let pair = |i: usize| weights[i + 1] * coefs[i + 1] + weights[i] * coefs[i];
    pair(0) + pair(2)
}

// The cardinal cubic B-spline on a cell.
pub fn cardinal(t: f64) -> [f64; 4] {
    let (square, cube) = (t * t, t * t * t);
    [
        (1.0 - 3.0 * t + 3.0 * square - cube) / 6.0,
        (4.0 - 6.0 * square + 3.0 * cube) / 6.0,
        (1.0 + 3.0 * t + 3.0 * square - 3.0 * cube) / 6.0,
        cube / 6.0,
    ]
}

// Its slopes.
pub fn cardinal_slopes(t: f64) -> [f64; 4] {
    let square = t * t;
    [
        (-3.0 + 6.0 * t - 3.0 * square) / 6.0,
        (-12.0 * t + 9.0 * square) / 6.0,
        (3.0 + 6.0 * t - 9.0 * square) / 6.0,
        3.0 * square / 6.0,
    ]
}

// The slope at x of the cubic through four points, by Lagrange's formula.
pub fn lagrange_slope(at: [f64; 4], values: [f64; 4], x: f64) -> f64 {
    let mut out = 0.0;
    for j in 0..4 {
        let others = (0..4).filter(|&m| m != j);
        let slope = others.fold(0.0, |sum, m| {
            let rest = (0..4).filter(|&k| k != j && k != m);
            sum + rest.fold(1.0 / (at[j] - at[m]), |term, k| term * (x - at[k]) / (at[j] - at[k]))
        });
        out += values[j] * slope;
    }
    out
}

// The third divided difference of four points.
pub fn third_difference(at: [f64; 4], values: [f64; 4]) -> f64 {
    let first: [f64; 3] = std::array::from_fn(|i| (values[i + 1] - values[i]) / (at[i + 1] - at[i]));
    let second: [f64; 2] = std::array::from_fn(|i| (first[i + 1] - first[i]) / (at[i + 2] - at[i]));
    (second[1] - second[0]) / (at[3] - at[0])
}
