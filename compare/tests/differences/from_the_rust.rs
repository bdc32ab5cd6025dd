// The rows of the first table: what the Rust gives, what the library gives.
use crate::given::Given;
use crate::{Case, Ran, calls, hold, lengths, sizes};

// What the two sides give.
pub type Sides = (Given, Given);

// Row, input, and what is run.
type Listed = (&'static str, &'static str, fn() -> Sides);

const ROWS: &[Listed] = &[
    ("axis count 0", "no lengths, no samples", sizes::no_axes),
    ("axis count above 4", "lengths 4, 4, 4, 4, 4", sizes::five_axes),
    ("axis count above 4, and a short axis", "lengths 4, 4, 4, 4, 3", sizes::five_axes_and_a_short_one),
    ("more than 16,777,216 points", "lengths 4096, 4097", sizes::too_many),
    ("a product of the lengths past 64 bits", "lengths 4294967296, 4294967296", sizes::past_64_bits),
    ("too many points, and a wrong buffer", "lengths 4096, 4097, coefficients of 4", sizes::too_many_and_a_buffer),
    ("too many points, and too little scratch", "lengths 4096, 4097, scratch of 8193", sizes::too_many_and_scratch),
    ("too many points, and knots that fall", "lengths 4096, 4097, all knots 0", sizes::too_many_and_knots),
    ("`coeff_storage_len` above the limit", "lengths 4096, 4097", sizes::storage_above_the_limit),
    ("`construction_scratch_len` above the limit", "lengths 4096, 4097", sizes::scratch_above_the_limit),
    (
        "`construction_scratch_len`, a product past 64 bits",
        "lengths 4294967296, 4294967296",
        sizes::scratch_past_64_bits,
    ),
    ("`coeff_storage_len` above 4 axes", "lengths 4, 4, 4, 4, 4", sizes::storage_of_five_axes),
    ("`construction_scratch_len` above 4 axes", "lengths 4, 4, 4, 4, 4", sizes::scratch_of_five_axes),
    (
        "`solve_line`, a line that runs past the coefficients",
        "base 0, stride 8, n 4, coefficients of 24",
        calls::line_past_the_coefficients,
    ),
    ("floor of -2^63", "4 points, start 0, step 1, x -9223372036854775808", calls::lowest_floor),
    ("steps at evaluation", "4 points, start 0, step 0, x 1", calls::step_of_0),
    ("knots at evaluation", "knots 0, 1, 3, 2, x 1", calls::knots_that_fall),
    ("length of the joined grid", "lengths 4, 4, a grid of 7", lengths::joined_grid),
    ("length of a regular grid, in C", "1 axis, a grid of 3", lengths::regular_grid),
    ("length of a single query", "1 axis, 2 coordinates", lengths::single_query),
    ("length of a single gradient, in C", "2 axes, 3 slopes", lengths::single_gradient),
    ("a gradient batch whose outputs are not whole queries", "2 axes, 3 outputs", lengths::gradient_batch),
    (
        "a batch with more coordinates on one axis than on another",
        "2 axes, 3 coordinates and 1, 2 outputs",
        lengths::uneven_batch,
    ),
    (
        "a flag other than 0 and 1, in C",
        "4 points, start 0, step 1, coefficients 0, 0, 1, 0, flag 2, x -1",
        calls::flag_of_2,
    ),
];

pub fn cases() -> Vec<Case> {
    let case = |&(row, input, run): &Listed| Case { row, run: Box::new(move |cells| held(cells, input, run())) };
    ROWS.iter().map(case).collect()
}

// The cells of a row: Where, The Rust, Here, Why, Input.
fn held(cells: &[String], input: &str, (rust, here): Sides) -> Ran {
    let mut faults = Vec::new();
    hold(&mut faults, "The Rust", &cells[1], &rust.to_string());
    hold(&mut faults, "Here", &cells[2], &here.to_string());
    hold(&mut faults, "Input", &cells[4], input);
    if rust.is_same(here) {
        faults.push("the Rust and the library do not differ".to_string());
    }
    Ran { line: format!("the Rust: {rust}; here: {here}"), faults }
}
