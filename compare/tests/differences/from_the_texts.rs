// The rows of the second table: what the text gives, and what the Rust and the library give alike.
use crate::ask::{Both, Rectilinear, Regular, regular_fit, scratch_before};
use crate::given::{float, floats, same};
use crate::texts::{
    Row, basis, cardinal, cardinal_slopes, derivative, lagrange_slope, repeated, spaced, sum, third_difference, thomas,
};
use crate::{Case, Ran, hold};
use interpn::multibspline::rectilinear::doors;

struct Seen {
    input: String,
    text: f64,
    both: Both,
}

type Listed = (&'static str, fn() -> Seen);

const ROWS: &[Listed] = &[
    ("Thomas, last row", last_row),
    ("regular rows", regular_rows),
    ("regular weights", regular_weights),
    ("regular t", regular_t),
    ("regular slopes", regular_slopes),
    ("regular, x below the start", below_the_start),
    ("regular, x just below the last point", below_the_last_point),
    ("regular, x at the last point, start + (n - 1) step rounded", at_the_last_point),
    ("rectilinear, x at a knot", at_a_knot),
    ("A2.2, knots past the ends", knots_past_the_ends),
    ("A2.2, x outside the knots", outside_the_knots),
    ("rectilinear slopes", rectilinear_slopes),
    ("ghost numbers", ghost_numbers),
    ("`span_samples`", span_samples),
];

const UNEVEN: [f64; 5] = [0.0, 1.0, 2.0, 4.0, 8.0];

pub fn cases() -> Vec<Case> {
    let case = |&(row, run): &Listed| Case { row, run: Box::new(move |cells| held(cells, run())) };
    ROWS.iter().map(case).collect()
}

// The cells of a row: Where, The text, The Rust and here, Input, By the text, By the Rust and here.
fn held(cells: &[String], Seen { input, text, both }: Seen) -> Ran {
    let mut faults = Vec::new();
    hold(&mut faults, "Input", &cells[3], &input);
    hold(&mut faults, "By the text", &cells[4], &float(text));
    hold(&mut faults, "By the Rust, and here", &cells[5], &float(both.rust));
    if !same(both.rust, both.here) {
        faults.push(format!("the library gives {}", float(both.here)));
    }
    if same(text, both.rust) {
        faults.push("the text and the Rust do not differ".to_string());
    }
    let (text, rust, here) = (float(text), float(both.rust), float(both.here));
    Ran { line: format!("the text: {text}; the Rust: {rust}; here: {here}"), faults }
}

const RAMP: [f64; 4] = [0.0, 1.0, 2.0, 3.0];

// A cell that the text has no number for stays as it was.
fn last_row() -> Seen {
    let before = scratch_before(3);
    let input = format!("4 points, samples {}: scratch cell 3, which held {}", floats(&RAMP), float(before));
    Seen { input, text: before, both: regular_fit(&RAMP)[4 + 3] }
}

// The inner rows of the text are the basis functions at a knot.
fn regular_rows() -> Seen {
    let [lower, diagonal, upper, _] = basis(&|i| i as f64, 1, 1.0);
    let inner = |y: f64| Row { lower, diagonal, upper, right: y };
    let first = Row { lower: 0.0, diagonal: 1.0, upper: -1.0, right: RAMP[0] - RAMP[1] };
    let last = Row { lower: -1.0, diagonal: 1.0, upper: 0.0, right: RAMP[3] - RAMP[2] };
    let text = thomas(&[first, inner(RAMP[1]), inner(RAMP[2]), last]);
    Seen {
        input: format!("4 points, samples {}: coefficient 0", floats(&RAMP)),
        text: text[0],
        both: regular_fit(&RAMP)[0],
    }
}

// The cell of a query that has its four coefficients in the map, and its t, by the quotient.
fn cell(query: Regular) -> (usize, f64) {
    let quotient = (query.x - query.start) / query.step;
    (quotient.floor() as usize, quotient - quotient.floor())
}

fn regular_weights() -> Seen {
    let query = Regular { start: 0.0, step: 1.0, coefs: &[0.0, 1.0, 0.0, 0.0], x: 1.5, linear: false };
    let (cell, _) = cell(query);
    let weights = basis(&|i| query.start + i as f64 * query.step, cell as isize, query.x);
    Seen { input: query.input(), text: sum(weights, &query.coefs[cell - 1..]), both: query.value() }
}

fn regular_t() -> Seen {
    let query = Regular { start: 0.0, step: 0.1, coefs: &[0.0, 0.0, 0.0, 0.0, 1.0], x: 0.25, linear: false };
    let (cell, t) = cell(query);
    let value = |t: f64| sum(cardinal(t), &query.coefs[cell - 1..]);
    let both = query.value();
    assert!(t == 0.5 && both.rust == value(0.4999999999999999), "t itself, as the row says");
    Seen { input: query.input(), text: value(t), both }
}

fn regular_slopes() -> Seen {
    let query = Regular { start: 0.0, step: 0.1, coefs: &[0.0, 0.0, 1.0, 0.0], x: 0.12, linear: false };
    let (cell, _) = cell(query);
    let t = (query.x - (query.step * cell as f64 + query.start)) / query.step;
    let text = sum(cardinal_slopes(t), &query.coefs[cell - 1..]) / query.step;
    Seen { input: format!("{}: slope", query.input()), text, both: query.slope() }
}

// Outside, the slope is that of the straight line: half the difference of the coefficients on either side of the start, of
// which the one before it goes on as the first three do.
fn below_the_start() -> Seen {
    let query = Regular { start: 0.0, step: f64::INFINITY, coefs: &[0.0, 1.0, 0.0, 0.0], x: -1.0, linear: true };
    let before = 3.0 * query.coefs[0] - 3.0 * query.coefs[1] + query.coefs[2];
    let text = (query.coefs[1] - before) / 2.0 / query.step;
    Seen { input: format!("{}: slope", query.input()), text, both: query.slope() }
}

// Inside, x is on the cubic of the last cell of four points, into which the coefficient past the end is folded.
fn last_cell(query: Regular) -> Seen {
    let raw = cardinal((query.x - (query.step + query.start)) / query.step - 1.0);
    let weights = [0.0, raw[0] + raw[3], raw[1] - 3.0 * raw[3], raw[2] + 3.0 * raw[3]];
    Seen { input: query.input(), text: sum(weights, query.coefs), both: query.value() }
}

fn below_the_last_point() -> Seen {
    let query = Regular { start: 0.0, step: 1.7, coefs: &[0.0, 0.0, 1.0, 0.0], x: 5.1, linear: true };
    assert!(query.step.mul_add(3.0, -query.x) > 0.0, "x is below three steps, not rounded");
    last_cell(query)
}

fn at_the_last_point() -> Seen {
    let query = Regular { start: 0.3, step: 1.0, coefs: &[0.0, 0.0, 1.0, 0.0], x: 3.3, linear: true };
    assert!(query.start + 3.0 * query.step == query.x, "x is at three steps, rounded");
    last_cell(query)
}

// The span of a coordinate by algorithm A2.1: it begins at or below it.
fn span(query: Rectilinear) -> usize {
    query.knots.iter().filter(|&&knot| knot <= query.x).count() - 1
}

fn at_a_knot() -> Seen {
    let query = Rectilinear { knots: &[0.0, 0.1, 0.3, 0.6, 0.9], coefs: &[0.0, 0.0, 1.0, 0.0, 0.0], x: 0.3 };
    let span = span(query);
    let weights = basis(&|i| spaced(query.knots, i), span as isize, query.x);
    Seen { input: query.input(), text: sum(weights, &query.coefs[span - 1..]), both: query.value() }
}

fn knots_past_the_ends() -> Seen {
    let query = Rectilinear { knots: &UNEVEN, coefs: &[0.0, 0.0, 0.0, 0.0, 1.0], x: 3.0 };
    let span = span(query);
    let weights = basis(&|i| repeated(&UNEVEN, i), span as isize, query.x);
    Seen { input: query.input(), text: sum(weights, &query.coefs[span - 1..]), both: query.value() }
}

// No basis function reaches past the last knot.
fn outside_the_knots() -> Seen {
    let query = Rectilinear { knots: &UNEVEN, coefs: &[1.0; 5], x: 9.0 };
    Seen { input: query.input(), text: 0.0, both: query.value() }
}

// Derivatives of the four basis functions on a span.
fn derivatives(knots: &[f64], span: isize, order: u32, x: f64) -> [f64; 4] {
    std::array::from_fn(|j| derivative(&|i| spaced(knots, i), (span - 3 + j as isize, 3, order), span, x))
}

fn rectilinear_slopes() -> Seen {
    let query = Rectilinear { knots: &UNEVEN, coefs: &[0.0, 0.0, 1.0, 0.0, 0.0], x: 3.0 };
    let span = span(query);
    let slopes = derivatives(&UNEVEN, span as isize, 1, query.x);
    let text = sum(slopes, &query.coefs[span - 1..]);
    Seen { input: format!("{}: slope", query.input()), text, both: query.slope() }
}

// Four numbers of the first span, of which the first belongs to the coefficient before the map's. It is put in terms of the
// other three, so that the third derivative is 0; q are those of the four.
fn folded(raw: [f64; 4], q: [f64; 4]) -> [f64; 4] {
    let of = |j: usize| raw[0] * (-q[j] / q[0]) + raw[j];
    [of(1), of(2), of(3), 0.0]
}

fn ghost_numbers() -> Seen {
    let query = Rectilinear { knots: &UNEVEN, coefs: &[1.0, 0.0, 0.0, 0.0, 0.0], x: 0.25 };
    let weights = basis(&|i| spaced(&UNEVEN, i), 0, query.x);
    let weights = folded(weights, derivatives(&UNEVEN, 0, 3, query.x));
    Seen { input: query.input(), text: sum(weights, query.coefs), both: query.value() }
}

// The sample itself is the Rust's own; that the library has it too is seen in a slope, which would be another with the text's.
fn span_samples() -> Seen {
    let query = Rectilinear { knots: &[0.2, 0.9, 2.0, 3.0], coefs: &[1.0, 0.0, 0.0, 0.0], x: 0.9 };
    let samples = doors::span_samples(query.knots, 0);
    let text = query.knots[1];
    let slope_with = |last: f64| slope_by(query, [samples[0], samples[1], samples[2], last]);
    let is_here = same(slope_with(samples[3]), query.slope().here) && !same(slope_with(text), query.slope().here);
    Seen {
        input: format!("knots {}: last sample of the first span", floats(query.knots)),
        text,
        both: Both { rust: samples[3], here: if is_here { samples[3] } else { f64::NAN } },
    }
}

// The slope on the first span from these samples, as the Rust has it.
fn slope_by(query: Rectilinear, samples: [f64; 4]) -> f64 {
    let values = samples.map(|x| basis(&|i| spaced(query.knots, i), 0, x));
    let of = |j: usize| values.map(|weights| weights[j]);
    let slopes = std::array::from_fn(|j| lagrange_slope(samples, of(j), query.x));
    let thirds = std::array::from_fn(|j| 6.0 * third_difference(samples, of(j)));
    sum(folded(slopes, thirds), query.coefs)
}
