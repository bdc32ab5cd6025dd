// The maps that the cases are made of: small ones, whose answers a reader can follow.
use crate::input::{Input, joined_lines};
use crate::shared::axis::Axis;
use crate::shared::random::Random;

fn map(regular: bool, dims: &[u64], grid: &[f64], samples: &[f64]) -> Input {
    let (dims, grid, samples) = (dims.to_vec(), grid.to_vec(), samples.to_vec());
    Input { regular, linear: false, dims, grid, samples, queries: Vec::new() }
}

// The samples 1, 3, 2, 5 at 0, 1, 2, 3.
pub fn even(queries: &[f64]) -> Input {
    asked(map(true, &[4], &[0.0, 1.0], &[1.0, 3.0, 2.0, 5.0]), queries)
}

// The same samples at the knots 0, 1, 2, 4.
pub fn uneven(queries: &[f64]) -> Input {
    asked(map(false, &[4], &[0.0, 1.0, 2.0, 4.0], &[1.0, 3.0, 2.0, 5.0]), queries)
}

// 4 by 5 points, with samples that count from 0: regular at 0, 1, .. and 10, 12, ..
pub fn even_two(queries: &[f64]) -> Input {
    asked(map(true, &[4, 5], &[0.0, 10.0, 1.0, 2.0], &counted(20)), queries)
}

// Rectilinear, with the knots 0, 1, 2, 4 and 10, 11, 13, 16, 20.
pub fn uneven_two(queries: &[f64]) -> Input {
    asked(map(false, &[4, 5], &[0.0, 1.0, 2.0, 4.0, 10.0, 11.0, 13.0, 16.0, 20.0], &counted(20)), queries)
}

// One regular axis at 0, 1, .., with samples that count from 0.
pub fn even_of(n: u64, queries: &[f64]) -> Input {
    asked(map(true, &[n], &[0.0, 1.0], &counted(n)), queries)
}

fn counted(n: u64) -> Vec<f64> {
    (0..n).map(|i| i as f64).collect()
}

// Queries whose coordinates stand one after the other.
fn asked(mut input: Input, queries: &[f64]) -> Input {
    input.queries = queries.chunks(input.dims.len()).map(<[f64]>::to_vec).collect();
    input
}

// A map with one of its numbers changed.
pub fn with(mut input: Input, change: impl Fn(&mut Input)) -> Input {
    change(&mut input);
    input
}

// The text with line `at`, from 1, changed.
pub fn with_line(input: &Input, at: usize, line: &[u8]) -> Vec<u8> {
    let mut lines = input.lines();
    lines[at - 1] = line.to_vec();
    joined_lines(&lines)
}

// The text with a line put in before line `at`, from 1.
pub fn with_line_before(input: &Input, at: usize, line: &[u8]) -> Vec<u8> {
    let mut lines = input.lines();
    lines.insert(at - 1, line.to_vec());
    joined_lines(&lines)
}

// The text up to the end of line n, with its newline.
pub fn first_lines(input: &Input, n: usize) -> Vec<u8> {
    joined_lines(&input.lines()[..n])
}

// The text without its last byte, the final newline.
pub fn without_newline(text: &[u8]) -> &[u8] {
    text.strip_suffix(b"\n").expect("a final newline")
}

// A query for each place on each axis, between grid points on the others: two of five are outside.
pub fn by_place(random: &mut Random, input: &mut Input) {
    for axis in 0..input.dims.len() {
        let xs = match input.axis(axis) {
            Axis::Regular { n, start, step } => {
                [-0.75, 0.25, 1.5, n as f64 - 1.75, n as f64 - 0.5].map(|cells| start + step * cells)
            }
            Axis::Rectilinear(knots) => {
                let last = knots.len() - 1;
                let middle = |i: usize| (knots[i - 1] + knots[i]) / 2.0;
                [knots[0] - 0.5, middle(1), middle(2), middle(last), knots[last] + 0.5]
            }
        };
        input.ask_on(random, axis, &xs);
    }
}
