// What a side gives, in the words of the document.
use std::fmt::{Display, Formatter, Result as Written};

#[derive(Clone, Copy)]
pub enum Given {
    // the Rust's answer
    Said(Result<(), &'static str>),
    // the Rust's `new` refuses, and there is no map to ask
    NotBuilt(&'static str),
    // the library's answer
    Number(u32),
    Size(usize),
    Float(f64),
    Panics,
    // the call takes nothing of this form
    Unsayable,
}
use Given::*;

// The Rust's refusals, with their numbers.
const TEXTS: [(&str, u32); 4] = [
    ("Dimension mismatch", 2),
    ("Scratch buffer is too small", 4),
    ("All grids must be monotonically increasing", 5),
    ("Unrepresentable coordinate value", 6),
];

fn number(text: &str) -> u32 {
    TEXTS.iter().find(|(known, _)| *known == text).expect("a refusal of the Rust that has no number").1
}

impl Given {
    // Whether a caller cannot tell two sides apart.
    pub fn is_same(self, other: Given) -> bool {
        match (self, other) {
            (Said(Ok(())), Number(n)) => n == 0,
            (Said(Err(text)), Number(n)) => n == number(text),
            (Size(a), Size(b)) => a == b,
            (Float(a), Float(b)) => same(a, b),
            _ => false,
        }
    }
}

// Whether two floats have the same bits, any NaN for any NaN.
pub fn same(a: f64, b: f64) -> bool {
    a.to_bits() == b.to_bits() || a.is_nan() && b.is_nan()
}

impl Display for Given {
    fn fmt(&self, out: &mut Formatter) -> Written {
        match self {
            Said(Ok(())) => write!(out, "accepted"),
            Said(Err(text)) => write!(out, "'{text}'"),
            NotBuilt(text) => write!(out, "`new`: '{text}'"),
            Number(n) => write!(out, "{n}"),
            Size(n) => write!(out, "{n}"),
            Float(x) => write!(out, "{}", float(*x)),
            Panics => write!(out, "panics"),
            Unsayable => write!(out, "cannot be said"),
        }
    }
}

// A float in as few digits as tell it from its neighbours.
pub fn float(x: f64) -> String {
    let text = format!("{x:?}");
    text.strip_suffix(".0").map(str::to_string).unwrap_or(text)
}

pub fn floats(xs: &[f64]) -> String {
    xs.iter().map(|&x| float(x)).collect::<Vec<_>>().join(", ")
}
