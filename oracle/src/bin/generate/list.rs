// The list: its words and its counts.
use crate::shared::call::{Answer, Call, coefs_before, scratch_before};
use crate::shared::words::{given, put_record, written};
use std::collections::BTreeMap;

const PUBLISHED: u64 = 3;

// The most cells of the replaying program's buffers.
const MOST_SAMPLES: usize = 2048;
const MOST_KNOTS: usize = 512;
const MOST_SCRATCH: usize = 512;

pub struct List {
    text: Vec<u8>,
    fits: usize,
    refused: usize,
    published: usize,
    classes: BTreeMap<String, usize>,
}

fn from_rust(call: &Call) -> u64 {
    if call.grid.is_none() { 1 } else { 6 }
}

fn from_papers(call: &Call) -> u64 {
    if call.grid.is_none() { 2 } else { 7 }
}

impl List {
    pub fn new() -> List {
        List { text: Vec::new(), fits: 0, refused: 0, published: 0, classes: BTreeMap::new() }
    }

    pub fn text(&self) -> &[u8] {
        &self.text
    }

    // A fit that the Rust accepts.
    pub fn fit(&mut self, class: &str, call: &Call) {
        let answer = call.answer();
        assert_eq!(answer.number, 0, "{class}");
        self.fits += 1;
        self.record(class, from_rust(call), call, 0.0, &answer);
    }

    // A call that the Rust refuses, with the number that is meant.
    pub fn refusal(&mut self, class: &str, number: u64, call: &Call) {
        let answer = call.answer();
        assert_eq!(answer.number, number, "{class}");
        self.refused += 1;
        self.record(class, from_rust(call), call, 0.0, &answer);
    }

    // A refusal that only the papers define. Where the Rust can be asked it must refuse the call too, with 2: its buffers
    // are never long enough.
    pub fn papers_refusal(&mut self, class: &str, number: u64, call: &Call) {
        if call.can_ask() {
            assert_eq!(call.answer().number, 2, "{class}");
        }
        self.refused += 1;
        self.record(class, from_papers(call), call, 0.0, &refused(number, call));
    }

    // A published figure: the coefficients are given, and the Rust must meet them too. Scratch is not compared, and the
    // words for it repeat what it holds before the call.
    pub fn figure(&mut self, class: &str, call: &Call, tolerance: f64, coefs: Vec<f64>) {
        let rust = call.answer();
        assert_eq!(rust.number, 0, "{class}");
        for (got, want) in rust.coefs.iter().zip(&coefs) {
            assert!((got - want).abs() <= tolerance, "{class}: the Rust answers {got} and not {want}");
        }
        self.published += 1;
        self.record(
            class,
            PUBLISHED,
            call,
            tolerance,
            &Answer { number: 0, coefs, scratch: scratch_before(call.scratch) },
        );
    }

    fn record(&mut self, class: &str, kind: u64, call: &Call, tolerance: f64, answer: &Answer) {
        let grid = call.grid.as_deref().unwrap_or(&[]);
        let mut words = vec![call.count];
        words.extend(call.dims);
        words.extend([grid.len(), call.samples.len(), call.coefs, call.scratch].map(|n| n as u64));
        words.extend([answer.number, tolerance.to_bits()]);
        words.extend(given(grid));
        words.extend(given(&call.samples));
        if answer.number == 0 {
            words.extend(answer.coefs.iter().map(|&x| written(x)));
            words.extend(answer.scratch.iter().map(|&x| written(x)));
        }
        assert!(grid.len() <= MOST_KNOTS && call.samples.len() <= MOST_SAMPLES, "{class}: too many floats");
        assert!(call.coefs <= MOST_SAMPLES && call.scratch <= MOST_SCRATCH, "{class}: too long a buffer");
        put_record(&mut self.text, class, kind, &words);
        let grid = if call.grid.is_none() { "regular" } else { "rectilinear" };
        *self.classes.entry(format!("{grid}, {class}")).or_default() += 1;
    }

    pub fn tell_counts(&self) {
        for (class, n) in &self.classes {
            eprintln!("{n:5} {class}");
        }
        eprintln!("bytes,{}", self.text.len());
        eprintln!("fits,{}", self.fits);
        eprintln!("refused,{}", self.refused);
        eprintln!("published,{}", self.published);
    }
}

fn refused(number: u64, call: &Call) -> Answer {
    Answer { number, coefs: coefs_before(call.coefs), scratch: scratch_before(call.scratch) }
}
