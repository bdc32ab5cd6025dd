// The list: a case is a line with three lengths and a name, then the input, then what is printed for it.
use crate::program::program;
use std::collections::BTreeSet;

// The most bytes of a name, of an input and of what is printed that the replaying program has room for.
const MOST_NAME: usize = 64;
const MOST_INPUT: usize = 40_000;
const MOST_PRINTED: usize = 98_440;

#[derive(Default)]
pub struct List {
    text: Vec<u8>,
    names: BTreeSet<String>,
    // cases by the letter of the last line: T, M, X
    ends: [usize; 3],
}

impl List {
    pub fn new() -> List {
        List::default()
    }

    pub fn text(&self) -> &[u8] {
        &self.text
    }

    // A case, and the start of the last line that the papers ask for: up to a comma or the end of the line. It is known from
    // how the input was made, and the reference is held to it.
    pub fn put(&mut self, name: &str, last: &str, input: &[u8]) {
        assert!(name.bytes().all(|b| b.is_ascii_alphanumeric() || b == b'_'), "{name}: not a name");
        assert!(self.names.insert(name.to_string()), "{name}: a name twice");
        let printed = program(input);
        let line = printed.lines().last().unwrap_or_default();
        assert!(format!("{line},").starts_with(&format!("{last},")), "{name}: {line}, not {last}");
        assert!(
            name.len() <= MOST_NAME && input.len() <= MOST_INPUT && printed.len() <= MOST_PRINTED,
            "{name}: too long"
        );
        let end = ["T", "M", "X"].iter().position(|&letter| line.starts_with(letter)).expect("no last line");
        self.ends[end] += 1;
        let head = [12 + end, name.len(), input.len(), printed.len()].map(|n| format!("{n:016x} ")).concat();
        for part in [&[head.as_bytes(), name.as_bytes()].concat()[..], input, printed.as_bytes()] {
            self.text.extend(part);
            self.text.push(b'\n');
        }
    }

    // Cases whose input is text.
    pub fn put_all(&mut self, cases: &[(&str, &str, &str)]) {
        for (name, last, input) in cases {
            self.put(name, last, input.as_bytes());
        }
    }

    pub fn tell_counts(&self) {
        eprintln!("bytes,{}", self.text.len());
        for (letter, n) in ["T", "M", "X"].iter().zip(self.ends) {
            eprintln!("ends in {letter},{n}");
        }
    }
}
