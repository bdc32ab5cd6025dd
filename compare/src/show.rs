// Inputs in words: a name, and bits as hexadecimal digits.
use std::fmt::Display;
use std::io::{BufWriter, Write, stdout};

pub fn text(name: &str, text: &str) {
    println!("{name}: {text}");
}

pub fn numbers<T: Display>(name: &str, numbers: impl IntoIterator<Item = T>) {
    line(name, numbers.into_iter());
}

pub fn floats(name: &str, floats: &[f64]) {
    line(&format!("{name}, {}", floats.len()), floats.iter().map(|x| format!("{:016x}", x.to_bits())));
}

// A line may be that of the largest map, so its words are written one by one.
fn line<T: Display>(name: &str, words: impl Iterator<Item = T>) {
    let mut out = BufWriter::new(stdout().lock());
    write!(out, "{name}:").expect("standard output is closed");
    for word in words {
        write!(out, " {word}").expect("standard output is closed");
    }
    writeln!(out).expect("standard output is closed");
}
