// What is compared, and the first difference.
use crate::buffers::{Cell, Guarded};
use crate::shared::words::same_float;

pub struct Difference(pub String);
pub type Outcome = Result<(), Difference>;

// The number of an answer.
pub fn numbers(call: &str, wanted: u64, got: u64) -> Outcome {
    if wanted == got { Ok(()) } else { Err(Difference(format!("{call}: answered {got} and not {wanted}"))) }
}

// A float: its bits, any NaN for any NaN.
pub fn floats(call: &str, wanted: &[f64], got: &[f64]) -> Outcome {
    if wanted.len() != got.len() {
        return Err(Difference(format!("{call}: {} cells and not {}", got.len(), wanted.len())));
    }
    match wanted.iter().zip(got).position(|(&a, &b)| !same_float(a, b)) {
        None => Ok(()),
        Some(i) => Err(cell(call, i, wanted[i].to_bits(), got[i].to_bits())),
    }
}

// Cells that have to hold just these bits.
pub fn bits<T: Cell>(call: &str, wanted: &[T], got: &[T]) -> Outcome {
    match wanted.iter().zip(got).position(|(&a, &b)| a.bits() != b.bits()) {
        None if wanted.len() == got.len() => Ok(()),
        None => Err(Difference(format!("{call}: {} cells and not {}", got.len(), wanted.len()))),
        Some(i) => Err(cell(call, i, wanted[i].bits(), got[i].bits())),
    }
}

// A buffer that is as it was from a cell on, and its guards.
pub fn untouched<T: Cell>(call: &str, from: usize, buffer: &Guarded<T>) -> Outcome {
    if let Some(i) = buffer.first_touched(from) {
        return Err(cell(
            &format!("{call}, to be left as it was"),
            i,
            buffer.before(i).bits(),
            buffer.inside()[i].bits(),
        ));
    }
    guards(call, buffer)
}

// Nothing is written beside a buffer.
pub fn guards<T: Cell>(call: &str, buffer: &Guarded<T>) -> Outcome {
    if buffer.guards_hold() { Ok(()) } else { Err(Difference(format!("{call}: written beside the buffer"))) }
}

fn cell(call: &str, i: usize, wanted: u64, got: u64) -> Difference {
    Difference(format!("{call}: cell {i} is {got:016x} and not {wanted:016x}"))
}
