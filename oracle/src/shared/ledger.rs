// The line call's own test, on the ledger that it is handed: one byte a cell.
use super::book::Task;
use super::lines::{cells, exists};

// The answer to a call, 0 where it is accepted: it adds 1 to the bytes of its line.
pub fn call(dims: &[u64], ledger: &mut [u8], task: Task) -> u64 {
    if task.scratch < 2 * dims.iter().max().unwrap() {
        return 4;
    }
    if !exists(dims, task.axis, task.line) {
        return 7;
    }
    let axis = task.axis as usize;
    let line = cells(dims, axis, task.line);
    if line.iter().any(|&cell| usize::from(ledger[cell]) > axis) {
        return 8;
    }
    if line.iter().any(|&cell| usize::from(ledger[cell]) < axis) {
        return 9;
    }
    line.iter().for_each(|&cell| ledger[cell] += 1);
    0
}
