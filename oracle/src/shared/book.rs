// The book of a task list: which lines are solved. It is fed the shape and each call's axis, line and scratch length, and
// knows nothing of samples, coefficients or ledger.
use super::lines::{cells, exists, line_through, lines};
use std::collections::BTreeSet;

// One line call.
#[derive(Clone, Copy, PartialEq, Eq, PartialOrd, Ord)]
pub struct Task {
    pub axis: u64,
    pub line: u64,
    // the length of the scratch that it is lent
    pub scratch: u64,
}

#[derive(Clone)]
pub struct Book {
    dims: Vec<u64>,
    solved: BTreeSet<(u64, u64)>,
}

impl Book {
    pub fn new(dims: &[u64]) -> Book {
        Book { dims: dims.to_vec(), solved: BTreeSet::new() }
    }

    pub fn is_solved(&self, axis: u64, line: u64) -> bool {
        self.solved.contains(&(axis, line))
    }

    // An unsolved line is due when every line of a lower axis that shares a cell with it is solved.
    pub fn is_due(&self, axis: u64, line: u64) -> bool {
        let lower = |cell| (0..axis).all(|b| self.is_solved(b, line_through(&self.dims, b as usize, cell)));
        !self.is_solved(axis, line) && cells(&self.dims, axis as usize, line).into_iter().all(lower)
    }

    pub fn exists(&self, axis: u64, line: u64) -> bool {
        exists(&self.dims, axis, line)
    }

    pub fn is_finished(&self) -> bool {
        (0..self.dims.len()).all(|axis| (0..lines(&self.dims, axis)).all(|line| self.is_solved(axis as u64, line)))
    }

    // Twice the longest axis.
    pub fn enough(&self) -> u64 {
        2 * self.dims.iter().max().unwrap()
    }

    // The answer to a call, 0 where it is accepted: from then on its line is solved. A refusal changes nothing.
    pub fn call(&mut self, task: Task) -> u64 {
        let Task { axis, line, scratch } = task;
        if scratch < self.enough() {
            4
        } else if !self.exists(axis, line) {
            7
        } else if self.is_solved(axis, line) {
            8
        } else if !self.is_due(axis, line) {
            9
        } else {
            self.solved.insert((axis, line));
            0
        }
    }
}
