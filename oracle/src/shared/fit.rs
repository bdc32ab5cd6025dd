// A stepwise fit: begin, and a task list after it. The Rust has no such calls, but its `coefficients` on a map of one axis is
// the solve of one line, and on the whole map it is where a list must end that solves every line.
use super::book::{Book, Task};
use super::call::Call;
use super::grids::places;
use super::ledger;
use super::lines::cells;
use super::papers::{Checks, points};
use super::words::same;

#[derive(Clone)]
pub struct Fit {
    // the call of `coefficients` with the same arguments
    pub call: Call,
    // the ledger's length
    pub ledger: usize,
    pub tasks: Vec<Task>,
}

// What comes of a list: the answer to each call, and the buffers after the last.
pub struct Ran {
    pub answers: Vec<u64>,
    pub coefs: Vec<f64>,
    pub ledger: Vec<u8>,
    pub is_finished: bool,
}

impl Fit {
    pub fn new(call: Call) -> Fit {
        Fit { ledger: call.coefs, call, tasks: Vec::new() }
    }

    pub fn is_rectilinear(&self) -> bool {
        self.call.grid.is_some()
    }

    pub fn name(&self) -> &'static str {
        if self.is_rectilinear() { "rectilinear" } else { "regular" }
    }

    // Begin's answer, in the papers' order of the checks. Where the Rust can be asked and the ledger is not what is wrong it
    // must give the same number; it has no limit on the points, and 2 is its answer there.
    pub fn begin(&self) -> u64 {
        let number = self.first_refusal();
        if self.call.can_ask() && !(number == 2 && self.is_ledger_wrong()) {
            assert_eq!(self.call.answer().number, if number == 3 { 2 } else { number }, "the Rust begins otherwise");
        }
        number
    }

    fn is_ledger_wrong(&self) -> bool {
        points(self.call.lengths()).is_some_and(|n| self.ledger as u64 != n)
    }

    fn first_refusal(&self) -> u64 {
        Checks { ledger: Some(self.ledger), ..self.call.checks() }.first()
    }

    fn knots(&self, axis: usize) -> Option<&[f64]> {
        self.call.grid.as_ref().map(|grid| &grid[places(&self.call.dims, axis)])
    }

    // Runs the list from what an accepted begin leaves. Its answers come from the book, and a ledger kept by the call's own
    // test must give the same ones; a list that solves every line must end in the bits of `coefficients`.
    pub fn run(&self) -> Ran {
        let dims = self.call.lengths();
        let mut book = Book::new(dims);
        let mut ledger = vec![0; self.ledger];
        let mut coefs = self.call.samples.clone();
        let mut answers = Vec::new();
        for &task in &self.tasks {
            let answer = book.call(task);
            assert_eq!(ledger::call(dims, &mut ledger, task), answer, "the ledger says otherwise");
            if answer == 0 {
                self.solve(task, &mut coefs);
            }
            answers.push(answer);
        }
        let is_finished = book.is_finished();
        assert_eq!(ledger.iter().all(|&byte| u64::from(byte) == self.call.count), is_finished);
        if is_finished {
            assert!(same(&self.call.answer().coefs, &coefs), "other bits than the whole fit");
        }
        Ran { answers, coefs, ledger, is_finished }
    }

    // Solves one line: its cells are gathered, fitted as a map of one axis, and put back. Scratch of that fit is handed back.
    pub fn solve(&self, task: Task, coefs: &mut [f64]) -> Vec<f64> {
        let axis = task.axis as usize;
        let line = cells(self.call.lengths(), axis, task.line);
        let one = Call {
            count: 1,
            dims: [line.len() as u64, 0, 0, 0],
            grid: self.knots(axis).map(<[f64]>::to_vec),
            samples: line.iter().map(|&cell| coefs[cell]).collect(),
            coefs: line.len(),
            scratch: 2 * line.len(),
        };
        let answer = one.answer();
        assert_eq!(answer.number, 0, "the Rust refuses a line");
        line.iter().zip(answer.coefs).for_each(|(&cell, x)| coefs[cell] = x);
        answer.scratch
    }
}
