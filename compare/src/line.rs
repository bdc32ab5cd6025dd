// One line call on any ledger at all: the call's own test decides.
use crate::buffers::{self, Guarded};
use crate::case::Case;
use crate::counts::Counts;
use crate::difference::{Outcome, bits, floats, guards, numbers, untouched};
use crate::draw::{any_good, most, spoilt};
use crate::shared::book::Task;
use crate::shared::ledger;
use crate::shared::lines::{cells, exists, lines};
use crate::shared::papers::Checks;
use crate::shared::random::Random;
use crate::show;
use crate::subject::Subject;

pub struct LineCase {
    subject: Subject,
    task: Task,
    coefs: Vec<f64>,
    ledger: Vec<u8>,
}

impl LineCase {
    pub fn draw(random: &mut Random) -> LineCase {
        let most = most(random);
        let is_spoilt = random.below(4) == 0;
        let subject = if is_spoilt { spoilt(random) } else { any_good(random, most) };
        let call = &subject.fit.call;
        let mut coefs = call.samples.clone();
        coefs.resize(call.coefs, 0.75);
        let is_good = line_checks(&subject).first() == 0;
        let (axis, line) = if is_good { place(random, call.lengths()) } else { (random.below(5), random.below(9)) };
        let task = Task { axis, line, scratch: call.scratch as u64 };
        let mut ledger: Vec<u8> = vec![0; subject.fit.ledger];
        fill(random, &mut ledger, axis);
        if is_good && exists(call.lengths(), axis, line) {
            prepare(random, &mut ledger, axis, &cells(call.lengths(), axis as usize, line));
        }
        LineCase { task, coefs, ledger, subject }
    }
}

// An axis and a line, mostly ones that exist.
fn place(random: &mut Random, dims: &[u64]) -> (u64, u64) {
    let axis = random.below(dims.len() as u64);
    let count = lines(dims, axis as usize);
    match random.below(12) {
        0 => (axis, random.pick(&[count, count + 1, 1 << 32, 1 << 62, u64::MAX])),
        1 => (random.pick(&[dims.len() as u64, 4, 255, 256, 1 << 32, u64::MAX]), random.below(count)),
        _ => (axis, random.below(count)),
    }
}

// Any bytes.
fn fill(random: &mut Random, ledger: &mut [u8], axis: u64) {
    let bytes = random.pick(&[[0, 0, 1, 2], [0, 1, 3, 4], [axis as u8; 4], [axis as u8, 255, 128, 5]]);
    ledger.iter_mut().for_each(|byte| *byte = random.pick(&bytes));
}

// The bytes of the line: due, or due but for a byte or two.
fn prepare(random: &mut Random, ledger: &mut [u8], axis: u64, line: &[usize]) {
    let wanted = random.below(8);
    if wanted == 0 {
        return;
    }
    line.iter().for_each(|&cell| ledger[cell] = axis as u8);
    if wanted < 4 {
        let bytes = random.pick(&[[0, 1, 2, 3], [0, 0, 1, 2], [4, 5, 128, 255]]);
        for _ in 0..wanted {
            ledger[random.pick(line)] = random.pick(&bytes);
        }
    }
}

fn line_checks(subject: &Subject) -> Checks<'_> {
    Checks { ledger: Some(subject.fit.ledger), samples: None, ..subject.fit.call.checks() }
}

// What a solved line leaves in scratch: its upper numbers from 0 on, and its coefficients from the longest axis's length on.
pub fn leave(scratch: &mut [f64], dims: &[u64], rust: &[f64]) {
    let (n, longest) = (rust.len() / 2, *dims.iter().max().unwrap() as usize);
    scratch[..n].copy_from_slice(&rust[..n]);
    scratch[longest..longest + n].copy_from_slice(&rust[n..]);
}

impl Case for LineCase {
    fn lent(&self) -> Vec<&[f64]> {
        self.subject.lent()
    }

    fn show(&self) {
        self.subject.show();
        show::numbers("axis, line, scratch", [self.task.axis, self.task.line, self.task.scratch]);
        show::floats("coefficients", &self.coefs);
        show::numbers("ledger", &self.ledger);
    }

    fn compare(&self, counts: &mut Counts) -> Outcome {
        let (fit, task) = (&self.subject.fit, self.task);
        let mut wanted_ledger = self.ledger.clone();
        let number = match line_checks(&self.subject).first() {
            0 => ledger::call(fit.call.lengths(), &mut wanted_ledger, task),
            number => number,
        };
        let mut coefs = Guarded::holding(&self.coefs, |_| 0.0);
        let mut ledger = Guarded::holding(&self.ledger, |_| 0);
        let mut scratch = buffers::scratch(fit.call.scratch);
        let (axis, line) = (task.axis as usize, task.line as usize);
        let got = self.subject.map().line(axis, line, coefs.lent(), ledger.lent(), scratch.lent());
        numbers("line", number, u64::from(got))?;
        bits("line, ledger", &wanted_ledger, ledger.inside())?;
        guards("line, ledger", &ledger)?;
        guards("line, coefficients", &coefs)?;
        self.subject.count(counts, "line, any ledger", number);
        if number != 0 {
            bits("line, coefficients", &self.coefs, coefs.inside())?;
            return untouched("line, scratch", 0, &scratch);
        }
        let mut wanted = self.coefs.clone();
        let rust = fit.solve(task, &mut wanted);
        floats("line, coefficients", &wanted, coefs.inside())?;
        let mut left = buffers::scratch(fit.call.scratch);
        leave(left.lent(), fit.call.lengths(), &rust);
        floats("line, scratch", left.inside(), scratch.inside())?;
        guards("line, scratch", &scratch)?;
        counts.outputs(&rust);
        Ok(())
    }
}
