// Stepwise fits: begin, then line calls with refused ones among them, each compared when it is made; and the same calls as
// one list. The book of the papers decides which are accepted.
use crate::buffers::{self, Guarded};
use crate::case::Case;
use crate::counts::Counts;
use crate::difference::{Outcome, bits, floats, guards, numbers, untouched};
use crate::draw::{dims, good, samples_kind};
use crate::line::leave;
use crate::shared::book::{Book, Task};
use crate::shared::lines::cells;
use crate::shared::random::Random;
use crate::shared::walk::{ends, tasks};
use crate::show;
use crate::subject::Subject;
use bindings::Tasks;

// Styles whose next call is looked for among all lines, for small maps, and styles for any.
const SMALL: [&str; 8] = [
    "as soon as due",
    "again and again",
    "to the end",
    "past the end",
    "not to the end",
    "nothing accepted",
    "short scratch, to the end",
    "short scratch, not to the end",
];
const ANY: [&str; 4] = ["in order", "axis by axis", "empty", "again and again"];

// Maps of more cells than this are compared whole after the last call, not after each.
const WHOLE: usize = 1 << 10;

pub struct StepCase {
    subject: Subject,
    style: &'static str,
    // lengths of the lists of lines and answers of one more list call
    lengths: [usize; 2],
}

impl StepCase {
    pub fn draw(random: &mut Random) -> StepCase {
        let is_small = random.below(8) != 0;
        let count = random.pick(&[1, 2, 2, 2, 2, 3, 3, 4]);
        let most = match (is_small, count) {
            (true, 3) => 80,
            (true, _) => 49,
            (false, _) => random.pick(&[256, 600, 4096]),
        };
        let dims = dims(random, count, most);
        let samples = samples_kind(random);
        let rectilinear = random.below(2) == 0;
        let mut subject = good(random, &dims, rectilinear, samples);
        let style = if is_small && count < 4 { random.pick(&SMALL) } else { random.pick(&ANY) };
        subject.fit.tasks = tasks(random, style, &dims);
        let n = subject.fit.tasks.len();
        let lengths =
            random.pick(&[[n, n + 1], [n + 1, n], [n, n.saturating_sub(1)], [n.saturating_sub(1), n], [0, 1]]);
        StepCase { subject, style, lengths }
    }
}

// What the fit is to be after the calls so far: by the book, and by the Rust's fit of each line.
struct Wanted<'a> {
    subject: &'a Subject,
    book: Book,
    coefs: Vec<f64>,
    ledger: Vec<u8>,
    // of the list, which has one scratch for all its calls
    scratch: Guarded<f64>,
    answers: Vec<u8>,
}

// What the library has.
struct Got {
    coefs: Guarded<f64>,
    ledger: Guarded<u8>,
}

impl Case for StepCase {
    fn lent(&self) -> Vec<&[f64]> {
        self.subject.lent()
    }

    fn show(&self) {
        self.subject.show();
        show::text("style", self.style);
        let each = |task: &Task| format!("({} {} {})", task.axis, task.line, task.scratch);
        show::numbers("calls (axis, line, scratch)", self.subject.fit.tasks.iter().map(each));
        show::numbers("lengths of lines and answers of one more list", self.lengths);
    }

    fn compare(&self, counts: &mut Counts) -> Outcome {
        let (fit, call) = (&self.subject.fit, &self.subject.fit.call);
        let mut got = Got { coefs: buffers::coefs(call.coefs), ledger: buffers::ledger(fit.ledger) };
        let answer = self.subject.map().begin(&call.samples, got.coefs.lent(), got.ledger.lent(), call.scratch);
        numbers("begin", fit.begin(), u64::from(answer))?;
        let mut wanted = Wanted::new(&self.subject);
        for &task in &fit.tasks {
            wanted.call(task, &mut got, counts)?;
        }
        wanted.end(&got, self.style, counts)?;
        wanted.list(counts)?;
        let answers = self.lengths[1];
        if self.lengths != [fit.tasks.len(); 2] {
            unequal_list(&self.subject, &fit.tasks, self.lengths[0], answers, counts)?;
        }
        Ok(())
    }
}

impl<'a> Wanted<'a> {
    fn new(subject: &'a Subject) -> Wanted<'a> {
        let call = &subject.fit.call;
        Wanted {
            subject,
            book: Book::new(call.lengths()),
            coefs: call.samples.clone(),
            ledger: vec![0; subject.fit.ledger],
            scratch: buffers::scratch(call.scratch),
            answers: Vec::new(),
        }
    }

    // One line call, of the book and the Rust and then of the library.
    fn call(&mut self, task: Task, got: &mut Got, counts: &mut Counts) -> Outcome {
        let fit = &self.subject.fit;
        let number = self.book.call(task);
        let mut scratch = buffers::scratch(task.scratch as usize);
        let is_whole = self.coefs.len() <= WHOLE;
        let held = if is_whole { got.coefs.inside().to_vec() } else { Vec::new() };
        let (axis, line) = (task.axis as usize, task.line as usize);
        let answer = self.subject.map().line(axis, line, got.coefs.lent(), got.ledger.lent(), scratch.lent());
        numbers("line", number, u64::from(answer))?;
        self.subject.count(counts, "line", number);
        if number != 4 {
            self.answers.push(number as u8);
        }
        if number == 0 {
            self.solve(task, &scratch, counts)?;
        } else {
            untouched("line, scratch", 0, &scratch)?;
        }
        if is_whole {
            let line = if number == 0 { cells(fit.call.lengths(), axis, task.line) } else { Vec::new() };
            others_hold(&line, &held, got.coefs.inside())?;
            self.judge("line", got)?;
        }
        Ok(())
    }

    // The Rust solves the line, and scratch is compared.
    fn solve(&mut self, task: Task, scratch: &Guarded<f64>, counts: &mut Counts) -> Outcome {
        let dims = self.subject.fit.call.lengths();
        let rust = self.subject.fit.solve(task, &mut self.coefs);
        cells(dims, task.axis as usize, task.line).into_iter().for_each(|cell| self.ledger[cell] += 1);
        counts.outputs(&rust);
        leave(self.scratch.lent(), dims, &rust);
        let mut left = buffers::scratch(task.scratch as usize);
        leave(left.lent(), dims, &rust);
        floats("line, scratch", left.inside(), scratch.inside())?;
        guards("line, scratch", scratch)
    }

    fn judge(&self, call: &str, got: &Got) -> Outcome {
        let (of_coefs, of_ledger) = (format!("{call}, coefficients"), format!("{call}, ledger"));
        floats(&of_coefs, &self.coefs, got.coefs.inside())?;
        bits(&of_ledger, &self.ledger, got.ledger.inside())?;
        guards(&of_coefs, &got.coefs)?;
        guards(&of_ledger, &got.ledger)
    }

    // After the last call; a list that solves every line ends in the coefficients of the whole fit.
    fn end(&self, got: &Got, style: &str, counts: &mut Counts) -> Outcome {
        self.judge("last line", got)?;
        let is_finished = self.book.is_finished();
        assert_eq!(is_finished, ends(style), "{style}");
        counts.class("task lists", &format!("{}, {style}", self.subject.fit.name()));
        self.subject.count_classes(counts);
        if is_finished {
            counts.class("task lists that solve every line", &format!("{} axes", self.subject.axes()));
            return floats("last line, coefficients", &self.subject.fit.call.answer().coefs, got.coefs.inside());
        }
        Ok(())
    }

    // The calls that have enough scratch, as one list.
    fn list(&self, counts: &mut Counts) -> Outcome {
        let (fit, call) = (&self.subject.fit, &self.subject.fit.call);
        let enough = |task: &&Task| task.scratch >= self.book.enough();
        let axes: Vec<usize> = fit.tasks.iter().filter(enough).map(|task| task.axis as usize).collect();
        let lines: Vec<usize> = fit.tasks.iter().filter(enough).map(|task| task.line as usize).collect();
        let mut got = Got { coefs: buffers::coefs(call.coefs), ledger: buffers::ledger(fit.ledger) };
        let mut scratch = buffers::scratch(call.scratch);
        let mut answers = buffers::answers(axes.len());
        let tasks = Tasks { axes: &axes, lines: &lines };
        let (coefs, ledger) = (got.coefs.lent(), got.ledger.lent());
        let answer = self.subject.map().list(&call.samples, tasks, coefs, ledger, scratch.lent(), answers.lent());
        numbers("list", 0, u64::from(answer))?;
        bits("list, answers", &self.answers, answers.inside())?;
        floats("list, scratch", self.scratch.inside(), scratch.inside())?;
        guards("list, answers", &answers)?;
        guards("list, scratch", &scratch)?;
        self.subject.count(counts, "list", 0);
        self.judge("list", &got)
    }
}

// Cells that are not of the line keep their bits.
fn others_hold(line: &[usize], held: &[f64], got: &[f64]) -> Outcome {
    let mut wanted = held.to_vec();
    line.iter().for_each(|&cell| wanted[cell] = got[cell]);
    bits("line, cells of other lines", &wanted, got)
}

// A list that is refused because begin is: nothing is written.
pub fn refused_list(subject: &Subject, number: u64, counts: &mut Counts) -> Outcome {
    judge_refused_list(subject, number, [&[0, 0, 1], &[0, 1, 0]], 3, counts)
}

// A list whose parts differ in length.
fn unequal_list(subject: &Subject, tasks: &[Task], lines: usize, answers: usize, counts: &mut Counts) -> Outcome {
    let axes: Vec<usize> = tasks.iter().map(|task| task.axis as usize).collect();
    let mut line_list: Vec<usize> = tasks.iter().map(|task| task.line as usize).collect();
    line_list.resize(lines, 0);
    judge_refused_list(subject, 2, [&axes, &line_list], answers, counts)
}

fn judge_refused_list(
    subject: &Subject,
    number: u64,
    [axes, lines]: [&[usize]; 2],
    answers: usize,
    counts: &mut Counts,
) -> Outcome {
    let (fit, call) = (&subject.fit, &subject.fit.call);
    let (mut coefs, mut ledger) = (buffers::coefs(call.coefs), buffers::ledger(fit.ledger));
    let (mut scratch, mut answers) = (buffers::scratch(call.scratch), buffers::answers(answers));
    let (tasks, samples) = (Tasks { axes, lines }, &call.samples);
    let got = subject.map().list(samples, tasks, coefs.lent(), ledger.lent(), scratch.lent(), answers.lent());
    numbers("list", number, u64::from(got))?;
    untouched("list, coefficients", 0, &coefs)?;
    untouched("list, ledger", 0, &ledger)?;
    untouched("list, scratch", 0, &scratch)?;
    untouched("list, answers", 0, &answers)?;
    subject.count(counts, "list", number);
    Ok(())
}
