// Maps of exactly 16,777,216 points, or a few less, on one to four axes, and maps of more with buffers of their length.
use crate::buffers;
use crate::case::Case;
use crate::counts::Counts;
use crate::difference::{Outcome, bits, floats, guards, numbers, untouched};
use crate::draw::{LONG, TELLING, starts_and_steps};
use crate::fits::{built, whole};
use crate::query_draw;
use crate::shared::book::Task;
use crate::shared::call::{Call, call};
use crate::shared::fit::Fit;
use crate::shared::grids::joined;
use crate::shared::ledger;
use crate::shared::lines::lines;
use crate::shared::map::ask;
use crate::shared::random::Random;
use crate::shared::shapes::MOST;
use crate::subject::{Buffers, Subject, Wanted};
use bindings::Tasks;

// More points than a map may have, few enough for buffers of that length.
const OVER: [&[u64]; 7] = [
    &[16_777_217],
    &[4096, 4097],
    &[256, 256, 257],
    &[64, 64, 64, 65],
    &[97, 172_961],
    &[97, 257, 673],
    &[4, 4, 4, 262_145],
];

// How many queries are asked of a fitted map in batches, and how many by themselves.
const QUERIES: usize = 2_000;
const SINGLES: usize = 8;

// The order of MOST: each axis count comes early, with exactly the most points.
const ORDER: [usize; 14] = [0, 2, 6, 9, 3, 7, 10, 1, 4, 5, 8, 11, 12, 13];

// In turn: every shape of MOST on both grids, fitted and evaluated; between them lists of line calls, and maps too large.
pub fn draw(random: &mut Random, turn: u64) -> Box<dyn Case> {
    let (kind, turn) = (turn % 4, turn as usize / 4);
    let rectilinear = kind % 2 == 1;
    let shape = |turn: usize| MOST[ORDER[turn % ORDER.len()]];
    match kind {
        0 | 1 => Box::new(BigFit::draw(random, shape(turn), rectilinear)),
        _ if turn % 3 == 2 => Box::new(Over { subject: over(random, OVER[turn / 3 % OVER.len()], rectilinear) }),
        _ => Box::new(BigList::draw(random, shape(turn - turn / 3), rectilinear)),
    }
}

// A fit, building and evaluation of a map of this shape.
struct BigFit {
    subject: Subject,
    // where the queries are drawn from
    seed: u64,
}

fn subject(random: &mut Random, dims: &[u64], rectilinear: bool) -> Subject {
    let samples = random.pick(&TELLING);
    if rectilinear {
        let grid = random.pick(&LONG);
        let knots = joined(random, grid, dims);
        return Subject { fit: Fit::new(call(random, samples, dims, Some(knots))), regular: Vec::new(), samples, grid };
    }
    let (grid, regular) = starts_and_steps(random, dims.len());
    Subject { fit: Fit::new(call(random, samples, dims, None)), regular, samples, grid }
}

fn count_shape(subject: &Subject, counts: &mut Counts, call: &'static str, answer: u64) {
    let dims: Vec<String> = subject.fit.call.lengths().iter().map(u64::to_string).collect();
    counts.class("largest maps", &format!("{}, {call}, {answer}, {}", subject.fit.name(), dims.join(" by ")));
}

impl BigFit {
    fn draw(random: &mut Random, dims: &[u64], rectilinear: bool) -> BigFit {
        BigFit { subject: subject(random, dims, rectilinear), seed: random.bits() }
    }
}

impl Case for BigFit {
    fn lent(&self) -> Vec<&[f64]> {
        self.subject.lent()
    }

    fn show(&self) {
        self.subject.show();
    }

    fn compare(&self, counts: &mut Counts) -> Outcome {
        let coefs = whole(&self.subject, counts)?;
        count_shape(&self.subject, counts, "fit", 0);
        if !self.subject.fit.is_rectilinear() {
            built(&self.subject, counts)?;
        }
        let mut random = Random::new(self.seed);
        let (dims, rectilinear) = (self.subject.fit.call.lengths(), self.subject.fit.is_rectilinear());
        let mut queries = query_draw::on(&mut random, dims, rectilinear, coefs);
        queries.singles = SINGLES;
        queries.samples = "of a fit of the largest size";
        ask(&mut random, &mut queries.map, QUERIES);
        queries.compare(counts)
    }
}

// A complete list of line calls, in a drawn order on each axis, with refused ones among them.
struct BigList {
    subject: Subject,
    axes: Vec<usize>,
    lines: Vec<usize>,
}

impl BigList {
    fn draw(random: &mut Random, dims: &[u64], rectilinear: bool) -> BigList {
        let subject = subject(random, dims, rectilinear);
        let (mut axes, mut all) = (Vec::new(), Vec::new());
        for axis in 0..dims.len() {
            let count = lines(dims, axis) as usize;
            let mut order: Vec<usize> = (0..count).collect();
            for i in (1..count).rev() {
                order.swap(i, random.below(i as u64 + 1) as usize);
            }
            for line in order {
                axes.push(axis);
                all.push(line);
                if random.below(64) == 0 {
                    axes.push(random.below(dims.len() as u64 + 1) as usize);
                    all.push(random.below(count as u64 + 1) as usize);
                }
            }
        }
        BigList { subject, axes, lines: all }
    }
}

impl Case for BigList {
    fn lent(&self) -> Vec<&[f64]> {
        self.subject.lent()
    }

    fn show(&self) {
        self.subject.show();
        crate::show::numbers("axes of the calls", &self.axes);
        crate::show::numbers("lines of the calls", &self.lines);
    }

    // The ledger's own test decides here: the book would take too long.
    fn compare(&self, counts: &mut Counts) -> Outcome {
        let call = &self.subject.fit.call;
        let mut wanted = vec![0; call.coefs];
        let scratch = call.scratch as u64;
        let tasks = self.axes.iter().zip(&self.lines);
        let tasks = tasks.map(|(&axis, &line)| Task { axis: axis as u64, line: line as u64, scratch });
        let numbers_wanted: Vec<u8> = tasks.map(|task| ledger::call(call.lengths(), &mut wanted, task) as u8).collect();
        assert!(wanted.iter().all(|&byte| u64::from(byte) == call.count), "the list is not complete");
        let (mut buffers, mut ledger) = (Buffers::new(call.coefs, call.scratch), buffers::ledger(call.coefs));
        let mut answers = buffers::answers(self.axes.len());
        let tasks = Tasks { axes: &self.axes, lines: &self.lines };
        let (coefs, scratch) = (buffers.coefs.lent(), buffers.scratch.lent());
        let got = self.subject.map().list(&call.samples, tasks, coefs, ledger.lent(), scratch, answers.lent());
        numbers("list", 0, u64::from(got))?;
        bits("list, answers", &numbers_wanted, answers.inside())?;
        bits("list, ledger", &wanted, ledger.inside())?;
        floats("list, coefficients", &call.answer().coefs, buffers.coefs.inside())?;
        guards("list, coefficients", &buffers.coefs)?;
        guards("list, scratch", &buffers.scratch)?;
        guards("list, ledger", &ledger)?;
        guards("list, answers", &answers)?;
        self.subject.count(counts, "list", 0);
        count_shape(&self.subject, counts, "list", 0);
        numbers_wanted
            .iter()
            .for_each(|&n| self.subject.count(counts, "line, in a list of the largest size", n.into()));
        Ok(())
    }
}

// Too many points, and all buffers as long as that.
struct Over {
    subject: Subject,
}

fn over(random: &mut Random, dims: &[u64], rectilinear: bool) -> Subject {
    let points = dims.iter().product::<u64>() as usize;
    let longest = *dims.iter().max().unwrap() as usize;
    let (grid, regular) = starts_and_steps(random, dims.len());
    let knots = rectilinear.then(|| joined(random, "whole", dims));
    let mut lengths = [0; 4];
    lengths[..dims.len()].copy_from_slice(dims);
    let samples = vec![0.5; points];
    let call =
        Call { count: dims.len() as u64, dims: lengths, grid: knots, samples, coefs: points, scratch: 2 * longest };
    Subject { fit: Fit::new(call), regular, samples: "constant", grid }
}

impl Case for Over {
    fn lent(&self) -> Vec<&[f64]> {
        self.subject.lent()
    }

    fn show(&self) {
        self.subject.show();
    }

    fn compare(&self, counts: &mut Counts) -> Outcome {
        let call = &self.subject.fit.call;
        numbers("the papers", 3, call.checks().first())?;
        let mut buffers = Buffers::new(call.coefs, call.scratch);
        let got = self.subject.map().fit(&call.samples, buffers.coefs.lent(), buffers.scratch.lent());
        buffers.judge("fit", &Wanted::refused(3), got)?;
        let mut ledger = buffers::ledger(call.coefs);
        let got = self.subject.map().begin(&call.samples, buffers.coefs.lent(), ledger.lent(), call.scratch);
        buffers.judge("begin", &Wanted::refused(3), got)?;
        let got = self.subject.map().line(0, 0, buffers.coefs.lent(), ledger.lent(), buffers.scratch.lent());
        buffers.judge("line", &Wanted::refused(3), got)?;
        untouched("begin or line, ledger", 0, &ledger)?;
        for name in ["fit", "begin", "line"] {
            self.subject.count(counts, name, 3);
        }
        count_shape(&self.subject, counts, "fit, begin, line", 3);
        Ok(())
    }
}
