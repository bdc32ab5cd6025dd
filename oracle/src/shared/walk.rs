// Task lists: the calls of a style, with the book kept beside them.
use super::book::{Book, Task};
use super::lines::{all_lines, lines};
use super::random::Random;

// Whether a list of the style solves every line.
pub fn ends(style: &str) -> bool {
    !(style.contains("empty") || style.contains("not to the end") || style.contains("nothing accepted"))
}

// The calls of a style.
pub fn tasks(random: &mut Random, style: &str, dims: &[u64]) -> Vec<Task> {
    let mut walk = Walk::new(random, dims, style.starts_with("short scratch"));
    match style {
        "empty" => (),
        "in order" => all_lines(dims).into_iter().for_each(|(axis, line)| walk.enough(axis, line)),
        "axis by axis" => {
            let shuffled = walk.shuffled(all_lines(dims));
            for axis in 0..dims.len() as u64 {
                shuffled.iter().filter(|line| line.0 == axis).for_each(|&(axis, line)| walk.enough(axis, line));
            }
        }
        "as soon as due" => {
            while let Some((axis, line)) = walk.highest_due() {
                walk.enough(axis, line);
            }
        }
        "again and again" => {
            while !walk.book.is_finished() {
                let left = walk.unsolved();
                let left = walk.shuffled(left);
                left.into_iter().for_each(|(axis, line)| walk.enough(axis, line));
            }
        }
        _ => walk.drawn(style),
    }
    walk.tasks
}

// A list that grows by a call at a time, with the book kept beside it.
struct Walk<'a> {
    random: &'a mut Random,
    dims: &'a [u64],
    book: Book,
    tasks: Vec<Task>,
    // whether some calls have too short scratch
    is_short: bool,
    // one call in so many is refused, which keeps the longest lists short
    rarely: u64,
}

impl Walk<'_> {
    fn new<'a>(random: &'a mut Random, dims: &'a [u64], is_short: bool) -> Walk<'a> {
        let rarely = if all_lines(dims).len() > 100 { 8 } else { 3 };
        Walk { random, dims, book: Book::new(dims), tasks: Vec::new(), is_short, rarely }
    }

    fn push(&mut self, axis: u64, line: u64, scratch: u64) {
        let task = Task { axis, line, scratch };
        self.book.call(task);
        self.tasks.push(task);
    }

    // A call with enough scratch or some more.
    fn enough(&mut self, axis: u64, line: u64) {
        let scratch = self.book.enough() + self.random.pick(&[0, 0, 0, 1, 5]);
        self.push(axis, line, scratch);
    }

    fn short(&mut self, axis: u64, line: u64) {
        let enough = self.book.enough();
        let scratch = self.random.pick(&[0, 1, enough / 2, enough - 2, enough - 1, enough - 1]);
        self.push(axis, line, scratch);
    }

    fn call(&mut self, axis: u64, line: u64) {
        if self.is_short && self.random.below(self.rarely + 1) == 0 {
            self.short(axis, line)
        } else {
            self.enough(axis, line)
        }
    }

    fn shuffled(&mut self, mut lines: Vec<(u64, u64)>) -> Vec<(u64, u64)> {
        for i in (1..lines.len()).rev() {
            lines.swap(i, self.random.below(i as u64 + 1) as usize);
        }
        lines
    }

    fn unsolved(&self) -> Vec<(u64, u64)> {
        all_lines(self.dims).into_iter().filter(|&(axis, line)| !self.book.is_solved(axis, line)).collect()
    }

    fn due(&self) -> Vec<(u64, u64)> {
        all_lines(self.dims).into_iter().filter(|&(axis, line)| self.book.is_due(axis, line)).collect()
    }

    // A due line of the highest axis that has any.
    fn highest_due(&mut self) -> Option<(u64, u64)> {
        let due = self.due();
        let highest = due.iter().map(|line| line.0).max()?;
        let due: Vec<(u64, u64)> = due.into_iter().filter(|line| line.0 == highest).collect();
        Some(self.random.pick(&due))
    }

    // Drawn calls: most are of due lines, unless nothing is to be accepted; the others are refused.
    fn drawn(&mut self, style: &str) {
        let refused_only = style.contains("nothing accepted");
        let all = all_lines(self.dims).len() as u64;
        let most = match style {
            _ if refused_only => self.random.between(2, 9),
            _ if style.contains("not to the end") => self.random.between(1, all.min(60)),
            _ => 500,
        };
        for _ in 0..most {
            let due = self.due();
            if due.is_empty() {
                break;
            }
            if refused_only || self.random.below(self.rarely) == 0 {
                self.refused();
            } else if due.len() == 1 && style.contains("not to the end") {
                break;
            } else {
                let (axis, line) = self.random.pick(&due);
                self.call(axis, line);
            }
        }
        if style == "past the end" {
            (0..self.random.between(2, 6)).for_each(|_| self.refused());
        }
    }

    // A call that is refused: no such axis or line, a solved one, or one that is not due; or any with too short scratch.
    fn refused(&mut self) {
        let lines = all_lines(self.dims);
        let wanted = self.random.below(3);
        let fitting: Vec<(u64, u64)> = match wanted {
            0 => lines.into_iter().filter(|&(axis, line)| self.book.is_solved(axis, line)).collect(),
            1 => lines
                .into_iter()
                .filter(|&(axis, line)| !self.book.is_solved(axis, line) && !self.book.is_due(axis, line))
                .collect(),
            _ => Vec::new(),
        };
        let (axis, line) = if fitting.is_empty() { self.missing() } else { self.random.pick(&fitting) };
        if self.is_short && self.random.below(3) == 0 {
            let due = self.due();
            let (axis, line) =
                if !due.is_empty() && self.random.below(3) == 0 { self.random.pick(&due) } else { (axis, line) };
            return self.short(axis, line);
        }
        self.call(axis, line);
    }

    // No such axis, also one whose lowest bits are those of an axis, or no such line of an axis.
    fn missing(&mut self) -> (u64, u64) {
        let count = self.dims.len() as u64;
        if self.random.below(2) == 0 {
            let axis = self.random.pick(&[count, count, count + 1, 4, 255, 256, 1 << 32, 1 << 63, u64::MAX]);
            return (axis, self.random.pick(&[0, 0, 1, 3, u64::MAX]));
        }
        let axis = self.random.below(count);
        let n = lines(self.dims, axis as usize);
        let points = self.dims.iter().product();
        (axis, self.random.pick(&[n, n, n + 1, points, 256 + n, 1 << 32, 1 << 62, u64::MAX]))
    }
}
