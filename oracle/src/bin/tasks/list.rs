// The list: its words and its counts.
use crate::shared::fit::{Fit, Ran};
use crate::shared::words::{given, put_record, written};
use std::collections::BTreeMap;

// The most cells of the replaying program's buffers, and the most tasks of a list.
const MOST_CELLS: usize = 1024;
const MOST_TASKS: usize = 512;

#[derive(Default)]
pub struct List {
    text: Vec<u8>,
    lists: usize,
    calls: usize,
    refused: usize,
    // how many records there are of each class, and calls by their answers
    classes: BTreeMap<String, usize>,
    answers: BTreeMap<u64, usize>,
}

impl List {
    pub fn new() -> List {
        List::default()
    }

    pub fn text(&self) -> &[u8] {
        &self.text
    }

    // A list of calls after an accepted begin. Whether it solves every line.
    pub fn ran(&mut self, class: &str, fit: &Fit) -> bool {
        assert_eq!(fit.begin(), 0, "{class}");
        let ran = fit.run();
        self.lists += 1;
        self.calls += ran.answers.len();
        for &answer in &ran.answers {
            *self.answers.entry(answer).or_default() += 1;
        }
        self.record(class, fit, 0, Some(&ran));
        ran.is_finished
    }

    // A begin that is refused with this number.
    pub fn refusal(&mut self, class: &str, number: u64, fit: &Fit) {
        assert_eq!(fit.begin(), number, "{class}");
        assert!(fit.tasks.is_empty());
        self.refused += 1;
        self.record(class, fit, number, None);
    }

    fn record(&mut self, class: &str, fit: &Fit, number: u64, ran: Option<&Ran>) {
        let call = &fit.call;
        let grid = call.grid.as_deref().unwrap_or(&[]);
        let lengths = [grid.len(), call.samples.len(), call.coefs, fit.ledger, call.scratch];
        let mut words = vec![call.count];
        words.extend(call.dims);
        words.extend(lengths.map(|n| n as u64));
        words.extend([number, fit.tasks.len() as u64]);
        words.extend(given(grid));
        words.extend(given(&call.samples));
        if let Some(ran) = ran {
            for (task, &answer) in fit.tasks.iter().zip(&ran.answers) {
                assert!(task.scratch as usize <= MOST_CELLS, "{class}: too long scratch");
                words.extend([task.axis, task.line, task.scratch, answer]);
            }
            words.extend(ran.coefs.iter().map(|&x| written(x)));
            words.extend(ran.ledger.iter().map(|&byte| u64::from(byte)));
        }
        assert!(lengths.into_iter().all(|n| n <= MOST_CELLS), "{class}: too long a buffer");
        assert!(fit.tasks.len() <= MOST_TASKS, "{class}: too many tasks");
        put_record(&mut self.text, class, if fit.is_rectilinear() { 11 } else { 10 }, &words);
        *self.classes.entry(format!("{}, {class}", fit.name())).or_default() += 1;
    }

    pub fn tell_counts(&self) {
        for (class, n) in &self.classes {
            eprintln!("{n:5} {class}");
        }
        for (answer, n) in &self.answers {
            eprintln!("{n:5} calls answered {answer}");
        }
        eprintln!("bytes,{}", self.text.len());
        eprintln!("lists,{}", self.lists);
        eprintln!("calls,{}", self.calls);
        eprintln!("refused,{}", self.refused);
    }
}
