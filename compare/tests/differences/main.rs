// Runs every row of docs/DIFFERENCES.md: on the Rust and on the library, and by the text where the row is about one. It fails
// where a row has no case or a case no row, where the two sides do not differ, and where a cell of the document says otherwise
// than what was run.
mod ask;
mod calls;
mod document;
mod from_the_rust;
mod from_the_texts;
mod given;
mod lengths;
mod sizes;
mod texts;

use document::Table;
use std::panic::{AssertUnwindSafe, catch_unwind};
use std::process::ExitCode;

// What a case has to say to its row: a line for the reader, and what is amiss.
pub struct Ran {
    pub line: String,
    pub faults: Vec<String>,
}

// A row of the document, by its first cell, and how it is run and held to the row's cells.
pub struct Case {
    pub row: &'static str,
    pub run: Run,
}

type Run = Box<dyn Fn(&[String]) -> Ran>;

fn main() -> ExitCode {
    let [rust, texts] = document::tables();
    let faults = run(&rust, from_the_rust::cases()) + run(&texts, from_the_texts::cases());
    println!("rows,{}", rust.rows.len() + texts.rows.len());
    println!("amiss,{faults}");
    if faults == 0 { ExitCode::SUCCESS } else { ExitCode::FAILURE }
}

// Runs the cases of a table, and answers how much is amiss.
fn run(table: &Table, cases: Vec<Case>) -> usize {
    println!("{}", table.title);
    let mut faults = 0;
    for row in &table.rows {
        let found: Vec<&Case> = cases.iter().filter(|case| case.row == row[0]).collect();
        let ran = match found[..] {
            [case] => catch_unwind(AssertUnwindSafe(|| (case.run)(row))).unwrap_or_else(|_| amiss("the case panics")),
            _ => amiss(&format!("{} cases run this row", found.len())),
        };
        println!("  {}: {}", row[0], ran.line);
        ran.faults.iter().for_each(|fault| println!("    AMISS: {fault}"));
        faults += ran.faults.len();
    }
    for case in cases {
        if table.rows.iter().filter(|row| row[0] == case.row).count() != 1 {
            println!("  {}\n    AMISS: the document has not just one row of this name", case.row);
            faults += 1;
        }
    }
    faults
}

fn amiss(fault: &str) -> Ran {
    Ran { line: String::new(), faults: vec![fault.to_string()] }
}

// What a cell of the document says, held against what was run.
pub fn hold(faults: &mut Vec<String>, what: &str, cell: &str, ran: &str) {
    if cell != ran {
        faults.push(format!("{what}: the document says {cell:?}, and it is {ran:?}"));
    }
}
