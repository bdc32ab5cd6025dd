// The two tables of the document: their rows, cell by cell.

const TEXT: &str = include_str!("../../../docs/DIFFERENCES.md");

pub struct Table {
    pub title: String,
    pub rows: Vec<Vec<String>>,
}

pub fn tables() -> [Table; 2] {
    let mut sections = TEXT.split("\n## ").skip(1);
    let tables = [sections.next(), sections.next()].map(|text| table(text.expect("the document has two tables")));
    assert!(sections.next().is_none(), "the document has more than two tables");
    tables
}

// A section: its title, and the rows of its table but for the heads and the line below them.
fn table(section: &str) -> Table {
    let mut rows: Vec<Vec<String>> = section.lines().filter(|line| line.starts_with('|')).map(cells).collect();
    let width = rows[0].len();
    assert!(rows.iter().all(|row| row.len() == width), "a row has another number of cells than the heads");
    rows.drain(..2);
    Table { title: section.lines().next().unwrap_or_default().to_string(), rows }
}

fn cells(line: &str) -> Vec<String> {
    let inside = line.trim().trim_start_matches('|').trim_end_matches('|');
    inside.split('|').map(|cell| cell.trim().to_string()).collect()
}
