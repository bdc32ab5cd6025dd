// The rows that are measured, and the table of their ratios.
use crate::Work;

// The maps of the rows, by their axes.
pub const MAPS: [&[u64]; 4] = [&[4096], &[256, 256], &[64, 64, 64], &[24, 24, 24, 24]];

// Small maps, for instruction counts.
pub const SMALL: [&[u64]; 4] = [&[64], &[16, 16], &[8, 8, 8], &[6, 6, 6, 6]];

// What one side and the other took, in the same unit.
#[derive(Clone, Copy)]
pub struct Figures {
    pub library: f64,
    pub rust: f64,
}

impl Figures {
    pub fn ratio(self) -> f64 {
        self.library / self.rust
    }
}

pub fn name(dims: &[u64]) -> String {
    dims.iter().map(u64::to_string).collect::<Vec<_>>().join(" by ")
}

// Measures every row, prints it when it is done, and then the ratios in one short table.
pub fn measure(maps: &[&[u64]; 4], unit: &str, digits: usize, mut row: impl FnMut(Work, &[u64], bool) -> Figures) {
    println!("| | map | grid | library, {unit} | Rust, {unit} | ratio |");
    println!("|---|---|---|---|---|---|");
    let mut ratios = Vec::new();
    for work in Work::ALL {
        for (rectilinear, grid) in [(false, "regular"), (true, "rectilinear")] {
            for dims in maps {
                let figures = row(work, dims, rectilinear);
                let (library, rust, ratio) = (figures.library, figures.rust, figures.ratio());
                let (work, map) = (work.name(), name(dims));
                println!("| {work} | {map} | {grid} | {library:.digits$} | {rust:.digits$} | {ratio:.2} |");
                ratios.push(format!("{ratio:.2}"));
            }
        }
    }
    println!();
    println!("| library / Rust, by 1 / 2 / 3 / 4 axes | regular | rectilinear |");
    println!("|---|---|---|");
    for (work, ratios) in Work::ALL.iter().zip(ratios.chunks(8)) {
        println!("| {} | {} | {} |", work.name(), ratios[..4].join(" / "), ratios[4..].join(" / "));
    }
}
